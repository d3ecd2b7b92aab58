//! The device sheet of document 01, read into what the text's reads answer, so that each of them is answered in constant
//! time. Its lists keep their room from one plan to the next.

use crate::eeprom::types::{Flags, FmmuUsage, Pdo, SyncManager, SyncManagerType};
use crate::wire::FromWire;

const USAGES: [SyncManagerType; 5] = {
    use SyncManagerType::*;
    [Other, MailboxWrite, MailboxRead, ProcessDataWrite, ProcessDataRead]
};
const FMMU_USAGES: [FmmuUsage; 4] = {
    use FmmuUsage::*;
    [Unused, Outputs, Inputs, Status]
};

pub struct Sheet {
    pub flags: u8,
    pub receive: u16,
    pub send: u16,
    pub managers: Vec<SyncManager>,
    pub usages: Vec<FmmuUsage>,
    /// The EEPROM PDOs of each direction.
    pub reads: Vec<Pdo>,
    pub writes: Vec<Pdo>,
    /// The CoE PDOs that name each sync manager.
    lists: [Vec<u16>; 16],
    /// The bit lengths that CoE PDOs map.
    mappings: Vec<&'static [u8]>,
    /// Where in `mappings` a CoE PDO stands, by its index. Only indexes that the sheet has are looked up.
    places: Vec<u8>,
}

impl Default for Sheet {
    fn default() -> Self {
        Self {
            flags: 0,
            receive: 0,
            send: 0,
            managers: Vec::new(),
            usages: Vec::new(),
            reads: Vec::new(),
            writes: Vec::new(),
            lists: Default::default(),
            mappings: Vec::new(),
            places: vec![0; 65_536],
        }
    }
}

/// Bytes that are taken from the front.
struct Front(&'static [u8]);

impl Front {
    fn take(&mut self, count: usize) -> Option<&'static [u8]> {
        let (taken, rest) = self.0.split_at_checked(count)?;
        self.0 = rest;
        Some(taken)
    }

    fn chunk<const N: usize>(&mut self) -> Option<[u8; N]> {
        let (taken, rest) = self.0.split_first_chunk()?;
        self.0 = rest;
        Some(*taken)
    }
}

impl Sheet {
    /// Reads a sheet in place of the one before, or answers document 01's number, 2 to 5.
    pub fn read(&mut self, bytes: &'static [u8]) -> Result<(), u8> {
        let mut front = Front(bytes);
        let length = usize::from(u16::from_be_bytes(front.chunk().ok_or(2)?));
        if bytes.len() != length + 2 || !(9..=16_384).contains(&length) {
            return Err(2);
        }
        let [version, flags, r0, r1, s0, s1, n, f, p] = front.chunk().ok_or(2)?;
        if version != 1 {
            return Err(3);
        }
        if flags > 7 || n > 16 || f > 16 {
            return Err(4);
        }
        self.flags = flags;
        self.receive = u16::from_be_bytes([r0, r1]);
        self.send = u16::from_be_bytes([s0, s1]);
        let named = self.read_managers(&mut front, n).ok_or(4)?;
        self.read_usages(&mut front, f).ok_or(4)?;
        self.read_pdos(&mut front, p).ok_or(4)?;
        if !front.0.is_empty() {
            return Err(4);
        }
        if named { Ok(()) } else { Err(5) }
    }

    /// Whether every mode and direction has a name; nothing where a rule is broken.
    fn read_managers(&mut self, front: &mut Front, n: u8) -> Option<bool> {
        let mut named = true;
        self.managers.clear();
        for _ in 0..n {
            let [a0, a1, control, enable, usage] = front.chunk()?;
            let usage = *USAGES.get(usize::from(usage))?;
            let start_addr = u16::from_be_bytes([a0, a1]);
            match FromWire::from_wire(control.into()) {
                Some(control) => self.managers.push(SyncManager { start_addr, control, enable: Flags(enable), usage }),
                None => named = false,
            }
        }
        Some(named)
    }

    fn read_usages(&mut self, front: &mut Front, f: u8) -> Option<()> {
        self.usages.clear();
        for usage in front.take(f.into())? {
            self.usages.push(*FMMU_USAGES.get(usize::from(*usage))?);
        }
        Some(())
    }

    fn read_pdos(&mut self, front: &mut Front, p: u8) -> Option<()> {
        self.reads.clear();
        self.writes.clear();
        self.lists.iter_mut().for_each(Vec::clear);
        self.mappings.clear();
        for _ in 0..p {
            let [kind, sync_manager, i0, i1, m] = front.chunk()?;
            let index = u16::from_be_bytes([i0, i1]);
            let lengths = front.take(m.into())?;
            if kind == 0 {
                if let Some(list) = self.lists.get_mut(usize::from(sync_manager)) {
                    list.push(index);
                }
                self.places[usize::from(index)] = self.mappings.len() as u8;
                self.mappings.push(lengths);
                continue;
            }
            let pdos = if kind == 1 { &mut self.reads } else { &mut self.writes };
            let bit_len = u16::from_be_bytes(lengths.try_into().ok().filter(|_| kind <= 2)?);
            pdos.push(Pdo { index, sync_manager, bit_len });
        }
        Some(())
    }

    /// What an SDO read answers: the CoE PDOs of a sync manager, or a PDO's mapping; at sub-index 0 how many there are.
    pub fn object(&self, object: u16, at: u8) -> u32 {
        let at = usize::from(at);
        if (0x1c10..0x1c20).contains(&object) {
            let list = &self.lists[usize::from(object) - 0x1c10];
            if at == 0 { list.len() as u32 } else { list[at - 1].into() }
        } else {
            let lengths = self.mappings[usize::from(self.places[usize::from(object)])];
            // as in the oracle: the object that is mapped isn't in the sheet
            if at == 0 { lengths.len() as u32 } else { 0x6000_0100 | u32::from(lengths[at - 1]) }
        }
    }
}
