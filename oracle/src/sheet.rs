//! The device sheet of document 01, read and written.

pub const COE: u8 = 0;
pub const EEPROM_READ: u8 = 1;
pub const EEPROM_WRITE: u8 = 2;

#[derive(Default)]
pub struct Sheet {
    pub flags: u8,
    pub receive: u16,
    pub send: u16,
    pub managers: Vec<Manager>,
    pub usages: Vec<u8>,
    pub pdos: Vec<Pdo>,
}

pub struct Manager {
    pub start: u16,
    pub control: u8,
    pub enable: u8,
    pub usage: u8,
}

/// Kind 0 has a length for each mapping; kinds 1 and 2 have two bytes, one big-endian number of bits.
pub struct Pdo {
    pub kind: u8,
    pub manager: u8,
    pub index: u16,
    pub lengths: Vec<u8>,
}

/// Bytes that are taken from the front.
struct Front<'a>(&'a [u8]);

impl<'a> Front<'a> {
    fn take(&mut self, count: usize) -> Option<&'a [u8]> {
        let (taken, rest) = self.0.split_at_checked(count)?;
        self.0 = rest;
        Some(taken)
    }

    fn byte(&mut self) -> Option<u8> {
        Some(self.take(1)?[0])
    }

    fn pair(&mut self) -> Option<u16> {
        Some(u16::from_be_bytes([self.byte()?, self.byte()?]))
    }
}

impl Sheet {
    /// The sheet, or nothing where document 01 refuses it with 2 to 5.
    pub fn read(bytes: &[u8]) -> Option<Sheet> {
        let mut front = Front(bytes);
        let length = usize::from(front.pair()?);
        if bytes.len() != length + 2 || !(9..=16_384).contains(&length) || front.byte()? != 1 {
            return None;
        }
        let mut sheet = Sheet { flags: front.byte()?, receive: front.pair()?, send: front.pair()?, ..Sheet::default() };
        let (n, f, p) = (front.byte()?, front.byte()?, front.byte()?);
        for _ in 0..n {
            let (start, control) = (front.pair()?, front.byte()?);
            sheet.managers.push(Manager { start, control, enable: front.byte()?, usage: front.byte()? });
        }
        sheet.usages = front.take(f.into())?.to_vec();
        for _ in 0..p {
            let (kind, manager, index, m) = (front.byte()?, front.byte()?, front.pair()?, front.byte()?);
            sheet.pdos.push(Pdo { kind, manager, index, lengths: front.take(m.into())?.to_vec() });
        }
        (front.0.is_empty() && sheet.holds()).then_some(sheet)
    }

    /// The rules on values; those on lengths are the reader's.
    fn holds(&self) -> bool {
        self.flags < 8
            && self.managers.len() <= 16
            && self.usages.len() <= 16
            && self.usages.iter().all(|usage| *usage <= 3)
            && self.managers.iter().all(|m| m.usage <= 4 && m.control & 1 == 0 && m.control >> 3 & 1 == 0)
            && self.pdos.iter().all(|pdo| pdo.kind == COE || (pdo.kind <= EEPROM_WRITE && pdo.lengths.len() == 2))
    }

    /// The path, as document 01 has it: flag bits 0 and 1, and a read mailbox of length above 0.
    pub fn on_coe(&self) -> bool {
        self.flags & 3 == 3 && self.send > 0 && self.managers.iter().any(|manager| manager.usage == 2)
    }

    /// Equality with the Rust is for sheets that answer an SDO read in one way: no CoE index has two mappings or is one
    /// of the lists' own.
    pub fn in_domain(&self) -> bool {
        let coe: Vec<&Pdo> = self.pdos.iter().filter(|pdo| pdo.kind == COE).collect();
        coe.iter().all(|pdo| !(0x1c10..0x1c20).contains(&pdo.index))
            && coe.iter().all(|pdo| coe.iter().all(|other| pdo.index != other.index || pdo.lengths == other.lengths))
    }

    /// What an SDO read answers. Objects 0x1C10 to 0x1C1F list the CoE PDOs that name a sync manager, every other object
    /// is a PDO's mapping: at sub-index 0 how many follow, then each.
    pub fn object(&self, object: u16, at: u8) -> u32 {
        let mut pdos = self.pdos.iter().filter(|pdo| pdo.kind == COE);
        let values: Vec<u32> = if (0x1c10..0x1c20).contains(&object) {
            pdos.filter(|pdo| u16::from(pdo.manager) == object - 0x1c10).map(|pdo| pdo.index.into()).collect()
        } else {
            let pdo = pdos.find(|pdo| pdo.index == object).expect("only what the sheet lists is asked for");
            // the object that is mapped isn't in the sheet; its bits must not be read as a length
            pdo.lengths.iter().map(|bits| 0x6000_0100 | u32::from(*bits)).collect()
        };
        if at == 0 { values.len() as u32 } else { values[usize::from(at) - 1] }
    }

    pub fn bytes(&self) -> Vec<u8> {
        let mut body = vec![1, self.flags];
        body.extend(self.receive.to_be_bytes());
        body.extend(self.send.to_be_bytes());
        body.extend([self.managers.len() as u8, self.usages.len() as u8, self.pdos.len() as u8]);
        for manager in &self.managers {
            body.extend(manager.start.to_be_bytes());
            body.extend([manager.control, manager.enable, manager.usage]);
        }
        body.extend(&self.usages);
        for pdo in &self.pdos {
            body.extend([pdo.kind, pdo.manager]);
            body.extend(pdo.index.to_be_bytes());
            body.push(pdo.lengths.len() as u8);
            body.extend(&pdo.lengths);
        }
        let mut bytes = (body.len() as u16).to_be_bytes().to_vec();
        bytes.extend(body);
        bytes
    }
}
