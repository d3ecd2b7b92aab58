//! A stand-in for the crate's EEPROM reads: each is answered from the device sheet.

use crate::error::Error;
use crate::sheet::{EEPROM_READ, EEPROM_WRITE, Sheet};
use types::*;

pub mod types;

pub struct Eeprom<'a> {
    pub sheet: &'a Sheet,
}

impl Eeprom<'_> {
    pub async fn sync_managers(&self) -> Result<Vec<SyncManager>, Error> {
        use SyncManagerType::*;
        let answer = |manager: &crate::sheet::Manager| SyncManager {
            start_addr: manager.start,
            control: crate::wire::FromWire::from_wire(manager.control.into()).expect("a valid sheet names modes and directions"),
            enable: Flags(manager.enable),
            usage: [Other, MailboxWrite, MailboxRead, ProcessDataWrite, ProcessDataRead][usize::from(manager.usage)],
        };
        Ok(self.sheet.managers.iter().map(answer).collect())
    }

    pub async fn fmmus(&self) -> Result<Vec<FmmuUsage>, Error> {
        use FmmuUsage::*;
        Ok(self.sheet.usages.iter().map(|usage| [Unused, Outputs, Inputs, Status][usize::from(*usage)]).collect())
    }

    pub async fn mailbox_config(&self) -> Result<DefaultMailbox, Error> {
        Ok(DefaultMailbox {
            has_mailbox: self.sheet.flags & 1 == 1,
            subdevice_receive_size: self.sheet.receive,
            subdevice_send_size: self.sheet.send,
            supported_protocols: Flags(self.sheet.flags & 2),
        })
    }

    pub async fn general(&self) -> Result<SiiGeneral, Error> {
        Ok(SiiGeneral { coe_details: Flags(self.sheet.flags & 4) })
    }

    pub async fn maindevice_read_pdos(&self) -> Result<Vec<Pdo>, Error> {
        Ok(self.pdos(EEPROM_READ))
    }

    pub async fn maindevice_write_pdos(&self) -> Result<Vec<Pdo>, Error> {
        Ok(self.pdos(EEPROM_WRITE))
    }

    fn pdos(&self, kind: u8) -> Vec<Pdo> {
        let wanted = self.sheet.pdos.iter().filter(|pdo| pdo.kind == kind);
        wanted
            .map(|pdo| Pdo {
                index: pdo.index,
                sync_manager: pdo.manager,
                bit_len: u16::from_be_bytes([pdo.lengths[0], pdo.lengths[1]]),
            })
            .collect()
    }

    /// A sheet has no FMMU_EX. Every second number is answered, so that both arms of the text's search are run.
    pub async fn fmmu_mappings(&self) -> Result<Vec<FmmuEx>, Error> {
        Ok((0..16).step_by(2).map(|sync_manager| FmmuEx { sync_manager }).collect())
    }
}
