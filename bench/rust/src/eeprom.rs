//! EEPROM reads, answered by what stands ready in the sheet.

use crate::error::Error;
use crate::sheet::Sheet;
use types::*;

#[path = "../../../oracle/src/eeprom/types.rs"]
pub mod types;

pub struct Eeprom<'a> {
    pub sheet: &'a Sheet,
}

impl<'a> Eeprom<'a> {
    pub async fn sync_managers(&self) -> Result<&'a [SyncManager], Error> {
        Ok(&self.sheet.managers)
    }

    pub async fn fmmus(&self) -> Result<&'a [FmmuUsage], Error> {
        Ok(&self.sheet.usages)
    }

    pub async fn mailbox_config(&self) -> Result<DefaultMailbox, Error> {
        Ok(DefaultMailbox {
            has_mailbox: self.sheet.flags & 1 == 1,
            subdevice_receive_size: self.sheet.receive,
            subdevice_send_size: self.sheet.send,
            supported_protocols: Flags(self.sheet.flags & 2),
        })
    }

    pub async fn general(&self) -> Result<SiiGeneral, Error> {
        Ok(SiiGeneral { coe_details: Flags(self.sheet.flags & 4) })
    }

    pub async fn maindevice_read_pdos(&self) -> Result<&'a [Pdo], Error> {
        Ok(&self.sheet.reads)
    }

    pub async fn maindevice_write_pdos(&self) -> Result<&'a [Pdo], Error> {
        Ok(&self.sheet.writes)
    }

    /// A sheet has no FMMU_EX.
    pub async fn fmmu_mappings(&self) -> Result<&'a [FmmuEx], Error> {
        Ok(&[])
    }
}
