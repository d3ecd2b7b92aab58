//! The types of the crate's EEPROM reads, as far as its planning text names them.

use crate::sync_manager_channel::Control;

/// A byte of flags. The text asks three kinds, each for one flag.
#[derive(Debug, Default, Clone, Copy, PartialEq)]
pub struct Flags(pub u8);

impl Flags {
    pub const ENABLE: Self = Self(1);
    pub const COE: Self = Self(2);
    pub const ENABLE_COMPLETE_ACCESS: Self = Self(4);

    pub fn contains(self, other: Self) -> bool {
        self.0 & other.0 == other.0
    }
}

pub type SyncManagerEnable = Flags;
pub type MailboxProtocols = Flags;
pub type CoeDetails = Flags;

pub enum SiiOwner {
    Master,
    Pdi,
}

#[derive(Default)]
pub struct DefaultMailbox {
    pub has_mailbox: bool,
    pub subdevice_receive_size: u16,
    pub subdevice_send_size: u16,
    pub supported_protocols: MailboxProtocols,
}

impl DefaultMailbox {
    pub fn has_mailbox(&self) -> bool {
        self.has_mailbox
    }
}

#[derive(Default)]
pub struct SiiGeneral {
    pub coe_details: CoeDetails,
}

#[derive(Clone, Copy, PartialEq)]
pub enum SyncManagerType {
    Other,
    MailboxWrite,
    MailboxRead,
    ProcessDataWrite,
    ProcessDataRead,
}

pub struct SyncManager {
    pub start_addr: u16,
    pub control: Control,
    pub enable: SyncManagerEnable,
    pub usage: SyncManagerType,
}

impl SyncManager {
    pub fn usage_type(&self) -> SyncManagerType {
        self.usage
    }
}

#[derive(Clone, Copy, PartialEq)]
pub enum FmmuUsage {
    Unused,
    Outputs,
    Inputs,
    Status,
}

pub struct Pdo {
    pub index: u16,
    pub sync_manager: u8,
    pub bit_len: u16,
}

pub struct FmmuEx {
    pub sync_manager: u8,
}
