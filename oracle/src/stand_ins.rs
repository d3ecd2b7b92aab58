//! Stand-ins for the small parts of the crate that its planning text names: errors, logging, registers, states, SDO.
//! No stand-in answers an error, so a failure is always the text's own.

/// A sub-index of an SDO object. The text asks single ones alone.
pub enum SubIndex {
    Index(u8),
}

pub mod error {
    use crate::subdevice_state::SubDeviceState;

    #[allow(dead_code)]
    pub enum Error {
        InvalidState { expected: SubDeviceState, actual: SubDeviceState, configured_address: u16 },
        NotFound { item: Item, index: Option<usize> },
    }

    pub enum Item {
        Fmmu,
    }

    pub trait IgnoreNoCategory<T> {
        fn ignore_no_category(self) -> Result<Option<T>, Error>;
    }

    /// A sheet has every category, so none is ever missing.
    impl<T> IgnoreNoCategory<T> for Result<T, Error> {
        fn ignore_no_category(self) -> Result<Option<T>, Error> {
            self.map(Some)
        }
    }
}

/// Logging, dropped with its arguments, as where no log is wanted.
pub mod fmt {
    macro_rules! dropped {
        ($($word:tt)*) => {{}};
    }
    pub(crate) use {dropped as debug, dropped as error, dropped as trace, dropped as warn};
}

pub mod mailbox {
    pub mod coe {
        /// What an SDO read answers in one go: at most four bytes.
        pub trait SdoExpeditedPayload: crate::wire::FromWire {}
        impl SdoExpeditedPayload for u8 {}
        impl SdoExpeditedPayload for u16 {}
    }
}

pub mod subdevice_state {
    /// A device is always where a pass expects it: state requests are left to the controller.
    #[derive(PartialEq)]
    pub enum SubDeviceState {
        PreOp,
    }
}

pub mod register {
    /// An entry of one of the two areas.
    pub enum RegisterAddress {
        Fmmu(u8),
        SyncManager(u8),
    }

    impl RegisterAddress {
        pub fn fmmu(number: u8) -> Self {
            Self::Fmmu(number)
        }

        pub fn sync_manager(number: u8) -> Self {
            Self::SyncManager(number)
        }
    }

    /// A device's registers.
    #[derive(Clone, PartialEq)]
    pub struct Areas {
        pub fmmus: [u8; 256],
        pub channels: [u8; 128],
    }

    impl Areas {
        pub fn new() -> Self {
            Self { fmmus: [0; 256], channels: [0; 128] }
        }

        fn image(&mut self, address: &RegisterAddress) -> &mut [u8] {
            match *address {
                RegisterAddress::Fmmu(number) => &mut self.fmmus[usize::from(number) * 16..][..16],
                RegisterAddress::SyncManager(number) => &mut self.channels[usize::from(number) * 8..][..8],
            }
        }

        pub fn read(&mut self, address: &RegisterAddress) -> u128 {
            let mut bytes = [0; 16];
            let image = self.image(address);
            bytes[..image.len()].copy_from_slice(image);
            u128::from_le_bytes(bytes)
        }

        pub fn write(&mut self, address: &RegisterAddress, number: u128) {
            let image = self.image(address);
            image.copy_from_slice(&number.to_le_bytes()[..image.len()]);
        }
    }
}
