//! A stand-in for the crate's handle on a device: reads answered from the sheet, registers in two areas. Below it, as in
//! the crate, stand two files of the text.

use crate::SubIndex;
use crate::eeprom::{Eeprom, types::SiiOwner};
use crate::error::Error;
use crate::mailbox::coe::SdoExpeditedPayload;
use crate::register::{Areas, RegisterAddress};
use crate::sheet::Sheet;
use crate::subdevice_state::SubDeviceState;
use crate::wire::{FromWire, ToWire};
use std::cell::RefCell;
use std::ops::Deref;

#[allow(unused)]
pub mod types {
    include!(concat!(env!("TUGMERANT_CRATE_TEXT"), "/src/subdevice/types.rs.txt"));
}
#[allow(unused)]
pub mod configuration {
    include!(concat!(env!("TUGMERANT_CRATE_TEXT"), "/src/subdevice/configuration.rs.txt"));
}

#[derive(Default)]
pub struct SubDevice {
    pub config: types::SubDeviceConfig,
    pub oversampling_config: Vec<(u16, u8)>,
}

/// The network, with one device on it.
pub struct MainDevice<'a> {
    pub sheet: &'a Sheet,
    pub areas: &'a RefCell<Areas>,
}

pub struct SubDeviceRef<'a, S> {
    pub maindevice: &'a MainDevice<'a>,
    pub configured_address: u16,
    pub state: S,
}

impl<S: Deref<Target = SubDevice>> Deref for SubDeviceRef<'_, S> {
    type Target = SubDevice;

    fn deref(&self) -> &SubDevice {
        &self.state
    }
}

impl<'a, S> SubDeviceRef<'a, S> {
    fn eeprom(&self) -> Eeprom<'a> {
        Eeprom { sheet: self.maindevice.sheet }
    }

    async fn set_eeprom_mode(&self, _owner: SiiOwner) -> Result<(), Error> {
        Ok(())
    }

    async fn request_subdevice_state(&self, _state: SubDeviceState) -> Result<(), Error> {
        Ok(())
    }

    async fn state(&self) -> Result<SubDeviceState, Error> {
        Ok(SubDeviceState::PreOp)
    }

    fn read(&self, address: RegisterAddress) -> Command {
        Command { address }
    }

    fn write(&self, address: RegisterAddress) -> Command {
        Command { address }
    }

    async fn sdo_read_expedited<T: SdoExpeditedPayload>(&self, object: u16, at: SubIndex) -> Result<T, Error> {
        let SubIndex::Index(at) = at;
        let number = self.maindevice.sheet.object(object, at);
        Ok(T::from_wire(number.into()).expect("every number is named"))
    }
}

/// A register that is to be read or written.
struct Command {
    address: RegisterAddress,
}

impl Command {
    async fn receive<T: FromWire>(self, maindevice: &MainDevice<'_>) -> Result<T, Error> {
        let number = maindevice.areas.borrow_mut().read(&self.address);
        Ok(T::from_wire(number).expect("an FMMU has no unnamed fields"))
    }

    async fn send(self, maindevice: &MainDevice<'_>, value: &impl ToWire) -> Result<(), Error> {
        maindevice.areas.borrow_mut().write(&self.address, value.to_wire());
        Ok(())
    }
}
