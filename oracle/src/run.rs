//! Runs the text's passes. A pass fails where the text answers an error or panics; the areas stand outside of what is
//! caught, so that what it had written by then can be seen.

use crate::error::Error;
use crate::pdi::{PdiOffset, PdiSegment};
use crate::register::Areas;
use crate::sheet::Sheet;
use crate::subdevice::configuration::PdoDirection;
use crate::subdevice::types::MailboxConfig;
use crate::subdevice::{MainDevice, SubDevice, SubDeviceRef};
use std::cell::RefCell;
use std::panic::{AssertUnwindSafe, catch_unwind, set_hook};
use std::pin::pin;
use std::process::exit;
use std::task::{Context, Poll, Waker};

/// Makes panics of the text silent. A panic anywhere else is a fault of the oracle's and ends it: it must never pass as a
/// failure of the text. (`sum` of the standard library adds on the text's behalf.)
pub fn hush() {
    set_hook(Box::new(|panic| {
        let place = panic.location().map_or("", |location| location.file());
        if !place.starts_with(env!("TUGMERANT_CRATE_TEXT")) && !place.ends_with("/iter/traits/accum.rs") {
            eprintln!("oracle: {panic}");
            exit(3);
        }
    }));
}

/// What the action answers, or nothing where the text panics in it.
pub fn caught<T>(action: impl FnOnce() -> T) -> Option<T> {
    catch_unwind(AssertUnwindSafe(action)).ok()
}

/// Every stand-in answers at once, so one poll ends a pass.
fn settled<T>(pass: impl Future<Output = Result<T, Error>>) -> Option<T> {
    let polled = caught(|| pin!(pass).poll(&mut Context::from_waker(Waker::noop())))?;
    match polled {
        Poll::Ready(answer) => answer.ok(),
        Poll::Pending => unreachable!("a stand-in waited"),
    }
}

pub fn mailbox_pass(sheet: &Sheet, areas: &RefCell<Areas>) -> Option<MailboxConfig> {
    let mut device = SubDevice::default();
    let mut handle = SubDeviceRef { maindevice: &MainDevice { sheet, areas }, configured_address: 0, state: &mut device };
    settled(handle.configure_mailboxes())?;
    Some(device.config.mailbox)
}

/// Where a data pass is made, and with which table.
pub struct Turn<'a> {
    pub table: &'a [(u16, u8)],
    pub direction: PdoDirection,
    pub offset: u32,
    pub group: u32,
}

/// The segment less the group start, and the next offset. Whether the device has CoE is what the text's own mailbox pass
/// records, made here over areas of its own: a data pass may come first.
pub fn data_pass(sheet: &Sheet, turn: &Turn, areas: &RefCell<Areas>) -> Option<(PdiSegment, PdiOffset)> {
    let mut device = SubDevice { oversampling_config: turn.table.to_vec(), ..SubDevice::default() };
    device.config.mailbox = mailbox_pass(sheet, &RefCell::new(Areas::new()))?;
    let mut handle = SubDeviceRef { maindevice: &MainDevice { sheet, areas }, configured_address: 0, state: &mut device };
    let offset = PdiOffset { start_address: turn.offset };
    let next = settled(handle.configure_fmmus(offset, turn.group, turn.direction))?;
    let io = device.config.io;
    let segment = match turn.direction {
        PdoDirection::MasterRead => io.input,
        PdoDirection::MasterWrite => io.output,
    };
    Some((segment, next))
}
