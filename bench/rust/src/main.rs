//! Plans one sheet again and again with the text of ethercrab 0.7.1, compiled unchanged from the folder that
//! TUGMERANT_CRATE_TEXT names, so that bench/count can count what a plan costs. Most stand-ins are the oracle's; those
//! that would cost more than they stand in for are here, and answer in constant time. README.md says the input's form.

use std::cell::RefCell;
use std::hint::black_box;
use std::io::{self, Read};
use std::pin::pin;
use std::process::ExitCode;
use std::task::{Context, Poll, Waker};

mod eeprom;
mod sheet;

// the oracle's stand-ins
#[path = "../../../oracle/src/stand_ins.rs"]
mod stand_ins;
#[path = "../../../oracle/src/subdevice.rs"]
mod subdevice;
#[path = "../../../oracle/src/wire.rs"]
mod wire;
use stand_ins::{SubIndex, error, fmt, mailbox, register, subdevice_state};

// the text; subdevice.rs has the rest of it
#[allow(unused)]
mod pdi {
    include!(concat!(env!("TUGMERANT_CRATE_TEXT"), "/src/pdi.rs.txt"));
}
#[allow(unused)]
mod fmmu {
    include!(concat!(env!("TUGMERANT_CRATE_TEXT"), "/src/fmmu.rs.txt"));
}
#[allow(unused)]
mod sync_manager_channel {
    include!(concat!(env!("TUGMERANT_CRATE_TEXT"), "/src/sync_manager_channel.rs.txt"));
}

use error::Error;
use pdi::PdiOffset;
use register::Areas;
use sheet::Sheet;
use subdevice::configuration::PdoDirection;
use subdevice::types::{Mailbox, SubDeviceConfig};
use subdevice::{MainDevice, SubDevice, SubDeviceRef};

/// What is planned, and where.
struct Bench {
    bytes: &'static [u8],
    sheet: Sheet,
    device: SubDevice,
    areas: RefCell<Areas>,
}

/// Every stand-in answers at once, so one poll ends a pass.
fn settled<T>(pass: impl Future<Output = Result<T, Error>>) -> Option<T> {
    match pin!(pass).poll(&mut Context::from_waker(Waker::noop())) {
        Poll::Ready(answer) => answer.ok(),
        Poll::Pending => unreachable!("a stand-in waited"),
    }
}

/// What ended a plan: the number by which the sheet is refused, or an error of the text's, which has no number.
enum Ended {
    Refused(u8),
    Fails,
}

impl Bench {
    /// One plan over areas of zeros; the last one is said.
    fn plan(&mut self, last: bool) -> Result<(), Ended> {
        *self.areas.borrow_mut() = Areas::new();
        self.device.config = SubDeviceConfig::default();
        self.sheet.read(self.bytes).map_err(Ended::Refused)?;
        let maindevice = MainDevice { sheet: &self.sheet, areas: &self.areas };
        let mut handle = SubDeviceRef { maindevice: &maindevice, configured_address: 0, state: &mut self.device };
        settled(handle.configure_mailboxes()).ok_or(Ended::Fails)?;
        if last {
            say_mailboxes(&handle.state.config, &self.areas.borrow());
        }
        let mut offset = PdiOffset { start_address: 0 };
        let mut middle = offset;
        for direction in [PdoDirection::MasterRead, PdoDirection::MasterWrite] {
            middle = offset;
            offset = settled(handle.configure_fmmus(offset, 0, direction)).ok_or(Ended::Fails)?;
        }
        if last {
            say_call(&handle.state.config, [middle, offset], &self.areas.borrow());
        }
        Ok(())
    }
}

fn hex(bytes: &[u8]) -> String {
    bytes.iter().map(|byte| format!("{byte:02x}")).collect()
}

fn mailbox_text(mailbox: Option<Mailbox>) -> String {
    mailbox.map_or("none".to_string(), |box_| format!("{}/{}/{}", box_.address, box_.len, box_.sync_manager))
}

fn say_mailboxes(config: &SubDeviceConfig, areas: &Areas) {
    let [coe, complete_access] = [config.mailbox.has_coe, config.mailbox.complete_access].map(u8::from);
    let [read, write] = [config.mailbox.read, config.mailbox.write].map(mailbox_text);
    println!("ok {read} {write} {coe} {complete_access} {}", hex(&areas.channels));
}

/// Both passes, as one call says them.
fn say_call(config: &SubDeviceConfig, next: [PdiOffset; 2], areas: &Areas) {
    let [input, output] =
        [&config.io.input, &config.io.output].map(|segment| format!("{} {}", segment.bytes.start, segment.bytes.end));
    let [after_input, after_output] = next.map(|offset| offset.start_address);
    println!("ok {input} {output} {after_input} {after_output} {} {}", hex(&areas.fmmus), hex(&areas.channels));
}

/// What README.md says of the input.
struct Input {
    times: u32,
    table: Vec<(u16, u8)>,
    sheet: &'static [u8],
}

fn read_input(input: &'static [u8]) -> Option<Input> {
    let (times, rest) = input.split_first_chunk()?;
    let (records, rest) = rest.split_first_chunk()?;
    let records = usize::from(u16::from_be_bytes(*records));
    let (table, sheet) = rest.split_at_checked(3 * records)?;
    let table = table.chunks(3).map(|record| (u16::from_be_bytes([record[0], record[1]]), record[2])).collect();
    (records <= 256).then_some(Input { times: u32::from_be_bytes(*times), table, sheet })
}

fn main() -> ExitCode {
    let mut input = Vec::new();
    let read = io::stdin().read_to_end(&mut input);
    let Some(Input { times, table, sheet: bytes }) = read.ok().and_then(|_| read_input(input.leak())) else {
        eprintln!("bench: the input is cut short, or its table is too long");
        return ExitCode::from(2);
    };
    let device = SubDevice { oversampling_config: table, ..SubDevice::default() };
    let mut bench = Bench { bytes, sheet: Sheet::default(), device, areas: RefCell::new(Areas::new()) };
    for turn in 1..=times {
        // each plan is made anew: the compiler may keep nothing of the one before
        let ended = black_box(&mut bench).plan(turn == times);
        if turn == times {
            match ended {
                Ok(()) => {}
                Err(Ended::Refused(number)) => println!("refused {number} {}", hex(&bench.areas.borrow().channels)),
                Err(Ended::Fails) => println!("fails"),
            }
        }
    }
    ExitCode::SUCCESS
}
