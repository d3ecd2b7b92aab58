//! Answers a request as the probe would, with `fails` where the text fails. What the text has no counterpart of is
//! answered so, and never generated. The call `p` is the text's two passes (`call.rs`); 15 has no counterpart, and the default is
//! generated where it can't be answered.

use crate::call::{Call, Outcome};
use crate::fmmu::Fmmu;
use crate::pdi::{PdiOffset, PdiSegment};
use crate::register::Areas;
use crate::request::{AFTER_INPUTS, KEEPING, Request};
use crate::run::{caught, mailbox_pass};
use crate::sheet::Sheet;
use crate::subdevice::types::Mailbox;
use crate::sync_manager_channel::{BufferState, Control, Direction, Enable, OperationMode, Status, SyncManagerChannel};
use std::cell::RefCell;
use std::fmt::Display;
use std::io::{self, Write};

const FAILS: &str = "fails";
const NONE: &str = "no counterpart";

/// Writes the answer's lines: one, or one for each value of c whose answer isn't that of the value before.
pub fn write(request: &Request, to: &mut impl Write) -> io::Result<()> {
    if request.times <= 1 {
        return writeln!(to, "{}", one(request));
    }
    let mut asked = request.clone();
    let mut before = String::new();
    for c in (request.c..=u32::MAX).take(request.times as usize) {
        asked.c = c;
        let answer = one(&asked);
        if answer != before {
            writeln!(to, "{c}: {answer}")?;
        }
        before = answer;
    }
    Ok(())
}

/// The answer for one value of c.
pub fn one(request: &Request) -> String {
    let answer = match request.letter {
        b'i' => increment(request),
        b'b' => increment_byte_aligned(request),
        b'u' => up_to(request),
        b's' => text(request.room, segment(request)),
        b'f' => fmmu(&request.fmmus).map_or(no_counterpart(), |record| text(request.room, record)),
        b'y' => channel(&request.channels).map_or(no_counterpart(), |record| text(request.room, record)),
        b'm' => mailboxes(request),
        b'p' => call(request),
        _ => no_counterpart(),
    };
    answer.unwrap_or(FAILS.to_string())
}

fn no_counterpart() -> Option<String> {
    Some(NONE.to_string())
}

fn increment(request: &Request) -> Option<String> {
    let offset = PdiOffset { start_address: request.a };
    let next = caught(|| offset.increment(request.c as u16))?;
    Some(next.start_address.to_string())
}

fn increment_byte_aligned(request: &Request) -> Option<String> {
    let offset = PdiOffset { start_address: request.a };
    let Ok(bits) = u16::try_from(u64::from(request.b) << 32 | u64::from(request.c)) else { return no_counterpart() };
    let next = caught(|| offset.increment_byte_aligned(bits))?;
    Some(next.start_address.to_string())
}

fn up_to(request: &Request) -> Option<String> {
    let [start, end] = [request.a, request.c].map(|start_address| PdiOffset { start_address });
    let segment = PdiSegment { bytes: start.up_to(end) };
    Some(format!("{} {} {}", segment.bytes.start, segment.bytes.end, segment.len()))
}

fn segment(request: &Request) -> PdiSegment {
    PdiSegment { bytes: request.a as usize..request.b as usize }
}

/// A record's text in the room lent, the rest of which stays.
fn text(room: u16, record: impl Display) -> Option<String> {
    let text = record.to_string();
    let room = usize::from(room);
    if text.len() > room {
        return no_counterpart();
    }
    Some(format!("{} |{text:~<room$}|", text.len()))
}

fn fmmu(record: &[u8]) -> Option<Fmmu> {
    let &[l0, l1, l2, l3, s0, s1, logical_start_bit, logical_end_bit, p0, p1, physical_start_bit, read, write, enable] = record
    else {
        return None;
    };
    Some(Fmmu {
        logical_start_address: u32::from_be_bytes([l0, l1, l2, l3]),
        length_bytes: u16::from_be_bytes([s0, s1]),
        logical_start_bit,
        logical_end_bit,
        physical_start_address: u16::from_be_bytes([p0, p1]),
        physical_start_bit,
        read_enable: read != 0,
        write_enable: write != 0,
        enable: enable != 0,
    })
}

fn channel(record: &[u8]) -> Option<SyncManagerChannel> {
    let &[p0, p1, s0, s1, mode, direction, ref flags @ ..] = record else { return None };
    let &[ecat, dls, watchdog, write_event, read_event, full, buffer, read_open, write_open, ref flags @ ..] = flags else {
        return None;
    };
    let &[enable, repeat, bus, local, pdi_disabled, repeat_ack] = flags else { return None };
    Some(SyncManagerChannel {
        physical_start_address: u16::from_be_bytes([p0, p1]),
        length_bytes: u16::from_be_bytes([s0, s1]),
        control: Control {
            operation_mode: if mode == 0 { OperationMode::Normal } else { OperationMode::Mailbox },
            direction: if direction == 0 { Direction::MasterRead } else { Direction::MasterWrite },
            ecat_event_enable: ecat != 0,
            dls_user_event_enable: dls != 0,
            watchdog_enable: watchdog != 0,
        },
        status: Status {
            has_write_event: write_event != 0,
            has_read_event: read_event != 0,
            mailbox_full: full != 0,
            buffer_state: [BufferState::First, BufferState::Second, BufferState::Third, BufferState::Next]
                [usize::from(buffer % 4)],
            read_buffer_open: read_open != 0,
            write_buffer_open: write_open != 0,
        },
        enable: Enable {
            enable: enable != 0,
            repeat: repeat != 0,
            enable_dc_event_bus_write: bus != 0,
            enable_dc_event_local_write: local != 0,
            channel_pdi_disabled: pdi_disabled != 0,
            repeat_ack: repeat_ack != 0,
        },
    })
}

fn hex(bytes: &[u8]) -> String {
    bytes.iter().map(|byte| format!("{byte:02x}")).collect()
}

fn mailbox(mailbox: Option<Mailbox>) -> String {
    mailbox.map_or("none".to_string(), |box_| format!("{}/{}/{}", box_.address, box_.len, box_.sync_manager))
}

fn mailboxes(request: &Request) -> Option<String> {
    let Some(sheet) = Sheet::read(&request.sheet).filter(Sheet::in_domain) else { return no_counterpart() };
    let Ok(channels) = request.channels.as_slice().try_into() else { return no_counterpart() };
    let areas = RefCell::new(Areas { channels, ..Areas::new() });
    let config = mailbox_pass(&sheet, &areas)?;
    let [coe, complete_access] = [config.has_coe, config.complete_access].map(u8::from);
    let [read, write] = [config.read, config.write].map(mailbox);
    Some(format!("ok {read} {write} {coe} {complete_access} {}", hex(&areas.borrow().channels)))
}

/// What the call that is asked for comes to; nothing where the text has no counterpart of it.
pub fn outcome(request: &Request) -> Option<Outcome> {
    let sheet = Sheet::read(&request.sheet).filter(Sheet::in_domain)?;
    let (fmmus, channels) = (request.fmmus.as_slice().try_into().ok()?, request.channels.as_slice().try_into().ok()?);
    if request.how & !(AFTER_INPUTS | KEEPING) != 0 || request.room != 0 {
        return None;
    }
    let call = Call {
        sheet: &sheet,
        table: &request.table,
        inputs: request.a,
        outputs: request.c,
        group: request.b,
        after_inputs: request.how & AFTER_INPUTS != 0,
        keeping: request.how & KEEPING != 0,
    };
    Some(call.made(&Areas { fmmus, channels }))
}

/// The line of a call.
pub fn said(outcome: &Outcome) -> String {
    let made = match outcome {
        Outcome::Made(made) => made,
        Outcome::Fails { .. } => return FAILS.to_string(),
        Outcome::OrdersDiffer => return "the orders differ".to_string(),
    };
    let [inputs, outputs] = [&made.inputs, &made.outputs].map(|planned| planned.segment.bytes.clone());
    let next = format!("{} {}", made.inputs.next, made.outputs.next);
    let areas = format!("{} {}", hex(&made.areas.fmmus), hex(&made.areas.channels));
    format!("ok {} {} {} {} {next} {areas}", inputs.start, inputs.end, outputs.start, outputs.end)
}

fn call(request: &Request) -> Option<String> {
    outcome(request).map_or(no_counterpart(), |outcome| Some(said(&outcome)))
}
