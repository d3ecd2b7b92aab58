//! Plans: a sheet, a table, areas as they came, where inputs and outputs begin, and in which order the mailbox pass and calls are made. The
//! ranges lean towards what is accepted, with each boundary of document 01 close by.

use crate::chance::Chance;
use crate::register::Areas;
use crate::request::{AFTER_INPUTS, KEEPING};
use crate::sheet::{COE, EEPROM_READ, EEPROM_WRITE, Manager, Pdo, Sheet};

pub struct Plan {
    pub sheet: Sheet,
    pub table: Vec<(u16, u8)>,
    pub areas: Areas,
    pub inputs: u32,
    pub outputs: u32,
    pub group: u32,
    pub steps: Vec<Step>,
}

/// What is made: the mailbox pass, or a call, which is asked for in several ways; with what this one leaves the plan goes on.
#[derive(Clone, Copy)]
pub enum Step {
    Mailboxes,
    Call(u8),
}

const MAILBOX_WRITE: u8 = 1;
const MAILBOX_READ: u8 = 2;
const DATA_WRITE: u8 = 3;
const DATA_READ: u8 = 4;

/// Two PDO indexes that no other PDO has, for bits that are counted out.
const COUNTED: u16 = 0x2000;
const REST: u16 = 0x2001;

/// Which bits the entries of an area carry: 1 the inputs', 2 the outputs'.
const ACCESS: [&[u8]; 5] = [&[1, 2], &[1, 2, 0], &[1, 0], &[2, 0], &[0]];

impl Plan {
    /// A plan within the domain of equality; a sheet outside of it is thrown away.
    pub fn new(chance: &Chance) -> Plan {
        loop {
            let plan = Plan::any(chance);
            let bytes = plan.sheet.bytes();
            if Sheet::read(&bytes).is_some_and(|sheet| sheet.in_domain()) {
                return plan;
            }
        }
    }

    fn any(chance: &Chance) -> Plan {
        let coe = chance.one_in(2);
        let mut sheet = mailboxes(chance, coe);
        sheet.usages = usages(chance);
        sheet.pdos = pdos(chance, coe, &sheet.managers);
        let mut table = table(chance, &sheet.pdos);
        match chance.below(32) {
            0..4 => fill_one(chance, coe, &mut sheet, &mut table),
            4 if coe => fill_nine(chance, &mut sheet, &mut table),
            _ => {}
        }
        let mut areas = Areas::new();
        entries(chance, &mut areas.fmmus);
        if chance.one_in(2) {
            chance.fill(&mut areas.channels);
        }
        let inputs = offset(chance);
        let outputs = chance.pick(&[inputs, inputs.saturating_add(chance.below(5_000)), offset(chance), offset(chance)]);
        let group = group(chance, inputs, outputs);
        Plan { sheet, table, areas, inputs, outputs, group, steps: steps(chance) }
    }
}

fn offset(chance: &Chance) -> u32 {
    match chance.below(8) {
        0 | 1 => 0,
        2 | 3 => chance.below(5_000),
        4 | 5 => chance.quad(),
        _ => u32::MAX - chance.pick(&[chance.below(4), chance.below(60)]),
    }
}

/// A group start: mostly at both offsets or below, else at one of them or beside it.
fn group(chance: &Chance, inputs: u32, outputs: u32) -> u32 {
    let first = inputs.min(outputs);
    let below = (chance.number() % (u64::from(first) + 1)) as u32;
    let one = chance.pick(&[inputs, outputs]);
    let beside = [one.saturating_sub(1), one.saturating_add(1)];
    chance.pick(&[0, 0, 0, below, below, below, below, first, first, one, beside[0], beside[1]])
}

/// The mailbox pass and a call, in either order, sometimes with one made again.
fn steps(chance: &Chance) -> Vec<Step> {
    let call = || Step::Call(chance.pick(&[0, AFTER_INPUTS, KEEPING, KEEPING | AFTER_INPUTS]));
    let mut steps = vec![Step::Mailboxes, call()];
    if chance.one_in(2) {
        steps.swap(0, 1);
    }
    if chance.one_in(2) {
        let again = chance.pick(&[Step::Mailboxes, call(), call(), call()]);
        steps.insert(chance.below(3) as usize, again);
    }
    steps
}

/// The sheet's head and sync managers. Where CoE isn't wanted, one of its four needs is missing.
fn mailboxes(chance: &Chance, coe: bool) -> Sheet {
    let mut sheet = Sheet { flags: 3 | chance.byte() & 4, receive: mailbox_size(chance), ..Sheet::default() };
    sheet.send = if chance.one_in(3) { sheet.receive } else { mailbox_size(chance) };
    let mut kinds = kinds(chance);
    if coe {
        sheet.send = sheet.send.max(1);
        if !kinds.contains(&MAILBOX_READ) {
            kinds.truncate(15);
            kinds.push(MAILBOX_READ);
        }
    } else {
        match chance.below(4) {
            0 => sheet.flags &= !1,
            1 => sheet.flags &= !2,
            2 => sheet.send = 0,
            _ => kinds.retain(|kind| *kind != MAILBOX_READ),
        }
    }
    let mut next = chance.pick(&[0, 0x1000, 0xff00, chance.pair()]);
    for usage in kinds {
        let control = chance.pick(&[0, 2]) | chance.pick(&[0, 4]) | chance.byte() & 0xf0;
        let enable = chance.pick(&[1, 1, 1, 0, chance.byte()]);
        sheet.managers.push(Manager { start: next, control, enable, usage });
        next = if chance.one_in(3) { chance.pair() } else { next.wrapping_add(chance.pick(&[1, 2, 16, 128])) };
    }
    sheet
}

fn mailbox_size(chance: &Chance) -> u16 {
    chance.pick(&[0, 1, 64, 128, 128, 0xffff, chance.pair()])
}

/// The sync managers' usages: as devices have them, or any.
fn kinds(chance: &Chance) -> Vec<u8> {
    if chance.one_in(3) {
        return (0..chance.below(17)).map(|_| chance.pick(&[0, 1, 2, 3, 3, 4, 4])).collect();
    }
    let mut kinds = vec![MAILBOX_WRITE, MAILBOX_READ, DATA_WRITE, DATA_READ];
    kinds.extend((0..chance.below(5)).map(|_| chance.pick(&[DATA_WRITE, DATA_READ])));
    kinds
}

fn usages(chance: &Chance) -> Vec<u8> {
    match chance.below(8) {
        0..4 => vec![1, 2],
        4 | 5 => vec![2, 1, 3],
        _ => (0..chance.below(17)).map(|_| chance.byte() & 3).collect(),
    }
}

fn pdos(chance: &Chance, coe: bool, managers: &[Manager]) -> Vec<Pdo> {
    let count = match chance.below(100) {
        0 => chance.below(251),
        1..8 => 0,
        _ => 1 + chance.below(10),
    };
    let mut pdos: Vec<Pdo> = Vec::new();
    for _ in 0..count {
        let fitting = if coe { COE } else { chance.pick(&[EEPROM_READ, EEPROM_WRITE]) };
        let kind = chance.pick(&[fitting, fitting, fitting, fitting, COE, EEPROM_READ, EEPROM_WRITE]);
        let index = chance.pick(&[0x1600, 0x1601, 0x1a00, 0x1a01, 0x1a02, 0x1c0f, 0x1c20, chance.pair()]);
        // one CoE index has one mapping
        let known = pdos.iter().find(|pdo| kind == COE && pdo.kind == COE && pdo.index == index).map(|pdo| pdo.lengths.clone());
        let lengths = known.unwrap_or_else(|| if kind == COE { mapping(chance) } else { bits(chance).to_be_bytes().to_vec() });
        pdos.push(Pdo { kind, manager: manager(chance, kind, managers), index, lengths });
    }
    pdos
}

/// Mostly a sync manager of the PDO's direction, else any number, also one that no sync manager has.
fn manager(chance: &Chance, kind: u8, managers: &[Manager]) -> u8 {
    let usage = match kind {
        EEPROM_READ => DATA_READ,
        EEPROM_WRITE => DATA_WRITE,
        _ => chance.pick(&[DATA_READ, DATA_WRITE]),
    };
    let wanted: Vec<u8> = (0..managers.len() as u8).filter(|number| managers[usize::from(*number)].usage == usage).collect();
    if wanted.is_empty() || chance.one_in(8) {
        return chance.pick(&[chance.below(19) as u8, managers.len() as u8, 255, chance.byte()]);
    }
    chance.pick(&wanted)
}

fn mapping(chance: &Chance) -> Vec<u8> {
    if chance.one_in(60) {
        return vec![255; 200 + chance.below(56) as usize];
    }
    (0..chance.below(5)).map(|_| chance.pick(&[0, 1, 1, 7, 8, 9, 16, 32, chance.byte()])).collect()
}

fn bits(chance: &Chance) -> u16 {
    chance.pick(&[0, 1, 7, 8, 9, 16, 17, chance.below(256) as u16, chance.below(256) as u16, chance.below(4_000) as u16])
}

/// Multipliers for indexes that PDOs have and for others, sometimes with one index twice.
fn table(chance: &Chance, pdos: &[Pdo]) -> Vec<(u16, u8)> {
    let count = if chance.one_in(100) { chance.below(256) } else { chance.pick(&[0, 0, 1, 2, 3, 5]) };
    let mut table = Vec::new();
    for _ in 0..count {
        let any = chance.pair();
        let index = if pdos.is_empty() || chance.one_in(6) { any } else { pdos[chance.below(pdos.len() as u32) as usize].index };
        table.push((index, chance.pick(&[0, 1, 2, 3, 10, 255, chance.byte()])));
    }
    if !table.is_empty() && table.len() < 255 && chance.one_in(3) {
        let (index, _) = chance.pick(&table);
        table.push((index, chance.pick(&[0, 1, 4, chance.byte()])));
    }
    table
}

/// Mapping lengths that add up to so many bits, at most 65,025.
fn mapping_of(bits: u32) -> Vec<u8> {
    let mut lengths = vec![255; bits as usize / 255];
    if bits % 255 > 0 {
        lengths.push((bits % 255) as u8);
    }
    lengths
}

/// One wanted sync manager gets bits close to 65,528, by a multiplier and a rest.
fn fill_one(chance: &Chance, coe: bool, sheet: &mut Sheet, table: &mut Vec<(u16, u8)>) {
    let wanted: Vec<u8> =
        (0..sheet.managers.len() as u8).filter(|number| sheet.managers[usize::from(*number)].usage >= DATA_WRITE).collect();
    if wanted.is_empty() {
        return;
    }
    let manager = chance.pick(&wanted);
    sheet.pdos.retain(|pdo| pdo.manager != manager);
    let exact = 65_528 - 10 + chance.below(20);
    let multiplier = chance.pick(&[1, 2, 8, 255]);
    let counted = (exact / multiplier).min(65_025);
    let kind = match sheet.managers[usize::from(manager)].usage {
        _ if coe => COE,
        DATA_READ => EEPROM_READ,
        _ => EEPROM_WRITE,
    };
    for (index, bits) in [(COUNTED, counted), (REST, exact - counted * multiplier)] {
        let lengths = if coe { mapping_of(bits) } else { (bits as u16).to_be_bytes().to_vec() };
        sheet.pdos.push(Pdo { kind, manager, index, lengths });
    }
    table.insert(0, (COUNTED, multiplier as u8));
}

/// Eight sync managers of 8,191 bytes and a ninth of 6 to 9 share an entry: 65,535 bytes, or one more or less.
fn fill_nine(chance: &Chance, sheet: &mut Sheet, table: &mut Vec<(u16, u8)>) {
    let usage = chance.pick(&[DATA_WRITE, DATA_READ]);
    sheet.managers.retain(|manager| manager.usage < DATA_WRITE);
    sheet.managers.truncate(7);
    let first = sheet.managers.len() as u8;
    sheet.pdos.clear();
    for number in first..first + 9 {
        sheet.managers.push(Manager { start: chance.pair(), control: 0x20, enable: 1, usage });
        let (index, lengths) =
            if number < first + 8 { (COUNTED, mapping_of(8_191)) } else { (REST, mapping_of(41 + chance.below(32))) };
        sheet.pdos.push(Pdo { kind: COE, manager: number, index, lengths });
    }
    // the read mailbox, without which there is no CoE, may have been cut off
    sheet.managers[0].usage = MAILBOX_READ;
    table.insert(0, (COUNTED, 8));
}

/// The FMMU area as it came: clear; or any bytes, reserved bits among them, and lengths that are any or nearly full. In half of the used
/// ones an entry that the default refuses is hardly ever missing; in the others enabled entries carry one direction's bit or none.
fn entries(chance: &Chance, area: &mut [u8; 256]) {
    let kind = chance.below(12);
    if kind < 2 {
        return;
    }
    chance.fill(area);
    let nearly_full = chance.one_in(5);
    let bits = chance.pick(&ACCESS);
    let seldom = chance.pick(&[2, 4, 12]);
    for entry in area.chunks_mut(16) {
        let full = u16::MAX - chance.pick(&[chance.below(4), chance.below(60)]) as u16;
        let length = if nearly_full { full } else { chance.pick(&[chance.pair(), chance.below(2_000) as u16]) };
        entry[4..6].copy_from_slice(&length.to_le_bytes());
        if kind > 6 {
            entry[11] = entry[11] & 0xfc | chance.pick(bits);
            entry[12] = entry[12] & 0xfe | u8::from(chance.one_in(seldom));
        }
    }
}
