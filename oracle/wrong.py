"""Wrong texts and wrong calls: in each a mistake is made, which the comparison has to find.

A mistake is one edit or a few: the file, the line's number, a word that stands once in that line, and what is put in its place. The
text's files are those recorded in TEXT.sha256, so that the numbers hold. The call for inputs and outputs isn't in the text: it is the
oracle's, made of the text's two passes. In its files no line is numbered, and a word stands once in the whole file.
"""

import shutil

PDI = "src/pdi.rs.txt"
CHANNEL = "src/sync_manager_channel.rs.txt"
FMMU = "src/fmmu.rs.txt"
PASSES = "src/subdevice/configuration.rs.txt"
# the oracle's own
CALL = "src/call.rs"
OLD = "src/old.rs"
OWN = [CALL, OLD]

NO_GROUP = ("group_start_address", "0u32")
GROUP_WRAPS = (" - group_start_address as usize", ".wrapping_sub(group_start_address as usize)")
PRODUCT_WRAPS = (" * u16::from(oversampling)", ".wrapping_mul(u16::from(oversampling))")
# whether an enabled entry carries the pass's direction bit, and whether it ends where the pass goes on
OWN_BIT = "(if desired_sm_type == SyncManagerType::ProcessDataRead { fmmu_config.read_enable } else { fmmu_config.write_enable })"
ENDS_HERE = "fmmu_config.logical_start_address.wrapping_add(fmmu_config.length_bytes.into()) == global_offset.start_address"


def at_the_end(offset):
    """The offset is set once, from all bits of the pass."""
    return f"*{offset}", f"{{ *{offset} = start_offset.increment_byte_aligned(total_bit_len); *{offset} }}"


TEXTS = [
    # document 01: 'Tempting and wrong'
    ("the total is rounded, CoE", [(PASSES, 290, "// ", ""), (PASSES, 416, "// ", ""), (PASSES, 421, *at_the_end("global_offset"))]),
    ("the total is rounded, EEPROM", [(PASSES, 506, "// ", ""), (PASSES, 546, "// ", ""), (PASSES, 580, *at_the_end("offset"))]),
    ("the EEPROM entry is skipped at 0 bits", [(PASSES, 568, "self", "if bit_len > 0 { self"), (PASSES, 575, ";", "; }")]),
    ("a merge takes the new start address", [(PASSES, 442, ";", "; fmmu_config.physical_start_address = sm_config.physical_start_address;")]),
    ("the last oversampling match, CoE", [(PASSES, 371, ".iter()", ".iter().rev()")]),
    ("the last oversampling match, EEPROM", [(PASSES, 523, ".iter()", ".iter().rev()")]),
    ("an empty sync manager is enabled", [(PASSES, 144, "> 0", "| 1 > 0")]),
    # where a pass begins and ends
    ("inputs are not less the group start", [(PASSES, 106, *NO_GROUP), (PASSES, 107, *NO_GROUP)]),
    ("outputs are not less the group start", [(PASSES, 112, *NO_GROUP), (PASSES, 113, *NO_GROUP)]),
    ("a step rounds down", [(PDI, 18, "+ 7", "+ 0")]),
    # mailboxes
    ("mailbox images have each other's size", [(PASSES, 222, "receive", "send"), (PASSES, 236, "send", "receive")]),
    ("the write mailbox is recorded with the send size", [(PASSES, 228, "receive", "send")]),
    ("the first read mailbox is recorded", [(PASSES, 210, "None", "None::<Mailbox>"), (PASSES, 240, "Some(", "read_mailbox.or(Some("), (PASSES, 244, "})", "}))")]),
    ("CoE with a read mailbox of size 0", [(PASSES, 257, "mbox.len > 0", "true")]),
    # entries
    ("CoE uses an entry at 0 bits", [(PASSES, 397, "> 0", "| 1 > 0")]),
    ("CoE uses the last entry of a usage", [(PASSES, 400, ".position", ".rposition")]),
    ("inputs use the entry of outputs", [(PASSES, 594, "Inputs", "Outputs")]),
    ("a new entry's end bit is 0", [(PASSES, 452, "7", "0")]),
    ("an entry of the other direction is made new", [(PASSES, 441, "if fmmu_config.enable", f"if fmmu_config.enable && {OWN_BIT}")]),
    ("an entry that was left is made new", [(PASSES, 441, "if fmmu_config.enable", f"if fmmu_config.enable && {ENDS_HERE}")]),
    ("a merge sets the direction's bit", [(PASSES, 442, ";", "; fmmu_config.read_enable |= desired_sm_type == SyncManagerType::ProcessDataRead;")]),
    ("without a match the multiplier is 0", [(PASSES, 373, "1", "0")]),
    # sums that wrap: what 6, 8, 9 and 10 refuse is accepted
    ("the bits wrap, CoE", [(PASSES, 375, *PRODUCT_WRAPS)]),
    ("the bits wrap, EEPROM", [(PASSES, 533, *PRODUCT_WRAPS)]),
    ("an entry's length wraps", [(PASSES, 442, "+= sm_config.length_bytes", "= fmmu_config.length_bytes.wrapping_add(sm_config.length_bytes)")]),
    ("the offset wraps", [(PDI, 40, " + u32::from(inc_bytes)", ".wrapping_add(u32::from(inc_bytes))")]),
    ("the group start is taken off by wrapping", [(PASSES, 106, *GROUP_WRAPS), (PASSES, 107, *GROUP_WRAPS)]),
    # texts
    ("a segment's text shows an empty one", [(PDI, 90, "!self.bytes.is_empty()", "true")]),
    ("an FMMU's text has - for O", [(FMMU, 75, '"O"', '"-"')]),
    ("a sync manager's text has a narrower size", [(CHANNEL, 44, "size {:#06x}", "size {:#05x}")]),
]


# a call's mistakes are the same in both orders, or one order alone is looked at
ONE_ORDER = (CALL, None, "one != two", "one != two && false")
# a pass that fails is as if it mapped nothing
OR_NOTHING = ".unwrap_or(Planned { segment: PdiSegment { bytes: 0..0 }, next: 0 })"
INPUTS = "self.pass(MasterRead, self.inputs, areas)"
OUTPUTS = "self.pass(MasterWrite, self.outputs_from(Some(&inputs))?, areas)"
# the inputs where they come first
THEN_OUTPUTS = ";\n        let outputs"
BETWEEN = "{ let again = self.begun(&areas.borrow()); *areas.borrow_mut() = again; "
OLD_ONE = "[READ, WRITE].contains(&access(entry))"


def answering(change):
    """What a call answers is changed."""
    return CALL, None, "Some(made) => Outcome::Made(made)", f"Some(mut made) => {{ {change}; Outcome::Made(made) }}"


CALLS = [
    # where each direction begins, and what is left of the offsets
    ("the outputs start where the inputs start", [(CALL, None, "inputs.map(|planned| planned.next)", "inputs.map(|_| self.inputs)")]),
    ("the outputs' given offset isn't read", [(CALL, None, "self.after_inputs {", "self.after_inputs || true {")]),
    ("straight after the inputs the lent offset is read", [(CALL, None, "self.after_inputs {", "self.after_inputs && false {")]),
    ("the outputs' offset is left where it was", [answering("made.outputs.next = self.outputs")]),
    ("the inputs' offset is left where it was", [answering("made.inputs.next = self.inputs")]),
    ("the segments stand for each other", [answering("std::mem::swap(&mut made.inputs.segment, &mut made.outputs.segment)")]),
    ("the outputs have no group start", [(CALL, None, "group: self.group", "group: if matches!(direction, MasterRead) { self.group } else { 0 }")]),
    ("the outputs have no table", [(CALL, None, "table: self.table", "table: if matches!(direction, MasterRead) { self.table } else { &[] }")]),
    # both or neither
    ("outputs are written although the inputs are refused", [ONE_ORDER, (CALL, None, f"{INPUTS}?{THEN_OUTPUTS}", f"{INPUTS}{OR_NOTHING}{THEN_OUTPUTS}")]),
    ("inputs are written although the outputs are refused", [ONE_ORDER, (CALL, None, f"{OUTPUTS}?", f"{OUTPUTS}{OR_NOTHING}")]),
    # what is cleared, and when
    ("old entries are cleared between the two", [ONE_ORDER, (CALL, None, f"{OUTPUTS}?", f"{BETWEEN}{OUTPUTS} }}?")]),
    ("the inputs' old entries alone are cleared", [(OLD, None, OLD_ONE, "access(entry) == READ")]),
    ("the outputs' old entries alone are cleared", [(OLD, None, OLD_ONE, "access(entry) == WRITE")]),
    ("every enabled entry is cleared", [(OLD, None, OLD_ONE, "true")]),
    ("a disabled entry is cleared", [(OLD, None, "enabled(entry) && [", "[")]),
    ("an old entry is only disabled", [(OLD, None, "entry.fill(0)", "entry[12] = 0")]),
    ("keeping clears", [(CALL, None, "self.keeping {", "self.keeping && false {")]),
    ("the default keeps", [(CALL, None, "self.keeping {", "self.keeping || true {")]),
]


def edited(file, number, old, new):
    """The edit made in a file: in one line of it, or where no line is numbered anywhere."""
    lines = file.read_text().split("\n")
    first, last = (number - 1, number) if number else (0, len(lines))
    part = "\n".join(lines[first:last])
    if part.count(old) != 1:
        raise ValueError(f"{file.name}, line {number}: {old} does not stand there once")
    file.write_text("\n".join([*lines[:first], part.replace(old, new), *lines[last:]]))


def made(text, oracle, edits, folder):
    """The text's folder and the oracle's, each a copy where one of its files is edited; cargo builds again where a name is new."""
    if any(name in OWN for name, *_ in edits):
        shutil.copytree(oracle, folder, ignore=shutil.ignore_patterns("target"), copy_function=shutil.copyfile)
        oracle = folder
    else:
        shutil.copytree(text / "src", folder / "src", copy_function=shutil.copyfile)
        text = folder
    for name, number, old, new in edits:
        edited(folder / name, number, old, new)
    return text, oracle
