"""Document 01's device sheet, read with the place of each field, and the rules 2 to 5 in words.

Worked out from document 01 beside the proved program. Nothing here is proved.
"""

from typing import NamedTuple

MAILBOX, COE = 1, 2  # flags
USAGES = ("other", "mailbox write", "mailbox read", "process data write (outputs)", "process data read (inputs)")
FMMU_USAGES = ("unused", "outputs", "inputs", "status")
KINDS = ("CoE", "EEPROM read", "EEPROM write")
FIRST_RECORD = 11


class Finding(Exception):
    """A rule that is broken: its number, what it is about, the bytes of that, what is wrong, what to do."""

    def __init__(self, number, about, at, what, to_do):
        super().__init__(number)
        self.number, self.about, self.at, self.what, self.to_do = number, about, at, what, to_do


class Manager(NamedTuple):
    number: int
    at: int
    start: int
    control: int
    usage: int


class Pdo(NamedTuple):
    number: int
    at: int
    kind: int
    manager: int
    index: int
    bits: int


class Sheet(NamedTuple):
    flags: int
    send: int
    managers: list
    usages: list
    usages_at: int
    pdos: list
    record: int = 5  # bytes of a sync manager, where the places are those of a sheet

    def on_coe(self):
        """Whether CoE is on: both flags, and a read mailbox of a size above 0."""
        reads = any(manager.usage == 2 for manager in self.managers)
        return self.flags & MAILBOX > 0 and self.flags & COE > 0 and reads and self.send > 0


def many(count, word):
    return f"{count:,} {word}" if count == 1 else f"{count:,} {word}s"


def choices(words):
    return "there is " + ", ".join(f"{number} {word}" for number, word in enumerate(words))


class Reader:
    """Takes fields from the front of a sheet, and keeps where it is."""

    def __init__(self, data, at):
        self.data, self.at = data, at

    def take(self, count, about):
        first, self.at = self.at, self.at + count
        if self.at > len(self.data):
            n, f, p = self.data[8:11]
            what = f"the sheet ends there: of {about}, {self.at - len(self.data):,} of {many(count, 'byte')} missing"
            counts = f"byte 8 (now {many(n, 'sync manager')}), byte 9 (now {many(f, 'FMMU usage')})"
            to_do = f"write what is missing and count L again; or correct {counts} or byte 10 (now {many(p, 'PDO')})"
            raise Finding(4, "the sheet's last byte", [len(self.data) - 1], what, to_do)
        return first


# ---- the rules, in their order


def check_length(data):
    follow = len(data) - 2
    if follow < 0:
        what = f"the sheet has {many(len(data), 'byte')}; the first two say how many follow (L)"
        raise Finding(2, "L", [0, 1], what, "feed the whole sheet")
    said, fits = int.from_bytes(data[:2], "big"), 9 <= follow <= 16_384
    if said != follow:
        to_do = f"look for {many(abs(said - follow), 'byte')} {'missing' if follow < said else 'too many'}"
        correct = f"if all is as meant, write L as {follow >> 8 & 255:02x} {follow & 255:02x}"
        to_do += f"; {correct if fits else 'after L a sheet has 9 to 16,384 bytes'}"
        raise Finding(2, "L", [0, 1], f"L says that {many(said, 'byte')} follow; {follow:,} do", to_do)
    if not fits:
        to_do = "a sheet goes on at least up to its number of PDOs" if follow < 9 else "take PDOs out"
        raise Finding(2, "L", [0, 1], f"L is {said:,}; it must be 9 to 16,384", to_do)


def check_head(data):
    if data[2] != 1:
        what = f"the version is {data[2]}; this planner reads version 1"
        raise Finding(3, "the version", [2], what, "write 01, if it is a sheet of version 1")
    if data[3] > 7:
        what = f"the flags are 0x{data[3]:02x}; only bit 0 (mailbox), bit 1 (CoE) and bit 2 (complete access) may be set"
        raise Finding(4, "the flags", [3], what, "write 00 to 07")
    for at, word in ((8, "sync managers"), (9, "FMMU usages")):
        if data[at] > 16:
            what = f"it says {data[at]} {word}; a device has at most 16"
            raise Finding(4, f"the number of {word}", [at], what, "write 00 to 10 (hexadecimal), as many as there are")


def take_manager(reader, number):
    name = f"SM{number}"
    at = reader.take(5, name)
    high, low, control, _, usage = reader.data[at : at + 5]
    if usage >= len(USAGES):
        what = f"{name}'s usage is {usage}; {choices(USAGES)}"
        raise Finding(4, f"{name}'s usage", [at + 4], what, "write one of these")
    return Manager(number, at, high << 8 | low, control, usage)


def take_usage(reader, number):
    name = f"FMMU{number}'s usage"
    at = reader.take(1, name)
    if reader.data[at] >= len(FMMU_USAGES):
        what = f"{name} is {reader.data[at]}; {choices(FMMU_USAGES)}"
        raise Finding(4, name, [at], what, "write one of these")
    return reader.data[at]


def take_pdo(reader, number):
    name = f"PDO {number}"
    at = reader.take(5, f"{name}'s head")
    kind, manager, high, low, count = reader.data[at : at + 5]
    if kind >= len(KINDS):
        to_do = "write one of these; if no PDO should begin there, a count before it is wrong"
        raise Finding(4, f"{name}'s kind", [at], f"{name}'s kind is {kind}; {choices(KINDS)}", to_do)
    if kind and count != 2:
        what = f"{name} is of the kind {KINDS[kind]} and its count is {count}; this kind has one number of 2 bytes"
        to_do = "write 02 and the bits in two bytes; or write kind 0, if these are the bit lengths of CoE mappings"
        raise Finding(4, f"{name}'s count", [at + 4], what, to_do)
    first = reader.take(count, f"{name}'s bit lengths (its count, at byte {at + 4}, says {count})")
    lengths = reader.data[first : reader.at]
    return Pdo(number, at, kind, manager, high << 8 | low, int.from_bytes(lengths, "big") if kind else sum(lengths))


def check_end(reader, pdos):
    more = len(reader.data) - reader.at
    if more:
        what = f"the last record ends at byte {reader.at - 1}, but the sheet goes on for {many(more, 'byte')}"
        to_do = f"take out what is too much and count L again; or correct byte 10 (now {many(len(pdos), 'PDO')}) or a count"
        raise Finding(4, "after the last record", range(reader.at, len(reader.data)), what, to_do)


def check_controls(managers, place=2):
    """`place` is that of the control in a sync manager's record."""
    for manager in managers:
        mode, direction = manager.control & 3, manager.control >> 2 & 3
        wrong = [f"mode (bits 0 and 1) is {mode}"] if mode in (1, 3) else []
        wrong += [f"direction (bits 2 and 3) is {direction}"] if direction > 1 else []
        if wrong:
            what = f"SM{manager.number}'s control is 0x{manager.control:02x}: its {' and its '.join(wrong)}; that has no name"
            to_do = "mode is 0 Normal or 2 Mailbox, direction 0 MasterRead or 1 MasterWrite; the samples have 20 for inputs, "
            to_do += "64 for outputs, 22 for a read mailbox and 26 for a write mailbox"
            raise Finding(5, f"SM{manager.number}'s control", [manager.at + place], what, to_do)


def read(data):
    """The sheet, or the first rule of 2 to 5 that it breaks, in the order of the numbers."""
    check_length(data)
    check_head(data)
    reader = Reader(data, FIRST_RECORD)
    n, f, p = data[8:FIRST_RECORD]
    managers = [take_manager(reader, number) for number in range(n)]
    usages_at = reader.at
    usages = [take_usage(reader, number) for number in range(f)]
    pdos = [take_pdo(reader, number) for number in range(p)]
    check_end(reader, pdos)
    check_controls(managers)
    return Sheet(data[3], int.from_bytes(data[6:8], "big"), managers, usages, usages_at, pdos)
