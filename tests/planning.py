"""Document 01's mailbox pass, document 02's one call for inputs and outputs (7/13) with its clean start (3/13) and pairs
(6/13), translation and counting, and what `lockerplan` prints.

Worked out from documents 01 and 02 alone: nothing here is read from the code that it is held against. An area is a
bytearray that is lent, the two offsets are a list that is lent; a call that is refused leaves them alone. A table is a list
of (PDO index, multiplier).
"""

from enum import Enum
from typing import NamedTuple

from pairs import FmmuMode, above_last, entry_for, meet, parted
from registers import CHANNEL, FMMU, LIMIT, MOST_BITS, Fmmu, Refused
from registers import demand, demand_in_order, image, read_channel, read_fmmu, segment_text, size_of
from sheet import COMPLETE_ACCESS, DATA_READ, DATA_WRITE, MAILBOX, MAILBOX_READ, MAILBOX_WRITE, read_sheet

LAST_ADDRESS = 65_535
MOST_LENGTH = 65_535


class OldEntries(Enum):
    """What the call does with the entries that it finds enabled: the default, and what is asked for by its name."""

    CLEAR = "first sets to zero each one that carries one direction bit alone"
    KEEP = "works as document 01 says"


class OutputStart(Enum):
    """Where the outputs start."""

    GIVEN = "at the lent output offset"
    AFTER_INPUTS = "straight after the inputs: the lent output offset isn't read"


class Settings(NamedTuple):
    """How the call is made: the group's start, what becomes of old entries, how EEPROM finds entries, where outputs start.

    The list of pairs is lent in either mode.
    """

    group: int = 0
    old: OldEntries = OldEntries.CLEAR
    mode: FmmuMode = FmmuMode.OWN_NUMBER
    pairs: tuple = ()
    outputs: OutputStart = OutputStart.AFTER_INPUTS


class Way(NamedTuple):
    """What a direction takes: the sync managers' usage, the FMMU usage and the EEPROM kind."""

    usage: int
    fmmu_usage: int
    kind: int


def way(write):
    return Way(DATA_WRITE, 1, 2) if write else Way(DATA_READ, 2, 1)


def entry_at(fmmus, e):
    return read_fmmu(bytes(fmmus[16 * e : 16 * e + 16]))


def entries_of(fmmus):
    return [entry_at(fmmus, e) for e in range(16)]


def write_manager(channels, k, manager, size):
    """The image rule: sheet address and control, the size, status 0, enabled only with ENABLE and a size."""
    enable = 1 if manager.enable and size > 0 else 0
    values = [manager.start, size, *manager.control, *[0] * 6, enable, *[0] * 5]
    channels[8 * k : 8 * k + 8] = image(CHANNEL, values, 8)


# ---- the mailbox pass


def configure_mailboxes(data, channels):
    """The read and the write mailbox, each (address, size, number) or None; CoE; complete access."""
    demand({1: len(channels) != 128})
    sheet = read_sheet(data)
    if not sheet.flag(MAILBOX):
        return None, None, 0, 0
    recorded = {MAILBOX_READ: None, MAILBOX_WRITE: None}
    for k, manager in enumerate(sheet.managers):
        if manager.usage in recorded:
            size = sheet.receive if manager.usage == MAILBOX_WRITE else sheet.send
            write_manager(channels, k, manager, size)
            recorded[manager.usage] = manager.start, size, k
    return recorded[MAILBOX_READ], recorded[MAILBOX_WRITE], int(sheet.coe()), sheet.flag(COMPLETE_ACCESS)


# ---- what a direction wants


def multiplier(table, index):
    """The first match counts, none means 1."""
    return next((times for named, times in table if named == index), 1)


def wanted_bits(sheet, table, write):
    """The exact bits of each wanted sync manager, by its number, rising."""
    path = 0 if sheet.coe() else way(write).kind
    bits = {k: 0 for k, manager in enumerate(sheet.managers) if manager.usage == way(write).usage}
    for pdo in sheet.pdos:
        if pdo.kind == path and pdo.manager in bits:
            bits[pdo.manager] += pdo.bits * multiplier(table, pdo.index)
    return bits


def entries_used(sheet, bits, write, settings):
    """The entry of each sync manager that uses one; None where there is none to use."""
    if not sheet.coe() and settings.mode is FmmuMode.OWN_NUMBER:
        return {k: k for k in bits}
    if not sheet.coe():
        return {k: entry_for(k, settings.pairs) for k in bits if bits[k] > 0}
    fmmu_usage = way(write).fmmu_usage
    first = sheet.usages.index(fmmu_usage) if fmmu_usage in sheet.usages else None
    return {k: first for k in bits if bits[k] > 0}


class Direction(NamedTuple):
    """One direction of a sheet, from its start offset on: the bits of its sync managers, and the entries that they use."""

    write: bool
    start: int
    bits: dict
    used: dict

    def end(self):
        return self.start + sum(map(size_of, self.bits.values()))

    def too_wide(self):
        return any(bits > MOST_BITS for bits in self.bits.values())

    def no_entry(self):
        return None in self.used.values()

    def past_the_last(self):
        return self.end() > LIMIT


def direction(write, start, sheet, table, settings=Settings()):
    """A direction as the settings have it; counting takes none, since it asks which entry only for 7."""
    bits = wanted_bits(sheet, table, write)
    return Direction(write, start, bits, entries_used(sheet, bits, write, settings))


# ---- inputs and outputs in one call


def directions(offsets, settings, sheet, table):
    """The inputs and the outputs, those from the lent output offset or straight after the inputs."""
    inputs = direction(False, offsets[0], sheet, table, settings)
    start = offsets[1] if settings.outputs is OutputStart.GIVEN else inputs.end()
    return inputs, direction(True, start, sheet, table, settings)


def bad_pairs(inputs, outputs, sheet, settings):
    """18, over both directions of the sheet; where the pairs aren't read it isn't given."""
    if sheet.coe() or settings.mode is FmmuMode.OWN_NUMBER:
        return False
    return above_last(settings.pairs) or meet(inputs.used, outputs.used) or parted(inputs.used) or parted(outputs.used)


def bits_alone(write):
    """Read and write of an entry that carries the direction bit alone."""
    return (0, 1) if write else (1, 0)


def cleared(fmmus):
    """The area with the old entries of both directions, enabled with one bit alone, set to zero, all sixteen bytes."""
    clean = bytearray(fmmus)
    for e, entry in enumerate(entries_of(fmmus)):
        if entry.enable and (entry.read, entry.write) in (bits_alone(False), bits_alone(True)):
            clean[16 * e : 16 * e + 16] = bytes(16)
    return clean


def both_bits(fmmus):
    return any(entry.enable and entry.read and entry.write for entry in entries_of(fmmus))


def still_enabled(fmmus, used):
    """Whether a wanted entry is enabled after the clearing."""
    clean = cleared(fmmus)
    return any(entry_at(clean, e).enable for e in used.values())


def length_before(fmmus, e, old):
    """What 8 counts from: by default zero, whatever stands there; keeping, the length of an enabled entry."""
    entry = entry_at(fmmus, e)
    return entry.length if old is OldEntries.KEEP and entry.enable else 0


def too_long(fmmus, one, old):
    """Whether an entry's exact length would exceed 65,535."""
    lengths = {}
    for k, e in one.used.items():
        lengths.setdefault(e, length_before(fmmus, e, old))
        lengths[e] += size_of(one.bits[k])
    return any(length > MOST_LENGTH for length in lengths.values())


def call_rules(both, offsets, settings, sheet, fmmus):
    """The refusals behind 5 in their order, each asked of either direction; 10 looks at each given offset."""
    old, given = settings.old, offsets if settings.outputs is OutputStart.GIVEN else offsets[:1]
    yield 18, bad_pairs(*both, sheet, settings)
    yield 6, any(one.too_wide() for one in both)
    yield 7, any(one.no_entry() for one in both)
    yield 8, any(too_long(fmmus, one, old) for one in both)
    yield 9, any(one.past_the_last() for one in both)
    yield 10, any(offset < settings.group for offset in given)
    yield 15, old is OldEntries.CLEAR and (both_bits(fmmus) or any(still_enabled(fmmus, one.used) for one in both))


def write_entry(fmmus, e, offset, size, start, write):
    """A disabled entry is made new; an enabled one only grows."""
    old = entry_at(fmmus, e)
    if old.enable:
        new = old._replace(length=old.length + size)
    else:
        new = Fmmu(offset, size, 0, 7, start, 0, *bits_alone(write), 1)
    fmmus[16 * e : 16 * e + 16] = image(FMMU, new, 16)


def write_direction(one, sheet, fmmus, channels):
    """Each wanted sync manager in rising number: its image, and its entry where it uses one."""
    at = one.start
    for k, bits in one.bits.items():
        size, manager = size_of(bits), sheet.managers[k]
        write_manager(channels, k, manager, size)
        if k in one.used:
            write_entry(fmmus, one.used[k], at, size, manager.start, one.write)
        at += size


def configure_fmmus(offsets, settings, data, table, fmmus, channels):
    """The segments of the inputs and the outputs, each (start, end) less the group start; moves each lent offset to its end.

    By default the old entries of both directions are cleared, then both are planned as if those were never there.
    """
    demand({1: len(fmmus) != 256 or len(channels) != 128})
    sheet = read_sheet(data)
    both = directions(offsets, settings, sheet, table)
    demand_in_order(call_rules(both, offsets, settings, sheet, fmmus))
    if settings.old is OldEntries.CLEAR:
        fmmus[:] = cleared(fmmus)
    for one in both:
        write_direction(one, sheet, fmmus, channels)
    offsets[:] = [one.end() for one in both]
    return [(one.start - settings.group, one.end() - settings.group) for one in both]


# ---- both sides


def in_reach(address):
    return address if address <= LAST_ADDRESS else None


def translate(write, fmmus, address):
    """The device address that the FMMU bytes name, or None."""
    demand({1: len(fmmus) != 256})
    speaking = [entry for entry in entries_of(fmmus) if entry.enable and (entry.write if write else entry.read)]
    demand({11: any(entry.bit_fields() != (0, 7, 0) for entry in speaking)})
    for entry in speaking:
        if entry.logical_start <= address < entry.logical_start + entry.length:
            return in_reach(entry.physical_start + address - entry.logical_start)
    return None


def count(write, offset, data, table, address):
    """The sync manager, its byte and the device address (or None); None outside the direction's range."""
    sheet = read_sheet(data)
    one = direction(write, offset, sheet, table)
    demand({6: one.too_wide(), 7: one.no_entry(), 9: one.past_the_last()})
    at = offset
    for k, bits in one.bits.items():
        size = size_of(bits)
        if at <= address < at + size:
            return k, address - at, in_reach(sheet.managers[k].start + address - at)
        at += size
    return None


# ---- the program


ZERO_AREAS = bytes(256), bytes(128)


def plan(data, table=(), settings=Settings(), areas=ZERO_AREAS):
    """The mailbox pass and the call over both areas, from offset 0: the two segments, and the areas that are left."""
    fmmus, channels = map(bytearray, areas)
    configure_mailboxes(data, channels)
    inputs, outputs = configure_fmmus([0, 0], settings, data, table, fmmus, channels)
    return inputs, outputs, fmmus, channels


def lockerplan(data, areas=ZERO_AREAS):
    """The lines that the program prints for a sheet: the text of each of its n sync managers, whatever its image holds."""
    try:
        inputs, outputs, fmmus, channels = plan(data, areas=areas)
    except Refused as refused:
        return [f"refused {refused.args[0]}"]
    lines = [f"inputs {segment_text(*inputs)}", f"outputs {segment_text(*outputs)}"]
    for k in range(len(read_sheet(data).managers)):
        lines.append(f"SM{k}: {read_channel(bytes(channels[8 * k : 8 * k + 8])).text()}")
    for e in range(16):
        if entry_at(fmmus, e).enable:
            lines.append(f"FMMU{e}: {entry_at(fmmus, e).text()}")
    return lines
