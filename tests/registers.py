"""Document 01's leaves: rounding, offsets, segments, the two register images and their texts.

Worked out from document 01, ETG1000.4 and document 02's 8/13 alone: nothing here is read from the code that it is held against.
"""

from typing import NamedTuple

LIMIT = 4_294_967_295  # the last offset
MOST_BITS = 65_528  # the bits of 8,191 bytes


class Refused(Exception):
    """A call refused; its argument is the number."""


def demand_in_order(rules):
    """Takes each number and whether it holds for the whole call; refuses with the first that holds and asks no further."""
    for number, holds in rules:
        if holds:
            raise Refused(number)


def demand(rules):
    """The same for {number: whether it holds}."""
    demand_in_order(rules.items())


# ---- units, offsets and segments


def size_of(bits):
    """The bytes that so many bits begin, on exact numbers."""
    whole, left = divmod(bits, 8)
    return whole + (1 if left else 0)


def round_up(bits):
    demand({6: bits > MOST_BITS})
    return size_of(bits)


def increment(offset, size):
    demand({9: offset + size > LIMIT})
    return offset + size


def increment_byte_aligned(offset, bits):
    demand({6: bits > MOST_BITS, 9: offset + size_of(bits) > LIMIT})
    return offset + size_of(bits)


def length(start, end):
    return max(0, end - start)


def less(start, end, group):
    """A segment less the group start; neither of its ends may be below that."""
    demand({10: start < group or end < group})
    return start - group, end - group


def segment_text(start, end):
    return f"0x{start:08x}..0x{end:08x}" if end > start else "(empty)"


# ---- images: each field is (first bit, how many), counted from bit 0 of byte 0, little-endian

# logical start, length, start bit, end bit, physical start, physical start bit, read, write, enable
FMMU = [(0, 32), (32, 16), (48, 3), (56, 3), (64, 16), (80, 3), (88, 1), (89, 1), (96, 1)]
# mode, direction, ECAT event, DLS user event, watchdog
CONTROL = [(0, 2), (2, 2), (4, 1), (5, 1), (6, 1)]
# write event, read event, mailbox full, buffer state, read buffer open, write buffer open
STATUS = [(0, 1), (1, 1), (3, 1), (4, 2), (6, 1), (7, 1)]
# enable, repeat, DC event on bus write, on local write; in the second byte PDI channel disabled, repeat ack
ENABLE = [(0, 1), (1, 1), (6, 1), (7, 1), (8, 1), (9, 1)]


def moved(layout, by):
    return [(first + by, width) for first, width in layout]


# physical start, length, control, status, enable
CHANNEL = [(0, 16), (16, 16)] + moved(CONTROL, 32) + moved(STATUS, 40) + moved(ENABLE, 48)

MODES = {0: "Normal", 2: "Mailbox"}
DIRECTIONS = {0: "MasterRead", 1: "MasterWrite"}


def fields(layout, image):
    """Reading: what no field names is dropped."""
    bits = int.from_bytes(image, "little")
    return [bits >> first & (1 << width) - 1 for first, width in layout]


def image(layout, values, size):
    """Writing: what no field names is 0."""
    assert len(values) == len(layout)
    bits = 0
    for (first, width), value in zip(layout, values):
        assert value < 1 << width
        bits |= value << first
    return bits.to_bytes(size, "little")


# ---- modes and directions: a number that has a name, or the case with a number (8/13)


class Unnamed(int):
    """The number of the case with a number. It is a plain value, so any can be made up, also one that has a name."""


def case_of(names, number):
    """What a byte's two bits say."""
    return number if number in names else Unnamed(number)


def word(names, case):
    return f"unnamed {case}" if isinstance(case, Unnamed) else names[case]


def wrong_number(names, case):
    """13: an unnamed number that is named or above 3."""
    return isinstance(case, Unnamed) and (case in names or case > 3)


class Control(NamedTuple):
    mode: int
    direction: int
    ecat_event: int
    dls_event: int
    watchdog: int

    def unnamed(self):
        """5: the mode or the direction is the case with a number, whatever the number."""
        return isinstance(self.mode, Unnamed) or isinstance(self.direction, Unnamed)


def control_of(byte):
    """Bit 7 is dropped."""
    mode, direction, *events = fields(CONTROL, [byte])
    return Control(case_of(MODES, mode), case_of(DIRECTIONS, direction), *events)


def control_byte(control):
    """By value, so there is no refusal: of an unnamed number the low two bits."""
    mode, direction, *events = control
    return image(CONTROL, [mode % 4, direction % 4, *events], 1)[0]


# ---- the two records


class Fmmu(NamedTuple):
    logical_start: int
    length: int
    start_bit: int
    end_bit: int
    physical_start: int
    physical_bit: int
    read: int
    write: int
    enable: int

    def bit_fields(self):
        return self.start_bit, self.end_bit, self.physical_bit

    def text(self):
        letters = ("R" if self.read else "") + ("W" if self.write else "O")
        return (
            f"logical start 0x{self.logical_start:08x}:{self.start_bit}, size {self.length}, "
            f"logical end bit {self.end_bit}, physical start 0x{self.physical_start:04x}:{self.physical_bit}, "
            f"{letters}, {'enabled' if self.enable else 'disabled'}"
        )


class Channel(NamedTuple):
    physical_start: int
    length: int
    mode: int
    direction: int
    ecat_event: int
    dls_event: int
    watchdog: int
    write_event: int
    read_event: int
    mailbox_full: int
    buffer_state: int
    read_open: int
    write_open: int
    enable: int
    repeat: int
    dc_bus: int
    dc_local: int
    pdi_disabled: int
    repeat_ack: int

    def text(self):
        return (
            f"start 0x{self.physical_start:04x}, size 0x{self.length:04x} ({self.length}), "
            f"direction {word(DIRECTIONS, self.direction)}, mode {word(MODES, self.mode)}, "
            f"{'enabled' if self.enable else 'disabled'}"
        )


def read_fmmu(data):
    demand({1: len(data) != 16})
    return Fmmu(*fields(FMMU, data))


def read_channel(data):
    demand({1: len(data) != 8})
    record = Channel(*fields(CHANNEL, data))
    return record._replace(mode=case_of(MODES, record.mode), direction=case_of(DIRECTIONS, record.direction))


def write_fmmu(record, room):
    demand({1: len(room) != 16, 13: any(field > 7 for field in record.bit_fields())})
    room[:] = image(FMMU, record, 16)


def channel_image(record):
    """By value, as a control byte: of an unnamed number the low two bits."""
    return image(CHANNEL, record._replace(mode=record.mode % 4, direction=record.direction % 4), 8)


def write_channel(record, room):
    wrong = wrong_number(MODES, record.mode) or wrong_number(DIRECTIONS, record.direction)
    demand({1: len(room) != 8, 13: wrong})
    room[:] = channel_image(record)
    assert read_channel(room) == record  # a record that writing accepts comes back


def write_text(text, room):
    """Types a text over the front of the room; room past it stays."""
    demand({12: len(text) > len(room)})
    room[: len(text)] = text.encode()
    return len(text)
