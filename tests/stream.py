"""The requests of docs/PROBE.md: making one, and reading them off a stream."""

from typing import NamedTuple

from registers import Channel, Fmmu, Unnamed, control_of
from sheet import COE, COMPLETE_ACCESS, MAILBOX, Device, Manager

HEAD = [1, 1, 2, 4, 4, 4, 4, 2, 2, 2, 2]  # bytes of each number of a request's head
MOST = [20_480, 20_480, 256, 512, 512]  # room, bytes of the sheet, records of the table, bytes of the two parts
FMMU_RECORD = [4, 2, 1, 1, 2, 1, 1, 1, 1]
CHANNEL_RECORD = [2, 2] + [1] * 17
CHANNEL_CASES = [1, 1]  # behind it, if at all: whether the mode is the case with a number, whether the direction is
MANAGER = [2, 1, 1, 1]  # start address, control, enable, usage
DEVICE_RECORD = [1, 1, 1, 2, 2, 8, 8, 8, 1] + MANAGER * 16 + [1] * 16
DEVICE_CASES = [1, 1, 1, 1] * 16  # behind it, if at all: of each sync manager both of these, each with its number behind it

AFTER_INPUTS, KEEP, BY_PAIRS = 1, 2, 4  # what byte 1 of the letters p, M and B is a sum of


class BadRequest(Exception):
    """A request that is cut short or longer than it may be."""


class Request(NamedTuple):
    letter: str
    write: int = 0
    room: int = 0
    a: int = 0
    b: int = 0
    c: int = 0
    times: int = 0
    sheet: bytes = b""
    table: list = []
    fmmus: bytes = b""
    channels: bytes = b""

    def wide(self, high):
        """The bits that c is the low half of."""
        return high * 2**32 + self.c

    def lent(self):
        """The pairs at the front of the FMMU part, as many as the room says and stand there whole, and what is behind."""
        end = 2 * min(self.room, len(self.fmmus) // 2)
        return [tuple(self.fmmus[i : i + 2]) for i in range(0, end, 2)], self.fmmus[end:]

    def bytes(self):
        """The request as it stands on the stream."""
        counts = [len(part) for part in (self.sheet, self.table, self.fmmus, self.channels)]
        head = [ord(self.letter), self.write, self.room, self.a, self.b, self.c, self.times, *counts]
        table = b"".join(packed(record, [2, 1]) for record in self.table)
        return packed(head, HEAD) + self.sheet + table + self.fmmus + self.channels


def packed(values, widths):
    """Big-endian numbers, one after another."""
    assert len(values) == len(widths)
    return b"".join(value.to_bytes(width, "big") for value, width in zip(values, widths))


def numbers(data, widths):
    """The big-endian numbers that stand one after another."""
    values, at = [], 0
    for width in widths:
        values.append(int.from_bytes(data[at : at + width], "big"))
        at += width
    return values


def take(stream, count):
    data = stream.read(count)
    if len(data) < count:
        raise BadRequest
    return data


def requests(stream):
    """Each request of the stream; BadRequest where one is no request."""
    while head := stream.read(sum(HEAD)):
        if len(head) < sum(HEAD):
            raise BadRequest
        letter, write, room, a, b, c, times, *counts = numbers(head, HEAD)
        if any(count > most for count, most in zip([room, *counts], MOST)):
            raise BadRequest
        sheet, table, fmmus, channels = counts
        sheet, records, fmmus, channels = [take(stream, n) for n in (sheet, 3 * table, fmmus, channels)]
        table = [tuple(numbers(records[i : i + 3], [2, 1])) for i in range(0, len(records), 3)]
        yield Request(chr(letter), write, room, a, b, c, times, sheet, table, fmmus, channels)


def calls(data):
    """The calls of the letter t, each the length of its room and its portion; what is cut short lacks zeros or bytes."""
    while data:
        room, size = numbers(data[:4].ljust(4, b"\0"), [2, 2])
        yield room, data[4 : 4 + size]
        data = data[4 + size :]


def record_and_cases(data, record, cases):
    """The numbers of a record, and those of what may stand behind it, which else are 0."""
    if len(data) not in (sum(record), sum(record + cases)):
        raise BadRequest
    return numbers(data, record), numbers(data[sum(record) :], cases)


def fmmu_record(data):
    if len(data) != sum(FMMU_RECORD):
        raise BadRequest
    *values, read, write, enable = numbers(data, FMMU_RECORD)
    return Fmmu(*values, *(int(flag > 0) for flag in (read, write, enable)))


def channel_record(data):
    values, (mode_unnamed, direction_unnamed) = record_and_cases(data, CHANNEL_RECORD, CHANNEL_CASES)
    record = Channel(*values)
    start, length, mode, direction, *flags = record
    mode = Unnamed(mode) if mode_unnamed else 2 if mode else 0
    direction = Unnamed(direction) if direction_unnamed else int(direction > 0)
    flags = [int(flag > 0) for flag in flags]
    return Channel(start, length, mode, direction, *flags)._replace(buffer_state=record.buffer_state % 4)


def control_with(byte, mode_unnamed, mode, direction_unnamed, direction):
    """What a control byte says, but where a number is given."""
    control = control_of(byte)
    if mode_unnamed:
        control = control._replace(mode=Unnamed(mode))
    if direction_unnamed:
        control = control._replace(direction=Unnamed(direction))
    return control


def device_record(data):
    values, cases = record_and_cases(data, DEVICE_RECORD, DEVICE_CASES)
    mailbox, coe, complete, receive, send, n, f, pdos, p, *places = values
    flags = sum(flag for flag, told in ((MAILBOX, mailbox), (COE, coe), (COMPLETE_ACCESS, complete)) if told)
    managers = []
    for k in range(0, 64, 4):
        start, control, enable, usage = places[k : k + 4]
        managers.append(Manager(start, control_with(control, *cases[k : k + 4]), int(enable > 0), usage))
    return Device(flags, receive, send, n, f, pdos, p, managers, places[64:])
