"""Document 01's device sheet, read by taking bytes off its front in the order in which its parts are listed.

Worked out from document 01 alone: nothing here is read from the code that it is held against.
"""

from typing import NamedTuple

from registers import Control, control_byte, control_of, demand

MAILBOX, COE, COMPLETE_ACCESS = 1, 2, 4  # the flags
MAILBOX_WRITE, MAILBOX_READ, DATA_WRITE, DATA_READ = 1, 2, 3, 4  # what a sync manager is used for


class Manager(NamedTuple):
    start: int
    control: Control
    enable: int
    usage: int

    def row(self):
        """The same with its control as the byte."""
        return self.start, control_byte(self.control), self.enable, self.usage


class Pdo(NamedTuple):
    kind: int
    manager: int
    index: int
    lengths: tuple  # in bits: CoE each mapping's, EEPROM one

    @property
    def bits(self):
        return sum(self.lengths)


class Sheet(NamedTuple):
    flags: int
    receive: int
    send: int
    managers: list
    usages: list
    pdos: list

    def flag(self, flag):
        return 1 if self.flags & flag else 0

    def coe(self):
        """On CoE: both flags, and a read mailbox of length above 0."""
        reads = any(manager.usage == MAILBOX_READ for manager in self.managers)
        return bool(self.flags & MAILBOX and self.flags & COE and reads and self.send > 0)


class Device(NamedTuple):
    """Device data as it is handed on: `p` PDO records stand in lent bytes, from `pdos` on.

    Of the sixteen managers the first n count, of the sixteen usages the first f. It is a plain value, so it can be made up.
    """

    flags: int
    receive: int
    send: int
    n: int
    f: int
    pdos: int
    p: int
    managers: list
    usages: list


class Front:
    """Bytes that are taken from the front; too few are a broken rule."""

    def __init__(self, data):
        self.data = data

    def take(self, count):
        demand({4: len(self.data) < count})
        taken, self.data = self.data[:count], self.data[count:]
        return taken

    def number(self, count=1):
        return int.from_bytes(self.take(count), "big")


def take_manager(front):
    start, control, enable, usage = front.number(2), front.number(), front.number(), front.number()
    demand({4: usage > 4})
    return Manager(start, control_of(control), enable & 1, usage)


def take_usage(front):
    usage = front.number()
    demand({4: usage > 3})
    return usage


def take_pdo(front):
    kind, manager, index, count = front.number(), front.number(), front.number(2), front.number()
    demand({4: kind > 2 or (kind > 0 and count != 2)})
    lengths = tuple(front.take(count)) if kind == 0 else (front.number(2),)
    return Pdo(kind, manager, index, lengths)


def take_parts(data):
    front = Front(data[3:])
    flags, receive, send = front.number(), front.number(2), front.number(2)
    n, f, p = front.number(), front.number(), front.number()
    demand({4: flags > 7 or n > 16 or f > 16})
    managers = [take_manager(front) for _ in range(n)]
    usages = [take_usage(front) for _ in range(f)]
    pdos = [take_pdo(front) for _ in range(p)]
    demand({4: len(front.data) > 0})
    return Sheet(flags, receive, send, managers, usages, pdos)


def read_sheet(data):
    follow = int.from_bytes(data[:2], "big")
    demand({2: len(data) < 2 or len(data) != follow + 2 or not 9 <= follow <= 16_384})
    demand({3: data[2] != 1})
    sheet = take_parts(data)
    demand({5: any(manager.control.unnamed() for manager in sheet.managers)})
    return sheet
