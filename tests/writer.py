"""Document 02's 2/13, with 8/13: device data in, sheet out, into room that is lent.

Worked out from documents 01 and 02: nothing here is read from the code that it is held against. They don't say what the length
of data that breaks a rule is; that is a decision (docs/DECISIONS.md). A room is a bytearray, and is changed only where a sheet
is written.
"""

from registers import demand
from sheet import Front, Sheet, read_sheet, take_pdo
from stream import MANAGER, packed

LONGEST = 16_384  # the most bytes that follow L


# ---- from data that was read: the bytes, worked out from the fields


def pdo_bytes(pdo):
    """Kind 0 has a byte for each length; kinds 1 and 2 have two for their one."""
    data = bytes(pdo.lengths) if pdo.kind == 0 else packed(pdo.lengths, [2])
    return packed([pdo.kind, pdo.manager, pdo.index, len(data)], [1, 1, 2, 1]) + data


def sheet_bytes(sheet):
    counts = [len(part) for part in (sheet.managers, sheet.usages, sheet.pdos)]
    head = packed([1, sheet.flags, sheet.receive, sheet.send, *counts], [1, 1, 2, 2, 1, 1, 1])
    managers = b"".join(packed(manager.row(), MANAGER) for manager in sheet.managers)
    body = head + managers + bytes(sheet.usages) + b"".join(map(pdo_bytes, sheet.pdos))
    return packed([len(body)], [2]) + body


def write_sheet(sheet, room):
    """Writes it over the front of the room; room past it stays."""
    data = sheet_bytes(sheet)
    assert read_sheet(data) == sheet  # what is written reads back as the same data
    demand({12: len(data) > len(room)})
    room[: len(data)] = data
    return len(data)


# ---- from data that is given by its fields


def pdo_counts(device, lent):
    """Each PDO record's m, found by stepping from record to record; past the lent bytes it is 0."""
    at = device.pdos
    for _ in range(device.p):
        m = lent[at + 4] if at + 4 < len(lent) else 0
        yield m
        at += 5 + m


def follow(device, lent):
    """The exact L that the counts say, whatever they are."""
    return 9 + 5 * device.n + device.f + sum(5 + m for m in pdo_counts(device, lent))


def sheet_of(device, lent):
    """The device that the data describes, its PDO records taken from the lent bytes; what isn't counted isn't looked at."""
    demand({2: follow(device, lent) > LONGEST})
    demand({4: device.n > 16 or device.f > 16})
    managers, usages = device.managers[: device.n], device.usages[: device.f]
    demand({4: any(manager.usage > 4 for manager in managers) or any(usage > 3 for usage in usages)})
    front = Front(lent[device.pdos :])
    pdos = [take_pdo(front) for _ in range(device.p)]
    demand({5: any(manager.control.unnamed() for manager in managers)})
    return Sheet(device.flags, device.receive, device.send, managers, usages, pdos)


def write(device, lent, room):
    """The length of the sheet that is written; refused with 2, 4, 5 and then 12."""
    return write_sheet(sheet_of(device, lent), room)
