"""Document 02's 5/13: device data of the EEPROM path from a dump of the category area.

Worked out from document 02 and ETG2010's records: nothing here is read from the code that it is held against. Numbers of two
bytes are little-endian. A room is a bytearray, and is changed only where something is written.
"""

from typing import NamedTuple

import writer
from registers import control_of, demand
from sheet import Device, Manager, Pdo, Sheet, read_sheet

FMMUS, MANAGERS, TX_PDOS, RX_PDOS = 40, 41, 50, 51  # the categories that are read; all others are stepped over
END = 0xFFFF
KINDS = {TX_PDOS: 1, RX_PDOS: 2}  # the sheet's: EEPROM read, EEPROM write
LONGEST = 1_892  # bytes: 11, sixteen sync managers of 5, sixteen usages, 255 PDOs of 7


class Head(NamedTuple):
    """What a dump of the category area doesn't say, and its reader is told."""

    flags: int
    receive: int
    send: int


def little(data):
    return int.from_bytes(data, "little")


def categories(dump):
    """Each category's type and bytes, in order, up to the end mark; bytes behind the mark aren't looked at."""
    found, at = [], 0
    while little(dump[at : at + 2]) != END:
        first = at + 4
        end = first + 2 * little(dump[at + 2 : first])
        demand({16: len(dump) < end})
        found.append((little(dump[at : at + 2]), dump[first:end]))
        at = end
    return found


def records(data, size):
    """A category in records; `size` says how long the one is with which the bytes begin."""
    while data:
        length = size(data)
        demand({17: len(data) < length})
        yield data[:length]
        data = data[length:]


def manager_size(_):
    return 8


def pdo_size(data):
    """Eight bytes, and eight for each entry; the third byte counts them."""
    return 8 + 8 * data[2] if len(data) > 2 else 8


def usage_of(byte):
    return 0 if byte == 0xFF else byte


def manager_of(record):
    """Start (2), length (2), control, status, enable, type: what the sheet holds of them."""
    start, control, enable, usage = little(record[:2]), record[4], record[6], record[7]
    return Manager(start, control_of(control), enable & 1, usage)


def pdo_of(kind, record):
    """Index (2), entries, sync manager, four more; each entry's bit length stands behind its index (2) and three bytes."""
    lengths = [record[at + 5] for at in range(8, len(record), 8)]
    return Pdo(kind, record[3], little(record[:2]), (sum(lengths),))


def read_dump(dump, head):
    """The device that a dump describes; refused with 16, 17, 4 and then 5."""
    known = [(kind, data) for kind, data in categories(dump) if kind in (FMMUS, MANAGERS, *KINDS)]
    demand({17: len({kind for kind, _ in known}) < len(known)})
    managers, usages, pdos = [], [], []
    for kind, data in known:
        if kind == FMMUS:
            usages += map(usage_of, data)
        elif kind == MANAGERS:
            managers += map(manager_of, records(data, manager_size))
        else:
            pdos += [pdo_of(KINDS[kind], record) for record in records(data, pdo_size)]
    demand({4: head.flags > 7 or len(managers) > 16 or len(usages) > 16 or len(pdos) > 255})
    demand({4: any(manager.usage > 4 for manager in managers) or any(usage > 3 for usage in usages)})
    demand({5: any(manager.control.unnamed() for manager in managers)})
    sheet = Sheet(*head, managers, usages, pdos)
    data = writer.sheet_bytes(sheet)
    assert read_sheet(data) == sheet and len(data) <= LONGEST  # it keeps every rule of a sheet
    return sheet


def device_of(sheet):
    """The same as it is handed on, its PDO records from the room's first byte on."""
    managers, usages, pdos = sheet[3:]
    return Device(*sheet[:3], len(managers), len(usages), 0, len(pdos), managers, usages)


def read(dump, head, room):
    """The device, its PDO records written over the front of the room; short room gives 12, last."""
    sheet = read_dump(dump, head)
    data = b"".join(map(writer.pdo_bytes, sheet.pdos))
    demand({12: len(data) > len(room)})
    room[: len(data)] = data
    assert writer.sheet_of(device_of(sheet), room) == sheet  # what the writer is handed is the same device
    return sheet


def write_sheet(dump, head, room):
    """The length of the device's sheet, which is written over the front of the room."""
    return writer.write_sheet(read_dump(dump, head), room)
