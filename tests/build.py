"""Making sheets, dumps, records and register areas for the requests."""

import dump
from registers import FMMU, Unnamed, image
from stream import CHANNEL_CASES, CHANNEL_RECORD, DEVICE_CASES, DEVICE_RECORD, MANAGER, packed

# document 01's sample
SAMPLE = bytes.fromhex(
    "00 38 01 03 00 80 00 80 05 02 03"
    "10 00 26 01 01 10 80 22 01 02 11 00 64 01 03"
    "11 80 20 01 04 11 83 20 01 04 01 02"
    "00 03 1a 00 02 0c 05 00 04 1a 01 02 08 01"
    "00 02 16 00 01 10"
)


def managers(*rows):
    """Each row: start, control, enable byte, usage."""
    return [packed(row, MANAGER) for row in rows]


def coe(manager, index, *bits):
    return packed([0, manager, index, len(bits)], [1, 1, 2, 1]) + bytes(bits)


def eeprom(kind, manager, index, bits):
    return packed([kind, manager, index, 2, bits], [1, 1, 2, 1, 2])


def sheet(flags, receive, send, rows=(), usages=(), pdos=(), version=1, more=0):
    """A sheet; `more` is added to L."""
    body = packed([version, flags, receive, send, len(rows), len(usages), len(pdos)], [1, 1, 2, 2, 1, 1, 1])
    body += b"".join(rows) + bytes(usages) + b"".join(pdos)
    return packed([len(body) + more], [2]) + body


# the usual two mailboxes, then outputs on sync manager 2 and inputs on 3
BOXES = ((0x1000, 0x26, 1, 1), (0x1080, 0x22, 1, 2))
FOUR = managers(*BOXES, (0x1100, 0x64, 1, 3), (0x1180, 0x20, 1, 4))
# the sample's sync managers, and its data by its fields, its PDO records lying in the sample
FIVE = (*BOXES, (0x1100, 0x64, 1, 3), (0x1180, 0x20, 1, 4), (0x1183, 0x20, 1, 4))
SAMPLE_DATA = dict(rows=FIVE, usages=(1, 2), pdos=38, p=3, flags=3, receive=128, send=128)
# the same process data without mailboxes: outputs on 0, inputs on 1
TWO = managers((0x1100, 0x64, 1, 3), (0x1180, 0x20, 1, 4))


def on_coe(*pdos, rows=FOUR, usages=(1, 2), **words):
    return sheet(3, 128, 128, rows, usages, pdos, **words)


def on_eeprom(*pdos, rows=TWO, usages=(), **words):
    return sheet(0, 0, 0, rows, usages, pdos, **words)


def channel(mode, direction, events=(0, 1, 0), start=0x1000, size=128, enable=1):
    """A record of the letters y and Z; a mode or direction that is `Unnamed` is the case with that number."""
    cases = [isinstance(case, Unnamed) for case in (mode, direction)]
    record = packed([start, size, mode, direction, *events, *[0] * 6, enable, *[0] * 5], CHANNEL_RECORD)
    return record + packed(cases, CHANNEL_CASES) if any(cases) else record


def device(rows=(), usages=(), pdos=0, p=0, flags=0, receive=0, send=0, n=None, f=None, rest=0, numbers=None):
    """A record of the letter v; n and f are how many rows and usages there are, if not told otherwise.

    Each byte of the places past the rows and the usages holds `rest`. `numbers`, where it is given, says by a row's place which
    number its mode and its direction have as the case with a number; None is what the control byte says.
    """
    head = [flags & 1, flags >> 1 & 1, flags >> 2 & 1, receive, send]
    counts = [len(rows) if n is None else n, len(usages) if f is None else f, pdos, p]
    places = b"".join(managers(*rows)).ljust(80, bytes([rest])) + bytes(usages).ljust(16, bytes([rest]))
    record = packed([*head, *counts], DEVICE_RECORD[:9]) + places
    if numbers is None:
        return record
    given = [number for k in range(len(rows)) for number in numbers.get(k, (None, None))]
    cases = b"".join(bytes(2) if number is None else bytes([1, number]) for number in given)
    return record + cases.ljust(sum(DEVICE_CASES), bytes([rest]))


# ---- dumps of the category area: little-endian

MARK = b"\xff\xff"


def little(values, widths):
    """Little-endian numbers, one after another."""
    assert len(values) == len(widths)
    return b"".join(value.to_bytes(width, "little") for value, width in zip(values, widths))


def category(kind, data=b"", more=0):
    """A category; `more` is added to the words that it tells."""
    return little([kind, len(data) // 2 + more], [2, 2]) + data


def sync_manager(start, control, enable, usage, length=0, status=0):
    """A record of SyncM."""
    return little([start, length, control, status, enable, usage], [2, 2, 1, 1, 1, 1])


def pdo_entry(bits, index=0x7123, sub=0x24, name=0x25, kind=0x26, flags=0x2827):
    return little([index, sub, name, kind, bits, flags], [2, 1, 1, 1, 1, 2])


def pdo_head(index, entries, manager, synchronisation=0x13, name=0x14, flags=0x1615):
    return little([index, entries, manager, synchronisation, name, flags], [2, 1, 1, 1, 1, 2])


def pdo_record(manager, index, *bits, more=0):
    """A record of TxPDO or RxPDO with an entry for each bit length; `more` is added to how many it tells."""
    return pdo_head(index, len(bits) + more, manager) + b"".join(map(pdo_entry, bits))


def fmmu_category(*usages):
    """Padded to whole words, as devices do it: the pad is unused."""
    return category(dump.FMMUS, bytes(usages) + b"\xff" * (len(usages) % 2))


def manager_category(*rows):
    """Each row: start, control, enable byte, type."""
    return category(dump.MANAGERS, b"".join(sync_manager(*row) for row in rows))


def tx_category(*pdos):
    return category(dump.TX_PDOS, b"".join(pdos))


def rx_category(*pdos):
    return category(dump.RX_PDOS, b"".join(pdos))


# ---- FMMU areas


def entry(logical, length, physical, rights=1, on=1, bits=(0, 7, 0), reserved=False):
    """An entry's sixteen bytes; rights: 1 read, 2 write; reserved bits all clear or all set."""
    values = [logical, length, bits[0], bits[1], physical, bits[2], rights & 1, rights >> 1, on]
    new = image(FMMU, values, 16)
    if reserved:
        named = image(FMMU, [(1 << width) - 1 for _, width in FMMU], 16)
        new = bytes(byte | 255 & ~kept for byte, kept in zip(new, named))
    return new


def area(*entries, first=0, size=256):
    """An FMMU area that is zero but for the given entries, from the entry `first` on."""
    new = bytearray(size)
    old = b"".join(entries)
    new[16 * first : 16 * first + len(old)] = old
    return bytes(new)


def pattern(size):
    """An area in which each byte differs from its neighbours, so that a byte moved or left out is seen."""
    return bytes(i % 251 for i in range(size))


# what a cancelled job left enabled in entry 1: five bytes of inputs at logical address 0
STALE = area(entry(0, 5, 0x1180), first=1)
