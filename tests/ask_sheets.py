"""Requests to the sheet's reader: the limits of each rule of its grammar."""

from build import SAMPLE
from stream import Request

SHORT = [
    ("smallest", "0009 01 00 0000 0000 00 00 00"),
    ("L is 8", "0008 01 00 0000 0000 00 00"),
    ("version 0", "0009 00 00 0000 0000 00 00 00"),
    ("version 2, flags 8", "0009 02 08 0000 0000 00 00 00"),
    ("length and version wrong", "000a 02 00 0000 0000 00 00 00"),
    ("flags 7", "0009 01 07 ffff 0001 00 00 00"),
    ("flags 8", "0009 01 08 0000 0000 00 00 00"),
    ("flags 128", "0009 01 80 0000 0000 00 00 00"),
    ("a byte after the sheet's parts", "000a 01 00 0000 0000 00 00 00 00"),
    ("control a6, enable fe", "000e 01 00 0000 0000 01 00 00 1000 a6 fe 01"),
    ("control 64, enable ff", "000e 01 00 0000 0000 01 00 00 ffff 64 ff 04"),
    ("control 23", "000e 01 00 0000 0000 01 00 00 1000 23 01 01"),
    ("control 01, usage 0", "000e 01 00 0000 0000 01 00 00 1000 01 00 00"),
    ("control 08, usage 0", "000e 01 00 0000 0000 01 00 00 1000 08 00 00"),
    ("control 0c, usage 3", "000e 01 00 0000 0000 01 00 00 1000 0c 00 03"),
    ("control 23, usage 5", "000e 01 00 0000 0000 01 00 00 1000 23 01 05"),
    ("control 23, then usage 5", "0013 01 00 0000 0000 02 00 00 1000 23 01 01 1000 20 01 05"),
    ("control 20, then 23", "0013 01 00 0000 0000 02 00 00 1000 20 01 03 1000 23 01 04"),
    ("control 23, flags 8, version 2", "000e 02 08 0000 0000 01 00 00 1000 23 01 01"),
    ("usage 5", "000e 01 00 0000 0000 01 00 00 1000 20 01 05"),
    ("a sync manager cut short", "000d 01 00 0000 0000 01 00 00 1000 20 01"),
    ("FMMU usages 0 to 3", "000d 01 00 0000 0000 00 04 00 00 01 02 03"),
    ("FMMU usage 4", "000a 01 00 0000 0000 00 01 00 04"),
    ("FMMU usages cut short", "000a 01 00 0000 0000 00 02 00 01"),
    ("one PDO and no bytes", "0009 01 00 0000 0000 00 00 01"),
    ("a PDO's head cut short", "000d 01 00 0000 0000 00 00 01 00 00 1a00"),
    ("CoE with no mappings", "000e 01 00 0000 0000 00 00 01 00 c8 1a00 00"),
    ("CoE cut short", "0010 01 00 0000 0000 00 00 01 00 00 1a00 03 01 02"),
    ("CoE and a byte after it", "0010 01 00 0000 0000 00 00 01 00 00 1a00 01 01 02"),
    ("two PDOs, one told", "0015 01 00 0000 0000 00 00 01 00 00 1a00 01 08 00 01 1a01 01 10"),
    ("kind 1", "0010 01 00 0000 0000 00 00 01 01 c8 1a00 02 fffa"),
    ("kind 2", "0010 01 00 0000 0000 00 00 01 02 00 1600 02 0010"),
    ("kind 1 with m 1", "000f 01 00 0000 0000 00 00 01 01 00 1a00 01 08"),
    ("kind 1 with m 3", "0011 01 00 0000 0000 00 00 01 01 00 1a00 03 00 08 00"),
    ("kind 2 with m 0", "000e 01 00 0000 0000 00 00 01 02 00 1600 00"),
    ("kind 3", "0010 01 00 0000 0000 00 00 01 03 00 1a00 02 0008"),
    ("kind 255 with m 0", "000e 01 00 0000 0000 00 00 01 ff 00 1a00 00"),
    ("all kinds", "001c 01 05 0000 0000 00 00 03 02 01 1600 02 0100 00 00 1a00 00 01 ff 1a01 02 0001"),
]


def ground(size, follow, n, f, p):
    """Every place holds a byte of its own, then the head, the sync managers and the FMMU usages."""
    sheet = bytearray(i % 251 for i in range(size))
    sheet[0:4] = [follow // 256, follow % 256, 1, 7]
    sheet[8:11] = [n, f, p]
    for k in range(n):
        at = 11 + 5 * k
        sheet[at + 2 : at + 5] = [k % 2 * 2 + k // 2 % 2 * 4 + k // 2 % 8 * 16, k, k % 5]
    for k in range(f):
        sheet[11 + 5 * n + k] = k % 4
    return sheet


def longest(follow):
    """Sixteen sync managers, sixteen usages and 63 CoE PDOs: 16,386 bytes, then one byte more.

    The first PDO and the last name sync managers of inputs, 9 and 4.
    """
    sheet = ground(16_387, follow, 16, 16, 63)
    at = 11 + 5 * 16 + 16
    for k in range(63):
        sheet[at], sheet[at + 4] = 0, 255 if k < 62 else 154
        sheet[at + 1] = {0: 9, 62: 4}.get(k, 200)
        at += 5 + sheet[at + 4]
    assert at == 16_386
    return bytes(sheet)


def limits():
    for n in (16, 17):
        yield f"{n} sync managers", bytes(ground(11 + 5 * n, 9 + 5 * n, n, 0, 0))
    for f in (16, 17):
        yield f"{f} FMMU usages", bytes(ground(11 + f, 9 + f, 0, f, 0))
    yield "255 PDOs", bytes.fromhex("0504 01 00 0000 0000 00 00 ff" + "00 00 1a00 00" * 255)
    yield "L is 16384, one byte more", longest(16_384)
    yield "L is 16385", longest(16_385)


def ask():
    for name, text in SHORT:
        yield name, Request("d", sheet=bytes.fromhex(text))
    for size in range(len(SAMPLE) + 1):
        yield f"the sample's first {size} bytes", Request("d", sheet=SAMPLE[:size])
    yield "the sample and a byte more", Request("d", sheet=SAMPLE + b"\0")
    for i, byte in enumerate(SAMPLE):
        for wrong in sorted({255, byte ^ 1} - {byte}):
            damaged = SAMPLE[:i] + bytes([wrong]) + SAMPLE[i + 1 :]
            yield f"the sample's byte {i} is {wrong}", Request("d", sheet=damaged)
    for name, sheet in limits():
        yield name, Request("d", sheet=sheet)
