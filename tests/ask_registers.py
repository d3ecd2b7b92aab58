"""Requests to the leaves: rounding, offsets, segments, control, status and enable bytes, images and texts."""

from registers import CHANNEL, FMMU, LIMIT
from stream import CHANNEL_RECORD, FMMU_RECORD, Request, packed

BITS = (0, 1, 7, 8, 9, 65_528, 65_529, 4_261_413_375)


def rounding():
    yield "every bit count of 16 bits", Request("r", times=65_536)
    for bits in BITS:
        yield f"{bits} bits", Request("r", c=bits)
    yield "2^32 bits", Request("r", a=1)
    yield "2^64 - 1 bits", Request("r", a=LIMIT, c=LIMIT)
    yield "no value past 4,294,967,295 is asked", Request("r", c=LIMIT - 2, times=9)


def steps():
    for offset in (0, 4_294_901_760, 4_294_901_761, LIMIT - 1, LIMIT):
        for size in (0, 1, 2, 65_535):
            yield f"{offset} and {size} bytes", Request("i", a=offset, c=size)
    yield "65,536 bytes are none", Request("i", a=7, c=65_536)
    yield "from 4,294,967,290 on", Request("i", a=LIMIT - 5, times=8)
    for offset in (0, LIMIT - 8191, LIMIT - 8190, LIMIT - 1, LIMIT):
        for bits in BITS:
            yield f"{offset} and {bits} bits", Request("b", a=offset, c=bits)
    yield "2^32 bits", Request("b", b=1)
    yield "6 and 9", Request("b", a=LIMIT, b=LIMIT, c=LIMIT)
    yield "steps of 0 to 40 bits near the end", Request("b", a=LIMIT - 3, times=41)


SEGMENTS = (
    (0, 5), (5, 7), (0, 0), (1, 0), (7, 5), (0, LIMIT), (LIMIT, 0), (LIMIT - 1, LIMIT), (0x9ABCDEF0, 0x9ABCDEF1),
)


def segments():
    for start, end in SEGMENTS:
        yield f"{start} up to {end}", Request("u", a=start, c=end)
        yield f"text of {start} up to {end}", Request("s", a=start, b=end, room=24)
    yield "5 up to 3, 4, 5, 6, 7", Request("u", a=5, c=3, times=5)
    for start, end in SEGMENTS:
        for group in sorted({0, 1, 6, start, min(start + 1, LIMIT)}):
            yield f"{start} up to {end} less {group}", Request("g", a=start, b=end, c=group)
    yield "5 up to 9, each group start", Request("g", a=5, b=9, times=12)
    for start, end, length in ((0, 5, 22), (1, 0, 7)):
        for room in (0, length - 1, length, length + 1, 512):
            yield f"{start} up to {end} in room {room}", Request("s", a=start, b=end, room=room)


def single_bytes():
    for letter, name in (("k", "control"), ("j", "status"), ("e", "enable")):
        yield f"every {name} byte", Request(letter, times=256)
    for high in range(256):
        yield f"second enable byte {high}", Request("e", c=256 * high)
    yield "both enable bytes full", Request("e", c=0xFFFF)
    yield "a control byte past 255", Request("k", c=256 + 0x26)
    yield "a status byte past 255", Request("j", c=256 + 0x08)
    yield "enable bytes past 65,535", Request("e", c=65_536 + 1)


def single_bit(size, i):
    return (1 << i).to_bytes(size, "little")


def single_field_bits(layout, widths):
    """A record for each bit of each field, zero besides: its field's place and bit, and its bytes."""
    for place, (_, width) in enumerate(layout):
        for bit in range(width):
            values = [0] * len(layout)
            values[place] = 1 << bit
            yield place, bit, packed(values, widths)


def images():
    for i in range(128):
        yield f"FMMU bit {i}", Request("R", fmmus=single_bit(16, i))
    for i in range(64):
        yield f"sync manager bit {i}", Request("Q", channels=single_bit(8, i))
    for place, bit, record in single_field_bits(FMMU, FMMU_RECORD):
        yield f"FMMU field {place}, bit {bit}", Request("W", fmmus=record, room=16)
        yield "its text", Request("f", fmmus=record, room=112)
    for place, bit, record in single_field_bits(CHANNEL, CHANNEL_RECORD):
        yield f"sync manager field {place}, bit {bit}", Request("Z", channels=record, room=8)
        yield "its image by value", Request("V", channels=record)
        yield "its text", Request("y", channels=record, room=80)


def whole_images():
    ones = b"\xff" * 17
    named = b"\xff\xff\xff\xff\xe6\xff\xff\xff\xff"
    for size in (0, 1, 15, 16, 17, 32):
        yield f"FMMU image of {size}", Request("R", fmmus=(ones + ones)[:size])
    for size in (0, 1, 7, 8, 9, 16):
        yield f"sync manager image of {size}", Request("Q", channels=(named + named)[:size])
    for control in (0x01, 0x03, 0x08, 0x0C, 0x23, 0xA2, 0xFF):
        yield f"sync manager image, control {control:02x}", Request("Q", channels=bytes([0, 0, 0, 0, control, 0, 0, 0]))
    yield "document 01's FMMU1", Request("R", fmmus=bytes.fromhex("00000000050000078011000101000000"))
    yield "document 01's SM0", Request("Q", channels=bytes.fromhex("0010800026000100"))


def fmmu_records():
    full = packed([LIMIT, 65_535, 7, 7, 65_535, 7, 1, 1, 1], FMMU_RECORD)
    other = packed([0x01020304, 0x0506, 1, 2, 0x0708, 3, 255, 2, 128], FMMU_RECORD)
    sample = packed([5, 2, 0, 7, 0x1100, 0, 0, 1, 1], FMMU_RECORD)
    yield "document 01's FMMU0", Request("W", fmmus=sample, room=16)
    yield "an FMMU record that is full", Request("W", fmmus=full, room=16)
    yield "its text", Request("f", fmmus=full, room=112)
    yield "flags above 1", Request("W", fmmus=other, room=16)
    for room in (0, 15, 17, 512):
        yield f"an FMMU record into {room}", Request("W", fmmus=full, room=room)
    for bits in ((8, 7, 0), (0, 8, 0), (0, 7, 8), (255, 255, 255)):
        start, end, physical = bits
        above = packed([5, 2, start, end, 0x1100, physical, 0, 1, 1], FMMU_RECORD)
        yield f"bit fields {bits}", Request("W", fmmus=above, room=16)
        yield f"bit fields {bits} into 17", Request("W", fmmus=above, room=17)
        yield f"text with bit fields {bits}", Request("f", fmmus=above, room=96)
    for rights in range(4):
        record = packed([0, 0, 0, 7, 0, 0, rights & 1, rights >> 1, 1], FMMU_RECORD)
        yield f"letters of rights {rights}", Request("f", fmmus=record, room=96)
    for room in (0, 88, 89, 90, 91, 512):
        yield f"FMMU text in room {room}", Request("f", fmmus=sample, room=room)


def channel_records():
    full = packed([65_535, 65_535, 2, 1, *[1] * 6, 3, *[1] * 8], CHANNEL_RECORD)
    other = packed([0x0102, 0x0304, 1, 255, *[2] * 6, 6, *[128] * 8], CHANNEL_RECORD)
    sample = packed([0x1000, 128, 2, 1, 0, 1, *[0] * 7, 1, *[0] * 5], CHANNEL_RECORD)
    yield "document 01's SM0", Request("Z", channels=sample, room=8)
    yield "a sync manager record that is full", Request("Z", channels=full, room=8)
    yield "its text", Request("y", channels=full, room=80)
    yield "flags above 1, buffer state 6", Request("Z", channels=other, room=8)
    for room in (0, 7, 9, 512):
        yield f"a sync manager record into {room}", Request("Z", channels=full, room=room)
    for room in (0, 76, 77, 78, 512):
        yield f"sync manager text in room {room}", Request("y", channels=sample, room=room)


def ask():
    for part in (rounding, steps, segments, single_bytes, images, whole_images, fmmu_records, channel_records):
        yield from part()
