"""Requests on modes and directions that have no name (document 02, 8/13).

Images that are read and written, texts, device data that is written, what `lockerplan` prints over areas that hold such images;
and 5, which stays for sheets and dumps. A mode or direction is a number that has a name, or `Unnamed`: the case with a number.
"""

import ask_call
import ask_dump
from ask_portions import LEAST
from ask_portions import told as in_calls
from ask_writer import FOURS, LAST, MOST, told
from build import (
    FIVE, MARK, SAMPLE, SAMPLE_DATA, area, channel, coe, device, eeprom, entry, manager_category, managers, on_coe, on_eeprom,
    pattern, sheet,
)
from registers import DIRECTIONS, MODES, Unnamed, word
from stream import CHANNEL_RECORD, Request

# ---- reading an image


def read_back():
    """Every control byte, with other bytes of many values; 1 is all that refuses."""
    for k in range(256):
        data = bytes([17 * k % 256, 255 - k, 91 * k % 256, (29 * k + 3) % 256, k, k ^ 0x5A, 7 * k % 256, 13 * k % 256])
        yield f"an image with control {k:02x}", Request("Q", channels=data)
    for size in (0, 4, 5, 7, 9, 16):
        for byte in (0x01, 0x08, 0xFF):
            yield f"{size} bytes of {byte:02x} as an image", Request("Q", channels=bytes([byte] * size))
    yield "a control byte past 255, unnamed", Request("k", c=256 + 0x2F)
    yield "the last control byte", Request("k", c=4_294_967_295)


# ---- writing one

NUMBERS = (0, 1, 2, 3, 4, 255)  # those of two bits, the first above them and the last
# others, whose low two bits are those of names and of none
ABOVE = (5, 6, 7, 8, 16, 127, 128, 129, 130, 131, 252, 253, 254)


def cases(names, numbers):
    return [*names, *map(Unnamed, numbers)]


def said(mode, direction):
    return f"mode {word(MODES, mode)}, direction {word(DIRECTIONS, direction)}"


def written():
    """Each mode beside each direction, the events in turn."""
    turn = 0
    for mode in cases(MODES, NUMBERS):
        for direction in cases(DIRECTIONS, NUMBERS):
            events, turn = (turn & 1, turn >> 1 & 1, turn >> 2 & 1), turn + 5
            record = channel(mode, direction, events, 0x1234, 0x5678, turn % 2)
            yield f"{said(mode, direction)}, written", Request("Z", channels=record, room=8)
            yield "its image by value", Request("V", channels=record)
    for number in map(Unnamed, ABOVE):
        for mode, direction in ((number, 0), (2, number), (number, number)):
            record = channel(mode, direction)
            yield f"{said(mode, direction)}, written", Request("Z", channels=record, room=8)
            yield "its image by value", Request("V", channels=record)


GOOD = {
    "names": (2, 1), "mode unnamed 3": (Unnamed(3), 1), "direction unnamed 3": (2, Unnamed(3)),
    "both unnamed": (Unnamed(1), Unnamed(2)),
}
WRONG = {
    "mode unnamed 0": (Unnamed(0), 0), "mode unnamed 4": (Unnamed(4), 1), "direction unnamed 1": (2, Unnamed(1)),
    "direction unnamed 255": (0, Unnamed(255)), "both wrong": (Unnamed(2), Unnamed(0)),
    "the direction alone wrong": (Unnamed(3), Unnamed(4)), "the mode alone wrong": (Unnamed(2), Unnamed(2)),
}


def one_and_thirteen():
    for name, (mode, direction) in {**GOOD, **WRONG}.items():
        for room in (0, 7, 8, 9, 16, 512):
            yield f"{name}, written into {room}", Request("Z", channels=channel(mode, direction), room=room)


def by_other_bytes():
    """Either of the two bytes behind a record is 0 or other; where it is 0 the record says what it says without them."""
    for behind in ((0, 0), (1, 0), (0, 1), (2, 128), (255, 255)):
        for mode, direction in ((0, 0), (1, 2), (2, 1), (3, 3), (255, 255)):
            record, name = channel(mode, direction) + bytes(behind), f"mode byte {mode}, direction byte {direction}, {behind} behind"
            yield f"{name}, written", Request("Z", channels=record, room=8)
            yield "its text", Request("y", channels=record, room=100)
    ones = b"\xff" * sum(CHANNEL_RECORD)
    for behind in ((0, 0), (1, 0), (0, 1)):
        yield f"a sync manager record of ones, behind it {behind}", Request("Z", channels=ones + bytes(behind), room=8)
        yield "its image by value", Request("V", channels=ones + bytes(behind))


# ---- texts

AROUND = len("start 0x1000, size 0x0080 (128), direction , mode , enabled")
SHOWN = (0, 1, 2, 3, 9, 10, 99, 100, 255)


def texts():
    """Numbers of one, two and three digits in either place and in both: in room a byte short, in the exact room and in more."""
    both = [(Unnamed(k), Unnamed(k)) for k in SHOWN] + [(Unnamed(3), Unnamed(2)), (Unnamed(0), Unnamed(255))]
    alone = [pair for k in SHOWN for pair in ((Unnamed(k), 1), (Unnamed(k), 0), (0, Unnamed(k)), (2, Unnamed(k)))]
    for mode, direction in alone + both:
        length = AROUND + len(word(MODES, mode)) + len(word(DIRECTIONS, direction))
        for room in (length - 1, length, length + 1):
            name = f"text with {said(mode, direction)} in room {room}"
            yield name, Request("y", channels=channel(mode, direction), room=room)
    longest = channel(Unnamed(255), 1, (1, 1, 1), 65_535, 65_535, 0)
    for room in (0, 1, 83, 84, 85, 512):
        yield f"the longest text in room {room}", Request("y", channels=longest, room=room)


# ---- device data that is written

ROWS = FIVE[:4]
PLACES = {"mode": lambda k: (k, None), "direction": lambda k: (None, k), "mode and direction": lambda k: (k, k)}


def by_number():
    """Whatever the number: in the first sync manager that counts, the last, and the first that doesn't."""
    for name, given in PLACES.items():
        for k in NUMBERS:
            for place in (0, 2, 3):
                numbers = {place: given(k)}
                yield f"{name} unnamed {k} in sync manager {place} of 3", told(rows=ROWS, n=3, numbers=numbers)
    rows = [(k, 0x20, 1, 0) for k in range(16)]
    for n in (0, 14, 15, 16):
        for place in (0, 14, 15):
            name = f"mode unnamed 3 in sync manager {place} of {n}"
            yield name, told(room=MOST, rows=rows, n=n, numbers={place: (3, None)})
    every = {k: (k, 255 - k) for k in range(16)}
    yield "sixteen unnamed", told(room=MOST, rows=rows, numbers=every)
    yield "sixteen unnamed, none counts", told(room=MOST, rows=rows, n=0, numbers=every)


UNNAMED = [low for low in range(16) if low not in (0, 2, 4, 6)]


def by_control():
    """The control byte says it where no number is given."""
    for high in (0x00, 0x70, 0x80, 0xF0):
        for low in UNNAMED:
            for place, numbers in ((0, None), (2, {}), (3, None)):
                rows = [row[:1] + (high + low,) + row[2:] if k == place else row for k, row in enumerate(ROWS)]
                told_by = "192 bytes" if numbers is not None else "128"
                name = f"control {high + low:02x} in sync manager {place} of 3, by {told_by}"
                yield name, told(rows=rows, n=3, numbers=numbers)


def behind_records():
    """The 64 bytes that may stand behind a device record: what isn't 0 is told, and a number that isn't told doesn't count."""
    sample = dict(lent=SAMPLE, room=58, **SAMPLE_DATA)
    yield "the sample's data, no number given", told(**sample, numbers={})
    yield "the sample's data, 255 behind what counts", told(**sample, numbers={}, rest=255)
    for flag in (1, 2, 128, 255):
        for at in (0, 2):
            record = bytearray(device(**SAMPLE_DATA, numbers={}))
            record[128 + 4 * 4 + at] = flag
            name = f"byte {at} of the last sync manager's cases is {flag}"
            yield name, Request("v", room=58, sheet=SAMPLE, fmmus=bytes(record))
    for at, name in ((1, "mode"), (3, "direction")):
        for number in (1, 3, 255):
            record = bytearray(device(**SAMPLE_DATA, numbers={}))
            record[128 + at :: 4] = [number] * 16
            yield f"number {number} for each {name}, none told", Request("v", room=58, sheet=SAMPLE, fmmus=bytes(record))
    unnamed = [(0x1000, 0x2B, 1, 3)]
    for numbers in ((0, None), (None, 0), (2, 1), (0, 0)):
        yield f"control 2b with {numbers} given", told(rows=unnamed, numbers={0: numbers})


# two ways to give 5: by the control byte, and by a number that would have a name
FIVES = {"control 23": dict(rows=[(0, 0x23, 0, 0)]), "mode unnamed 2": dict(rows=[(0, 0, 0, 0)], numbers={0: (2, None)})}


def beside_five():
    """5 stands between 4 and 12."""
    for name, five in FIVES.items():
        for room in (0, 15, 16, 17, MOST):
            yield f"5 by {name}, room {room}", told(room=room, **five)
        for four, wrong in FOURS.items():
            rows = five["rows"] + wrong.get("rows", [])
            for room in (0, MOST):
                yield f"4 and 5, {four}, {name}, room {room}", told(room=room, **five | wrong | dict(rows=rows))
        yield f"4 in the sync manager of 5, {name}", told(**five | dict(rows=[five["rows"][0][:3] + (5,)]))
        for n in (17, 3_275, 3_276, LAST):
            yield f"n is {n} and 5, {name}", told(room=MOST, **five | dict(n=n))
        for f in (17, 16_370, 16_371, LAST):
            yield f"f is {f} and 5, {name}", told(room=MOST, **five | dict(f=f))
    for usage in (4, 5):
        rows = [(0, 0x20, 0, usage), (0, 0x20, 0, 0)]
        yield f"5 behind usage {usage}", told(rows=rows, numbers={1: (None, 3)})
    lent = b"".join(coe(k, 0x1A00 + k, *pattern(255)) for k in range(62))
    for last, number in ((245, "5"), (246, "2 and 5")):
        pdos = lent + coe(62, 0x1A3E, *pattern(last))
        yield f"L is {16_139 + last} by PDOs, {number}", told(pdos, MOST, p=63, **FIVES["control 23"])


# ---- what lockerplan prints over given areas

# an image of each mode and direction, all other bytes different
IMAGES = b"".join(bytes([k, 16 + k, 32 + k, 48 + k, (k * 0x30 & 0xF0) + k, 0xFF - k, k, 3 * k]) for k in range(16))
# the same from the tenth on
LATER = IMAGES[72:] + IMAGES[:72]
# sheets of n sync managers of which none is written; one of mailboxes without the flag; one that writes its second and fourth
UNUSED = [on_eeprom(rows=managers(*[(0, 0x20, 1, 0)] * n)) for n in range(17)]
NOT_MAILBOXES = sheet(0, 128, 128, managers(*FIVE[:2], (0, 0, 0, 0)))
IN_TURN = on_eeprom(
    eeprom(2, 1, 0x1600, 9), eeprom(1, 3, 0x1A00, 17),
    rows=managers(*[(0x1000 + 16 * k, 0x24 if k == 1 else 0x20, 1, {1: 3, 3: 4}.get(k, 0)) for k in range(6)]),
)


def with_control(data, manager, control):
    """A sheet in which a sync manager has another control; a record has five bytes, and the first stands behind eleven."""
    at = 11 + 5 * manager + 2
    return data[:at] + bytes([control]) + data[at + 1 :]


def planned(name, data, channels=b"", fmmus=b""):
    return f"lockerplan over areas, {name}", Request("L", sheet=data, fmmus=fmmus, channels=channels)


def over_images():
    """What nothing writes is printed as it stands, what the plan writes as it writes it, what stands from n on not at all."""
    for n in (0, 1, 2, 15, 16):
        yield planned(f"nothing of {n} is written", UNUSED[n], IMAGES)
    yield planned("nothing is written, ones", UNUSED[16], b"\xff" * 128)
    yield planned("all that is printed is written", SAMPLE, b"\xff" * 128)
    yield planned("some are written", IN_TURN, LATER)
    yield planned("some are written, ones", IN_TURN, b"\xff" * 128)
    yield planned("no mailbox flag", NOT_MAILBOXES, IMAGES[24:])
    yield planned("a mailbox flag", NOT_MAILBOXES[:3] + b"\1" + NOT_MAILBOXES[4:], IMAGES[24:])
    yield planned("0 bits", on_eeprom(rows=managers((0, 0x20, 1, 4), (1, 0, 1, 0), (2, 0x24, 1, 3))), b"\x0b" * 24)
    yield planned("refused with 2", SAMPLE[:-1], IMAGES)
    yield planned("refused with 5", with_control(IN_TURN, 0, 0x23), IMAGES)
    yield "lockerplan over areas, several values", Request("L", c=7, times=3, sheet=IN_TURN, channels=LATER)


NOBODYS = entry(0x89ABCDEF, 65_535, 0xFEDC, 0, bits=(1, 6, 7), reserved=True)


def over_entries():
    old = [entry(5 + k, k, 0x2000 + k, 1 + k % 2, reserved=k > 7) for k in range(16)]
    yield planned("old entries", IN_TURN, LATER, area(*old))
    yield planned("entries that are off", IN_TURN, LATER, area(*[entry(1, 2, 3, k % 4, 0, reserved=True) for k in range(16)]))
    yield planned("an entry of nobody's", IN_TURN, LATER, area(NOBODYS, first=2))
    yield planned("nobody's entry is wanted", IN_TURN, LATER, area(NOBODYS, first=3))
    yield planned("an entry with both bits", IN_TURN, LATER, area(entry(0, 0, 0, 3), first=15))
    yield planned("the longest lines", UNUSED[16], b"\xff\xff\xff\xff\x07\xff\xfe\xff" * 16, area(*[NOBODYS] * 16))


def part_lengths():
    """A part lies over the front of zeros, and what is longer is cut."""
    for size in (1, 4, 5, 7, 8, 9, 127, 128, 129, 512):
        yield planned(f"a channel part of {size}", UNUSED[16], (LATER * 4)[:size])
    for size in (1, 12, 13, 15, 16, 17, 255, 256, 257, 512):
        yield planned(f"an FMMU part of {size}", UNUSED[1], LATER[:8], (NOBODYS * 32)[:size])
    yield planned("both parts at their longest", IN_TURN, b"\xff" * 512, bytes(256) + b"\xff" * 256)


# ---- 5, of sheets and of dumps

# the sample and a sync manager that isn't wanted
SIX = on_coe(coe(3, 0x1A00, 12, 5), coe(4, 0x1A01, 8, 1), coe(2, 0x1600, 16), rows=managers(*FIVE, (0x1200, 0x20, 1, 0)))


def sheets_asked(name, data):
    """A sheet by each letter that takes one, with room to spare and in none."""
    asked = [
        Request("d", sheet=data), Request("m", sheet=data, channels=pattern(128)), Request("L", sheet=data),
        Request("w", room=MOST, sheet=data), Request("w", sheet=data), Request("H", 0, LEAST, 7, c=9, sheet=data), in_calls([data]),
        Request("B", a=1, sheet=data), *[Request("C", write, c=1, sheet=data) for write in (0, 1)],
        Request("A", sheet=data, fmmus=area()),
    ]
    yield from ((f"{name}, by {request.letter}", request) for request in asked)
    yield from ask_call.asked(name, data, ways=ask_call.EITHER)


def in_sheets():
    """Wanted or not: in the mailboxes, the outputs, the inputs and one of no use."""
    for manager in range(6):
        for control in (0x23, 0x28) if manager < 5 else (0x21, 0x23, 0x28, 0x2C, 0x2F):
            data = with_control(SIX, manager, control)
            yield from sheets_asked(f"control {control:02x} in sync manager {manager} of a sheet", data)
    for low in range(16):
        for high in (0x00, 0x70, 0x80):
            for manager in (0, 5):
                data = with_control(SIX, manager, high + low)
                yield f"control {high + low:02x} in sync manager {manager} of a sheet", Request("d", sheet=data)
                yield "written again", Request("w", room=MOST, sheet=data)
    both = with_control(SIX, 0, 0x23)
    for name, data in {"3": both[:2] + b"\2" + both[3:], "4": both[:3] + b"\x0b" + both[4:], "2": both[:-1]}.items():
        yield from sheets_asked(f"{name} and 5", data)


def in_dumps():
    row = (0x1180, 0x20, 1, 4)
    for low in UNNAMED:
        for usage in (0, 4):
            data = manager_category(row, (0x1180, 0x20 + low, 1, usage)) + MARK
            yield from ask_dump.both(f"control {0x20 + low:02x} behind another, type {usage}", data)
    last = manager_category(*[row] * 15, (0, 0xAB, 0, 0)) + MARK
    yield from ask_dump.both("control ab in the last of sixteen", last, 0, MOST)
    yield from ask_dump.both("17 sync managers, the last unnamed", manager_category(*[row] * 16, (0, 0xAB, 0, 0)) + MARK)


def ask():
    images = read_back, written, one_and_thirteen, by_other_bytes, texts
    data, plans = (by_number, by_control, behind_records, beside_five), (over_images, over_entries, part_lengths)
    for part in (*images, *data, *plans, in_sheets, in_dumps):
        yield from part()
