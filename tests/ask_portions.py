"""Requests to a sheet that comes in portions: how it is cut, how long it is, which room is lent, and made-up states."""

from itertools import repeat

from ask_sheets import SHORT, longest
from build import SAMPLE, managers, on_eeprom, pattern, sheet
from portions import KEPT as LEAST  # bytes of the shortest room that is enough, and of the longest sheet
from stored import samples
from stream import Request, packed

BARELY, MOST = LEAST - 1, 20_480  # one byte too little, and all that the probe lends
LONG = longest(16_384)[:LEAST]
SURPLUS = bytes(251 - k % 251 for k in range(4_094))  # behind the longest sheet; none of them is 0xff

# the sheet's own refusals
WRONG = {
    2: SAMPLE[:57],
    3: sheet(0, 0, 0, version=2),
    4: sheet(8, 0, 0),
    5: on_eeprom(rows=managers((0, 0x23, 0, 0))),
}


def told(portions, rooms=None, end=LEAST, state=(0, 0), lying=b""):
    """A request of t: the portions, the rooms lent to them and to the end, the first state, what lies in the room."""
    held, surplus = state
    lent = zip(portions, rooms or repeat(LEAST))
    data = b"".join(packed([room, len(portion)], [2, 2]) + portion for portion, room in lent)
    return Request("t", surplus, end, held >> 32, held % 2**32, sheet=data, fmmus=lying)


def parts(data, size):
    return [data[at : at + size] for at in range(0, len(data), size)]


def spaced(portions):
    """An empty portion behind each."""
    return [part for portion in portions for part in (portion, b"")]


# ---- how it is cut


def beside(name, data, room=LEAST):
    """A sheet by H: cut in two at every place, then in equal portions."""
    every = dict(times=len(data) + 1, sheet=data)
    yield f"{name}, cut in two", Request("H", 0, room, **every)
    yield f"{name}, cut in two, empty portions between", Request("H", 1, room, **every)
    for size in (1, 16):
        yield f"{name}, in portions of {size}", Request("H", 0, room, size, c=size, sheet=data)
    yield f"{name}, byte by byte, empty portions between", Request("H", 255, room, 1, c=1, sheet=data)


def call_by_call(name, data):
    for place in range(len(data) + 1 if len(data) < 100 else 0):
        yield f"{name}, cut at {place}", told([data[:place], data[place:]])
    single = parts(data, 1)
    yield f"{name}, byte by byte", told(single)
    yield f"{name}, byte by byte, empty portions between", told(spaced(single))


def cuts():
    for path, data in samples():
        yield from beside(path.stem, data, MOST if path.stem == "bay" else LEAST)
    for name, text in SHORT:
        data = bytes.fromhex(text)
        yield f"{name}, cut in two", Request("H", 0, LEAST, times=len(data) + 1, sheet=data)
    for path, data in samples():
        if path.stem == "bay" or path.stem.startswith("refused"):
            yield from call_by_call(path.stem, data)


def other_lengths():
    """More bytes than L says, and an L that no sheet has: nothing is said of it before the end, and all are held."""
    sheets = {
        "the sample and a byte more": SAMPLE + b"\7",
        "the sample twice": SAMPLE * 2,
        "L is 0": bytes(2) + SAMPLE[2:],
        "L is 32,767": b"\x7f\xff" + SAMPLE[2:],
    }
    for name, data in sheets.items():
        yield from beside(name, data)
        for size in (1, 7):
            yield f"{name}, in portions of {size}, call by call", told(parts(data, size))


def turns():
    """No sheet, portions past the sheet's end, and all of it over and over."""
    yield "no bytes, no call", told([])
    yield "no bytes, an empty portion", told([b""])
    yield "no bytes, by H", Request("H", 1, LEAST, times=3)
    yield "the first portion past the end", Request("H", 0, LEAST, c=2**32 - 2, times=4, sheet=SAMPLE)
    yield "later portions past the end", Request("H", 0, LEAST, 2**32 - 1, c=1, sheet=SAMPLE)
    yield "an empty portion first, then byte by byte", Request("H", 0, LEAST, 1, sheet=SAMPLE)
    for often in (0, 1, 3):
        yield f"all of it {often} times", Request("H", 1, LEAST, 7, often, 5, sheet=SAMPLE)
    yield "all of it twice, refused", Request("H", 0, LEAST, 1, 2, sheet=WRONG[5])
    yield "one answer for several values", told([SAMPLE])._replace(c=7, times=3)


# ---- how long it is


def by_size(name, data, rooms):
    """A long sheet in portions of 1, 16 and 4,096 bytes, each in a room of its own."""
    for (size, spaces), room in zip(((1, 0), (16, 1), (4_096, 0)), rooms):
        yield f"{name}, in portions of {size}", Request("H", spaces, room, size, c=size, sheet=data)


def long_sheets():
    yield from by_size("16,386 bytes", LONG, (LEAST, MOST, LEAST + 1))
    yield "16,386 bytes, whole or nearly", Request("H", 0, LEAST, c=LEAST - 2, times=4, sheet=LONG)
    one = LONG + SURPLUS[:1]
    yield from by_size("16,387 bytes", one, (LEAST + 1, MOST, LEAST))
    yield "16,387 bytes, whole or nearly", Request("H", 0, MOST, c=LEAST - 1, times=4, sheet=one)
    more = LONG + SURPLUS[:17]
    for size, spaces in ((1, 1), (16, 0)):
        yield f"16,403 bytes, in portions of {size}", Request("H", spaces, MOST, size, c=size, sheet=more)
    yield "16,403 bytes, a portion ends at 16,386", Request("H", 1, MOST, 16, c=2, sheet=more)
    most = LONG + SURPLUS
    yield "20,480 bytes, in portions of 4,096", Request("H", 0, MOST, 4_096, c=4_096, sheet=most)
    yield "20,480 bytes, whole or nearly", Request("H", 0, MOST, c=MOST - 1, times=2, sheet=most)


def too_long_and_wrong():
    """Surplus bytes give 2, whatever else is wrong; so do 16,386 and 16,387 bytes that say otherwise."""
    for number, place, byte in ((3, 2, 2), (4, 3, 8), (5, 13, 0x23)):
        data = LONG[:place] + bytes([byte]) + LONG[place + 1 :]
        yield f"too long and {number}", Request("H", 0, MOST, c=LEAST, times=2, sheet=data + SURPLUS[:1])
    yield "16,387 bytes, L is 16385", Request("H", 0, MOST, c=LEAST, times=2, sheet=longest(16_385))
    yield "16,386 bytes, L is 16385", Request("H", 0, MOST, c=LEAST, sheet=longest(16_385)[:LEAST])


def long_calls():
    """The few whose written bytes are all shown: 16,386 of them each time."""
    rooms = (MOST, LEAST, 65_535, LEAST + 1, BARELY, 17_000)
    quarters = parts(LONG, 4_096)
    yield "16,386 bytes, rooms of many lengths, the last portion again", told([*quarters, quarters[-1]], rooms)
    seam = [LONG, b"", SURPLUS[:1], b"", SURPLUS[1:4]]
    yield "16,386 bytes, an empty portion, then surplus", told(seam, repeat(MOST), MOST)
    yield "16,387 bytes at once", told([LONG + SURPLUS[:1]])
    fifths = parts((LONG + SURPLUS)[:20_000], 4_000)
    yield "20,000 bytes, and a short room at the end", told(fifths, repeat(MOST), BARELY)


# where the seam at 16,386 lies, from 16,380 bytes held on: each list of portions by its lengths
SEAMS = ([], [0], [5], [6], [7], [6, 0], [6, 1], [6, 0, 1], [3, 9, 2], [0, 5, 0, 1, 0, 1, 0], [1] * 9, [300])
# what lies at the room's front: read up to 16,386 it is refused so, read less far with 2
HEADS = {3: bytes.fromhex("4000 02 00 0000 0000 00 00 00"), 4: bytes.fromhex("4000 01 00 0000 0000 00 00 00")}


def seams():
    """The last places below 16,386, and surplus bytes within a portion, at its seam and in one of their own."""
    for sizes in SEAMS:
        portions = [SURPLUS[9 * k : 9 * k + size] for k, size in enumerate(sizes)]
        for number, head in HEADS.items():
            for room in (LEAST, LEAST + 1, MOST):
                name = f"from 16,380 on portions of {sizes}, {number} otherwise, room {room}"
                yield name, told(portions, repeat(room), room, (16_380, 0), head)


# ---- which room is lent


def rooms():
    for room in (0, 1, BARELY, LEAST, LEAST + 1, MOST):
        yield f"the sample in room {room}", Request("H", 1, room, 16, times=60, sheet=SAMPLE)
        yield f"no bytes in room {room}", told([b""], [room], room)
        places = {"at the calls": (room, LEAST), "at the end": (LEAST, room), "everywhere": (room, room)}
        for where, (lent, end) in places.items():
            yield f"room {room} {where}", told(parts(SAMPLE, 16), repeat(lent), end)
    many = (LEAST, MOST, LEAST + 1, 17_000)
    yield "rooms of many lengths", told(parts(SAMPLE, 16), many, 18_000)
    yield "rooms of many lengths, falling", told(parts(SAMPLE, 16), many[::-1], LEAST)
    yield "more room than there is", told([SAMPLE], [65_535], MOST)


def short_at():
    """A short room at one call: its portion isn't taken; sent again, it is as if nothing had been."""
    quarters = parts(SAMPLE, 16)
    for room in (0, BARELY):
        for at in range(len(quarters)):
            lent = [LEAST] * at + [room] + [LEAST] * 4
            yield f"room {room} at call {at}", told(quarters, lent)
            again = quarters[: at + 1] + quarters[at:]
            yield f"room {room} at call {at}, sent again", told(again, lent)
            empty = quarters[:at] + [b""] + quarters[at:]
            yield f"room {room} at call {at}, an empty portion", told(empty, lent)
    yield "room short at every other call", told(spaced(parts(SAMPLE, 5)), [LEAST, BARELY] * 12)
    yield "room short five times, each sent again", told([SAMPLE] * 6, [0, 1, 58, BARELY, 16_384, LEAST])
    yield "a portion longer than its short room", told([SURPLUS[:600], SAMPLE], [512, LEAST])


def short_with_surplus():
    """14 goes before 2 at the end, and a call that refuses with it takes no surplus."""
    full, more = SURPLUS[:6], SURPLUS[6:9]
    state, lying = (16_380, 0), HEADS[4]
    for end in (BARELY, LEAST):
        yield f"surplus, the end in room {end}", told([full, more], None, end, state, lying)
        yield f"surplus in a short room, the end in room {end}", told([full, more], [LEAST, BARELY], end, state, lying)
        for at in range(3):
            lent = [BARELY if k == at else MOST for k in range(3)]
            name = f"surplus within, room short at call {at}, the end in room {end}"
            yield name, told([full[:3], full[3:] + more, more], lent, end, state, lying)


# ---- made-up states

# with what lies in the room: reading 16,386 bytes of it would give 4, cutting the number to 16 or 32 bits accept it
HELD = {held: HEADS[4] for held in (LEAST, LEAST + 1, MOST, MOST + 1, 2**32 - 1, 2**32, 2**63, 2**64 - 1)}
HELD |= {2**16 + 58: SAMPLE, 2**32 + 58: SAMPLE}


def too_much_held():
    for held, lying in HELD.items():
        for surplus in (0, 1):
            for name, portions in (("no call", []), ("an empty portion", [b""]), ("a portion", [b"abc"])):
                for room in (BARELY, LEAST, MOST):
                    title = f"{held} held, surplus {surplus}, {name}, room {room}"
                    yield title, told(portions, repeat(room), room, (held, surplus), lying)


def lying():
    """What lies in the room is the sheet as far as it is held; a portion is written over what lies behind that."""
    for held in (0, 57, 58, 59, 512):
        for surplus in (0, 1, 255):
            name = f"the sample lies there, {held} held, surplus {surplus}"
            yield name, told([], state=(held, surplus), lying=SAMPLE)
            yield f"{name}, its last byte comes", told([SAMPLE[57:]], state=(held, surplus), lying=SAMPLE[:57])
    for held in (0, 1, 16, 57):
        ground = SAMPLE[:held] + pattern(512)[held:]
        for room in (LEAST, MOST):
            name = f"{held} held, the rest written over, room {room}"
            yield name, told(parts(SAMPLE[held:], 20), repeat(room), room, (held, 0), ground)
        yield f"{held} held, the rest in a short room", told([SAMPLE[held:]], [BARELY], LEAST, (held, 0), ground)


def surplus_alone():
    """Surplus and nothing held: whatever comes, it stays 2."""
    come = {"nothing": [], "an empty portion": [b""], "the sample": [SAMPLE], "the sample in four": parts(SAMPLE, 16)}
    for name, portions in come.items():
        for room in (LEAST, BARELY):
            yield f"surplus and 0 held, {name}, the end in room {room}", told(portions, None, room, (0, 1))


# ---- refusals, alone and together


def refusals():
    for number, data in WRONG.items():
        halves = [data[:5], data[5:]]
        yield f"{number}", told(halves)
        yield f"{number} and 14 at the end", told(halves, end=BARELY)
        yield f"{number} and 14 at every call", told(halves, repeat(BARELY), BARELY)
        yield f"{number} and 14 at the last call, sent again", told([*halves, halves[1]], [LEAST, 0, LEAST])
        yield f"{number} and surplus", told(halves, state=(0, 1))
        yield f"{number}, surplus and 14", told(halves, end=BARELY, state=(0, 1))
        yield f"{number} in a short room, by H", Request("H", 0, BARELY, times=len(data), sheet=data)


def ask():
    groups = (
        cuts, other_lengths, turns, long_sheets, too_long_and_wrong, long_calls, seams,
        rooms, short_at, short_with_surplus, too_much_held, lying, surplus_alone, refusals,
    )
    for group in groups:
        yield from group()
