"""Requests to writing sheets: sheets that are read and written again, and data that is given by its fields."""

from ask_sheets import SHORT, limits, longest
from build import FIVE, SAMPLE, SAMPLE_DATA, coe, device, eeprom, managers, on_eeprom, pattern, sheet
from registers import Refused
from sheet import read_sheet
from stored import samples
from stream import Request

MOST = 20_480  # all that the probe lends
LONG = longest(16_384)[:16_386]
LAST = 2**64 - 1  # the largest count


def accepted(data):
    try:
        read_sheet(data)
    except Refused:
        return False
    return True


# ---- read and written again


def again(name, data, rooms):
    """A sheet in each room; one that isn't accepted only in the last."""
    for room in rooms if accepted(data) else rooms[-1:]:
        yield f"{name}, written again in room {room}", Request("w", room=room, sheet=data)


def stored_sheets():
    for path, data in samples():
        yield from again(path.stem, data, (0, len(data) - 1, len(data) + 17, len(data)))
    for name, text in SHORT:
        data = bytes.fromhex(text)
        yield from again(name, data, (len(data) - 1, len(data)))
    for name, data in limits():
        yield from again(name, data, (len(data) - 1, len(data)))
    yield from again("16,386 bytes", LONG, (MOST, len(LONG) - 1, len(LONG)))


# every control that has a name, with bit 7 clear and set
NAMED = [high + low for high in range(0, 256, 16) for low in (0, 2, 4, 6)]


def ignored_bits():
    """Every EEPROM enable byte, and every named control four times: what is ignored comes back as 0."""
    for first in range(0, 256, 16):
        rows = [(1_021 * k % 65_536, NAMED[(37 * k + k // 64) % 64], k, k % 5) for k in range(first, first + 16)]
        data = on_eeprom(rows=managers(*rows))
        yield f"EEPROM enable {first} to {first + 15}, written again", Request("w", room=len(data), sheet=data)


def often():
    for times in (0, 1, 3):
        yield f"the sample written {times} times", Request("w", a=times, room=60, sheet=SAMPLE)
        yield f"the sample written {times} times, refused", Request("w", a=times, room=57, sheet=SAMPLE)
        yield f"a sheet cut short, written {times} times", Request("w", a=times, room=60, sheet=SAMPLE[:-1])
    yield "one answer for several values, written again", Request("w", c=7, times=3, room=60, sheet=SAMPLE)


def read_refused():
    """A reading that is refused has nothing beside it, whatever the room."""
    wrong = {3: sheet(0, 0, 0, version=2), 4: sheet(8, 0, 0), 5: on_eeprom(rows=managers((0, 0x23, 0, 0)))}
    for number, data in ({2: SAMPLE[:57]} | wrong).items():
        for room in (0, MOST):
            yield f"reading gives {number}, room {room}", Request("w", room=room, sheet=data)


# ---- given by its fields


def told(lent=b"", room=64, **fields):
    """A request of v: the lent bytes, the room, and the record's fields."""
    return Request("v", room=room, sheet=lent, fmmus=device(**fields))


def by_fields(data):
    """The fields of a sheet that is accepted; its PDO records lie in it."""
    read = read_sheet(data)
    rows = [manager.row() for manager in read.managers]
    fields = dict(flags=read.flags, receive=read.receive, send=read.send, rows=rows, usages=read.usages)
    return fields | dict(pdos=11 + 5 * len(read.managers) + len(read.usages), p=len(read.pdos))


def sample_data():
    for room in (0, 57, 58, 59, MOST):
        yield f"the sample's data in room {room}", told(SAMPLE, room, **SAMPLE_DATA)
    for path, data in samples():
        if accepted(data) and len(data) < 100:
            yield f"{path.stem}, by its fields", told(data, len(data), **by_fields(data))
    for rest in (4, 255):
        name = f"the sample's data, {rest} in each place that doesn't count"
        yield name, told(SAMPLE, **SAMPLE_DATA, rest=rest)
    records = SAMPLE[38:]
    for before, behind in ((0, 0), (0, 1), (1, 0), (7, 9)):
        lent, fields = pattern(before) + records + b"\x55" * behind, SAMPLE_DATA | dict(pdos=before)
        yield f"the sample's PDOs, {before} bytes before them, {behind} behind", told(lent, **fields)
    yield "one answer for several values, by fields", told(SAMPLE, **SAMPLE_DATA)._replace(c=7, times=3)


def smallest():
    for room in (0, 1, 2, 10, 11, 12, MOST):
        yield f"no sync manager, usage or PDO, room {room}", told(room=room)


def flags_and_sizes():
    for flags in range(8):
        yield f"flags {flags}", told(flags=flags)
    for flag in range(3):
        for value in (2, 128, 255):
            record = bytearray(device())
            record[flag] = value
            yield f"flag {flag} is {value}", Request("v", room=11, fmmus=bytes(record))
    sizes = (0, 1, 0x1234, 65_535)
    for k, receive in enumerate(sizes):
        send = sizes[(k + 1) % 4]
        yield f"receive size {receive}, send size {send}", told(receive=receive, send=send)


def bytes_of_managers():
    """Every control byte that has names, with start addresses and enable bytes of many values; ask_unnamed.py has the others."""
    for first in range(0, 64, 16):
        rows = [(4_099 * k % 65_536, NAMED[k], (0, 1, 2, 128, 255)[k % 5], k // 3 % 5) for k in range(first, first + 16)]
        yield f"controls {NAMED[first]} to {NAMED[first + 15]}", told(room=91, rows=rows)


# ---- counts

# as they are: L above 16,384 gives 2, else a count above 16 gives 4; then those that a sum of 16, 32 or 64 bits takes for less
N = (0, 1, 16, 17, 255, 256, 3_275, 3_276, 4_000, 2**32, LAST)
N_CUT = (13_108, 65_536, 65_537, 858_993_460, 2**32 + 1, 3_689_348_814_741_910_324)
F = (0, 1, 16, 17, 255, 256, 4_000, 16_375, 16_376, 2**32, LAST)
F_CUT = (65_527, 65_536, 2**32 - 9, 2**32 + 1, 2**64 - 9, 2**64 - 8)
BOTH = (
    (16, 16), (16, 17), (17, 16), (17, 17), (3_272, 15), (3_272, 16), (3_271, 20), (3_271, 21),
    (1, LAST), (LAST, 1), (LAST, LAST), (2**63, 2**63), (2**32 - 1, 5), (3_689_348_814_741_910_323, 1),
)


def counts():
    for n in N + N_CUT:
        yield f"n is {n}", told(room=MOST, n=n)
    for f in F + F_CUT:
        yield f"f is {f}", told(room=MOST, f=f)
    for n, f in BOTH:
        yield f"n is {n} and f {f}", told(room=MOST, n=n, f=f)


def counts_and_pdos():
    """L by all three: records past the bytes have 5 each, and an m that stands there counts, whether its bytes do or not."""
    for n, f in ((3_020, 0), (3_020, 1), (3_021, 0)):
        yield f"n is {n}, f {f}, 255 PDOs and no bytes", told(room=MOST, n=n, f=f, p=255)
    head = coe(3, 0x1A00, *[1] * 255)[:5]
    for n, f in ((3_223, 0), (3_223, 1)):
        yield f"n is {n}, f {f}, a PDO of 255 lengths, its head alone", told(head, MOST, n=n, f=f, p=1)
    for n, f in ((3_274, 0), (3_274, 1)):
        yield f"n is {n}, f {f}, a PDO of 255 lengths, without its m", told(head[:4], MOST, n=n, f=f, p=1)
    two = coe(3, 0x1A00, 1, 2) + head
    for n, f in ((3_221, 3), (3_221, 4)):
        yield f"n is {n}, f {f}, a PDO and another's head", told(two, MOST, n=n, f=f, p=2)
    for pdos in (2**32 - 1, 2**64 - 4, LAST):
        for f in (0, 1):
            name = f"n is 3274, f {f}, a PDO at {pdos}, 255 in each lent byte"
            yield name, told(b"\xff" * 9, MOST, n=3_274, f=f, pdos=pdos, p=1)


def long_data():
    """63 PDOs of the most lengths: L of 16,384, then one more."""
    lent = b"".join(coe(k, 0x1A00 + k, *pattern(255)) for k in range(62))
    for last, rooms in ((250, (16_385,)), (251, (16_386, MOST))):
        for room in rooms:
            yield f"L is {16_134 + last} by PDOs, room {room}", told(lent + coe(62, 0x1A3E, *pattern(last)), room, p=63)


# ---- usages


def usages():
    """In the first place that counts, the last, and the first that doesn't."""
    for usage in (0, 1, 2, 3, 4, 5, 255):
        for place in (0, 2, 3):
            rows = [row[:3] + (usage,) if k == place else row for k, row in enumerate(FIVE)]
            yield f"usage {usage} in sync manager {place} of 3", told(rows=rows, n=3)
    for usage in (0, 1, 2, 3, 4, 255):
        for place in (0, 2, 3):
            row = [usage if k == place else k % 4 for k in range(5)]
            yield f"FMMU usage {usage} in place {place} of 3", told(usages=row, f=3)
    for value in (3, 4, 5):
        rows, last = [(k, 0, 1, 0) for k in range(15)] + [(15, 0, 1, value)], [0] * 15 + [value]
        yield f"usage {value} in the last sync manager", told(room=91, rows=rows)
        yield f"FMMU usage {value} in the last place", told(usages=last)
        yield f"usages {value} behind fifteen of each", told(room=MOST, rows=rows, usages=last, n=15, f=15)
    yield "no place counts and none has a name", told(rest=255)


# ---- PDO records

THREE = coe(3, 0x1A00, 12, 5) + eeprom(1, 4, 0x1A01, 0x0203) + coe(200, 0x1600)


def places():
    """Where the records stand; with none, nothing is looked at."""
    size = len(THREE)
    for pdos in (0, 7, 14, size - 1, size, size + 1, 2**32, 2**64 - 5, 2**64 - 4, LAST):
        for p in (0, 1):
            yield f"{p} PDOs from {pdos} on in {size} bytes", told(THREE, pdos=pdos, p=p)
    for p in (2, 3, 4, 255):
        yield f"{p} PDOs in {size} bytes", told(THREE, p=p)
    for pdos in (0, 1, LAST):
        for p in (0, 1):
            yield f"{p} PDOs from {pdos} on in no bytes", told(pdos=pdos, p=p)
    least = b"".join(coe(k, 0x1A00 + k) for k in range(256))
    for p in (254, 255):
        yield f"{p} PDOs", told(least[5:], MOST, p=p)
    yield "255 PDOs, a byte short", told(least[:-6], MOST, p=255)


def cut_short():
    records = {"CoE": coe(3, 0x1A00, 1, 2, 3), "EEPROM": eeprom(2, 3, 0x1A00, 0x0102)}
    for name, record in records.items():
        for size in range(len(record) + 1):
            yield f"a PDO by {name}, its first {size} bytes", told(record[:size], p=1)
            yield f"a PDO, then one by {name}, its first {size} bytes", told(coe(1, 2, 3) + record[:size], p=2)


def kinds():
    for kind in (0, 1, 2, 3, 255):
        for m in (0, 1, 2, 3):
            lent = bytes([kind, 3, 0x1A, 0, m, *range(1, m + 1)])
            yield f"kind {kind} with m {m}", told(lent, p=1)
            yield f"kind {kind} with m {m}, behind a PDO", told(coe(1, 2, 3) + lent, p=2)
    yield "kind 0 with m 255", told(coe(255, 65_535, *pattern(255)), 271, p=1)
    yield "kind 1 with m 255", told(b"\1" + coe(255, 65_535, *pattern(255))[1:], 271, p=1)
    yield "kind 3 behind the last PDO", told(THREE + b"\3\0\0\0\0", p=3)


# ---- refusals, alone and together

# each way to break a rule
FOURS = {
    "n is 17": dict(n=17),
    "f is 17": dict(f=17),
    "usage 5": dict(rows=[(0, 0, 0, 5)]),
    "FMMU usage 4": dict(usages=[4]),
    "a PDO past its bytes": dict(p=1),
    "kind 3": dict(lent=bytes([3, 0, 0, 0, 0]), p=1),
    "kind 1 with m 1": dict(lent=bytes([1, 0, 0, 0, 1, 8]), p=1),
}


def refusals():
    for name, wrong in FOURS.items():
        yield f"4, {name}", told(room=MOST, **wrong)
        yield f"4 and 12, {name}", told(room=0, **wrong)
        if "n" not in wrong:
            for room in (0, MOST):
                yield f"2 and 4, room {room}, {name}", told(room=room, **wrong | dict(n=4_000))
    for room in (0, 16_383, 16_385, 16_386, MOST):
        yield f"L is 16384 and 4, room {room}", told(room=room, f=16_375)
        yield f"L is 16385 and 4, room {room}", told(room=room, f=16_376)
    for (one, first), (other, second) in zip(FOURS.items(), list(FOURS.items())[1:]):
        yield f"4 twice, {one}, {other}", told(room=MOST, **first | second)


def ask():
    groups = (
        stored_sheets, ignored_bits, often, read_refused, sample_data, smallest, flags_and_sizes, bytes_of_managers,
        counts, counts_and_pdos, long_data, usages, places, cut_short, kinds, refusals,
    )
    for group in groups:
        yield from group()
