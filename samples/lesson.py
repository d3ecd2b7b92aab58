#!/usr/bin/env python3
"""What docs/TRAINING.md and docs/SHEET.md show by the program `probe`: asks it and prints its answers as a student reads them.

    python3 samples/lesson.py gap           a merged FMMU doesn't follow the second sync manager
    python3 samples/lesson.py both          inputs and outputs in one call, the outputs straight after or given; and refused calls
    python3 samples/lesson.py stale         a call on the registers of a cancelled job, keeping old entries and by default
    python3 samples/lesson.py in-the-way    the default on entries that it clears and on such that it doesn't
    python3 samples/lesson.py repair        a sync manager is added to a bay in service, keeping old entries and by default
    python3 samples/lesson.py group         a call in a group that doesn't begin at 0
    python3 samples/lesson.py exercise-6    the calls of docs/EXERCISES.md's exercise 6
    python3 samples/lesson.py exercise-7    that of exercise 7
    python3 samples/lesson.py exercise-10   those of exercise 10
    python3 samples/lesson.py exercise-11   the images and sheets of exercise 11
    python3 samples/lesson.py portions      the sheet of bay.hex in portions, one of them into too short a room
    python3 samples/lesson.py write         the sheet of bay.hex written from its data, and what writing again changes
    python3 samples/lesson.py pairs-chosen  which FMMU each sync manager of a bay has by a list of pairs
    python3 samples/lesson.py pairs         two inputs on one FMMU by a pair, end to end and with a gap
    python3 samples/lesson.py pairs-refused pairs that can't be planned by, and how to mend them
    python3 samples/lesson.py read-back     images read back and written again, with and without names, and what can't be written
    python3 samples/lesson.py refused       the smallest calls for the numbers that a sheet alone can't cause

The program is built first where that is needed, which takes minutes the first time.
"""

import subprocess
import sys
from pathlib import Path

ROOT = Path(__file__).resolve().parent.parent
sys.path.append(str(ROOT / "tests"))

from build import BOXES, FIVE, SAMPLE, SAMPLE_DATA, STALE, area, channel, coe, device, eeprom, entry, managers
from build import on_coe, on_eeprom, sheet
from portions import KEPT
from registers import LIMIT, Fmmu, Unnamed, segment_text
from stored import sample
from stream import AFTER_INPUTS, BY_PAIRS, FMMU_RECORD, KEEP, Request, packed

# ---- asking


def by_probe(named):
    """The lines that the program answers to each request; `named` holds a name and a request in turn."""
    data = b"".join(request.bytes() for _, request in named)
    ran = subprocess.run([ROOT / "plan", "--probe", "-"], input=data, stdout=subprocess.PIPE)
    if ran.returncode:
        sys.exit(ran.returncode)
    lines = ran.stdout.decode().splitlines()
    return [answer(request, lines) for _, request in named]


def answer(request, lines):
    """Takes a request's answer off the front: one line, or each that begins with an address."""
    taken = [lines.pop(0)]
    while request.times > 1 and lines and lines[0].partition(": ")[0].isdigit():
        taken.append(lines.pop(0))
    return taken


# ---- what a student reads


def address(word):
    return f"0x{int(word):04x}" if word.isdigit() else word


def both_ways(line):
    """An answer of the letter A."""
    at, _, words = line.partition(": ")
    if words == "same":
        return f"logical 0x{int(at):08x}: the same both ways"
    _, translated, counted = words.split()
    return f"logical 0x{int(at):08x}: {address(translated)} through the FMMU, {address(counted)} by counting"


def segments(line):
    """The segments of a call that was accepted."""
    numbers = [int(word) for word in line.split()[1:5]]
    return f"inputs {segment_text(*numbers[:2])}", f"outputs {segment_text(*numbers[2:])}"


def outcome(line):
    """The segments of a call, or its refusal."""
    return " ".join(line.split()[:2]) if line.startswith("refused") else ", ".join(segments(line))


def entry_text(e, line):
    """An answer of the letter R."""
    return f"FMMU{e}: " + Fmmu(*map(int, line.split())).text()


def fmmus_after(line):
    return bytes.fromhex(line.split()[-2])


def offsets_after(line):
    """Both lent offsets as the call left them."""
    inputs, outputs = (int(word) for word in line.split()[-4:-2])
    return f"0x{inputs:08x} for inputs, 0x{outputs:08x} for outputs"


def image(fmmus, e):
    """The sixteen bytes of an entry."""
    return fmmus[16 * e : 16 * e + 16]


# ---- the lessons: each asks, and yields lines


WAYS = {"keeping": KEEP, "by default": 0}


def call(fmmus=area(), how=0, **words):
    """Inputs and outputs in one call, the outputs straight after the inputs."""
    return Request("p", AFTER_INPUTS | how, fmmus=fmmus, channels=bytes(128), **words)


def given(outputs, **words):
    """The same with an output offset."""
    return call(c=outputs, **words)._replace(write=0)


def gap(ask):
    inputs = sample("gap")
    [[planned]] = ask([("gap: the call", call(sheet=inputs))])
    both = Request("A", times=7, sheet=inputs, fmmus=fmmus_after(planned))
    [lines] = ask([("gap: both ways", both)])
    yield from map(both_ways, lines)


def outcomes(ask, asked):
    """The segments of each call, or its refusal."""
    for (name, _), [line] in zip(asked, ask(asked)):
        yield f"{name}: {outcome(line)}"


def entries_on(ask, name, planned):
    """The segments of a call that is accepted, and each entry that isn't zero then."""
    [[line]] = ask([(f"{name}: the call", planned)])
    after = fmmus_after(line)
    written = [e for e in range(16) if any(image(after, e))]
    read = ask([(f"{name}: entry {e}", Request("R", fmmus=image(after, e))) for e in written])
    yield from segments(line)
    yield from (entry_text(e, text) for e, [text] in zip(written, read))
    return line


def both_ways_on(ask, name, planned, bay):
    """The same, and both ways for the inputs of a bay's sheet, counted from an offset."""
    line = yield from entries_on(ask, name, planned)
    offset, counted = bay
    both = Request("A", a=offset, times=planned.a + 7, sheet=counted, fmmus=fmmus_after(line))
    [lines] = ask([(f"{name}: both ways", both)])
    yield from map(both_ways, lines)


# the inputs of the last want an FMMU that they don't have, which is 7, and its outputs have 65,529 bits, which is 6
PLACED = {"straight after": call(a=0x10, sheet=SAMPLE), "outputs given at 0x40": given(0x40, a=0x10, sheet=SAMPLE)}
NOT_PLACED = {
    "outputs given at 0xffffffff": given(LIMIT, a=0x10, sheet=SAMPLE),
    "outputs given below the group's start": given(0x0F, a=0x10, b=0x10, sheet=SAMPLE),
    "straight after from 0xfffffffa": call(a=LIMIT - 5, sheet=SAMPLE),
    "7 in the inputs, 6 in the outputs": call(sheet=sample("both-refused-6")),
}


def both(ask):
    for name, planned in PLACED.items():
        yield f"{name}:"
        line = yield from entries_on(ask, name, planned)
        yield f"next offsets: {offsets_after(line)}"
    for (name, planned), [line] in zip(NOT_PLACED.items(), ask([*NOT_PLACED.items()])):
        *_, fmmus, channels = line.split()
        stayed = (fmmus, channels) == (planned.fmmus.hex(), planned.channels.hex())
        yield f"{name}: {outcome(line)}, {'nothing' if stayed else 'something'} written, offsets {offsets_after(line)}"


def on_registers(ask, before, offset):
    """bay.hex, from an offset, on an FMMU area that isn't fresh; and both ways up to where its inputs end."""
    for name, how in WAYS.items():
        yield f"{name}:"
        yield from both_ways_on(ask, name, call(before, how, a=offset, sheet=SAMPLE), (offset, SAMPLE))


def stale(ask):
    return on_registers(ask, STALE, 5)


OLD = [
    ("FMMU1 enabled with W", area(entry(0, 5, 0x1180, 2), first=1)),
    ("FMMU1 enabled with O", area(entry(0, 5, 0x1180, 0), first=1)),
    ("FMMU0 enabled with O", area(entry(0, 5, 0x1180, 0))),
    ("FMMU7 enabled with O", area(entry(0, 5, 0x1180, 0), first=7)),
    ("FMMU7 enabled with RW", area(entry(0, 5, 0x1180, 3), first=7)),
    ("FMMU1 disabled with RW", area(entry(0, 5, 0x1180, 3, on=0), first=1)),
]


def in_the_way(ask):
    return outcomes(ask, [(name, call(fmmus, a=5, sheet=SAMPLE)) for name, fmmus in OLD])


# a board of two bytes behind SM4 of bay.hex: a sheet that plans it alone, and one of the whole bay
BOARD = (0x1185, 0x20, 1, 4)
OF_NO_DIRECTION = [(start, control, 1, 0) for start, control, _, _ in FIVE[2:]]
BOARD_ALONE = on_coe(coe(5, 0x1A02, 16), rows=managers(*BOXES, *OF_NO_DIRECTION, BOARD))
WITH_BOARD = on_coe(coe(3, 0x1A00, 17), coe(4, 0x1A01, 9), coe(5, 0x1A02, 16), rows=managers(*FIVE, BOARD))


def repair(ask):
    yield "in service:"
    line = yield from entries_on(ask, "repair: the bay in service", given(0x10, sheet=SAMPLE))
    for name, how in WAYS.items():
        yield f"{name}:"
        board = call(fmmus_after(line), how, a=5, sheet=BOARD_ALONE)
        yield from both_ways_on(ask, name, board, (0, WITH_BOARD))


def group(ask):
    return entries_on(ask, "group 0x100", call(a=0x105, b=0x100, sheet=SAMPLE))


def exercise_6(ask):
    yield from on_registers(ask, area(entry(2, 3, 0x1180), first=1), 0x10)
    left = {"W": 2, "O": 0}
    asked = [(f"by default, left with {letter}", area(entry(2, 3, 0x1180, rights), first=1)) for letter, rights in left.items()]
    yield from outcomes(ask, [(name, call(fmmus, a=0x10, sheet=SAMPLE)) for name, fmmus in asked])


def exercise_7(ask):
    return entries_on(ask, "group 0x200", call(a=0x20C, b=0x200, sheet=SAMPLE))


# bytes of a portion, and of the room lent for it: the second call is refused, and its portion sent again
SENT = [(20, KEPT), (20, KEPT - 1), (20, KEPT), (18, KEPT)]


def sent():
    """The calls: each room's length, each portion's, and the portion."""
    at, calls = 0, b""
    for size, room in SENT:
        calls += packed([room, size], [2, 2]) + SAMPLE[at : at + size]
        at += size if room >= KEPT else 0
    return calls


def portions(ask):
    [[line]] = ask([("portions: the sheet of bay.hex", Request("t", room=KEPT, sheet=sent()))])
    words = line.split()
    for (size, room), word in zip(SENT, words):
        answer, held, _ = word.split("/")
        said = "taken" if answer == "ok" else f"refused {answer[1:]}"
        yield f"{size} bytes into room of {room:,}: {said}, {held} held"
    managers, usages, pdos = (words.index(name) for name in ("managers", "usages", "pdos"))
    yield f"the end: {usages - managers - 1} sync managers, {pdos - usages - 1} FMMU usages, {words[pdos + 1]} PDOs"


# one sync manager, with bits set that a sheet ignores: its control and its EEPROM enable are bytes 13 and 14
IGNORED = sheet(0, 0, 0, managers((0x1000, 0xA6, 0xFF, 1)))
SEVENTEEN = device(**SAMPLE_DATA | dict(n=17))


def said(line):
    """An answer of the letters w and v, without the bytes: the length, or the number."""
    words = line.split()
    return f"refused {words[1]}" if words[0] == "refused" else f"{words[0]} bytes"


def in_sheet(line):
    return bytes.fromhex(line.split()[1])


def write(ask):
    asked = [
        ("write: bay.hex, room a byte short", Request("w", room=len(SAMPLE) - 1, sheet=SAMPLE)),
        ("write: bay.hex", Request("w", room=len(SAMPLE), sheet=SAMPLE)),
        ("write: bits that are ignored", Request("w", room=len(IGNORED), sheet=IGNORED)),
        ("write: n raised to 17", Request("v", room=KEPT, sheet=SAMPLE, fmmus=SEVENTEEN)),
    ]
    [[short], [exact], [ignored], [raised]] = ask(asked)
    yield f"bay.hex into room of {len(SAMPLE) - 1}: {said(short)}"
    yield f"bay.hex into room of {len(SAMPLE)}: {said(exact)}, {'all' if in_sheet(exact) == SAMPLE else 'not all'} as they were"
    yield f"control and EEPROM enable: {IGNORED[13:15].hex(' ')} before, {in_sheet(ignored)[13:15].hex(' ')} after"
    yield f"bay.hex with n raised to 17: {said(raised)}"


# ---- pairs: each an FMMU's number and a sync manager's


def listed(lent):
    return bytes(number for pair in lent for number in pair)


def in_words(lent):
    return ", ".join(f"FMMU{fmmu} for SM{manager}" for fmmu, manager in lent)


def by_pairs(lent, data):
    """A call on fresh registers, which stand behind the pairs."""
    return call(listed(lent) + area(), BY_PAIRS, room=len(lent), sheet=data)


def with_start(data, manager, start):
    """A sheet in which a sync manager starts elsewhere: a record has five bytes, and the first stands behind eleven."""
    at = 11 + 5 * manager
    return data[:at] + packed([start], [2]) + data[at + 2 :]


def with_pdo(data, pdo):
    """A sheet with one PDO more, which L and p count."""
    length = packed([len(data) - 2 + len(pdo)], [2])
    return length + data[2:10] + bytes([data[10] + 1]) + data[11:] + pdo


LISTS = [[(1, 2)], [(2, 1)], [(5, 2)], [(2, 5)], [(5, 2), (1, 2)]]


def pairs_chosen(ask):
    """As the lists are written, and what they give to a bay of three sync managers."""
    asked = [(f"the list {in_words(lent)}", Request("M", BY_PAIRS, len(lent), fmmus=listed(lent))) for lent in LISTS]
    for lent, [line] in zip(LISTS, ask(asked)):
        written = ", ".join(f"{fmmu} {manager}" for fmmu, manager in lent)
        given = ", ".join(f"SM{manager} on FMMU{fmmu}" for manager, fmmu in enumerate(line.split()[:3]))
        yield f"{written}: {given}"


GAP = sample("gap-eeprom")
CLOSED = with_start(GAP, 2, 0x1183)
TO_SHARE, TO_MOVE = [(1, 2)], [(5, 2)]
PLANNED = [
    ("by own numbers, SM2 at 0x1183", call(sheet=CLOSED)),
    (f"{in_words(TO_SHARE)}, SM2 at 0x1183", by_pairs(TO_SHARE, CLOSED)),
    (f"{in_words(TO_SHARE)}, SM2 at 0x1190", by_pairs(TO_SHARE, GAP)),
    (f"{in_words(TO_MOVE)}, SM2 at 0x1190", by_pairs(TO_MOVE, GAP)),
]


def pairs(ask):
    for name, planned in PLANNED:
        yield f"{name}:"
        yield from both_ways_on(ask, name, planned, (0, planned.sheet))


# a third input behind the two: SM3, a byte at 0x1185
THIRD = on_eeprom(
    eeprom(1, 1, 0x1A00, 17),
    eeprom(1, 2, 0x1A01, 9),
    eeprom(1, 3, 0x1A02, 8),
    eeprom(2, 0, 0x1600, 16),
    rows=managers((0x1100, 0x64, 1, 3), (0x1180, 0x20, 1, 4), (0x1183, 0x20, 1, 4), (0x1185, 0x20, 1, 4)),
)
TRIED = [[(16, 2)], [(1, 16)], [(0, 1)], [(0, 1), (1, 0)], [(1, 3)], [(1, 2), (1, 3)]]


def pairs_refused(ask):
    return outcomes(ask, [(in_words(lent), by_pairs(lent, THIRD)) for lent in TRIED])


# eeprom.hex, the same with SM5 elsewhere, and with bits for SM4
EMPTY_BETWEEN = sample("eeprom")
NEARER = with_start(EMPTY_BETWEEN, 5, 0x1202)
FILLED = with_pdo(EMPTY_BETWEEN, eeprom(1, 4, 0x1A02, 8))
SHARED = [(3, 5)]


def exercise_10(ask):
    for name, data in ((in_words(SHARED), EMPTY_BETWEEN), (f"{in_words(SHARED)}, SM5 at 0x1202", NEARER)):
        yield f"{name}:"
        yield from both_ways_on(ask, name, by_pairs(SHARED, data), (0, data))
    tried = [
        ("", [(2, 5)], EMPTY_BETWEEN),
        (", SM4 of 8 bits", SHARED, FILLED),
        (", SM4 of 8 bits", [(3, 4), *SHARED], FILLED),
    ]
    yield from outcomes(ask, [(in_words(lent) + told, by_pairs(lent, data)) for told, lent, data in tried])


# ---- reading back: a sync manager's image holds start, length, control, status and enable


def record_of(line):
    """An answer of the letter Q as a record of y and Z, whose last two bytes mark a mode and a direction without a name."""
    start, length, mode, direction, *rest = map(int, line.split())
    return packed([start, length], [2, 2]) + bytes([mode, direction, *rest, mode not in (0, 2), direction not in (0, 1)])


def read_again(ask, images):
    """Of each image the text of what is read, and the image that is written of it."""
    read = ask([(f"the image {data.hex(' ')}", Request("Q", channels=data)) for data in images])
    records = [(f"the record of {data.hex(' ')}", record_of(line)) for data, [line] in zip(images, read)]
    texts = ask([(name, Request("y", room=96, channels=record)) for name, record in records])
    written = ask([(name, Request("Z", room=8, channels=record)) for name, record in records])
    for [text], [line] in zip(texts, written):
        length, _, room = text.partition(" ")
        yield room[1 : 1 + int(length)], bytes.fromhex(line.split()[1])


def sheets_read(ask, asked):
    """Whether each sheet is accepted."""
    for (name, _), [line] in zip(asked, ask([(name, Request("d", sheet=data)) for name, data in asked])):
        yield f"{name}: {line if line.startswith('refused') else 'accepted'}"


# the input SM3 of bay.hex with other control bytes, which stand at 4; in the sheet that of SM3 stands at 28
CONTROLS = [0x20, 0x23, 0x29, 0xA3]
HELD = [bytes([0x80, 0x11, 3, 0, control, 0, 1, 0]) for control in CONTROLS]
COPIED = SAMPLE[:28] + b"\x23" + SAMPLE[29:]


def read_back(ask):
    for control, (text, written) in zip(CONTROLS, read_again(ask, HELD)):
        yield f"control {control:02x}: {text}; written again {written[4]:02x}"
    yield from outcomes(ask, [("mode unnamed 2, made up and written", Request("Z", room=8, channels=channel(Unnamed(2), 0)))])
    yield from sheets_read(ask, [("bay.hex with control 23 for SM3", COPIED)])


IMAGES = [bytes.fromhex(text) for text in ("0010400026000100", "001102006c000100", "80110100b1000000")]


def exercise_11(ask):
    for text, written in read_again(ask, IMAGES):
        yield f"{text}; written again {written.hex(' ')}"
    rows = {f"a sheet with control {data[4]:02x}": (0x1100, data[4], 1, 0) for data in IMAGES}
    yield from sheets_read(ask, [(name, sheet(0, 0, 0, managers(row))) for name, row in rows.items()])


# ---- refusals


# sync managers of one bit each: an input, an input and an output, three inputs
BIT_IN, BIT_OUT = (0x1180, 0x20, 1, 4), (0x1100, 0x64, 1, 3)
ONE_BIT = on_eeprom(eeprom(1, 0, 0x1A00, 1), rows=managers(BIT_IN))
BIT_EACH = on_eeprom(eeprom(1, 0, 0x1A00, 1), eeprom(2, 1, 0x1600, 1), rows=managers(BIT_IN, BIT_OUT))
THREE_BITS = on_eeprom(*[eeprom(1, k, 0x1A00 + k, 1) for k in range(3)], rows=managers(*[BIT_IN] * 3))
NO_PARTS = sheet(0, 0, 0)
FULL, BOTH_BITS, NEITHER_BIT = (area(entry(0, length, 0, rights)) for length, rights in ((65_535, 1), (0, 3), (0, 0)))
MODE_0 = device(rows=[(0, 0, 0, 0)], numbers={0: (0, None)})
START_BIT_8 = packed([0, 0, 8, 0, 0, 0, 0, 0, 0], FMMU_RECORD)
CALLS = [
    ("Fmmu::unpack_from_slice of no bytes", Request("R")),
    ("a call for nothing on an FMMU area of 255 bytes", call(bytes(255), sheet=NO_PARTS)),
    ("writer::write of data whose f is 16,376", Request("v", room=KEPT, fmmus=device(f=16_376))),
    ("writer::write of data with a PDO and no lent bytes", Request("v", room=KEPT, fmmus=device(p=1))),
    ("writer::write of data with mode unnamed 0", Request("v", room=KEPT, fmmus=MODE_0)),
    ("a call for 1 bit on an enabled entry of 65,535 bytes, keeping", call(FULL, KEEP, sheet=ONE_BIT)),
    ("PdiOffset::increment by 1 byte from offset 0xffffffff", Request("i", a=LIMIT, c=1)),
    ("a call for 1 bit from offset 0xffffffff", call(a=LIMIT, sheet=ONE_BIT)),
    ("PdiSegment::less of 0 up to 0, group start 1", Request("g", c=1)),
    ("a call for nothing from offset 0, group start 1", call(b=1, sheet=NO_PARTS)),
    ("a call for nothing, inputs from 1 and outputs from 0, group start 1", given(0, a=1, b=1, sheet=NO_PARTS)),
    ("translate with an enabled input entry of bits 0 to 0", Request("T", fmmus=area(entry(0, 0, 0, bits=(0, 0, 0))))),
    ("PdiSegment::fmt of (empty) into room of 6 bytes", Request("s", room=6)),
    ("writer::write of data with no parts into room of 10 bytes", Request("v", room=10, fmmus=device())),
    ("Fmmu::pack_to_slice of a record with start bit 8", Request("W", room=16, fmmus=START_BIT_8)),
    ("SyncManagerChannel::pack_to_slice of a record with mode unnamed 0", Request("Z", room=8, channels=channel(Unnamed(0), 0))),
    ("portions::end with room of 16,385 bytes", Request("t", room=KEPT - 1)),
    ("a call for nothing beside an enabled entry with both bits", call(BOTH_BITS, sheet=NO_PARTS)),
    ("a call for 1 bit on an enabled entry with neither bit", call(NEITHER_BIT, sheet=ONE_BIT)),
    ("a call for nothing by a pair with the number 16", by_pairs([(16, 0)], NO_PARTS)),
    ("a call by a pair that gives an output the entry of an input", by_pairs([(0, 1)], BIT_EACH)),
    ("a call by a pair that gives the third input the entry of the first", by_pairs([(0, 2)], THREE_BITS)),
]


def refused(ask):
    for (name, _), [line] in zip(CALLS, ask(CALLS)):
        yield f"{name}: {' '.join(line.split()[:2])}"


LESSONS = {
    "gap": gap,
    "both": both,
    "stale": stale,
    "in-the-way": in_the_way,
    "repair": repair,
    "group": group,
    "exercise-6": exercise_6,
    "exercise-7": exercise_7,
    "exercise-10": exercise_10,
    "exercise-11": exercise_11,
    "portions": portions,
    "write": write,
    "pairs-chosen": pairs_chosen,
    "pairs": pairs,
    "pairs-refused": pairs_refused,
    "read-back": read_back,
    "refused": refused,
}


def main():
    if len(sys.argv) != 2 or sys.argv[1] not in LESSONS:
        print("lesson: which one? " + ", ".join(LESSONS), file=sys.stderr)
        return 2
    for line in LESSONS[sys.argv[1]](by_probe):
        print(line)
    return 0


if __name__ == "__main__":
    sys.exit(main())
