#!/usr/bin/env python3
"""Holds the model and the program `probe` to what docs/PROBE.md says of bad requests, limits, repetitions and refusals.

    python3 tests/bad.py            the page's numbers, the model and the program
    python3 tests/bad.py --model    without the program, which has to be built

A bad request ends the run, so crates/probe/stdin holds only one of them. Here each stands behind a good one, which is
answered, and before another, which isn't. The limits are read from the page: at each the probe answers, one past it it
doesn't.
"""

import io
import re
import subprocess
import sys
from collections import Counter
from pathlib import Path

import model
from ask_sheets import longest as longest_sheet
from build import MARK, SAMPLE, SAMPLE_DATA, area, category, coe, device, eeprom, entry, managers, on_coe, on_eeprom
from build import pdo_record, tx_category
from portions import KEPT
from stream import AFTER_INPUTS, BY_PAIRS, KEEP, BadRequest, Request, requests

ROOT = Path(__file__).resolve().parent.parent
PAGE = (ROOT / "docs" / "PROBE.md").read_text()
LAST = 4_294_967_295
GOOD, ANSWER = Request("r", c=17).bytes(), ["3"]  # 17 bits are 3 bytes
BAD = [*ANSWER, "bad request"]


def number(pattern):
    """The one number that the page gives at a place."""
    found = re.findall(pattern, PAGE, re.M)
    if len(found) != 1:
        sys.exit(f"docs/PROBE.md says {len(found)} times: {pattern}")
    return int(found[0].replace(",", ""))


def most(at):
    """The limit that the head's table states for the number at a place."""
    return number(rf"^\| {at}-\d+ \|.* at most ([\d,]+)")


ROOM, SHEET, TABLE, FMMUS, CHANNELS = (most(at) for at in (2, 20, 22, 24, 26))
FMMU_RECORD = number(r"^An FMMU record is (\d+) bytes")
CHANNEL_RECORD = number(r"^A sync manager record is (\d+) bytes")
CHANNEL_NUMBERED = number(r"^A sync manager record is \d+ bytes, or (\d+)")
DEVICE_RECORD = number(r"^A device record is (\d+) bytes")
DEVICE_NUMBERED = number(r"^A device record is \d+ bytes, or (\d+)")
# the part in which a letter's record stands, and how long it may be
RECORDS = {letter: ("fmmus", (FMMU_RECORD,)) for letter in "fW"}
RECORDS |= {letter: ("channels", (CHANNEL_RECORD, CHANNEL_NUMBERED)) for letter in "yZV"}
RECORDS["v"] = "fmmus", (DEVICE_RECORD, DEVICE_NUMBERED)


def between(name, request, *lines):
    """A request that is answered, between two others."""
    return name, GOOD + request.bytes() + GOOD, [*ANSWER, *lines, *ANSWER]


def refused(name, stream):
    """A stream behind a good request, whose first request is bad."""
    return name, GOOD + stream, BAD


def cut_short():
    for size in (1, 27):
        yield refused(f"a head of {size} bytes", GOOD[:size])
    whole = Request("p", sheet=SAMPLE, table=[(1, 2)], fmmus=bytes(256), channels=bytes(128)).bytes()
    for missing in (1, 129, 385, 388, 445):
        yield refused(f"{missing} bytes missing", whole[:-missing])
    yield refused("the longest request, one byte missing", longest("R").bytes()[:-1])
    yield "no request", b"", []


def longest(letter):
    parts = {"sheet": bytes(SHEET), "table": [(0, 0)] * TABLE, "fmmus": bytes(FMMUS), "channels": bytes(CHANNELS)}
    return Request(letter, room=ROOM, **parts)


def zeros(letter):
    """A record of zeros, where the entry point takes one."""
    part, sizes = RECORDS.get(letter, ("fmmus", (0,)))
    return {part: bytes(sizes[0])}


def parts():
    """Each limit: at it, for an entry point that takes the part; one past it, also where the part isn't taken."""
    last = [(0, 0)] * (TABLE - 1) + [(0x1A00, 2)]
    counted = Request("C", c=5, sheet=SAMPLE)  # 34 bits are 5 bytes, so that byte 5 is the next sync manager's first
    yield between("the most room", Request("s", room=ROOM), f"7 |(empty){'~' * (ROOM - 7)}|")
    for letter in "WZ":
        image = Request(letter, room=ROOM, **zeros(letter))
        yield between(f"the most room for an image, {letter}", image, f"refused 1 {'ff' * ROOM}")
    yield between("the longest sheet", Request("d", sheet=bytes(SHEET)), "refused 2")
    yield between("the last record of a table counts", counted._replace(table=last), "4 0 4483")
    yield between("the longest FMMU part", Request("T", fmmus=bytes(FMMUS)), "refused 1")
    yield between("the longest channel part", Request("Q", channels=bytes(CHANNELS)), "refused 1")
    yield between("all at their most", longest("R"), "refused 1")
    past = {"room": ROOM + 1, "sheet": bytes(SHEET + 1), "fmmus": bytes(FMMUS + 1), "channels": bytes(CHANNELS + 1)}
    past["table"] = last[:1] + last
    for letter in "spMBrtHwvDEz":
        for part, value in past.items():
            yield refused(f"{letter}, {part} past its limit", Request(letter, **zeros(letter) | {part: value}).bytes() + GOOD)


def records():
    for letter, (part, sizes) in RECORDS.items():
        near = {size + more for size in sizes for more in (-1, 1)}
        for wrong in sorted(near.union((0, FMMUS)).difference(sizes)):
            yield refused(f"{letter}, a record of {wrong}", Request(letter, **{part: bytes(wrong)}).bytes() + GOOD)
    yield between("a channel of ones", Request("Z", room=8, channels=b"\xff" * CHANNEL_RECORD), "ok ffffffff76fbc303")
    numbered = Request("Z", room=8, channels=b"\xff" * CHANNEL_NUMBERED)
    yield between("a channel of ones, numbered", numbered, f"refused 13 {'ff' * 8}")
    text = "start 0xffff, size 0xffff (65535), direction unnamed 255, mode unnamed 255, enabled"
    yield between("a text of ones, numbered", numbered._replace(letter="y", room=len(text)), f"{len(text)} |{text}|")
    yield between("a channel of ones by value, numbered", numbered._replace(letter="V"), "ffffffff7ffbc303")
    yield between("a channel of zeros, numbered", Request("Z", room=8, channels=bytes(CHANNEL_NUMBERED)), f"ok {'00' * 8}")
    yield between("an entry of ones", Request("W", room=16, fmmus=b"\xff" * FMMU_RECORD), f"refused 13 {'ff' * 16}")
    yield between("no room for a text", Request("f", fmmus=bytes(FMMU_RECORD)), "refused 12 ||")
    yield between("no room for an image", Request("Z", channels=bytes(CHANNEL_RECORD)), "refused 1 -")


def repetitions():
    for times in (0, 1):
        yield between(f"times {times}", Request("i", c=5, times=times), "5")
    yield between("times 2", Request("i", c=5, times=2), "5: 5", "6: 6")
    rising = [f"{LAST - 2 + k}: {65_533 + k}" for k in range(3)]
    yield between("times at its most", Request("i", c=LAST - 2, times=LAST), *rising)
    yield between("one value past the last", Request("i", c=LAST - 2, times=4), *rising)
    yield between("only the last value", Request("i", c=LAST, times=2), rising[-1])
    program = model.one_answer(Request("L", sheet=SAMPLE)).split("\n")
    yield between("lockerplan under times", Request("L", c=7, times=3, sheet=SAMPLE), "7: " + program[0], *program[1:])
    yield between("again under times", Request("B", a=1, c=7, times=3, sheet=SAMPLE), "7: 0 5 5 7")
    call = Request("p", a=3, c=7, times=3, sheet=SAMPLE, fmmus=bytes(256), channels=bytes(128))
    yield between("a call under times is made once", call, f"7: {model.one_answer(call)}")
    last = f"{LAST}: refused 9 3 {LAST} {'00' * 256} {'00' * 128}"
    yield between("a call under times, at the last value", call._replace(c=LAST), last)
    yield between("no such letter under times", Request("z", c=7, times=3, sheet=SAMPLE), "7: no such entry point")


def refusals():
    """What follows a refusal, and where the directions of a plan start."""
    bits = area(entry(0, 1, 0, bits=(1, 7, 0)))
    yield between("translate refuses", Request("T", fmmus=bits), "refused 11")
    yield between("count refuses", Request("C", sheet=SAMPLE[:-1], table=[(1, 2)]), "refused 2")
    yield between("both sides refuse", Request("A", sheet=SAMPLE[:-1], fmmus=bits), "differ r11 r2")
    yield between("a plan of no turns", Request("B", sheet=SAMPLE), "none")
    yield between("the outputs begin where the inputs end", Request("B", a=2, sheet=SAMPLE), "0 5 5 7")
    wide = [coe(2, 0x1600 + k, *[255] * 255) for k in range(2)]
    yield between("only the outputs are refused", Request("B", a=2, sheet=on_coe(*wide)), "refused 6")
    seven = on_coe(coe(3, 0x1A00, 1), *wide, usages=(1,))
    yield between("6 in the outputs comes before 7 in the inputs", Request("B", a=2, sheet=seven), "refused 6")
    yield between("lockerplan refuses", Request("L", sheet=seven), "refused 6")
    yield between("any other direction", Request("C", write=255, sheet=SAMPLE), "2 0 4352")
    used = dict(sheet=SAMPLE[:-1], a=7, c=9, fmmus=area(entry(0, 1, 0)), channels=bytes(128))
    for how in range(8):
        as_it_came = f"refused 2 7 9 {used['fmmus'].hex()} {used['channels'].hex()}"
        yield between(f"a call refuses, byte 1 is {how}", Request("p", how, **used), as_it_came)
    for letter in "KP":
        yield between(f"no single pass, {letter}", Request(letter, **used), "no such entry point")
    strange = Request("z", room=1, sheet=SAMPLE, table=[(1, 2)], fmmus=bytes(3), channels=bytes(5))
    yield between("no such letter, with parts", strange, "no such entry point")


# calls of t, all but the first cut short, with their answers; a room of 0x4002 bytes is enough, one of 0x4001 isn't
CUT_CALLS = {
    "4002 0000": "ok/0/0 refused 2 -",
    "40": "r14/0/0 refused 2 -",
    "41": "ok/0/0 refused 2 -",
    "4002": "ok/0/0 refused 2 -",
    "4002 01": "ok/0/0 refused 2 -",
    "4002 0003": "ok/0/0 refused 2 -",
    "4002 0003 0102": "ok/2/0 refused 2 0 0102",
    "4002 0001 01 40": "ok/1/0 r14/1/0 refused 2 0 01",
    "4002 0001 01 4001 0001": "ok/1/0 r14/1/0 refused 2 0 01",
}


def calls():
    """Calls of t that are cut short, and its numbers at their most."""
    for text, line in CUT_CALLS.items():
        yield between(f"the calls {text}", Request("t", room=KEPT, sheet=bytes.fromhex(text)), line)
    yield between("no call and no room", Request("t"), "refused 14 -")
    one = bytes.fromhex("ffff 0001 07")
    yield between("a call's room at its most", Request("t", room=ROOM, sheet=one), "ok/1/0 refused 2 0 07")
    many = "r14/0/0 " * (SHEET // 4)  # all of them in no room, with no byte
    yield between("the most calls", Request("t", room=ROOM, sheet=bytes(SHEET)), many + "refused 2 -")
    whole = bytes.fromhex("4002 ffff").ljust(SHEET, b"\7")
    yield between("the longest portion", Request("t", room=KEPT, sheet=whole), f"ok/{KEPT}/1 refused 2 0 {'07' * KEPT}")
    behind = Request("t", b=FMMUS, room=KEPT, sheet=one, fmmus=bytes(FMMUS))
    yield between("a byte behind the longest FMMU part", behind, f"ok/{FMMUS + 1}/0 refused 2 {FMMUS} 07")
    made_up = Request("t", 255, KEPT, 1, 2, sheet=one)
    yield between("both halves of held", made_up, "ok/4294967298/1 refused 2 -")
    yield between("held at its most", made_up._replace(a=LAST, b=LAST), f"ok/{2**64 - 1}/1 refused 2 -")
    yield between("calls under times", Request("t", c=7, times=3, room=KEPT, sheet=one), "7: ok/1/0 refused 2 0 07")


def in_portions():
    """The numbers of H at their limits and past the sheet's end."""
    asked, accepted = Request("H", 1, ROOM, 1, c=1, sheet=SAMPLE), "same ok 58/0 0"
    for part, value in (("a", 0), ("a", LAST), ("b", 0), ("b", 3), ("c", 0), ("c", 58), ("c", 59), ("c", LAST)):
        yield between(f"in portions, {part} is {value}", asked._replace(**{part: value}), accepted)
    yield between("cut at every place", asked._replace(c=0, times=60), f"0: {accepted}")
    yield between("cut past the last value", asked._replace(c=LAST - 1, times=4), f"{LAST - 1}: {accepted}")
    for room, line in ((0, "differ r14 0/0 0"), (KEPT - 1, "differ r14 0/0 0"), (KEPT, accepted)):
        yield between(f"in portions, room {room}", asked._replace(room=room), line)
    yield between("no sheet in portions", asked._replace(sheet=b""), "same r2 0/0 0")
    yield between("the longest sheet in portions", asked._replace(sheet=bytes(SHEET)), f"same r2 {KEPT}/1 0")


SMALLEST = "11 0009010000000000000000 0"  # how a sheet with no parts is answered


def written_again():
    """The sheet and the room of w at their most, and its numbers; behind a reading that refuses nothing follows."""
    asked, whole = Request("w", room=ROOM, sheet=SAMPLE), longest_sheet(KEPT - 2)[:KEPT]
    accepted = f"58 {SAMPLE.hex()} 0"
    for times in (0, 1, 3):
        yield between(f"written {times} times", asked._replace(a=times), accepted)
    yield between("written again, any direction and b", asked._replace(write=255, b=LAST), accepted)
    yield between("written again under times", asked._replace(c=7, times=3), f"7: {accepted}")
    for room, line in ((0, "refused 12 0"), (57, "refused 12 0"), (58, accepted)):
        yield between(f"written again, room {room}", asked._replace(room=room), line)
    yield between("the longest sheet written again", asked._replace(sheet=whole, room=KEPT - 1), "refused 12 0")
    yield between("more than the longest written again", asked._replace(sheet=bytes(SHEET)), "refused 2")
    yield between("no sheet written again", asked._replace(sheet=b"", room=0), "refused 2")


def by_fields():
    """The record and the lent bytes of v at their most."""
    ones, none = Request("v", room=ROOM, fmmus=b"\xff" * DEVICE_RECORD), Request("v", room=ROOM, **zeros("v"))
    yield between("a device of ones", ones, "refused 2 0")
    yield between("a device of zeros", none, SMALLEST)
    yield between("a device of ones, numbered", ones._replace(fmmus=b"\xff" * DEVICE_NUMBERED), "refused 2 0")
    yield between("a device of zeros, numbered", none._replace(fmmus=bytes(DEVICE_NUMBERED)), SMALLEST)
    one = Request("v", room=ROOM, fmmus=device(rows=[(0, 0, 0, 0)], numbers={0: (None, 255)}))
    yield between("a device with an unnamed direction", one, "refused 5 0")
    yield between("no room for a device", none._replace(room=0), "refused 12 0")
    last = Request("v", room=16, sheet=bytes(SHEET), fmmus=device(pdos=SHEET - 5, p=1))
    yield between("a PDO at the end of the longest lent bytes", last, "16 000e0100000000000000010000000000 0")
    behind = last._replace(fmmus=device(pdos=SHEET - 4, p=1))
    yield between("a PDO past the end of the longest lent bytes", behind, "refused 4 0")
    sample = Request("v", 255, ROOM, LAST, LAST, 7, 3, SAMPLE, fmmus=device(**SAMPLE_DATA))
    yield between("by fields under times", sample, f"7: 58 {SAMPLE.hex()} 0")


def of_dumps():
    """The dump, the room and the numbers of D and E at their most; byte 1 isn't a direction."""
    asked, whole = Request("D", 7, ROOM, b=LAST, sheet=MARK), category(42, bytes(SHEET - 6)) + MARK
    none = "1 1 1 65535 65535 managers usages pdos 0 - 0"  # how a dump of no category is answered
    for times in (0, 1, 3):
        yield between(f"a dump read {times} times", asked._replace(a=times), none)
    yield between("a dump read under times", asked._replace(c=7, times=3), f"7: {none}")
    yield between("the longest dump", asked._replace(sheet=whole), none)
    yield between("the longest dump without its mark", asked._replace(sheet=whole[:-2] + bytes(2)), "refused 16 0")
    yield between("no dump and no room", asked._replace(sheet=b"", room=0), "refused 16 0")
    for flags in (8, 255):
        yield between(f"a dump's flags are {flags}", asked._replace(write=flags), "refused 4 0")
    sizes = asked._replace(write=0, b=0x1234_5678)
    yield between("both sizes of a dump", sizes, "0 0 0 4660 22136 managers usages pdos 0 - 0")
    one = sizes._replace(b=0, sheet=tx_category(pdo_record(3, 0x1A42, 200, 100)) + MARK)
    record = "01031a4202012c"
    for room, line in ((6, "refused 12 0"), (7, f"0 0 0 0 0 managers usages pdos 1 {record} 0")):
        yield between(f"a dump's PDO in room {room}", one._replace(room=room), line)
    sheet = Request("E", 255, ROOM, sheet=MARK)
    yield between("a dump's sheet, flags 255", sheet, "refused 4 0")
    yield between("a dump's sheet, no room", sheet._replace(write=0, room=0), "refused 12 0")
    yield between("a dump's sheet, nothing in it", sheet._replace(write=0), SMALLEST)
    yield between("a dump's sheet, the longest dump", sheet._replace(write=0, sheet=whole), SMALLEST)
    for times in (0, 3):
        said = f"18 0010010000000000000001{record} 0"
        yield between(f"a dump's sheet {times} times", one._replace(letter="E", a=times), said)
    yield between("a dump's sheet under times", sheet._replace(write=0, c=7, times=3), f"7: {SMALLEST}")


def lists():
    """How many pairs M is lent, and of its byte 1 only 4 counts."""
    own = " ".join(map(str, range(16)))  # each number's own
    first = f"2{own[1:]}"  # 2 for sync manager 0
    asked, three = Request("M", BY_PAIRS, ROOM, LAST, LAST), bytes([2, 0, 9, 0, 16, 0])
    yield between("no pair", asked, f"{own} 0")
    yield between("half a pair", asked._replace(fmmus=b"\xff"), f"{own} 0")
    last = bytes([0, 0] * (FMMUS // 2 - 1) + [7, 15])
    yield between("the most pairs", asked._replace(fmmus=last), f"{own.removesuffix('15')}7 0")
    yield between("the most pairs but one", asked._replace(room=FMMUS // 2 - 1, fmmus=last), f"{own} 0")
    for room, line in enumerate((f"{own} 0", f"{first} 0", f"{first} 0", f"{first} 1", f"{first} 1")):
        yield between(f"room {room} of three pairs", asked._replace(room=room, fmmus=three), line)
    unread = " ".join("0" * 17)
    for how, line in ((0, unread), (3, unread), (7, f"{first} 1"), (251, unread), (255, f"{first} 1")):
        yield between(f"pairs, byte 1 is {how}", asked._replace(write=how, fmmus=three), line)
    yield between("pairs under times", asked._replace(c=7, times=3), f"7: {own} 0")


ONE_IN = on_eeprom(eeprom(1, 0, 0x1A00, 8), rows=managers((0x1180, 0x20, 1, 4)))


def by_call():
    """What p is lent and how it is told: the pairs, keeping, and where the outputs start."""
    asked = Request("p", a=7, b=5, c=9, sheet=ONE_IN, channels=bytes(128))
    channels, before = "8011010020000100".ljust(256, "0"), bytes(128).hex()
    old = area(entry(0, 4, 0x1000), first=9)
    chosen = {(): 0, (2, 0): 2, (2, 0, 3, 0): 2}
    for how in (*range(8), 248, 255):
        for pairs, e in chosen.items():
            after = bytearray(old if how & KEEP else area())
            place = e if how & BY_PAIRS else 0
            after[16 * place : 16 * place + 16] = entry(7, 1, 0x1180)
            outputs = 8 if how & AFTER_INPUTS else 9
            request = asked._replace(write=how, room=len(pairs) // 2, fmmus=bytes(pairs) + old)
            line = f"ok 2 3 {outputs - 5} {outputs - 5} 8 {outputs} {after.hex()} {channels}"
            yield between(f"a call with {pairs}, byte 1 is {how}", request, line)
    bad = asked._replace(write=BY_PAIRS, room=1, fmmus=b"\x10\0" + old)
    yield between("a bad pair", bad, f"refused 18 7 9 {old.hex()} {before}")
    unread = bad._replace(write=AFTER_INPUTS, sheet=b"")
    yield between("a bad pair that isn't read", unread, f"refused 2 7 9 {old.hex()} {before}")
    yield between("a bad pair in front of no area", bad._replace(fmmus=b"\x10\0"), f"refused 1 7 9 - {before}")
    yield between("the area taken for pairs", bad._replace(room=ROOM), f"refused 1 7 9 - {before}")
    yield between("half a pair, and no area", bad._replace(room=1, fmmus=b"\7"), f"refused 1 7 9 07 {before}")
    yield between("a call by pairs under times", bad._replace(times=3), f"9: refused 18 7 9 {old.hex()} {before}")


def plans():
    """Plans of B by pairs: of its byte 1 only 4 counts."""
    plan = Request("B", BY_PAIRS, 1, 2, sheet=ONE_IN, fmmus=b"\x10\0")
    for name, request, line in (
        ("a bad pair", plan, "refused 18"), ("no turns", plan._replace(a=0), "none"),
        ("not asked for", plan._replace(write=0), "0 1 1 1"), ("byte 1 is 251", plan._replace(write=251), "0 1 1 1"),
        ("byte 1 is 255", plan._replace(write=255), "refused 18"), ("none lent", plan._replace(room=0), "0 1 1 1"),
        ("CoE", plan._replace(sheet=SAMPLE), "0 5 5 7"), ("refused before", plan._replace(sheet=b""), "refused 2"),
    ):
        yield between(f"a plan by pairs, {name}", request, line)


def printed():
    """What L is given: its parts lie over areas of zeros, and what is longer is cut."""
    unused, five = on_eeprom(rows=managers((0, 0, 0, 0))), b"\0\0\0\0\x23"
    for name, fmmus, channels, mode in (
        ("no parts", b"", b"", "Normal"),
        ("five bytes of an image", b"", five, "unnamed 3"),
        ("parts at their most", bytes(FMMUS), five.ljust(CHANNELS, b"\0"), "unnamed 3"),
        ("bytes that are cut", bytes(256).ljust(FMMUS, b"\xff"), bytes(128).ljust(CHANNELS, b"\xff"), "Normal"),
    ):
        plan = Request("L", sheet=unused, fmmus=fmmus, channels=channels)
        line = f"SM0: start 0x0000, size 0x0000 (0), direction MasterRead, mode {mode}, disabled"
        yield between(f"lockerplan, {name}", plan, "inputs (empty)", "outputs (empty)", line)
    ones = Request("L", sheet=unused, fmmus=b"\xff" * FMMUS, channels=b"\xff" * CHANNELS)
    yield between("lockerplan refuses over areas", ones, "refused 15")


def streams():
    """Each stream with its name and the lines that answer it."""
    of_sheets = calls, in_portions, written_again, by_fields, of_dumps
    groups = (cut_short, parts, records, repetitions, refusals, *of_sheets, lists, by_call, plans, printed)
    for group in groups:
        yield from group()


def asked():
    """What the page has to say of the requests in crates/probe/stdin."""
    data = (ROOT / "crates" / "probe" / "stdin").read_bytes()
    counts = Counter()
    try:
        for request in requests(io.BytesIO(data)):
            counts[request.letter if request.letter in model.ANSWERS else "other"] += 1
    except BadRequest:
        counts["bad"] += 1
    return counts


def wrong_page():
    """Where the page's counts aren't those of crates/probe/stdin."""
    counts = asked()
    told = {letter: int(count) for letter, count in re.findall(r"`(\w)` (\d+)\b", PAGE)}
    for letter in model.ANSWERS:
        if told.get(letter) != counts[letter]:
            yield f"docs/PROBE.md says {told.get(letter)} requests of {letter} and not {counts[letter]}"
    total = sum(counts.values())
    if f"{total:,} requests" not in PAGE:
        yield f"docs/PROBE.md doesn't say {total:,} requests"


def by_model(stream):
    return "".join(line + "\n" for line in model.answer_all(io.BytesIO(stream)))


def by_program(stream):
    ran = subprocess.run([ROOT / "plan", "--probe", "-"], input=stream, capture_output=True)
    text = ran.stdout.decode()
    status = 2 if text.endswith("bad request\n") else 0  # the script's, as docs/PROBE.md has it
    return text + ("" if ran.returncode == status else f"exit status {ran.returncode} {ran.stderr.decode()}")


def wrong_answers(who, answer):
    for name, stream, lines in streams():
        expected, said = "".join(line + "\n" for line in lines), answer(stream)
        if said != expected:
            yield f"{who}, {name}: {said!r} and not {expected!r}"


def main():
    wrong = [*wrong_page(), *wrong_answers("model", by_model)]
    if sys.argv[1:] != ["--model"]:
        wrong += wrong_answers("probe", by_program)
    for line in wrong:
        print(line)
    print(f"{len(list(streams()))} streams; answered otherwise, or not as the page says: {len(wrong)}")
    sys.exit(1 if wrong else 0)


if __name__ == "__main__":
    main()
