#!/usr/bin/env python3
"""Answers the requests of docs/PROBE.md from documents 01 and 02: what crates/probe must write.

Run `python3 tests/model.py < crates/probe/stdin > crates/probe/stdout` to make the stored answers again.
"""

import sys

import dump
import pairs
import planning
import portions
import registers as reg
import writer
from pairs import FmmuMode
from planning import OldEntries, OutputStart, Settings
from registers import LIMIT, Refused
from sheet import COE, COMPLETE_ACCESS, MAILBOX, read_sheet
from stream import AFTER_INPUTS, BY_PAIRS, KEEP, BadRequest
from stream import calls, channel_record, device_record, fmmu_record, requests


def listed(values):
    return " ".join(str(value) for value in values)


def shown(data):
    return data.hex() or "-"


def or_none(value):
    return "none" if value is None else str(value)


def text_answer(text, size):
    room = bytearray(b"~" * size)
    try:
        answer = str(reg.write_text(text, room))
    except Refused as refused:
        answer = f"refused {refused.args[0]}"
    return f"{answer} |{room.decode()}|"


def image_answer(write, record, size):
    room = bytearray(b"\xff" * size)
    try:
        write(record, room)
        answer = "ok"
    except Refused as refused:
        answer = f"refused {refused.args[0]}"
    return f"{answer} {shown(room)}"


def byte_answer(layout, data):
    values = reg.fields(layout, data)
    return f"{listed(values)} {reg.image(layout, values, len(data)).hex()}"


def control_answer(byte):
    control = reg.control_of(byte)
    return f"{listed(control)} {reg.control_byte(control):02x}"


def device_text(sheet):
    flags = [sheet.flag(flag) for flag in (MAILBOX, COE, COMPLETE_ACCESS)]
    managers = [f"{m.start}/{reg.control_byte(m.control):02x}/{m.enable}/{m.usage}" for m in sheet.managers]
    return listed(
        [*flags, sheet.receive, sheet.send, "managers", *managers, "usages", *sheet.usages, "pdos", len(sheet.pdos)]
    )


def slot(mailbox):
    return "none" if mailbox is None else "/".join(str(part) for part in mailbox)


def mailbox_answer(q):
    channels = bytearray(q.channels)
    try:
        read, write, coe, complete = planning.configure_mailboxes(q.sheet, channels)
        answer = f"ok {slot(read)} {slot(write)} {coe} {complete}"
    except Refused as refused:
        answer = f"refused {refused.args[0]}"
    return f"{answer} {shown(channels)}"


def mode_of(q):
    return FmmuMode.PAIRED if q.write & BY_PAIRS else FmmuMode.OWN_NUMBER


def settings_of(q):
    """How the call is made, by byte 1; the pairs stand before the area."""
    return Settings(
        q.b,
        OldEntries.KEEP if q.write & KEEP else OldEntries.CLEAR,
        mode_of(q),
        q.lent()[0],
        OutputStart.AFTER_INPUTS if q.write & AFTER_INPUTS else OutputStart.GIVEN,
    )


def call_answer(q):
    offsets, fmmus, channels = [q.a, q.c], bytearray(q.lent()[1]), bytearray(q.channels)
    try:
        inputs, outputs = planning.configure_fmmus(offsets, settings_of(q), q.sheet, q.table, fmmus, channels)
        answer = "ok " + listed([*inputs, *outputs, *offsets])
    except Refused as refused:
        answer = f"refused {listed([*refused.args, *offsets])}"
    return f"{answer} {shown(fmmus)} {shown(channels)}"


def mappings_answer(q):
    entries, above = pairs.mappings(mode_of(q), q.lent()[0])
    return listed([*entries, int(above)])


def count_answer(q):
    found = planning.count(q.write, q.a, q.sheet, q.table, q.c)
    if found is None:
        return "none"
    manager, byte, address = found
    return f"{manager} {byte} {or_none(address)}"


def side(call):
    """What one of two calls that are compared answers, or its refusal."""
    try:
        return call()
    except Refused as refused:
        return f"r{refused.args[0]}"


def both_answer(q):
    def counted():
        found = planning.count(q.write, q.a, q.sheet, q.table, q.c)
        return None if found is None else found[2]

    translated = side(lambda: or_none(planning.translate(q.write, q.fmmus, q.c)))
    counting = side(lambda: or_none(counted()))
    return "same" if translated == counting else f"differ {translated} {counting}"


def again_answer(q):
    """The same plan over and over answers as one does."""
    if q.a == 0:
        return "none"
    inputs, outputs, _, _ = planning.plan(q.sheet, q.table, Settings(mode=mode_of(q), pairs=q.lent()[0]))
    return listed([*inputs, *outputs])


def program_answer(q):
    """The parts lie over areas of zeros; what is longer is cut."""
    areas = q.fmmus[:256].ljust(256, b"\0"), q.channels[:128].ljust(128, b"\0")
    return "\n".join(planning.lockerplan(q.sheet, areas))


# ---- a sheet that comes in portions

BUFFER = 20_480  # bytes; the letter t lends its front


def handed_over(state, portion, room):
    """What a portion's call answers, and the state behind it: where it refuses, the one that it was given."""
    try:
        return "ok", portions.take(state, portion, room)
    except Refused as refused:
        return f"r{refused.args[0]}", state


def state_text(state):
    return f"{state.held}/{int(state.surplus)}"


def ended(state, room):
    try:
        return device_text(portions.end(state, room))
    except Refused as refused:
        return f"refused {refused.args[0]}"


def written(before, after):
    """The first byte that changed, with its place, up to the last."""
    changed = [place for place, (old, new) in enumerate(zip(before, after)) if old != new]
    return f"{changed[0]} {after[changed[0] : changed[-1] + 1].hex()}" if changed else "-"


def calls_answer(q):
    state = portions.State(q.a * 2**32 + q.b, q.write != 0)
    buffer = bytearray(q.fmmus.ljust(BUFFER, b"\xff"))
    before, items = bytes(buffer), []
    for size, portion in calls(q.sheet):
        answer, state = handed_over(state, portion, memoryview(buffer)[:size])
        items.append(f"{answer}/{state_text(state)}")
    items.append(ended(state, memoryview(buffer)[: q.room]))
    return listed([*items, written(before, buffer)])


def cut(q):
    """The sheet of the letter H in portions: the first, the later ones, and an empty one behind each if asked."""
    rest = q.sheet[q.c :]
    size = q.a or len(rest)
    later = [rest[at : at + size] for at in range(0, len(rest), max(1, size))]
    for portion in [q.sheet[: q.c], *later]:
        yield portion
        if q.write:
            yield b""


def portions_answer(q):
    """Done over and over, all of it answers as once."""
    state, room = portions.State(), bytearray(b"\xff" * q.room)
    for portion in cut(q):
        _, state = handed_over(state, portion, room)
    at_once, at_the_end = side(lambda: read_sheet(q.sheet)), side(lambda: portions.end(state, room))
    right = q.sheet[: state.held].ljust(q.room, b"\xff")[: q.room]
    wrong = 0 if room == right else sum(new != old for new, old in zip(room, right))
    same, told = at_the_end == at_once, at_the_end if isinstance(at_the_end, str) else "ok"
    return f"{'same' if same else 'differ'} {told} {state_text(state)} {wrong}"


# ---- writing sheets


def room_answer(write, size):
    """What writing into a room answers, the bytes written, and how many more aren't as they were but should be.

    `write` gives the answer and how many bytes it wrote.
    """
    room = bytearray(b"\xff" * size)
    try:
        told, length = write(room)
        answer = f"{told} {shown(room[:length])}"
    except Refused as refused:
        length, answer = 0, f"refused {refused.args[0]}"
    return f"{answer} {sum(byte != 0xFF for byte in room[length:])}"


def sheet_answer(write, size):
    """A sheet's length is both."""

    def told(room):
        length = write(room)
        return length, length

    return room_answer(told, size)


def again_written_answer(q):
    """Written over and over, it answers as once; where reading refuses, that is all of the answer."""
    sheet = read_sheet(q.sheet)
    return sheet_answer(lambda room: writer.write_sheet(sheet, room), q.room)


def fields_answer(q):
    device = device_record(q.fmmus)
    return sheet_answer(lambda room: writer.write(device, q.sheet, room), q.room)


# ---- dumps of the category area


def dump_head(q):
    """The flags stand in byte 1, both mailbox sizes in b."""
    return dump.Head(q.write, *divmod(q.b, 65_536))


def dump_answer(q):
    """Read over and over, it answers as once."""

    def told(room):
        sheet = dump.read(q.sheet, dump_head(q), room)
        return device_text(sheet), 7 * len(sheet.pdos)

    return room_answer(told, q.room)


def dump_written_answer(q):
    return sheet_answer(lambda room: dump.write_sheet(q.sheet, dump_head(q), room), q.room)


ANSWERS = {
    "r": lambda q: str(reg.round_up(q.wide(q.a))),
    "i": lambda q: str(reg.increment(q.a, q.c % 65_536)),
    "b": lambda q: str(reg.increment_byte_aligned(q.a, q.wide(q.b))),
    "u": lambda q: listed([q.a, q.c, reg.length(q.a, q.c)]),
    "g": lambda q: listed(reg.less(q.a, q.b, q.c)),
    "s": lambda q: text_answer(reg.segment_text(q.a, q.b), q.room),
    "f": lambda q: text_answer(fmmu_record(q.fmmus).text(), q.room),
    "y": lambda q: text_answer(channel_record(q.channels).text(), q.room),
    "R": lambda q: listed(reg.read_fmmu(q.fmmus)),
    "W": lambda q: image_answer(reg.write_fmmu, fmmu_record(q.fmmus), q.room),
    "Q": lambda q: listed(reg.read_channel(q.channels)),
    "Z": lambda q: image_answer(reg.write_channel, channel_record(q.channels), q.room),
    "V": lambda q: shown(reg.channel_image(channel_record(q.channels))),
    "k": lambda q: control_answer(q.c % 256),
    "j": lambda q: byte_answer(reg.STATUS, bytes([q.c % 256])),
    "e": lambda q: byte_answer(reg.ENABLE, (q.c % 65_536).to_bytes(2, "little")),
    "d": lambda q: device_text(read_sheet(q.sheet)),
    "m": mailbox_answer,
    "p": call_answer,
    "M": mappings_answer,
    "T": lambda q: or_none(planning.translate(q.write, q.fmmus, q.c)),
    "C": count_answer,
    "A": both_answer,
    "L": program_answer,
    "B": again_answer,
    "t": calls_answer,
    "H": portions_answer,
    "w": again_written_answer,
    "v": fields_answer,
    "D": dump_answer,
    "E": dump_written_answer,
}


def one_answer(q):
    try:
        return ANSWERS.get(q.letter, lambda _: "no such entry point")(q)
    except Refused as refused:
        return f"refused {refused.args[0]}"


ONCE = "p"  # takes c, and is called once whatever `times` is


def answers(q):
    """The lines of a request's answer; over several values of c only where the answer changes."""
    if q.times < 2:
        yield one_answer(q)
        return
    before, times = None, 1 if q.letter in ONCE else q.times
    for c in range(q.c, min(q.c + times, LIMIT + 1)):
        answer = one_answer(q._replace(c=c))
        if answer != before:
            yield f"{c}: {answer}"
        before = answer


def answer_all(stream):
    """The lines that answer a stream of requests; a bad request ends them."""
    try:
        for q in requests(stream):
            yield from answers(q)
    except BadRequest:
        yield "bad request"


def main():
    for line in answer_all(sys.stdin.buffer):
        print(line)


if __name__ == "__main__":
    main()
