"""Requests on what one call says of two directions (document 02, 7/13).

Each refusal of a direction in the inputs, in the outputs and in both, beside each other one in the other direction; the
refusals of the whole call before those; where the outputs start, and the limits of 9 and 10; directions that map nothing; one
table for both. Where a call is refused, both areas and both offsets are answered as they were lent.
"""

from typing import NamedTuple

from ask_call import CLEARING, EITHER, EVERY, GIVEN, KEEPING, asked, call, told
from ask_old import left
from ask_pairs import lined
from bays import IN, OUT
from build import SAMPLE, area, coe, eeprom, entry, managers, on_coe, on_eeprom, pattern
from registers import LIMIT
from stream import AFTER_INPUTS, BY_PAIRS, KEEP

# ---- each refusal of either direction beside each of the other


class Side(NamedTuple):
    """A direction of a bay: the bits of its sync managers, whether CoE finds its usage, its offset, the old entry on its own."""

    bits: tuple = (8,)
    usage: bool = True
    offset: int = 100
    old: bytes = bytes(16)


GROUP = 50
FULL = "8 by a full entry"
LONG = (65_528,) * 8 + (64,)
MULTIPLIERS = {65_529: 3, 65_528: 8}  # CoE's lengths have a byte each, so what is large is multiplied


def sides(write):
    """What makes a direction refused with each number, by its name."""
    return {
        "nothing": Side(),
        "6": Side((65_529,)),
        "7": Side(usage=False),
        "8": Side(LONG),
        FULL: Side(old=entry(77, 65_535, 0x2222, 2 if write else 1)),
        "9": Side(offset=LIMIT),
        "10": Side(offset=GROUP - 1),
        "15": Side(old=left(0)),
    }


def rows_of(inputs, outputs):
    """The outputs' sync managers, then the inputs'."""
    managers_of = [(0x24, 3)] * len(outputs.bits) + [(0x20, 4)] * len(inputs.bits)
    return [(0x1000 + 0x100 * k, control, 1, usage) for k, (control, usage) in enumerate(managers_of)]


def coe_bay(inputs, outputs):
    """The outputs use entry 0 and the inputs entry 1, by their usages."""
    rows = managers((0x800, 0x22, 1, 2), *rows_of(inputs, outputs))
    pdos, table = [], []
    for k, bits in enumerate(outputs.bits + inputs.bits, 1):
        times = MULTIPLIERS.get(bits, 1)
        pdos.append(coe(k, IN + k, *[255] * (bits // times // 255), bits // times % 255))
        table += [(IN + k, times)] if times > 1 else []
    usages = 1 if outputs.usage else 3, 2 if inputs.usage else 3
    return dict(data=on_coe(*pdos, rows=rows, usages=usages), fmmus=area(outputs.old, inputs.old), table=table)


def eeprom_bay(inputs, outputs):
    """Each sync manager uses the entry with its own number; what is old stands on the first one's."""
    first = len(outputs.bits)
    kinds = [2] * first + [1] * len(inputs.bits)
    pdos = [eeprom(kind, k, IN + k, bits) for k, (kind, bits) in enumerate(zip(kinds, outputs.bits + inputs.bits))]
    fmmus = bytearray(area(outputs.old))
    fmmus[16 * first : 16 * first + 16] = inputs.old
    return dict(data=on_eeprom(*pdos, rows=managers(*rows_of(inputs, outputs))), fmmus=bytes(fmmus))


def paired_bay(inputs, outputs):
    """By pairs all outputs use entry 5 and all inputs entry 9."""
    first, count = len(outputs.bits), len(outputs.bits) + len(inputs.bits)
    fmmus = area(outputs.old, *[bytes(16)] * 3, inputs.old, first=5)
    return eeprom_bay(inputs, outputs) | dict(fmmus=fmmus, pairs=[(5 if k < first else 9, k) for k in range(count)])


# the bay, how byte 1 asks for it, and the refusals that it can't have
PATHS = {
    "CoE": (coe_bay, 0, ()),
    "EEPROM": (eeprom_bay, 0, ("7", "8")),
    "pairs": (paired_bay, BY_PAIRS, ("7",)),
}


def each_beside_each():
    """All the pairs; nine sync managers of both directions are more than there are."""
    for path, (bay, mode, lacking) in PATHS.items():
        for one, inputs in sides(0).items():
            for two, outputs in sides(1).items():
                if one in lacking or two in lacking or one == two == "8":
                    continue
                words = dict(a=inputs.offset, b=GROUP, channels=pattern(128)) | bay(inputs, outputs)
                for how in EVERY:
                    name = f"{path}, inputs by {one}, outputs by {two}{told(how)}"
                    yield name, call(how | mode, c=outputs.offset, **words)


MOST = (65_528,) * 8 + (56,)  # 65,535 bytes on one entry


def each_by_itself():
    """8 is of one entry: where both directions have an entry of 65,535 bytes, or near it, nothing is added up over the two."""
    for path, (bay, mode, lacking) in PATHS.items():
        for bits in [(8,), (64,), (65_528,) * 5] if "8" not in lacking else []:
            for side, both in {"inputs": (Side(MOST), Side(bits)), "outputs": (Side(bits), Side(MOST))}.items():
                words = dict(a=100, b=GROUP, c=LIMIT - 70_000, channels=pattern(128)) | bay(*both)
                for how in CLEARING:
                    name = f"{path}, 65,535 bytes of {side} beside {len(bits)} of {bits[0]:,} bits{told(how)}"
                    yield name, call(how | mode, **words)


def whole_call():
    """1 to 5 and 18 come before what is of one direction."""
    for one in ("6", "8", "9", "10", "15"):
        for write, side in enumerate(("inputs", "outputs")):
            both = [Side(), Side()]
            both[write] = sides(write)[one]
            words = dict(a=both[0].offset, b=GROUP, c=both[1].offset, channels=pattern(128)) | paired_bay(*both)
            data, pairs = words["data"], words["pairs"]
            wrong = {
                "1 by the entries": dict(fmmus=words["fmmus"][:-1]),
                "1 by the channels": dict(channels=pattern(129)),
                "2": dict(data=data + b"\0"),
                "3": dict(data=data[:2] + b"\2" + data[3:]),
                "4": dict(data=data[:3] + b"\x08" + data[4:]),
                "5": dict(data=data[:13] + b"\x23" + data[14:]),
                "18 by a number": dict(pairs=[*pairs, (16, 0)]),
                "18 by both directions": dict(pairs=[(5, k) for _, k in pairs]),
            }
            for number, more in wrong.items():
                yield f"{number} beside {one} of {side}", call(BY_PAIRS, **words | more)


# ---- where the outputs start

THREE_AND_TWO = {"CoE": on_coe(coe(2, OUT, 16), coe(3, IN, 24)), "EEPROM": lined("w16 r24")}
SIX_OF_OUTPUTS = lined("w65529 r24")


def unread():
    """Straight after the inputs, what the lent output offset is doesn't matter; a refusal leaves it, else it is the end."""
    for path, data in {**THREE_AND_TWO, "refused": SIX_OF_OUTPUTS}.items():
        for c in (0, GROUP - 1, GROUP, 99, 100, 103, LIMIT - 1, LIMIT):
            for how in (AFTER_INPUTS, KEEP | AFTER_INPUTS):
                words = dict(a=100, b=GROUP, c=c, channels=pattern(128))
                yield f"{path}, {c} lent for outputs{told(how)}", call(how, data, area(), **words)


def where():
    """Given, the outputs may stand below the inputs, beside them or over them."""
    for path, data in THREE_AND_TWO.items():
        for c in (50, 97, 98, 99, 100, 101, 102, 103, 104, 200):
            for how in (GIVEN, KEEP):
                words = dict(a=100, b=GROUP, c=c, channels=pattern(128))
                yield f"{path}, inputs at 100, outputs at {c}{told(how)}", call(how, data, area(), **words)


def last_offsets():
    """9: each direction up to 4,294,967,295 and one byte past it, with groups that begin at 0 and at the offset."""
    for path, data in THREE_AND_TWO.items():
        for start in (LIMIT - 5, LIMIT - 4, LIMIT - 3, LIMIT - 2, LIMIT - 1, LIMIT):
            for b in (0, start):
                yield from asked(f"{path}, straight after from {start}, group {b}", data, ways=[AFTER_INPUTS], a=start, b=b)
            places = {"inputs": dict(a=start, c=3), "outputs": dict(a=3, c=start), "both": dict(a=start, c=start)}
            for side, place in places.items():
                for b in (0, start if side == "both" else 3):
                    yield from asked(f"{path}, {side} from {start}, group {b}", data, ways=[GIVEN], b=b, **place)
    for name, text in {"nothing": "x", "0 bits": "r w", "inputs": "r8 w", "outputs": "r w8"}.items():
        for start in (LIMIT - 1, LIMIT):
            yield from asked(f"{name} from {start}", lined(text), ways=CLEARING, a=start, b=start, c=start)


def group_starts():
    """10: each given offset at the group start and one below, also where nothing is mapped."""
    sheets = {**THREE_AND_TWO, "nothing": lined(""), "inputs alone": lined("r24"), "outputs alone": lined("w16")}
    for path, data in sheets.items():
        for a in (GROUP, GROUP - 1):
            for c in (GROUP, GROUP - 1):
                for how in EVERY:
                    words = dict(a=a, b=GROUP, c=c, channels=pattern(128))
                    yield f"{path}, inputs at {a}, outputs at {c}, group {GROUP}{told(how)}", call(how, data, area(), **words)
    for b in (1, 103, 105, LIMIT):
        yield from asked(f"inputs at 100, group {b}", SAMPLE, a=100, b=b, c=b)


# ---- directions that map nothing, and sync managers in turn


def one_direction():
    """What is of the direction that maps nothing is cleared all the same."""
    sheets = {
        "EEPROM, inputs alone": lined("r24 r8"),
        "EEPROM, outputs alone": lined("w24 w8"),
        "EEPROM, inputs of 0 bits": lined("r w24"),
        "EEPROM, outputs of 0 bits": lined("w r24"),
        "CoE, inputs alone": on_coe(coe(3, IN, 24), usages=(0, 2)),
        "CoE, outputs alone": on_coe(coe(2, OUT, 24), usages=(0, 1)),
    }
    areas = {"fresh": area(), "old entries": area(left(1), left(2), left(2), left(1)), "nobody's": area(left(0), first=3)}
    for name, data in sheets.items():
        for kind, fmmus in areas.items():
            yield from asked(f"{name}, {kind}", data, fmmus, EITHER if kind == "nobody's" else EVERY)


def in_turn():
    """Inputs and outputs in turn: each direction is laid in rising number of its own."""
    text, pairs = "r8 w16 r24 w32 r w r9 w17", [(9, 0), (9, 2), (8, 3), (8, 1)]
    yield from asked("EEPROM, in turn", lined(text))
    yield from asked("EEPROM, in turn, outputs first", lined("w8 r16 w24 r32"))
    yield from asked("by pairs, in turn", lined(text), ways=[how | BY_PAIRS for how in EVERY], pairs=pairs)
    rows = managers(*[(0x1000 + 16 * k, 0x20 + 4 * (k % 2), 1, 4 - k % 2) for k in range(6)], (0x2000, 0x22, 1, 2))
    yield from asked("CoE, in turn", on_coe(*[coe(k, IN + k, 8 * k + 1) for k in range(6)], rows=rows, usages=(0, 2, 1)))


def one_table():
    """A record counts for both directions."""
    tables = {"a record": [(IN, 3)], "the first of two": [(IN, 2), (IN, 5)], "muted": [(IN, 0)], "too wide": [(IN, 255)]}
    sheets = {
        "CoE": on_coe(coe(2, IN, 9), coe(3, IN, 17), coe(2, IN + 1, 1)),
        "EEPROM": on_eeprom(eeprom(2, 0, IN, 9), eeprom(1, 1, IN, 257), eeprom(2, 0, IN + 1, 1)),
    }
    for path, data in sheets.items():
        for name, table in tables.items():
            yield from asked(f"{path}, one number in both directions, {name}", data, table=table)


# ---- keeping


def grown():
    """Keeping: entries of both directions grow, each up to 65,535 bytes and no further."""
    for path, data in THREE_AND_TWO.items():
        for inputs in (65_532, 65_533):
            for outputs in (65_533, 65_534):
                fmmus = area(entry(7, outputs, 0x2222, 2), entry(9, inputs, 0x3333, 1, reserved=True))
                yield from asked(f"{path}, inputs on {inputs:,} bytes, outputs on {outputs:,}", data, fmmus, KEEPING)
    for kind, rights in {"neither bit": 0, "the other's bits": 1, "both bits": 3}.items():
        fmmus = area(entry(7, 4, 0x2222, rights), entry(9, 5, 0x3333, 3 - rights if rights == 1 else rights))
        for path, data in THREE_AND_TWO.items():
            yield from asked(f"{path}, entries with {kind}", data, fmmus, KEEPING)


def ask():
    starting = (unread, where, last_offsets, group_starts)
    for part in (each_beside_each, each_by_itself, whole_call, *starting, one_direction, in_turn, one_table, grown):
        yield from part()
