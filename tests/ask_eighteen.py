"""Requests on 18 (document 02, 6/13): each cause of it alone, what comes near to one, tables that decide, and its neighbours.

The order is 1 to 5, 18, 6 to 10, 15. 7 is for CoE sheets alone, and those leave the pairs unread: the two never meet.
"""

import ask_pairs
from ask_call import CLEARING, EITHER, KEEPING
from ask_old import BOTH, SIDES, causes, left, own
from ask_pairs import INDEX, OWN, lined, turned
from build import area, coe, eeprom, pattern
from registers import LIMIT
from stream import AFTER_INPUTS


def asked(name, data, pairs, fmmus=area(), ways=(AFTER_INPUTS,), **words):
    return ask_pairs.asked(name, data, pairs, fmmus, ways, **words)


# ---- a number above 15


def numbers():
    """15 is a number, 16 and 255 are none, in either place of any pair, whether or not it would decide anything."""
    data = lined("r8 w8")
    for number in (15, 16, 255):
        places = {
            "an FMMU number": [(number, 0)],
            "a sync manager number": [(7, number)],
            "both": [(number, number)],
            "the FMMU number of a second pair": [(7, 0), (number, 0)],
            "the FMMU number of a sync manager that the sheet hasn't": [(number, 9)],
            "the last FMMU number of sixteen": [*OWN[:15], (number, 15)],
            "the last sync manager number of sixteen": [*OWN[:15], (9, number)],
            "the first sync manager number of sixteen": [(9, number), *OWN[:15]],
        }
        for place, pairs in places.items():
            yield from asked(f"{number} is {place}", data, pairs, ways=CLEARING)
    for name, text in (("nothing mapped", "x8"), ("0 bits", "r w"), ("no sync manager", "")):
        yield from asked(f"{name}, a number above 15", lined(text), [(16, 0)])
    yield from asked("a number above 15", data, [(0, 16)], ways=KEEPING)


# ---- both directions on one entry

MEETING = {
    "an input on the output's own": ("r8 w8", [(1, 0)]),
    "an output on the input's own": ("r8 w8", [(0, 1)]),
    "both on a third": ("r8 w8", [(5, 0), (5, 1)]),
    "exchanged": ("r8 w8", [(1, 0), (0, 1)]),
    "only a second pair": ("r8 w8", [(0, 0), (1, 0)]),
    "the input is empty": ("r w8", [(1, 0)]),
    "the output is empty": ("r8 w", [(1, 0)]),
    "both are empty": ("r w", [(1, 0)]),
    "one of no direction": ("r8 x8 w8", [(1, 0)]),
    "one of no direction between": ("r8 x8 w8", [(2, 0)]),
    "the last of each": ("r8 r8 w8 w8", [(9, 1), (9, 3)]),
    "the first of each": ("r8 r8 w8 w8", [(9, 0), (9, 2)]),
    "the first empty ones of each": ("r r8 w w8", [(9, 0), (9, 2)]),
    "an empty one of each beside": ("r8 r w w8", [(9, 0), (9, 1), (9, 2)]),
    "two inputs and an output": ("r8 r8 w8", [(9, 0), (9, 1), (9, 2)]),
    "one bit each": ("r1 w1", [(0, 1)]),
    "the first and the last of sixteen": ("r8 " + "x8 " * 14 + "w8", [(0, 15)]),
}


def meeting():
    for name, (text, pairs) in MEETING.items():
        yield from asked(f"both directions, {name}", lined(text), pairs)
        yield from asked(f"both directions, {name}, turned", lined(turned(text)), pairs)


# ---- one between

BETWEEN = {
    "on its own": ("r8 r8 r8 w8", [(5, 0), (5, 2)]),
    "listed the other way round": ("r8 r8 r8 w8", [(5, 2), (5, 0)]),
    "on another": ("r8 r8 r8 w8", [(5, 0), (6, 1), (5, 2)]),
    "shared with the last's own": ("r8 r8 r8 w8", [(2, 0)]),
    "shared with the first's own": ("r8 r8 r8 w8", [(0, 2)]),
    "on the same": ("r8 r8 r8 w8", [(5, 0), (5, 1), (5, 2)]),
    "on the same, its own": ("r8 r8 r8 w8", [(1, 0), (1, 2)]),
    "not between": ("r8 r8 r8 w8", [(5, 0), (5, 1)]),
    "of one bit": ("r8 r1 r8 w8", [(5, 0), (5, 2)]),
    "empty": ("r8 r r8 w8", [(5, 0), (5, 2)]),
    "empty on another": ("r8 r r8 w8", [(5, 0), (6, 1), (5, 2)]),
    "the first empty": ("r r8 r8 w8", [(5, 0), (5, 2)]),
    "the last empty": ("r8 r8 r w8", [(5, 0), (5, 2)]),
    "of the other direction": ("r8 w8 r8", [(5, 0), (5, 2)]),
    "of no direction": ("r8 x8 r8 w8", [(5, 0), (5, 2)]),
    "the first of two": ("r8 r8 r r8 w8", [(5, 0), (5, 3)]),
    "the second of two": ("r8 w8 r8 r8", [(5, 0), (5, 3)]),
    "two that share": ("r8 r8 r8 r8 w8", [(5, 0), (6, 1), (6, 2), (5, 3)]),
    "two that don't share": ("r8 r8 r8 r8 w8", [(5, 0), (6, 1), (7, 2), (5, 3)]),
    "in turn": ("r8 r8 r8 r8 w8", [(5, 0), (6, 1), (5, 2), (6, 3)]),
    "two and two": ("r8 r8 r8 r8 w8", [(5, 0), (5, 1), (6, 2), (6, 3)]),
    "in turn with outputs": ("r8 w8 r8 w8", [(5, 0), (6, 1), (5, 2), (6, 3)]),
    "three, the last comes back": ("r8 r8 r8 r8 w8", [(5, 0), (5, 1), (5, 3)]),
    "nothing of the other direction": ("r8 r8 r8", [(5, 0), (5, 2)]),
}


def between():
    for name, (text, pairs) in BETWEEN.items():
        yield from asked(f"one between, {name}", lined(text), pairs)
        yield from asked(f"one between, {name}, turned", lined(turned(text)), pairs)
    for k in range(1, 15):
        words = ["x8"] * 16
        words[0] = words[k] = words[15] = f"{'rw'[k % 2]}8"
        yield from asked(f"one between, {k} of sixteen", lined(" ".join(words)), [(0, 15)])


# ---- tables and exact bits

FOUR = "r8 r8 r8 w8"
WAYS = {"one between": [(5, 0), (5, 2)], "both directions": [(3, 0)]}
TABLES = {
    "no record": [],
    **{f"{k} muted": [(INDEX + k, 0)] for k in range(4)},
    "1 muted by the first match": [(INDEX + 1, 0), (INDEX + 1, 1)],
    "1 muted by the second match": [(INDEX + 1, 1), (INDEX + 1, 0)],
    "1 muted by the last of 256": [(0, 0)] * 255 + [(INDEX + 1, 0)],
    "255 for 1": [(INDEX + 1, 255)],
    "all muted": [(INDEX + k, 0) for k in range(4)],
    "another PDO muted": [(INDEX + 4, 0)],
}


def tables():
    """Multiplier 0 makes a sync manager empty, and so decides."""
    for way, pairs in WAYS.items():
        for name, table in TABLES.items():
            yield from asked(f"{way}, {name}", lined(FOUR), pairs, table=table)
    twice = [eeprom(1, 1, INDEX + 4, 8)]
    for name, table in (("one muted", [(INDEX + 1, 0)]), ("both muted", [(INDEX + 1, 0), (INDEX + 4, 0)])):
        yield from asked(f"one between, two PDOs, {name}", lined(FOUR, more=twice), WAYS["one between"], table=table)
    for name, pdo in (("kind 1", eeprom(1, 1, INDEX, 8)), ("kind 2", eeprom(2, 1, INDEX, 8)), ("CoE", coe(1, INDEX, 8))):
        data = lined("r8 r r8 w8", more=[pdo])
        yield from asked(f"one between, its bits of {name}", data, WAYS["one between"])


def wide():
    """18 looks at exact bits and comes before 6."""
    for bits in (65_528, 65_529):
        for way, pairs in {"no pair": [], "both directions": [(1, 0)]}.items():
            yield from asked(f"{bits:,} bits of outputs, {way}", lined(f"r8 w{bits}"), pairs)
            yield from asked(f"{bits:,} bits of inputs, {way}", lined(f"w8 r{bits}"), pairs)
    doubled = [(INDEX + 1, 2)]
    for name, pairs in {"on another": [(5, 0), (5, 2)], "on the same": [(1, 0), (1, 2)]}.items():
        for text in ("r8 r32768 r8 w8", "w8 w32768 w8 r8"):
            yield from asked(f"65,536 bits between, {name}, {text[0]}", lined(text), pairs, table=doubled)
    most = [eeprom(2, 1, INDEX + 1, 65_535)] * 253
    by_255 = [(INDEX + 1, 255)]
    yield from asked("4,244,701,950 bits beside", lined("r8 w65535", more=most), [(5, 0), (5, 1)], table=by_255)


# ---- the neighbours

BAD = {"a number above 15": [(0, 0), (3, 16)], **WAYS}
FINE = {"pairs that are fine": [(5, 0), (5, 1)]}
LONG = "r65528 " * 9 + "w8"


def neighbours(write):
    """For each number but 7, by a name, what makes a call on FOUR refused with it, if 18 doesn't hold.

    Of a direction's numbers it is the one that has three sync managers; ask_both.py has the other too.
    """
    text, too_wide = (turned(text) if write else text for text in (FOUR, "r65529 r8 r8 w8"))
    data, late = lined(text), dict(c=LIMIT - 1) if write else dict(a=LIMIT - 1)
    yield "none", dict(data=data)
    yield "1 by the entries", dict(data=data, fmmus=pattern(255))
    yield "1 by the channels", dict(data=data, channels=pattern(127))
    yield "2", dict(data=data[:-1])
    yield "3", dict(data=lined(text, version=2))
    yield "4", dict(data=lined(text, usages=(4,)))
    yield "5", dict(data=lined(f"{text} u"))
    yield "6", dict(data=lined(too_wide))
    yield "8 by full entries", dict(data=data, fmmus=area(*[left(own(write), length=65_535)] * 16), ways=KEEPING)
    yield "9", dict(data=data, **late)
    yield "10", dict(data=data, b=61 if write else 101)
    yield "15", dict(data=data, fmmus=area(left(BOTH), first=9))
    yield "6, 9, 10 and 15", dict(data=lined(too_wide), b=LIMIT, fmmus=area(left(BOTH), first=9), **late)


def order():
    for write, side in SIDES:
        for way, pairs in {**BAD, **FINE}.items():
            for number, words in neighbours(write):
                words = dict(ways=CLEARING) | words
                yield from asked(f"{way}, beside {number} of {side}", pairs=pairs, **words)
        text = turned(LONG) if write else LONG
        on_one = [(2, k) for k in range(9)]
        for way, pairs in {"fine": on_one, "both directions": [*on_one, (2, 9)], "above 15": [*on_one, (2, 16)]}.items():
            yield from asked(f"73,719 bytes of {side} on one entry, {way}", lined(text), pairs, ways=EITHER)
            words = dict(a=LIMIT - 1, b=LIMIT, fmmus=area(left(BOTH), first=9))
            yield from asked(f"73,719 bytes of {side}, 9, 10 and 15, {way}", lined(text), pairs, **words)


def on_both_paths():
    """A bad list beside each number: CoE sheets give that number, 7 too; the others 18, unless it is below."""
    for cause, words in causes():
        words = dict(fmmus=area(left(BOTH), first=9), b=0) | words
        yield from asked(f"a bad list beside 15 and {cause}", pairs=[(16, 0), (9, 255)], **words)


def ask():
    for part in (numbers, meeting, between, tables, wide, order, on_both_paths):
        yield from part()
