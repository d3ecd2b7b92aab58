"""Requests to translation and counting: both at every address in and around the ranges, and the limits of each."""

from typing import NamedTuple

from ask_pairs import APART, INDEX, SHARED, lined, turned
from bays import IN, OUT, PAIR
from build import FOUR, SAMPLE, STALE, area, coe, eeprom, entry, managers, on_coe, on_eeprom, sheet
from pairs import FmmuMode
from planning import OldEntries, OutputStart, Settings, configure_fmmus
from registers import LIMIT
from stored import sample
from stream import Request

GAP, OWN = sample("gap"), sample("gap-eeprom")
# the second sync manager's inputs stand before the first's
SWAPPED = on_coe(coe(3, IN, 16), coe(4, IN + 1, 8), rows=FOUR + managers((0x117F, 0x20, 1, 4)))
# an empty sync manager between the two doesn't part them
EMPTY_BETWEEN = on_coe(coe(3, IN, 24), coe(5, IN + 1, 16), rows=FOUR + managers((0x4000, 0x20, 1, 4)) + PAIR)
# inputs that end past the last device address
AT_THE_END = on_eeprom(eeprom(1, 0, IN, 24), rows=managers((0xFFFE, 0x20, 1, 4)))
LARGE = on_eeprom(eeprom(1, 0, IN, 65_528), rows=managers((0x1000, 0x20, 1, 4)))


class Plan(NamedTuple):
    """What a call left: the FMMU area, and where each direction starts."""

    fmmus: bytes
    starts: tuple


def planned(data, inputs, outputs=None, fmmus=area(), table=(), settings=Settings()):
    """A call from an input offset; without an output offset the outputs come straight after the inputs."""
    start = OutputStart.AFTER_INPUTS if outputs is None else OutputStart.GIVEN
    fmmus, channels, offsets = bytearray(fmmus), bytearray(128), [inputs, outputs or 0]
    segments = configure_fmmus(offsets, settings._replace(outputs=start), data, table, fmmus, channels)
    return Plan(bytes(fmmus), tuple(start for start, _ in segments))


def both_sides(name, data, plan, window, letters="ATC", table=()):
    """Both directions over a window (first address, how many), each counted from where it starts."""
    first, many = window
    for write, offset in enumerate(plan.starts):
        counted = dict(a=offset, sheet=data, table=list(table))
        parts = {"A": {**counted, "fmmus": plan.fmmus}, "T": {"fmmus": plan.fmmus}, "C": counted}
        for letter in letters:
            title = f"{name}: {'outputs' if write else 'inputs'}"
            yield title, Request(letter, write, c=first, times=many, **parts[letter])


def agreeing():
    orders = {"inputs first": (0, None), "outputs first": (102, 100), "apart": (20, 3), "overlapping": (4, 4)}
    for name, data in (("the sample", SAMPLE), ("a gap", GAP)):
        for order, offsets in orders.items():
            plan = planned(data, *offsets)
            first = max(0, min(plan.starts) - 3)
            yield from both_sides(f"{name}, {order}", data, plan, (first, max(plan.starts) + 10 - first))
    for name, data in (("a gap, EEPROM", OWN), ("swapped", SWAPPED), ("empty between", EMPTY_BETWEEN)):
        yield from both_sides(name, data, planned(data, 2, 9), (0, 16), "A")


def far():
    """Addresses near 0 and near 2^32 for a direction that ends at the last offset."""
    plan = planned(SAMPLE, LIMIT - 5, 0)
    for name, window in (("near 2^32", (LIMIT - 9, 20)), ("near 0", (0, 6))):
        yield from both_sides(f"the sample, {name}", SAMPLE, plan, window)
    yield from both_sides("up to 2^32", SAMPLE, planned(SAMPLE, LIMIT - 7), (LIMIT - 9, 20), "A")
    yield from both_sides("inputs at 0xfffe", AT_THE_END, planned(AT_THE_END, 1), (0, 6))
    yield from both_sides("8,191 bytes", LARGE, planned(LARGE, 10), (0, 8_210), "A")


def tables():
    table = [(IN, 2), (IN, 9), (OUT, 0)]
    plan = planned(SAMPLE, 4, 30, table=table)
    yield from both_sides("the call's table", SAMPLE, plan, (0, 40), "AC", table)
    yield from both_sides("another table", SAMPLE, plan, (0, 40), "A")
    yield "another start offset", Request("A", a=5, times=16, sheet=SAMPLE, table=table, fmmus=plan.fmmus)


def stale():
    """Last spring's fault, which is keeping; the same call in the default, and on a fresh area."""
    for name, fmmus, old in (
        ("a stale entry, keeping", STALE, OldEntries.KEEP),
        ("a stale entry", STALE, OldEntries.CLEAR),
        ("a fresh area", area(), OldEntries.CLEAR),
    ):
        yield from both_sides(name, SAMPLE, planned(SAMPLE, 5, fmmus=fmmus, settings=Settings(old=old)), (0, 15), "ATC")


def old_areas():
    """Areas in which entries of both directions were left; none of them is in the way of a call that clears them."""
    for own in (1, 2):
        odd = entry(0, 4, 0x1180, own, bits=(1, 7, 0), reserved=True)
        other = entry(2, 4, 0x4000, 3 - own)
        yield f"old entries everywhere, {own}", area(*[entry(8 * k, 8, 0x3000, own) for k in range(16)])
        yield f"old entries of odd bits, {own}", area(odd, odd)
        yield f"old and disabled entries, {own}", area(entry(0, 9, 0x3000, own), other, entry(0, 9, 0x5000, 3, 0))
        yield f"another job's entries, {own}", area(entry(0, 9, 0x3000, own), entry(0, 40, 0x4000, 3 - own), first=3)
    yield "old entries in turn", area(*[entry(8 * k, 8, 0x3000, 1 + k % 2) for k in range(16)])


def used():
    """In the default both sides agree for both directions, whatever stood in the area; keeping, they needn't."""
    for name, fmmus in old_areas():
        for path, data in (("the sample", SAMPLE), ("a gap, EEPROM", OWN), ("empty between", EMPTY_BETWEEN)):
            for told, old in (("", OldEntries.CLEAR), (", keeping", OldEntries.KEEP)):
                plan = planned(data, 3, fmmus=fmmus, settings=Settings(old=old))
                yield from both_sides(f"{path} over {name}{told}", data, plan, (0, 40), "A")


def by_pairs(pairs, old=OldEntries.CLEAR):
    return Settings(old=old, mode=FmmuMode.PAIRED, pairs=pairs)


# what lies between them lies elsewhere
TOGETHER = {
    "outputs between, elsewhere": ("r17 w8 r9", [0x1000, 0x2000, 0x1003], [(5, 0), (5, 2)]),
    "outputs in turn, elsewhere": ("r17 w8 r9 w16", [0x1000, 0x2000, 0x1003, 0x2001], [(5, 0), (6, 1), (5, 2), (6, 3)]),
    "one of no direction between, elsewhere": ("r17 x8 r9 w8", [0x1000, 0x2000, 0x1003], [(1, 0), (1, 2)]),
    "an empty one between, elsewhere": ("r17 r r9 w8", [0x1000, 0x2000, 0x1003], [(5, 0), (5, 2)]),
}
ORDERS = (3, None), (9, 2)


def sharing():
    """By pairs: sync managers that share an entry agree exactly if they lie end to end, in either order of the ranges."""
    lying = {name: (text, [], pairs) for name, (text, pairs) in SHARED.items()} | TOGETHER
    for number, (name, (text, starts, pairs)) in enumerate(lying.items()):
        data = lined(text, starts)
        plan = planned(data, *ORDERS[number % 2], settings=by_pairs(pairs))
        yield from both_sides(f"shared, {name}", data, plan, (0, 32), "A" if name in SHARED else "ATC")
    for name, (text, starts, pairs) in APART.items():
        data = lined(text, starts)
        plan = planned(data, 3, 20, settings=by_pairs(pairs))
        yield from both_sides(f"shared, {name}", data, plan, (0, 32), "ATC")
        own = planned(data, 3, 20, settings=by_pairs([(9, 0), (5, 1)]))
        yield from both_sides(f"{name}, each on its own", data, own, (0, 32), "A")


def sharing_far():
    """Sharing near the last offset and the last device address, and up to 65,535 bytes."""
    data, pairs = lined("r17 r9 w8", [0xFFFA]), [(5, 0), (5, 1)]
    plan = planned(data, LIMIT - 5, 0, settings=by_pairs(pairs))
    yield from both_sides("shared, near 2^32 and 0xffff", data, plan, (LIMIT - 9, 20))
    for start in (0xFFFB, 0xFFFC, 0xFFFD, 0xFFFE):
        data = lined("r17 r9", [start])
        yield from both_sides(f"shared, from {start:#x}", data, planned(data, 1, settings=by_pairs(pairs)), (0, 8))
    data = lined("r65528 " * 8 + "r56", [0])
    plan = planned(data, 1, settings=by_pairs([(5, k) for k in range(9)]))
    for window in ((0, 4), (8_190, 4), (65_526, 16)):
        yield from both_sides(f"65,535 bytes on one entry, {window[0]:,}", data, plan, window)


def sharing_again():
    """By pairs over areas in use: in the default both sides agree, whatever stood there."""
    pairs = [(5, 0), (5, 1)]
    for number, (name, fmmus) in enumerate(old_areas()):
        text = "r17 r9 w8" if number % 2 else turned("r17 r9 w8")
        for told, old in (("", OldEntries.CLEAR), (", keeping", OldEntries.KEEP)):
            plan = planned(lined(text), 3, fmmus=fmmus, settings=by_pairs(pairs, old))
            yield from both_sides(f"shared over {name}{told}", lined(text), plan, (0, 40), "A")


def sharing_by_table():
    """A table can part what lies end to end, or join what doesn't; both sides take the same one."""
    text, pairs, offsets = "r8 r8 r8 w8", [(5, 0), (5, 1), (5, 2)], (3, 9)
    tables = {"no record": [], **{f"{k} muted": [(INDEX + k, 0)] for k in range(3)}, "1 doubled": [(INDEX + 1, 2)]}
    for told, starts in (("end to end", []), ("the middle one elsewhere", [0x1000, 0x2000, 0x1001])):
        for name, table in tables.items():
            data = lined(text, starts)
            plan = planned(data, *offsets, table=table, settings=by_pairs(pairs))
            yield from both_sides(f"shared, {told}, {name}", data, plan, (0, 16), "A", table)
    plan = planned(lined(text), *offsets, settings=by_pairs(pairs))
    yield from both_sides("shared, counted with another table", lined(text), plan, (0, 16), "A", [(INDEX + 1, 0)])


def other_pairs():
    """Keeping, a second call by other pairs adds to what the first one made; counting takes no pairs."""
    data = lined("r17 r9 w8")
    first = planned(data, 3, settings=by_pairs([(5, 0), (5, 1)]))
    ways = {"other pairs": by_pairs([(7, 2)]), "other pairs, keeping": by_pairs([(5, 2), (6, 0)], OldEntries.KEEP)}
    for name, settings in ways.items():
        plan = planned(data, 3, fmmus=first.fmmus, settings=settings)
        yield from both_sides(f"a second call by {name}", data, plan, (0, 16), "A")
    one, pairs = lined("r17 w8"), [(5, 0), (5, 1)]
    inputs = planned(one, 3, 8, table=[(INDEX + 1, 0)], settings=by_pairs(pairs))
    both = planned(one, 3, 8, inputs.fmmus, [(INDEX, 0)], by_pairs(pairs, OldEntries.KEEP))
    for name, table in (("the first call's table", [(INDEX + 1, 0)]), ("the second call's table", [(INDEX, 0)])):
        yield from both_sides(f"another table, keeping, {name}", one, both, (0, 16), "A", table)
    for write in (0, 1):
        bad = Request("C", write, room=1, a=3, times=16, sheet=data, fmmus=bytes([16, 255]))
        yield f"counting, a bad pair in a part that it doesn't take, {write}", bad


def translation():
    two = area(entry(10, 4, 0x1000), entry(12, 4, 0x2000))
    yield "the first of two entries that overlap decides", Request("T", fmmus=two, c=8, times=12)
    turned = area(entry(12, 4, 0x2000), entry(10, 4, 0x1000))
    yield "the first, in the other order", Request("T", fmmus=turned, c=8, times=12)
    over = area(entry(0, 4, 0xFFFE), entry(0, 8, 0x3000))
    yield "65,535 is named, 65,536 is none, whatever later entries say", Request("T", fmmus=over, times=10)
    last = area(entry(LIMIT - 3, 65_535, 0x1000), first=15)
    yield "an entry near 2^32", Request("T", fmmus=last, c=LIMIT - 5, times=9)
    yield "it doesn't wrap", Request("T", fmmus=last, times=5)
    yield "one of 65,535 bytes from 1", Request("T", fmmus=area(entry(1, 65_535, 0)), c=65_534, times=4)
    yield "one of 65,535 bytes from 1, its start", Request("T", fmmus=area(entry(1, 65_535, 0)), times=4)
    yield "length 0 holds nothing", Request("T", fmmus=area(entry(1, 0, 0x1000)), times=4)
    rights = area(*[entry(4 * k, 4, 0x1000 * k, k) for k in range(4)])
    for write in (0, 1, 255):
        yield f"rights 0 to 3, direction {write}", Request("T", write, fmmus=rights, times=17)
    yield "a disabled entry", Request("T", fmmus=area(entry(0, 4, 0x1000, on=0), entry(0, 2, 0x2000)), times=5)
    yield "reserved bits set", Request("T", fmmus=area(entry(0, 4, 0x1000, reserved=True)), times=5)
    yield "an area of zeros", Request("T", times=5, fmmus=area())
    for size in (0, 255, 257):
        yield f"area of {size}", Request("T", fmmus=bytes(size))


def eleven():
    for bits in ((1, 7, 0), (0, 6, 0), (0, 7, 1), (7, 0, 7), (4, 7, 0), (0, 3, 0), (0, 7, 4)):
        yield f"bits {bits}", Request("T", fmmus=area(entry(0, 4, 0x1000, bits=bits)), times=5)
    odd = dict(bits=(0, 0, 0))
    yield "of length 0", Request("T", fmmus=area(entry(0, 0, 0x1000, **odd)))
    yield "after the match", Request("T", fmmus=area(entry(0, 4, 0x1000), entry(9, 4, 0x1000, **odd)), c=2)
    for write in (0, 1):
        yield "of the input direction", Request("T", write, fmmus=area(entry(0, 4, 0x1000, 1, **odd)))
        yield "of the output direction", Request("T", write, fmmus=area(entry(0, 4, 0x1000, 2, **odd)))
        yield "of both directions", Request("T", write, fmmus=area(entry(0, 4, 0x1000, 3, **odd), first=15))
        yield "of neither direction", Request("T", write, fmmus=area(entry(0, 4, 0x1000, 0, **odd)))
    yield "disabled", Request("T", fmmus=area(entry(0, 4, 0x1000, on=0, **odd)))
    yield "1 and 11", Request("T", fmmus=area(entry(0, 4, 0x1000, **odd), size=255))


SEVEN = on_coe(coe(2, OUT, 8), coe(3, IN, 8), usages=())
SIX = on_eeprom(eeprom(1, 1, IN, 65_529), eeprom(2, 0, OUT, 8))


def counting():
    refused = {
        2: SAMPLE[:57],
        3: sheet(0, 0, 0, version=2),
        4: sheet(8, 0, 0),
        5: on_eeprom(rows=managers((0, 0x23, 0, 0))),
        6: SIX,
        7: SEVEN,
    }
    for number, data in refused.items():
        for write in (0, 1):
            yield f"counting, {number}", Request("C", write, sheet=data, c=3)
    yield "7 for inputs alone", Request("C", sheet=on_coe(coe(3, IN, 8), usages=(1,)))
    yield "no 7 without bits", Request("C", sheet=on_coe(usages=()), times=3)
    yield "6 and 9", Request("C", sheet=SIX, a=LIMIT)
    yield "7 and 9", Request("C", sheet=SEVEN, a=LIMIT)
    yield "6 by the table", Request("C", sheet=SIX, table=[(IN, 0), (IN, 1)], times=3)
    for start in (LIMIT - 6, LIMIT - 5, LIMIT - 4, LIMIT):
        yield f"inputs from {start}", Request("C", a=start, c=LIMIT - 8, times=12, sheet=SAMPLE)
    yield "0 bytes from the last offset", Request("C", a=LIMIT, c=LIMIT, sheet=on_eeprom())
    yield "sync managers in rising number", Request("C", sheet=SWAPPED, times=5)
    yield "an empty sync manager is passed over", Request("C", sheet=EMPTY_BETWEEN, times=7)


def refused_sides():
    odd = area(entry(0, 4, 0x1180, bits=(1, 7, 0)))
    yield "1 beside an address", Request("A", sheet=SAMPLE, fmmus=bytes(255))
    yield "1 beside none", Request("A", sheet=SAMPLE, c=99)
    yield "11 beside an address", Request("A", sheet=SAMPLE, fmmus=odd)
    yield "none beside 2", Request("A", fmmus=area())
    yield "an address beside 7", Request("A", sheet=SEVEN, fmmus=area(entry(0, 4, 0x1180)), times=6)
    yield "none beside 9", Request("A", a=LIMIT, sheet=SAMPLE, fmmus=area())
    yield "1 beside 2", Request("A")
    yield "11 beside 6", Request("A", sheet=SIX, fmmus=odd)


def ask():
    paired = (sharing, sharing_far, sharing_again, sharing_by_table, other_pairs)
    for part in (agreeing, far, tables, stale, used, *paired, translation, eleven, counting, refused_sides):
        yield from part()
