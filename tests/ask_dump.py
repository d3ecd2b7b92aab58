"""Requests to the reader of a device's own EEPROM dump: D reads one, E writes its sheet."""

from itertools import combinations, permutations

from build import (
    FIVE, MARK, category, fmmu_category, manager_category, pattern, pdo_entry, pdo_head, pdo_record,
    rx_category, sync_manager, tx_category,
)
from dump import FMMUS, LONGEST, MANAGERS, RX_PDOS, TX_PDOS
from stream import Request

MOST = 20_480  # all that the probe takes and lends


def told(letter, data, room=MOST, flags=0, sizes=(0, 0), **more):
    receive, send = sizes
    return Request(letter, flags, room, b=receive * 65_536 + send, sheet=data, **more)


def read(name, data, *rooms, **more):
    """Reading a dump in each room, or in plenty."""
    for room in rooms or (MOST,):
        yield f"a dump: {name}" + (f", room {room}" if rooms else ""), told("D", data, room, **more)


def write(name, data, *rooms, **more):
    """The same, writing its sheet."""
    for room in rooms or (MOST,):
        yield f"a dump's sheet: {name}" + (f", room {room}" if rooms else ""), told("E", data, room, **more)


def both(name, data, *rooms, **more):
    yield from read(name, data, *rooms, **more)
    yield from write(name, data, *rooms, **more)


# ---- dumps that are accepted

# what stands in a device's EEPROM beside the four: strings, general, distributed clocks
STRINGS = category(10, b"\x02\x06LOCKER\x0bDoor switch")
GENERAL = category(30, pattern(32))
CLOCKS = category(60, pattern(24))
USAGES = fmmu_category(1, 2, 3)
SYNC = manager_category(*((*row, 128, 0x30) for row in FIVE))
TX = tx_category(pdo_record(3, 0x1A00, 12, 5), pdo_record(4, 0x1A01, 8, 1))
RX = rx_category(pdo_record(2, 0x1600, 16))
BAY = STRINGS + GENERAL + USAGES + SYNC + TX + RX + CLOCKS + MARK
# one record of each of the four and a category that is stepped over, by type; then all of them without a mark
SMALL = {
    FMMUS: fmmu_category(1, 255),
    10: category(10, b"\x01\x02"),
    MANAGERS: manager_category((0x1134, 0xA6, 0xFF, 3)),
    TX_PDOS: tx_category(pdo_record(3, 0x1A42, 7)),
    RX_PDOS: rx_category(pdo_record(2, 0x1643)),
}
SHORT = b"".join(SMALL.values())
# as much as there can be: sixteen of each and 255 PDOs
FULL_ROWS = [(0x1000 + 0x111 * k, (0x26, 0x22, 0x64, 0x20)[k % 4], k, k % 5) for k in range(16)]
FULL_PDOS = [pdo_record(k % 17, 0x1A01 + 211 * k, *[k] * (k % 3)) for k in range(255)]
FULL = fmmu_category(*[k % 4 for k in range(16)]) + manager_category(*FULL_ROWS)
FULL += tx_category(*FULL_PDOS[:128]) + rx_category(*FULL_PDOS[128:]) + MARK


def whole():
    yield from read("a bay's", BAY, 0, 20, 21, 22, MOST)
    yield from write("a bay's", BAY, 0, 60, 61, 62, MOST)
    yield from both("a bay's with mailboxes and CoE", BAY, flags=3, sizes=(128, 192))
    yield from read("the most that there can be", FULL, 0, 1_784, 1_785, 1_786, flags=7, sizes=(65_535, 65_535))
    yield from write("the most that there can be", FULL, 0, LONGEST - 1, LONGEST, LONGEST + 1, flags=7)
    yield from read("the mark alone", MARK, 0, MOST)
    yield from write("the mark alone", MARK, 0, 10, 11, 12)
    yield from both("no bytes", b"", 0)


def often():
    for times in (0, 1, 3):
        yield from both(f"{times} times", BAY, 63, a=times)
        yield from both(f"{times} times, refused", BAY, 20, a=times)
    yield from both("one answer for several values", BAY, c=7, times=3)


def told_beside():
    """The flags and sizes are the caller's."""
    for flags in (*range(9), 16, 128, 248, 255):
        yield from read(f"flags {flags}", SHORT + MARK, flags=flags)
    for flags in (1, 2, 4, 7, 8, 255):
        yield from write(f"flags {flags}", SHORT + MARK, flags=flags)
    sizes = (0, 1, 255, 256, 0x1234, 65_535)
    for receive, send in zip(sizes, sizes[1:] + sizes[:1]):
        yield from read(f"sizes {receive} and {send}", SHORT + MARK, sizes=(receive, send))


# ---- where a dump ends


def cuts():
    """Every cut is refused with 16 up to the mark; behind it nothing counts."""
    data = SHORT + MARK + b"\x28\x00\x09"
    for size in range(len(data) + 1):
        yield from read(f"{size} bytes of {len(data)}", data[:size])
    for size in range(len(SHORT) - 3, len(data)):
        yield from write(f"{size} bytes of {len(data)}", data[:size])


def behind_the_mark():
    dump = SHORT + MARK
    rest = {"a byte": b"\0", "two": b"\x28\0", "three": b"\x28\0\1", "five": b"\x28\0\1\0\5", "a mark": MARK}
    rest |= {"half a mark": b"\xff", "the same again": dump, "a bay's": BAY, "broken categories": category(FMMUS, b"\5\5", 9)}
    for name, data in rest.items():
        yield from both(f"{name} behind the mark", dump + data)
    yield from both("20,480 bytes, most of them behind the mark", (dump + pattern(MOST))[:MOST])


def past_the_end():
    """Lengths that take in the mark, or point past the end; as bytes or in 16 bits some would not."""
    for kind in (10, FMMUS, RX_PDOS):
        data = {FMMUS: b"\1\2" * 4, RX_PDOS: pdo_record(2, 0x1643)}.get(kind, pattern(8))
        for more in (1, 2, 3, 0x7FFC, 0x7FFD, 0xFFFB):
            yield from read(f"category {kind} tells {more} words more", category(kind, data, more) + MARK)
        for behind in (1, 3):
            name = f"category {kind} tells 2 words more, {behind} bytes behind the mark"
            yield from read(name, category(kind, data, 2) + MARK + b"\xff" * behind)
        yield from read(f"category {kind} without its last byte", category(kind, data)[:-1])
        yield from read(f"category {kind} without a mark", category(kind, data))
        yield from read(f"category {kind} and half a mark", category(kind, data) + b"\xff")
    for words in (0x7FFE, 0x7FFF, 0x8000, 0xFFFE, 0xFFFF):
        yield from read(f"{words} words told, the mark at once", category(42, more=words) + MARK)
    shorter = category(10, pattern(8), -2) + MARK  # its last four bytes are then the head of another, of 0x0706 words
    yield from read("a category that tells 2 words fewer", shorter)
    yield from read("a category that tells 1 word fewer, the last being a mark", category(10, b"\1\2\xff\xff", -1))


def no_words():
    for kind in (FMMUS, MANAGERS, TX_PDOS, RX_PDOS, 10, 0):
        yield from read(f"category {kind} of no words", category(kind) + MARK)
    empty = b"".join(map(category, SMALL))
    yield from both("each category of no words", empty + MARK)
    yield from read("each category of no words and no mark", empty)
    for kind in SMALL:
        rest = b"".join(data if other != kind else category(kind) for other, data in SMALL.items())
        yield from read(f"category {kind} of no words among others", rest + MARK)


# ---- types


# near the four, with their bytes swapped, with a high byte, and near the mark
STRANGE = (
    0, 39, 42, 49, 52, 0x2800, 0x2900, 0x3200, 0x3300, 0x0128, 0x0129, 0x0132, 0x0133, 0xFF28, 0xFF33, 0x00FF, 0xFF00,
    0x7FFF, 0xFFFE, 0xFEFF,
)


def unknown():
    """What stands in a category of an unknown type doesn't matter; as one of the four it would be refused."""
    for kind in STRANGE:
        yield from read(f"a category of type {kind}", SMALL[FMMUS] + category(kind, b"\5" * 16) + SMALL[TX_PDOS] + MARK)
    parts = list(SMALL.values())
    for place in range(len(parts) + 1):
        for data in (MARK, b"\5" * 6, SHORT + MARK):
            name = f"{len(data)} unknown bytes in place {place}"
            yield from read(name, b"".join([*parts[:place], category(42, data), *parts[place:], MARK]))
    between = category(42, b"\5" * 10) + category(42) + category(43, MARK * 3)
    yield from both("unknown categories everywhere", between + b"".join(part + between for part in parts) + MARK)


def second():
    """A second category of one of the four, whichever is empty, and wherever it stands."""
    for kind in (FMMUS, MANAGERS, TX_PDOS, RX_PDOS):
        one, none, rest = SMALL[kind], category(kind), SHORT.replace(SMALL[kind], b"")
        yield from read(f"category {kind} twice", one + one + MARK)
        yield from read(f"category {kind} twice, the second empty", one + none + MARK)
        yield from read(f"category {kind} twice, the first empty", none + one + MARK)
        yield from read(f"category {kind} twice, both empty", none + none + MARK)
        yield from read(f"category {kind} three times", one + none + one + MARK)
        yield from read(f"category {kind} twice, the others between", one + rest + none + MARK)
        yield from read(f"category {kind} again as the last", BAY[:-2] + none + MARK)
        yield from read(f"category {kind} again far away", one + category(42, pattern(2_000)) + one + MARK)
        yield from read(f"category {kind} again behind the mark", one + MARK + one)
    yield from read("category 10 twice", SMALL[10] + SHORT + SMALL[10] + MARK)


def orders():
    """PDOs stand in the order of the dump, whatever the order of the categories."""
    for order in permutations((FMMUS, MANAGERS, TX_PDOS, RX_PDOS)):
        yield from read(f"the categories {order}", b"".join(SMALL[kind] for kind in order) + MARK)
    yield from both("a bay's, RxPDO before TxPDO", RX + TX + SYNC + USAGES + MARK, sizes=(1, 2))


# ---- FMMU and SyncM


def usages():
    for size in (0, 2, 4, 14, 16, 18, 32, 256, 258, 272):
        yield from read(f"{size} usages", category(FMMUS, bytes(k % 4 for k in range(size))) + MARK)
    for pad in (0, 1, 4, 255):
        yield from read(f"usages 1, 2 and 3, the pad {pad}", category(FMMUS, bytes([1, 2, 3, pad])) + MARK)
    for usage in (*range(6), 254, 255):
        for place, size in ((0, 2), (15, 16)):
            row = bytes(usage if k == place else k % 4 for k in range(size))
            yield from read(f"usage {usage} in place {place} of {size}", category(FMMUS, row) + MARK)
    yield from both("255 in each of sixteen usages", category(FMMUS, b"\xff" * 16) + MARK)
    yield from read("255 in each of eighteen usages", category(FMMUS, b"\xff" * 18) + MARK)


def manager_records():
    rows = b"".join(sync_manager(0x1000 + 0x11 * k, 0x20, 1, 4) for k in range(33))
    for size in (2, 4, 6, 8, 10, 14, 16, 122, 128, 130, 136, 138, 256, 264):
        yield from read(f"{size} bytes of sync managers", category(MANAGERS, rows[:size]) + MARK)
    yield from both("a sync manager's bytes 1 to 8", category(MANAGERS, bytes([1, 2, 3, 4, 6, 5, 7, 4])) + MARK)
    for start in (0, 1, 0x00FF, 0xFF00, 0x1234, 0xFFFF):
        yield from read(f"start {start}", manager_category((start, 0, 0, 0)) + MARK)


def manager_fields():
    """In a sync manager of its own, and in the last of three."""
    row = (0x1180, 0x20, 1, 4)
    for usage in (*range(6), 128, 255):
        new = (*row[:3], usage)
        yield from read(f"type {usage}", manager_category(new, row) + MARK)
    for usage in (0, 5, 255):
        new = (*row[:3], usage)
        yield from read(f"type {usage} in the last of three", manager_category(row, row, new) + MARK)
    for low in range(16):
        for high in (0x20, 0xD0):
            yield from read(f"control {high + low}", manager_category((0x1180, high + low, 1, 3)) + MARK)
    for control in (0x21, 0x28, 0x2F):
        new = (0x1180, control, 0, 0)
        yield from read(f"control {control} in the last of three", manager_category(row, row, new) + MARK)
        yield from read(f"control {control} in the first of three", manager_category(new, row, row) + MARK)
    for enable in (0, 1, 2, 3, 254, 255):
        yield from read(f"enable {enable}", manager_category((0x1180, 0x20, enable, 4)) + MARK)
    for length, status in ((0, 0), (0xFFFF, 0), (0, 0xFF), (0xFFFF, 0xFF), (0x2303, 0x23)):
        yield from read(f"length {length}, status {status}", manager_category((*row, length, status)) + MARK)
    for high in range(0, 256, 64):
        named = [high + k for k in range(64) if k % 16 in (0, 2, 4, 6)]
        rows = [(257 * k, control, k, k % 5, 65_535 - k, control ^ 255) for k, control in enumerate(named)]
        yield from read(f"controls {high} to {high + 63} that have names", manager_category(*rows) + MARK)


# ---- PDOs


def pdos(name, *rows, letters="tr"):
    """The same PDO records as TxPDO, as RxPDO, or as each."""
    for letter, kind, word in (("t", TX_PDOS, "TxPDO"), ("r", RX_PDOS, "RxPDO")):
        if letter in letters:
            yield from read(f"{word}, {name}", category(kind, b"".join(rows)) + MARK)


def bits():
    for entries in (0, 1, 2, 31, 32, 33, 127, 128, 255):
        yield from pdos(f"{entries} entries of 1 bit", pdo_record(3, 0x1A00, *[1] * entries), letters="t")
    for size in (0, 1, 8, 127, 128, 255):
        yield from pdos(f"an entry of {size} bits", pdo_record(3, 0x1A00, size), letters="r")
    yield from pdos("255 entries of 255 bits", pdo_record(3, 0x1A00, *[255] * 255))
    yield from pdos("255 entries of 0 bits", pdo_record(3, 0x1A00, *[0] * 255), letters="r")
    yield from pdos("255 entries of 0 to 254 bits", pdo_record(3, 0x1A00, *range(255)), letters="t")
    yield from pdos("256 bits by two entries", pdo_record(3, 0x1A00, 255, 1), letters="t")
    yield from pdos("two PDOs of 255 entries", *[pdo_record(k, 0x1A00 + k, *[254 + k] * 255) for k in range(2)])
    first, last = pdo_record(1, 0x1A00, 1, *[0] * 6), pdo_record(1, 0x1A00, *[0] * 6, 1)
    yield from pdos("7 entries, the bit in the first, then in the last", first, last, letters="r")


def pdo_bytes():
    """A byte taken for its neighbour is seen."""
    yield from pdos("a head's bytes 1 to 8", bytes([1, 2, 0, 4, 5, 6, 7, 8]))
    yield from pdos("an entry's bytes 1 to 8", pdo_head(0x1A42, 1, 3) + bytes(range(1, 9)))
    for place in (0, 1, 3, 4, 5, 6, 7):
        head = bytes(255 if k == place else 0 for k in range(8))
        yield from pdos(f"byte {place} of a head is 255", head, letters="t")
    for place in range(8):
        entry = bytes(255 if k == place else 0 for k in range(8))
        yield from pdos(f"byte {place} of an entry is 255", pdo_head(0x1642, 2, 2) + entry + bytes(8), letters="r")
        other = bytes(0 if k == place else 255 for k in range(8))
        yield from pdos(f"byte {place} of an entry is 0", pdo_head(0x1A42, 1, 3) + other, letters="t")
    for index in (0, 0x1A00, 0x001A, 0xFFFF):
        yield from pdos(f"index {index}", pdo_record(3, index, 8), letters="r")
    for manager in (0, 1, 15, 16, 255):
        yield from pdos(f"sync manager {manager}", pdo_record(manager, 0x1A42, 8), letters="t")


def pdo_records():
    """Records that don't end where the category does; an entry too many can be the head of another PDO."""
    one, two = pdo_record(3, 0x1A42, 8), pdo_record(3, 0x1A42, 8, 9)
    for size in (2, 4, 6):
        yield from pdos(f"{size} bytes of a head", one[:size])
        yield from pdos(f"a PDO and {size} bytes of a head", one, one[:size], letters="t")
    for size in (8, 10, 14, 18, 22):
        yield from pdos(f"{size} bytes of a PDO with two entries", two[:size], letters="t")
    for more in (1, 2, 253):
        yield from pdos(f"{more} entries more told", pdo_record(3, 0x1A42, 8, 9, more=more))
    yield from pdos("an entry fewer told, its third byte counting 36", pdo_record(3, 0x1A42, 8, 9, more=-1))
    empty = pdo_head(0x1A42, 1, 3) + pdo_entry(8) + pdo_entry(9, sub=0)
    yield from pdos("an entry fewer told, its third byte counting none", empty)
    yield from pdos("an entry more told, another PDO being that", pdo_record(3, 0x1A42, 8, more=1), pdo_record(4, 0x1A43))
    yield from pdos("an entry more told, taken from another PDO", pdo_record(3, 0x1A42, 8, more=1), pdo_record(4, 0x1A43, 8))
    late = tx_category(pdo_record(3, 0x1A42, 8, more=1)) + rx_category(pdo_record(2, 0x1642))
    yield from both("an entry more told, the next category being there", late + MARK)


def pdo_counts():
    many = [pdo_record(k % 16, 0x1A00 + k) for k in range(512)]
    for sent, received in ((254, 0), (255, 0), (256, 0), (0, 255), (0, 256), (512, 0), (256, 256), (255, 255)):
        yield from read(f"{sent} and {received} PDOs", tx_category(*many[:sent]) + rx_category(*many[:received]) + MARK)
    for sent, received in ((128, 127), (127, 128), (128, 128), (255, 1), (1, 255), (254, 1)):
        data = rx_category(*many[:received]) + tx_category(*many[:sent]) + MARK
        yield from read(f"{received} PDOs received, {sent} sent", data)
    data = tx_category(*many[:255]) + MARK
    yield from read("255 PDOs", data, 0, 7, 1_784, 1_785, 1_786)
    yield from write("255 PDOs", data, 1_785, 1_795, 1_796)
    yield from read("256 PDOs", tx_category(*many[:256]) + MARK, 0, 1_785, 1_792)
    one = rx_category(many[258]) + MARK
    yield from read("one PDO", one, 0, 1, 6, 7, 8)
    yield from write("one PDO", one, 7, 17, 18, 19)


# ---- long dumps


def long_dumps():
    room = MOST - len(SHORT) - 6
    yield from both("20,480 bytes, the four behind", category(42, pattern(room)) + SHORT + MARK)
    yield from read("20,479 bytes and half a mark", SHORT + category(42, pattern(room)) + b"\xff")
    yield from read("20,480 bytes and no mark", SHORT + category(42, pattern(room + 2)))
    yield from read("20,480 bytes, a word more told", SHORT + category(42, pattern(room), 1) + MARK)
    yield from read("20,480 bytes of unknown categories", b"".join(category(42 + k % 8) for k in range(5_119)) + MARK * 2)
    for byte in (0, 255):
        yield from read(f"20,480 bytes of {byte}", bytes([byte]) * MOST)
    most = [pdo_record(k, 0x1A00 + k, *[255 - k] * 255) for k in range(9)]
    data = tx_category(*most[:5]) + rx_category(*most[5:]) + USAGES + SYNC
    yield from both("nine PDOs of 255 entries", data + MARK, 63, MOST)
    yield from read("2,559 PDOs", tx_category(*[pdo_record(1, k) for k in range(2_559)]) + MARK)
    yield from read("2,558 usages", category(FMMUS, b"\1\2" * 1_279) + MARK)


# ---- refusals, alone and together

# each way to give a number: the categories that do so, or the flags
SEVENTEENS = {
    "a sync manager of 10 bytes": category(MANAGERS, bytes(10)),
    "half a PDO sent": category(TX_PDOS, bytes(4)),
    "half a PDO received": category(RX_PDOS, pdo_record(2, 0x1642, 8)[:10]),
    "two FMMU categories": category(FMMUS) * 2,
    "two SyncM categories": manager_category((0, 0, 0, 0)) * 2,
    "two RxPDO categories": category(RX_PDOS) + RX,
}
FOURS = {
    "flags 8": (b"", 8),
    "17 sync managers": (category(MANAGERS, bytes(136)), 0),
    "18 usages": (category(FMMUS, bytes(18)), 0),
    "256 PDOs": (tx_category(bytes(2_048)), 0),
    "type 5": (manager_category((0, 0, 0, 0), (0, 0, 0, 5)), 0),
    "usage 4": (category(FMMUS, b"\1\4"), 0),
}
ENDS = {"no mark": b"", "half a mark": b"\xff", "a head without its length": b"\x28\0", "a word past the end": b"\x0a\0\1\0"}


def pairs():
    """A number and the next of the order, each given in several ways; what gives the later one stands first in the dump."""
    for end, rest in ENDS.items():
        yield from both(end, SHORT + rest)
        yield from read(f"16 and 17, {end}", SMALL[FMMUS] * 2 + rest)
    for place, (name, data) in enumerate(SEVENTEENS.items()):
        yield from both(f"17, {name}", data + MARK)
        yield from read(f"16 and 17, {name}", data)
        for k in (0, 1, 3):
            four, (wrong, flags) = list(FOURS.items())[(place + k) % len(FOURS)]
            yield from read(f"17 and 4, {name}, {four}", wrong + data + MARK, flags=flags)
    for four, (wrong, flags) in FOURS.items():
        yield from both(f"4, {four}", wrong + MARK, flags=flags)
        yield from read(f"4 and 12, {four}", wrong + RX + MARK, 0, flags=flags)
        yield from read(f"16 and 4, {four}", wrong, flags=flags)
        if wrong[:1] != bytes([MANAGERS]):
            unnamed = manager_category((0x1180, 0x23, 1, 4))
            yield from read(f"4 and 5, {four}", unnamed + wrong + MARK, flags=flags)
    yield from read("4 and 5, type 5 in the sync manager of mode 3", manager_category((0, 0x23, 0, 5)) + MARK)
    yield from read("4 and 5, type 5 behind mode 3", manager_category((0, 0x23, 0, 0), (0, 0, 0, 5)) + MARK)
    yield from read("4 and 5, 17 sync managers of mode 3", manager_category(*[(0, 3, 0, 0)] * 17) + MARK)
    yield from both("5 in a sync manager of no use", manager_category((0, 1, 0, 0)) + MARK)


def together():
    """Every choice of the five numbers, in one dump; the first of their order is given."""
    numbers = (16, 17, 4, 5, 12)
    for count in range(6):
        for chosen in combinations(numbers, count):
            data = manager_category((0x1180, 0x23 if 5 in chosen else 0x20, 1, 4)) + TX
            data += fmmu_category(1, 4 if 4 in chosen else 2) + (category(TX_PDOS) if 17 in chosen else b"")
            name = " and ".join(map(str, chosen)) or "none"
            data += b"" if 16 in chosen else MARK
            yield from read(f"{name} of five", data, 13 if 12 in chosen else 14)
            if count < 2 or 12 in chosen:
                yield from write(f"{name} of five", data, 31 if 12 in chosen else 32)


def ask():
    groups = (
        whole, often, told_beside, cuts, behind_the_mark, past_the_end, no_words, unknown, second, orders, usages,
        manager_records, manager_fields, bits, pdo_bytes, pdo_records, pdo_counts, long_dumps, pairs, together,
    )
    for group in groups:
        yield from group()
