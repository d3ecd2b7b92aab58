"""The bays that the call is tried on.

Document 01's sample, both paths, the limits of each rule, each refusal alone and beside its neighbours. Where an entry is
in use before the call, keeping adds to it, and the default clears it or refuses with 15; ask_old.py has more of that.
"""

from typing import NamedTuple

from build import BOXES, FOUR, SAMPLE, TWO, area, coe, eeprom, entry, managers, on_coe, on_eeprom, pattern, sheet
from registers import LIMIT


class Bay(NamedTuple):
    name: str
    sheet: bytes
    table: list
    offset: int
    group: int
    fmmus: bytes
    channels: bytes


def bay(name, data, table=(), offset=0, group=0, fmmus=area(), channels=pattern(128)):
    return Bay(name, data, list(table), offset, group, fmmus, channels)


IN, OUT = 0x1A00, 0x1600
ONE_IN, ONE_OUT = eeprom(1, 1, IN, 8), eeprom(2, 0, OUT, 8)
PAIR = managers((0x1183, 0x20, 1, 4))
TWO_IN = managers((1, 0, 1, 4), (2, 0, 1, 4))
BOTH_KINDS = (coe(3, IN, 8), eeprom(1, 3, IN + 1, 16))
NINE = managers(*[(0x1000 + 0x2000 * k % 0xF000, 0x20, 1, 4) for k in range(9)], (0x8000, 0x22, 1, 2))
LONG = [coe(k, IN + k, 255) for k in range(8)]
LONG_TABLE = [(IN + k, 255) for k in range(8)] + [(IN + 8, 16)]
SIXTEEN = managers(
    *BOXES, (0x1100, 0x64, 1, 3), (0x1180, 0x20, 1, 4),
    *[(0x1000 + 256 * k, 0x24 - 4 * (k % 2), 1, 3 + k % 2) for k in range(4, 16)],
)
FULL = area(entry(0, 65535, 0, 2), entry(0, 65535, 0))  # keeping, a byte more on either is 8


def with_old(old):
    """An area whose entry 1 is as given: the inputs' entry on both paths."""
    return area(old, first=1)


DOCUMENTS = [
    bay("the sample", SAMPLE),
    bay("the sample, offset 1000, group 900", SAMPLE, offset=1000, group=900),
    bay("the sample over its own entries", SAMPLE, offset=7, fmmus=area(entry(5, 2, 0x1100, 2), entry(0, 5, 0x1180))),
    bay("17 and 9 bits", on_coe(coe(3, IN, 12, 5), coe(4, IN + 1, 8, 1), rows=FOUR + PAIR)),
    bay("17 and 9 bits, EEPROM", on_eeprom(eeprom(1, 1, IN, 17), eeprom(1, 2, IN + 1, 9), rows=TWO + PAIR)),
    bay("the smallest sheet", sheet(0, 0, 0)),
    bay("1 bit each", on_coe(coe(2, OUT, 1), coe(3, IN, 1))),
]

PATHS = [
    bay("EEPROM, kinds 1 and 2", on_eeprom(eeprom(1, 1, IN, 16), eeprom(2, 0, OUT, 9))),
    bay(
        "EEPROM, the other kind counts nowhere",
        on_eeprom(eeprom(1, 0, IN, 16), eeprom(2, 1, OUT, 9), coe(0, OUT + 1, 8), coe(1, IN + 1, 8)),
    ),
    bay(
        "CoE, EEPROM kinds count nowhere",
        on_coe(eeprom(1, 3, IN, 16), eeprom(2, 2, OUT, 9), coe(2, OUT + 1, 8), coe(3, IN + 1, 24)),
    ),
    bay("CoE, 0 bits, usages", on_coe()),
    bay("CoE, 0 bits, no usage", on_coe(usages=())),
    bay("CoE, 0 bits, mappings of 0", on_coe(coe(2, OUT, 0, 0), coe(3, IN))),
    bay("EEPROM, 0 bits", on_eeprom()),
    bay("CoE, the first entry of a usage", on_coe(coe(2, OUT, 8), coe(3, IN, 8), usages=(0, 3, 2, 1, 2, 1))),
    bay("CoE, the same number twice", on_coe(coe(3, IN, 8), coe(3, IN, 8), coe(3, IN + 1, 8))),
    bay("CoE, one number with two mappings", on_coe(coe(3, IN, 8), coe(3, IN, 16))),
    bay("CoE, a number that SDO reads begin at", on_coe(coe(3, 0x1C10, 8), coe(2, 0x1C1F, 16))),
    bay(
        "CoE, a number that no sync manager has",
        on_coe(coe(4, IN, 8), coe(19, IN + 1, 8), coe(18, OUT + 2, 8), coe(255, OUT, 8), coe(2, OUT + 1, 8)),
    ),
    bay("CoE, a mailbox's number", on_coe(coe(0, IN, 8), coe(1, OUT, 8))),
    bay(
        "EEPROM, ENABLE clear and odd bits",
        on_eeprom(ONE_IN, ONE_OUT, rows=managers((0x1100, 0x64, 0xFE, 3), (0x1180, 0x20, 0xFF, 4))),
    ),
    bay(
        "control a6 and e4",
        on_coe(coe(2, OUT, 8), rows=managers((0x1000, 0xA6, 1, 1), (0x1080, 0xA2, 1, 2), (0x1100, 0xE4, 1, 3))),
    ),
    bay(
        "EEPROM, sync manager 15 of sixteen",
        on_eeprom(eeprom(1, 15, IN, 8), rows=managers(*[(16 * k, 0, 1, 4 if k == 15 else 0) for k in range(16)])),
    ),
    bay(
        "all sixteen sync managers, CoE",
        on_coe(*[coe(k, IN + k, k) for k in range(16)], rows=SIXTEEN, usages=(*[0] * 14, 1, 2)),
    ),
    bay(
        "all sixteen sync managers, EEPROM",
        on_eeprom(
            *[eeprom(1 + k % 2, k, IN + k, 7 * k) for k in range(16)],
            rows=managers(*[(0xF000 + 256 * k, 0x60 + 4 * (k % 2), 1, 4 - k % 2) for k in range(16)]),
        ),
        offset=0x01020304,
        group=0x01020300,
    ),
]

MAILBOXES = [
    bay("mailboxes of unequal sizes", sheet(7, 0x1234, 0xFFFF, managers(*BOXES))),
    bay(
        "two of a kind",
        sheet(5, 64, 32, managers(*BOXES, (0x1100, 0x26, 0, 1), (0x1180, 0x22, 0, 2))),
    ),
    bay("write mailbox alone", sheet(7, 64, 32, managers((0x1000, 0x26, 1, 1)))),
    bay("read mailbox alone", sheet(7, 64, 32, managers((0x1080, 0x22, 1, 2)))),
    bay("flag 0 and no mailbox", sheet(7, 64, 32)),
    bay("no mailbox flag", sheet(6, 64, 32, FOUR, (1, 2), BOTH_KINDS)),
    bay("no CoE flag", sheet(5, 64, 32, FOUR, (1, 2), BOTH_KINDS)),
    bay("send size 0", sheet(7, 64, 0, FOUR, (1, 2), BOTH_KINDS)),
    bay("receive size 0", sheet(3, 0, 64, FOUR, (1, 2), BOTH_KINDS)),
]

NINE_BITS = on_coe(coe(3, IN, 9), coe(2, OUT, 9))
UNNAMED = [(0x2000 + k, 255) for k in range(254)]
TABLES = [
    bay("multiplier 0", NINE_BITS, [(IN, 0), (OUT, 0)]),
    bay("multiplier 0, EEPROM", on_eeprom(eeprom(1, 1, IN, 65530), eeprom(2, 0, OUT, 65535)), [(IN, 0), (OUT, 0)]),
    bay("multiplier 2", on_coe(coe(3, IN, 9), coe(2, OUT, 12)), [(IN, 2), (OUT, 2)]),
    bay("multiplier 255", on_coe(coe(3, IN, 255), coe(2, OUT, 1)), [(IN, 255), (OUT, 255)]),
    bay("one PDO in the table", NINE_BITS, [(IN, 3)]),
    bay("a PDO that the sheet hasn't", NINE_BITS, [(0, 9), (IN, 3), (OUT, 5), (0xFFFF, 7)]),
    bay("a kind that counts nowhere", on_coe(eeprom(1, 3, IN + 1, 65535), coe(3, IN, 8), coe(2, OUT, 8)),
        [(IN + 1, 255), (IN, 4), (OUT, 6)]),
    bay("the first of two matches", NINE_BITS, [(IN, 2), (IN, 7), (OUT, 0), (OUT, 5)]),
    bay("the first match is 0, EEPROM", on_eeprom(ONE_IN, ONE_OUT), [(IN, 0), (IN, 1), (OUT, 1), (OUT, 0)]),
    bay("one PDO listed twice, multiplied twice", on_coe(coe(3, IN, 3), coe(3, IN, 3)), [(IN, 5)]),
    bay("256 records, the last two match", NINE_BITS, [*UNNAMED, (IN, 3), (OUT, 4)]),
    bay("256 records of one PDO", NINE_BITS, [(IN, 11)] + [(IN, 1)] * 255),
]

MOST = on_eeprom(*[eeprom(1, 1, IN, 65535)] * 255)
WIDTHS = [
    bay("65,528 bits", on_eeprom(eeprom(1, 1, IN, 65528), eeprom(2, 0, OUT, 65521))),
    bay("65,529 bits", on_eeprom(eeprom(1, 1, IN, 65529), eeprom(2, 0, OUT, 65520))),
    bay("65,528 bits of two PDOs, CoE", on_coe(coe(3, IN, 255), coe(3, IN + 1, 255, 248)), [(IN, 255)]),
    bay("65,529 bits of two PDOs, CoE", on_coe(coe(3, IN, 255), coe(3, IN + 1, 255, 249)), [(IN, 255)]),
    bay("65,536 bits of two PDOs", on_eeprom(eeprom(1, 1, IN, 65535), eeprom(1, 1, IN + 1, 1))),
    bay("65,529 bits unwanted", on_eeprom(eeprom(1, 1, IN, 65529), rows=managers((0, 0, 0, 3), (0, 0, 0, 0)))),
    bay("65,535 bits by 255", on_eeprom(eeprom(1, 1, IN, 65535), eeprom(2, 0, OUT, 65535)), [(IN, 255), (OUT, 255)]),
    bay("4,261,413,375 bits", MOST, [(IN, 255)]),
]

OLD = entry(77, 4, 0x2222, reserved=True)
NEAR = entry(77, 65533, 0x2222, reserved=True)
STALE = entry(77, 65535, 0x2222, 3, 0, reserved=True)
TWO_BYTES_IN = on_coe(coe(3, IN, 16))
USED = [
    bay("an enabled entry", TWO_BYTES_IN, offset=100, fmmus=with_old(entry(77, 4, 0x2222))),
    bay("an enabled entry, reserved bits set", TWO_BYTES_IN, offset=100,
        fmmus=with_old(entry(0x01020304, 4, 0x2222, reserved=True))),
    bay("an enabled entry, 0 bits, EEPROM", on_eeprom(), fmmus=with_old(OLD)),
    bay("an enabled entry, 0 bits, CoE", on_coe(), fmmus=with_old(OLD)),
    bay("an enabled entry of the other direction", TWO_BYTES_IN, fmmus=with_old(entry(77, 4, 0x2222, 2))),
    bay("an enabled entry of neither direction", TWO_BYTES_IN, fmmus=with_old(entry(77, 4, 0x2222, 0))),
    bay("an enabled entry of bits 3 to 4 at 5", TWO_BYTES_IN, fmmus=with_old(entry(0, 1, 0x1000, 3, bits=(3, 4, 5), reserved=True))),
    bay("65,533 plus 2", TWO_BYTES_IN, fmmus=with_old(NEAR)),
    bay("65,533 plus 3", on_coe(coe(3, IN, 17)), fmmus=with_old(NEAR)),
    bay("65,535 plus 1, EEPROM", on_eeprom(ONE_IN), fmmus=with_old(entry(77, 65535, 0x2222))),
    bay("65,535 plus 0, EEPROM", on_eeprom(), fmmus=with_old(entry(77, 65535, 0x2222))),
    bay("65,535 in an entry unused", on_eeprom(ONE_IN), fmmus=area(entry(77, 65535, 0x2222), first=2)),
    bay("a stale entry of 65,535", TWO_BYTES_IN, offset=9, fmmus=with_old(STALE)),
    bay("a stale entry, EEPROM", on_eeprom(), offset=9, fmmus=with_old(STALE)),
    bay("every byte 255, EEPROM, 0 bits", on_eeprom(), fmmus=b"\xff" * 256, channels=b"\xff" * 128),
    bay("every byte 255", SAMPLE, fmmus=b"\xff" * 256, channels=b"\xff" * 128),
    bay("bytes of all kinds", SAMPLE, fmmus=pattern(256)),
    bay("nine inputs of 65,535 bytes", on_coe(*LONG, coe(8, IN + 8, 251), coe(8, IN + 9, 8), rows=NINE), LONG_TABLE),
    bay("nine inputs of 65,536 bytes", on_coe(*LONG, coe(8, IN + 8, 251), coe(8, IN + 9, 9), rows=NINE), LONG_TABLE),
]

OFFSETS = [
    bay("offset 4,294,967,294 plus 1", on_coe(coe(3, IN, 8)), offset=LIMIT - 1),
    bay("offset 4,294,967,294 plus 2", on_coe(coe(3, IN, 9)), offset=LIMIT - 1),
    bay("offset 4,294,967,294 plus 1 and 1", on_coe(coe(3, IN, 8), coe(2, OUT, 8)), offset=LIMIT - 1),
    bay("offset 4,294,967,295 plus 0", on_eeprom(), offset=LIMIT, group=LIMIT),
    bay("1 and 1 within one direction", on_eeprom(ONE_IN, eeprom(1, 0, IN + 1, 8), rows=TWO_IN), offset=LIMIT - 1),
    bay("group at the offset", SAMPLE, offset=10, group=10),
    bay("group above the offset", SAMPLE, offset=10, group=11),
    bay("group above the offset, nothing mapped", sheet(0, 0, 0), group=1),
]

REFUSED = [
    bay("2 alone", on_coe(coe(3, IN, 8), more=1)),
    bay("2 for no bytes", b""),
    bay("3 alone", on_coe(coe(3, IN, 8), version=2)),
    bay("4 alone", sheet(8, 128, 128, FOUR, (1, 2), [coe(3, IN, 8)])),
    bay("5 alone", on_coe(coe(3, IN, 8), rows=FOUR + managers((0, 0x23, 0, 0)))),
    bay("5 without a mailbox flag", on_eeprom(rows=managers((0, 0x08, 0, 1)))),
    bay("2 and 3", on_coe(more=1, version=0)),
    bay("3 and 4", sheet(8, 0, 0, version=0)),
    bay("4 and 5", sheet(8, 0, 0, managers((0, 0x01, 0, 3)))),
    bay("6 alone", on_coe(coe(2, OUT, 255, 255), coe(3, IN, 255, 255)), [(OUT, 255), (IN, 255)]),
    bay("7 alone", on_coe(coe(2, OUT, 1), coe(3, IN, 1), usages=(0, 3))),
    bay("7 for inputs alone", on_coe(coe(2, OUT, 8), coe(3, IN, 8), usages=(1, 1))),
    bay("full entries", on_eeprom(ONE_IN, ONE_OUT), fmmus=FULL),
    bay("9 alone", on_eeprom(ONE_IN, ONE_OUT), offset=LIMIT),
    bay("10 alone", on_eeprom(ONE_IN, ONE_OUT), offset=3, group=4),
    bay("5 and 6", on_eeprom(eeprom(1, 1, IN, 65529), rows=managers((0, 0x02, 0, 0), (0, 0x0C, 0, 4)))),
    bay("6 and 7", on_coe(coe(3, IN, 255, 255), usages=()), [(IN, 255)]),
    bay("6, full entries", on_eeprom(eeprom(1, 1, IN, 65529)), fmmus=with_old(entry(0, 65535, 0))),
    bay("7 and 9", on_coe(coe(2, OUT, 8), coe(3, IN, 8), usages=()), offset=LIMIT),
    bay("7 and 10", on_coe(coe(2, OUT, 8), coe(3, IN, 8), usages=()), group=1),
    bay("9, full entries", on_eeprom(ONE_IN, ONE_OUT), fmmus=FULL, offset=LIMIT),
    bay("10, full entries", on_eeprom(ONE_IN, ONE_OUT), fmmus=FULL, group=1),
    bay("9 in one sync manager, a full entry in a later one", on_eeprom(ONE_IN, eeprom(1, 0, IN + 1, 8), rows=TWO_IN),
        offset=LIMIT, fmmus=with_old(entry(0, 65535, 0))),
    bay("6, 9 and 10, full entries", on_eeprom(eeprom(1, 1, IN, 65529), ONE_OUT), offset=LIMIT - 1, group=LIMIT, fmmus=FULL),
    bay("9 and 10", on_eeprom(eeprom(1, 1, IN, 16), ONE_OUT), offset=LIMIT - 1, group=LIMIT),
]

LENGTHS = [
    *[bay(f"FMMU area of {size}", SAMPLE, fmmus=pattern(size)) for size in (0, 255, 257)],
    *[bay(f"sync manager area of {size}", SAMPLE, channels=pattern(size)) for size in (0, 127, 129)],
    bay("1 and 2", SAMPLE[:57], fmmus=pattern(16), channels=pattern(120)),
    bay("1 and 10", SAMPLE, group=1, fmmus=pattern(255), channels=pattern(127)),
]

# bays whose passes are made in either order; the others differ from these by their areas, tables or refusals
EITHER_ORDER = [*DOCUMENTS, *PATHS]
ONE_ORDER = [*MAILBOXES, *TABLES, *WIDTHS, *USED, *OFFSETS, *REFUSED, *LENGTHS]
