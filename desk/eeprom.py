"""A device's own EEPROM dump: its category area, read with the place of each field, and the rules 16, 17, 4 and 5 in words.

Worked out from documents 01 and 02 (5/13) beside the proved program. Nothing here is proved.
"""

from typing import NamedTuple

from desk.device import FMMU_USAGES, USAGES, Finding, Manager, Pdo, Sheet, check_controls, choices, many

END = 0xFFFF  # the type word that ends the categories
FMMU, SYNCM, TXPDO, RXPDO = 40, 41, 50, 51
NAMES = {10: "strings", 30: "general", FMMU: "FMMU", SYNCM: "SyncM", TXPDO: "TxPDO", RXPDO: "RxPDO", 60: "DC"}
KINDS = {TXPDO: 1, RXPDO: 2}  # of the sheet
RECORD = 8  # bytes of a sync manager, of a PDO's head and of each entry
CONTROL_AT, TYPE_AT, BITS_AT = 4, 7, 5  # in a sync manager, a sync manager and an entry
UNUSED = 0xFF  # a usage that reads as 0
HEAD = 128  # bytes of an EEPROM before its category area
WORDS = "a length counts words of two bytes, low byte first"


class Given(NamedTuple):
    """What a dump doesn't say: the flags and the mailbox sizes, from the command line."""

    flags: int = 0
    receive: int = 0
    send: int = 0


class Category(NamedTuple):
    """`at` is the place of its type word."""

    at: int
    type: int
    words: int

    def name(self):
        return f"{NAMES[self.type]} ({self.type})" if self.type in NAMES else f"category {self.type}"

    def first(self):
        return self.at + 4

    def end(self):
        return self.first() + 2 * self.words


def word(data, at):
    return int.from_bytes(data[at : at + 2], "little")


# ---- 16: the categories, over the whole dump


def walked(data):
    """The categories that stand whole in the dump, one behind the other, and whether the end mark stands behind them."""
    found, at = [], 0
    while at + 4 <= len(data) and word(data, at) != END:
        category = Category(at, word(data, at), word(data, at + 2))
        if category.end() > len(data):
            break
        found.append(category)
        at = category.end()
    return found, word(data, at) == END


def ends_well(data):
    found, ended = walked(data)
    return ended and any(category.type in NAMES for category in found)


def in_bytes(data, category):
    """Whether the dump would end well if this length had been written in bytes, and were halved."""
    half = (category.words // 2).to_bytes(2, "little")
    return category.words % 2 == 0 and ends_well(data[: category.at + 2] + half + data[category.first() :])


def length_to_do(data, category):
    """What likely went wrong: it is a whole EEPROM, this length is in bytes, or another is wrong."""
    if word(data, 0) not in NAMES and ends_well(data[HEAD:]):
        return f"cut off the first {HEAD} bytes: it looks like a whole EEPROM, and --dump takes its category area"
    if category and in_bytes(data, category):
        half = category.words // 2
        return f"write it as {half & 255:02x} {half >> 8:02x}, {many(half, 'word')}: {WORDS}, and this one is in bytes"
    if category:
        return f"correct it: {WORDS}; or add what is missing. If no category should begin there, a length before it is wrong"
    return f"dump on, up to the end mark ff ff; or correct a length before it: {WORDS}"


def check_end(data, found, ended):
    if ended:
        return
    at = found[-1].end() if found else 0
    if at + 4 > len(data):
        before = f"the last category is {found[-1].name()} at byte {found[-1].at}" if found else "there is no category"
        what = f"the dump ends after {many(len(data), 'byte')} without the end mark 0xFFFF; {before}"
        about = "the place of the next category or of the end mark"
        raise Finding(16, about, [at], what, length_to_do(data, None))
    category = Category(at, word(data, at), word(data, at + 2))
    length = f"{many(category.words, 'word')}, {many(2 * category.words, 'byte')}"
    what = f"{category.name()} at byte {at} has the length {length}; {len(data) - category.first():,} follow in the dump"
    at = range(category.at + 2, category.first())
    raise Finding(16, f"the length of {category.name()}", at, what, length_to_do(data, category))


# ---- 17: whole records, and one category of a type


def check_once(categories):
    seen = {}
    for category in categories:
        other = seen.setdefault(category.type, category)
        if other is not category and category.type in (FMMU, SYNCM, TXPDO, RXPDO):
            what = f"a second {category.name()}; the first stands at byte {other.at}"
            to_do = "take one of the two out; or, if both are the device's, put the records into one and add up the lengths"
            raise Finding(17, category.name(), range(category.at, category.first()), what, to_do)


def managers_at(category):
    size = 2 * category.words
    if size % RECORD:
        what = f"{category.name()} has {many(size, 'byte')}: {many(size // RECORD, 'sync manager')} of {RECORD} bytes, "
        what += f"and {size % RECORD} more"
        to_do = f"look for bytes that are missing or too many, and write the length as {RECORD // 2} words a sync manager"
        raise Finding(17, f"the length of {category.name()}", range(category.at + 2, category.first()), what, to_do)
    return range(category.first(), category.end(), RECORD)


def cut(category, at, number, what):
    to_do = "correct how many entries a head says (its byte 2), or look for bytes that are missing or too many; the "
    to_do += f"category's length, at byte {category.at + 2}, has {RECORD // 2} words for each head and each entry"
    raise Finding(17, f"PDO {number} of {category.name()}", range(at, category.end()), what, to_do)


def pdos_at(data, category):
    """The place of each PDO's head."""
    places, at = [], category.first()
    while at < category.end():
        room, number = category.end() - at, len(places)
        if room < RECORD:
            cut(category, at, number, f"a head has {RECORD} bytes; {room} are left in {category.name()}")
        needed = RECORD * data[at + 2]
        if room - RECORD < needed:
            what = f"PDO {number} says {data[at + 2]} entries (byte {at + 2}), {needed:,} bytes; {room - RECORD:,} follow "
            cut(category, at, number, f"{what}in {category.name()}")
        places.append(at)
        at += RECORD + needed
    return places


# ---- 4: the sheet's rules


def check_flags(given):
    if given.flags > 7:
        what = f"the flags are 0x{given.flags:02x}; only bit 0 (mailbox), bit 1 (CoE) and bit 2 (complete access) may be set"
        raise Finding(4, "the flags", [], what, "give --flags 0 to 7")


def check_count(places, most, name):
    if len(places) > most:
        what = f"the dump holds {len(places):,} {name}; a sheet has at most {most}"
        raise Finding(4, f"the first of the {name} that is too many", [places[most]], what, "take out what isn't needed")


def manager_of(data, at, number):
    usage = data[at + TYPE_AT]
    if usage >= len(USAGES):
        what = f"SM{number}'s type is {usage}; {choices(USAGES)}"
        to_do = "write one of these; if no sync manager should begin there, a byte before it is missing or too many"
        raise Finding(4, f"SM{number}'s type", [at + TYPE_AT], what, to_do)
    return Manager(number, at, word(data, at), data[at + CONTROL_AT], usage)


def usage_of(data, at, number):
    usage = 0 if data[at] == UNUSED else data[at]
    if usage >= len(FMMU_USAGES):
        what = f"FMMU{number}'s usage is {usage}; {choices(FMMU_USAGES)}, and 0xFF reads as unused"
        raise Finding(4, f"FMMU{number}'s usage", [at], what, "write one of these")
    return usage


def pdo_of(data, at, number, kind):
    entries = range(at + RECORD, at + RECORD * (1 + data[at + 2]), RECORD)
    return Pdo(number, at, kind, data[at + 3], word(data, at), sum(data[entry + BITS_AT] for entry in entries))


def read(data, given):
    """The sheet of the dump, with places in the dump, or the first rule that it breaks, in the order 16, 17, 4, 5."""
    categories, ended = walked(data)
    check_end(data, categories, ended)
    check_once(categories)
    only = {category.type: category for category in categories}
    places = managers_at(only[SYNCM]) if SYNCM in only else []
    usage_places = range(only[FMMU].first(), only[FMMU].end()) if FMMU in only else []
    heads = [(at, KINDS[c.type]) for c in categories if c.type in KINDS for at in pdos_at(data, c)]
    check_flags(given)
    check_count(places, 16, "sync managers")
    check_count(usage_places, 16, "FMMU usages")
    check_count([at for at, _ in heads], 255, "PDOs")
    managers = [manager_of(data, at, number) for number, at in enumerate(places)]
    usages = [usage_of(data, at, number) for number, at in enumerate(usage_places)]
    check_controls(managers, CONTROL_AT)
    pdos = [pdo_of(data, at, number, kind) for number, (at, kind) in enumerate(heads)]
    return Sheet(given.flags, given.send, managers, usages, usage_places[0] if usages else 0, pdos, RECORD)


def category_at(data, at):
    """The name of the category that has this byte; none where no whole category has it."""
    return next((c.name() for c in walked(data)[0] if c.at <= at < c.end()), "")


# ---- what a person should know of a dump that was accepted


def warnings(sheet):
    """Of the sheet that came of a dump."""
    if not sheet.managers and not sheet.usages and not sheet.pdos:
        yield (
            "the dump holds no records of the categories 40, 41, 50 and 51, so nothing is planned; --dump takes the category area, "
            f"that is an EEPROM without its first {HEAD} bytes (docs/SHEET.md)"
        )
    if sheet.on_coe():
        yield (
            f"with --flags {sheet.flags} and a read mailbox CoE is on, and a dump's PDOs ({len(sheet.pdos)} here) count "
            f"nowhere. Leave flag bit 1 out (--flags {sheet.flags & ~2}), or write the CoE PDOs into the sheet (--sheet)"
        )
