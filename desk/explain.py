"""A refusal in words: which rule, where in the sheet or in the dump, with which numbers, and what to do.

Worked out from documents 01 and 02 beside the proved programs, for areas of zeros, offset 0 and no table, as `lockerplan` has
them; so of all numbers only 2 to 8 can occur, and for a dump 16, 17, 4, 5 and 6. Nothing here is proved: the words are shown
only where their number is the program's.
"""

import shutil
import textwrap
from typing import NamedTuple

from desk import device, eeprom
from desk.device import Finding, many

MOST_BITS = 65_528  # of a sync manager: 8,191 bytes
MOST_LENGTH = 65_535  # of an FMMU entry, in bytes
LISTED = 6  # PDOs or sync managers that are named one by one
NOTE = (
    "bytes, sync managers (SM), FMMUs and PDOs count from 0. These words are not proved: they were worked out beside the "
    "proved program, from documents 01 and 02, and are shown because they come to the program's number"
)

RULES = {
    2: "the sheet's length doesn't fit",
    3: "the sheet's version isn't 1",
    4: "a field breaks a rule of the sheet",
    5: "a control byte has a mode or a direction without a name",
    6: "a sync manager has more bits than it has room for",
    7: "there is data to map, and no FMMU for its direction",
    8: "an FMMU entry would become too long",
    16: "a category runs past the dump, or the dump has no end mark",
    17: "a category isn't whole records, or there is a second one of its type",
}


class Way(NamedTuple):
    """What a direction takes: the sync managers' usage, the FMMU usage and the EEPROM kind."""

    word: str
    usage: int
    fmmu_usage: int
    kind: int


INPUTS, OUTPUTS = Way("inputs", 4, 2, 1), Way("outputs", 3, 1, 2)


def counted(sheet, way):
    """For each wanted sync manager, in rising number, the PDOs whose bits it has."""
    kind = 0 if sheet.on_coe() else way.kind
    wanted = [manager for manager in sheet.managers if manager.usage == way.usage]
    return {m: [pdo for pdo in sheet.pdos if (pdo.kind, pdo.manager) == (kind, m.number)] for m in wanted}


def bits_of(pdos):
    return sum(pdo.bits for pdo in pdos)


def size_of(pdos):
    """Each sync manager is rounded up to bytes by itself."""
    return (bits_of(pdos) + 7) // 8


def listing(items):
    """The parts of a sum, the first few of them one by one."""
    more = [f"{len(items) - LISTED} more"] if len(items) > LISTED else []
    return " + ".join([*items[:LISTED], *more])


def why_coe(sheet):
    reader = next(manager for manager in sheet.managers if manager.usage == 2)
    mailbox = f"SM{reader.number} is a read mailbox of {many(sheet.send, 'byte')}"
    return f"(The bay is on the CoE path, since flag bits 0 and 1 are set and {mailbox}.)"


def check_bits(sheet, way, wanted):
    for manager, pdos in wanted.items():
        bits = bits_of(pdos)
        if bits > MOST_BITS:
            parts = [f"{pdo.bits:,} of PDO {pdo.number} (0x{pdo.index:04X}, byte {pdo.at})" for pdo in pdos]
            what = f"SM{manager.number}: {bits:,} bits; a sync manager has room for {MOST_BITS:,}. They are {listing(parts)}"
            to_do = f"take {many(bits - MOST_BITS, 'bit')} or more out"
            to_do += f", or give a PDO to another sync manager for {way.word}" if len(pdos) > 1 else ""
            at = range(manager.at, manager.at + sheet.record)
            raise Finding(6, f"SM{manager.number} ({way.word})", at, what, to_do)


def check_usage(sheet, way, wanted):
    filled = [(manager, pdos) for manager, pdos in wanted.items() if bits_of(pdos)]
    if not sheet.on_coe() or not filled or way.fmmu_usage in sheet.usages:
        return
    manager, pdos = filled[0]
    has = ", ".join(f"FMMU{number} {device.FMMU_USAGES[usage]}" for number, usage in enumerate(sheet.usages)) or "none"
    what = f"SM{manager.number}: {many(bits_of(pdos), 'bit')} of {way.word}; on the CoE path they need an FMMU with the "
    what += f"usage {way.word}, and the sheet has: {has}. {why_coe(sheet)}"
    to_do = f"give an FMMU that isn't needed the usage {way.fmmu_usage} ({way.word}), or add one: byte 9 and L count it"
    raise Finding(7, "the FMMU usages", range(sheet.usages_at, sheet.usages_at + len(sheet.usages)) or [9], what, to_do)


def check_entry(sheet, way, wanted):
    """From areas of zeros only the CoE path lays several sync managers on one entry."""
    total = sum(map(size_of, wanted.values()))
    if sheet.on_coe() and total > MOST_LENGTH:
        entry = sheet.usages.index(way.fmmu_usage)
        parts = [f"{size_of(pdos):,} of SM{manager.number}" for manager, pdos in wanted.items() if bits_of(pdos)]
        what = f"FMMU{entry}: {total:,} bytes; an FMMU entry has room for {MOST_LENGTH:,}. They are {listing(parts)}: "
        what += f"on the CoE path all {way.word} share one entry. {why_coe(sheet)}"
        to_do = f"take {many(total - MOST_LENGTH, 'byte')} or more out of the {way.word}"
        raise Finding(8, f"FMMU{entry}, the first with the usage {way.word}", [sheet.usages_at + entry], what, to_do)


def finding(read, *given):
    """The first rule broken, None where none is. One call plans both directions: a rule is asked of either before the next."""
    try:
        sheet = read(*given)
        wanted = {way: counted(sheet, way) for way in (INPUTS, OUTPUTS)}
        for check in (check_bits, check_usage, check_entry):
            for way in wanted:
                check(sheet, way, wanted[way])
    except Finding as found:
        return found
    return None


def in_sheet(data):
    return finding(device.read, data)


def in_dump(data, given):
    """Places are those of the dump, also where the sheet that comes of it is refused (6)."""
    return finding(eeprom.read, data, given)


def place(found, lines, source):
    """The bytes of a finding, and the line of the text where they begin."""
    if not found.at:
        return f"{found.about}: on the command line"
    first, last = found.at[0], found.at[-1]
    words = f"byte {first}" if first == last else f"bytes {first} {'and' if last == first + 1 else 'to'} {last}"
    behind = f", behind line {lines[-1]}" if lines else ""
    line = f", line {lines[first]}" if first < len(lines) else behind
    return f"{found.about}: {words} of the {source}{line}"


def part(title, text):
    width = shutil.get_terminal_size((100, 24)).columns
    return textwrap.fill(text, max(40, width - 1), initial_indent=f"  {title:<8}", subsequent_indent=" " * 10)


def in_words(found, number, lines, source):
    if found is None or found.number != number:
        own = f"the number would be {found.number}" if found else "nothing would be refused"
        return f"No words for this refusal: worked out beside the program, {own}. The program is proved, this is not.\n"
    titled = {
        f"rule {number}": RULES[number], "where": place(found, lines, source), "what": found.what, "to do": found.to_do,
        "note": NOTE,
    }
    return "".join(part(title, text) + "\n" for title, text in titled.items())


def explanation(sheet, number):
    """The text for a sheet that the program refused with this number."""
    found = in_sheet(sheet.data)
    if found and found.number == 2 and eeprom.ends_well(sheet.data):
        found.to_do = "plan it with --dump: it looks like a dump of an EEPROM, not like a sheet"
    return in_words(found, number, sheet.lines, "sheet")


def dump_explanation(dump, given, number):
    """The text for a dump that was refused with this number, by `lockersheet` or its sheet by `lockerplan`."""
    found = in_dump(dump.data, given)
    if found and found.number == 16 and in_sheet(dump.data) is None:
        found.to_do = "leave --dump and what goes with it out: it looks like a sheet, not like a dump of an EEPROM"
    name = eeprom.category_at(dump.data, found.at[0]) if found and found.at else ""
    return in_words(found, number, dump.lines, f"dump, in {name}" if name and name not in found.about else "dump")
