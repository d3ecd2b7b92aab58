"""A sheet as people write it: two digits for a byte, and a comment for each field, as in samples/bay.hex."""

from desk.device import FIRST_RECORD, FMMU_USAGES, KINDS, USAGES, many
from desk.explain import INPUTS, OUTPUTS
from desk.lanes import read_alone

FLAGS = ("mailbox", "CoE", "complete access")
WAYS = {way.usage: way for way in (INPUTS, OUTPUTS)}


def digits(data):
    return " ".join(f"{byte:02x}" for byte in data)


def row(data, comment):
    return f"{data:<12} # {comment}"


def flags_of(number):
    return ", ".join(word for place, word in enumerate(FLAGS) if number >> place & 1) or "none"


def number(data):
    return int.from_bytes(data, "big")


def head_rows(data):
    yield row(digits(data[:2]), f"L: {many(number(data[:2]), 'byte')} follow")
    yield row(digits(data[2:3]), "version")
    yield row(digits(data[3:4]), f"flags: {flags_of(data[3])}")
    yield row(digits(data[4:6]), f"receive size: {number(data[4:6])}")
    yield row(digits(data[6:8]), f"send size: {number(data[6:8])}")
    for at, word in ((8, "sync manager"), (9, "FMMU usage"), (10, "PDO")):
        yield row(digits(data[at : at + 1]), many(data[at], word))


def carried(sheet, pdo):
    """Which sync manager carries a PDO, or that none does."""
    if pdo.manager >= len(sheet.managers):
        return f"SM{pdo.manager}, which isn't there: counts nowhere"
    way = WAYS.get(sheet.managers[pdo.manager].usage)
    if way is None or pdo.kind != (0 if sheet.on_coe() else way.kind):
        return f"SM{pdo.manager}: counts nowhere"
    return f"{way.word} of SM{pdo.manager}"


def record_rows(data, sheet):
    yield "# sync managers, SM0 first: start address (2), control, EEPROM enable, usage"
    for manager in sheet.managers:
        start, rest = data[manager.at : manager.at + 2], data[manager.at + 2 : manager.at + 5]
        yield f"{digits(start)}  {digits(rest)}   # SM{manager.number} at 0x{manager.start:04x}: {USAGES[manager.usage]}"
    yield "# FMMU usages, FMMU0 first"
    for place, usage in enumerate(sheet.usages):
        yield row(f"{usage:02x}", f"FMMU{place}: {FMMU_USAGES[usage]}")
    yield "# PDOs: kind, sync manager, PDO index (2), count, bits"
    for pdo in sheet.pdos:
        first = pdo.at + 5
        head, bits = data[pdo.at : first], data[first : first + data[first - 1]]
        words = f"{KINDS[pdo.kind]}, 0x{pdo.index:04X}: {many(pdo.bits, 'bit')}, {carried(sheet, pdo)}"
        yield f"{digits(head)}  {digits(bits)}   # {words}"


def text(data, titles):
    """The sheet's text; each title is a comment before it."""
    sheet = read_alone(data)
    rows = [*(f"# {title}" for title in titles), *head_rows(data[:FIRST_RECORD]), *record_rows(data, sheet)]
    return "".join(f"{line}\n" for line in rows)
