"""What ./plan says of dumps, tried without running it: refusals in words, the sheet's text, and warnings."""

import random
import sys
from pathlib import Path

ROOT = Path(__file__).resolve().parent.parent
sys.path.insert(0, str(ROOT))

from build import SAMPLE  # noqa: E402
from desk import command, eeprom, explain, feed, lanes, main  # noqa: E402
from pages import dump_sheet, dump_text  # noqa: E402
from stored import Dump, dumps, sheet_in  # noqa: E402

END = b"\xff\xff"
BAY = next(dump for path, _, dump in dumps() if path.stem == "bay-dump")
SYNCM, TXPDO, DC = 84, 128, 216  # where these begin in the bay's dump


def category(number, *content, words=None):
    """A category of these bytes; `words` says another length than theirs."""
    data = bytes(content)
    length = len(data) // 2 if words is None else words
    return number.to_bytes(2, "little") + length.to_bytes(2, "little") + data


def manager(control=0x20, usage=4):
    return 0x80, 0x11, 0, 0, control, 0, 1, usage


def pdo(entries, *bits, on=0):
    """A PDO whose head says so many entries."""
    return [0, 0x1A, entries, on, 0, 0, 0, 0, *(byte for length in bits for byte in (0, 0x60, 1, 0, 0, length, 0, 0))]


def damaged():
    """Dumps with some bytes changed, cut short, made longer, or with a category doubled; and other flags."""
    chance = random.Random(2)
    values = (0, 1, 2, 3, 4, 5, 8, 16, 0x23, 40, 41, 50, 51, 255)
    for _, _, dump in dumps() * 6 + [("", "", BAY)] * 20:
        for _ in range(60):
            data = bytearray(dump.data)
            for _ in range(chance.choice((0, 1, 1, 2, 3))):
                data[chance.randrange(len(data))] = chance.choice((chance.choice(values), chance.randrange(256)))
            if chance.random() < 0.1:
                data = data[: chance.randrange(len(data))]
            elif chance.random() < 0.2:
                data = data[SYNCM:TXPDO] + data
            yield Dump(bytes(data), chance.choice((0, 0, 1, 1, 3, 7, 8)), 128, chance.choice((0, 128)))


def refused(dump):
    """The number by the model: of the dump, or of its sheet's plan; 0 where nothing is refused."""
    first = dump_text(dump).split()
    return int(first[1]) if first[0] == "refused" else 0


def explained(dump):
    """The number that the words are for."""
    found = explain.in_dump(dump.data, eeprom.Given(*dump[1:]))
    return found.number if found else 0


def changed(at, *values):
    """The bay's dump with bytes replaced from a place on."""
    return Dump(BAY.data[:at] + bytes(values) + BAY.data[at + len(values) :], *BAY[1:])


# what is wrong, the dump, the number, and what the words have to say
WORDS = [
    ("no bytes", Dump(b""), 16, ["there is no category", "byte 0 of the dump", "up to the end mark ff ff"]),
    ("no end mark", Dump(BAY.data[:-2]), 16, ["after 244 bytes", "the last category is DC (60) at byte 216", "byte 244 of"]),
    ("one byte of a mark", Dump(b"\xff"), 16, ["ends after 1 byte without the end mark"]),
    ("a type alone", Dump(category(41)[:3]), 16, ["ends after 3 bytes"]),
    ("a length in bytes", changed(DC + 2, 24), 16,
     ["DC (60) at byte 216", "24 words, 48 bytes; 26 follow", "write it as 0c 00, 12 words"]),
    ("a length too large", changed(DC + 2, 255, 255), 16,
     ["65,535 words, 131,070 bytes", "bytes 218 and 219 of the dump, line 218"]),
    ("a whole EEPROM", Dump(b"\5\x0c" + bytes([7]) * 126 + BAY.data), 16, ["category 3077", "cut off the first 128 bytes"]),
    ("a sheet", Dump(SAMPLE), 16, ["leave --dump and what goes with it out: it looks like a sheet"]),
    ("two FMMU", Dump(category(40) + category(7) + category(40) + END), 17,
     ["a second FMMU (40); the first stands at byte 0", "bytes 8 to 11"]),
    ("half a sync manager", Dump(category(41, *manager(), 0, 0) + END), 17,
     ["SyncM (41) has 10 bytes: 1 sync manager of 8 bytes, and 2 more"]),
    ("half a head", Dump(category(50, *pdo(0), 0, 0) + END), 17, ["PDO 1 of TxPDO (50)", "a head has 8 bytes; 2 are left"]),
    ("an entry too few", Dump(category(51, *pdo(2, 8)) + END), 17, ["PDO 0 says 2 entries (byte 6), 16 bytes; 8 follow"]),
    ("the flags", Dump(END, 8), 4, ["flags are 0x08", "on the command line", "--flags 0 to 7"]),
    ("17 sync managers", Dump(category(41, *manager() * 17) + END), 4, ["17 sync managers; a sheet has at most 16", "byte 132"]),
    ("18 usages", Dump(category(40, *[255] * 18) + END), 4, ["18 FMMU usages; a sheet has at most 16", "byte 20"]),
    ("256 PDOs", Dump(category(50, *pdo(0) * 255) + category(51, *pdo(0)) + END), 4,
     ["256 PDOs", "byte 2048 of the dump, in RxPDO (51)"]),
    ("a type", changed(SYNCM + 11, 5), 4, ["SM0's type is 5", "byte 95 of the dump, in SyncM (41), line 95"]),
    ("a usage", Dump(category(40, 1, 4) + END), 4,
     ["FMMU1's usage is 4", "0xFF reads as unused", "byte 5 of the dump, in FMMU (40)"]),
    ("a mode", changed(SYNCM + 16, 0x23), 5, ["SM1's control is 0x23", "byte 100 of the dump, in SyncM (41)"]),
    ("too many bits", Dump(category(41, *manager()) + category(50, *pdo(255, *[255] * 255), *pdo(2, 255, 249)) + END), 6,
     ["SM0: 65,529 bits", "65,025 of PDO 0 (0x1A00, byte 16) + 504 of PDO 1 (0x1A00, byte 2064)", "bytes 4 to 11"]),
]


def words():
    tried = list(damaged())
    wrong = [dump for dump in tried if explained(dump) != refused(dump)]
    reached = {refused(dump) for dump in tried}
    complaint = str(wrong[:2] or "") if reached == {0, 4, 5, 16, 17} else f"only {reached}"
    yield f"{len(tried):,} damaged dumps have the model's number in words", complaint
    for what, dump, number, phrases in WORDS:
        fed = feed.Sheet(dump.data, list(range(len(dump.data))))
        text = " ".join(explain.dump_explanation(fed, eeprom.Given(*dump[1:]), number).split())
        missing = [phrase for phrase in [f"rule {number} ", *phrases] if phrase not in text]
        yield f"a dump in words: {what}", f"{missing} not in {text}" if missing or refused(dump) != number else ""
    text = explain.explanation(feed.Sheet(BAY.data, []), 2)
    yield "a dump given as a sheet", "" if "plan it with --dump" in text else text


def written(dump):
    """The text of the dump's sheet, and the sheet."""
    data = dump_sheet(dump)
    wish = command.understood(["--dump", "--sheet", "any.hex"])._replace(given=eeprom.Given(*dump[1:]))
    return main.sheet_text(wish, feed.Sheet(dump.data, []), data), data


def sheets():
    accepted = [dump for dump in damaged() if explained(dump) in (0, 6)]
    wrong = [dump for dump in accepted if sheet_in(written(dump)[0]) != written(dump)[1]]
    yield f"the text of {len(accepted)} dumps' sheets has the sheet's bytes", str(wrong[:1] or "")
    text, _ = written(BAY)
    wanted = ["L: 66 bytes follow", "flags: mailbox", "send size: 128", "# SM4 at 0x1183: process data read", "FMMU3: unused"]
    wanted += ["0x1A00: 17 bits, inputs of SM3", "SM255, which isn't there: counts nowhere", "0x1600: 16 bits, outputs of SM2"]
    yield "the text of the bay's sheet says its fields", str([phrase for phrase in wanted if phrase not in text] or "")
    text, _ = written(BAY._replace(flags=3))
    yield "on CoE it says that the dump's PDOs count nowhere", "" if text.count("counts nowhere") == 4 else text


def warned(dump):
    return " ".join(eeprom.warnings(lanes.read_alone(dump_sheet(dump))))


def warnings():
    for flags, send, wanted in ((0, 128, False), (1, 128, False), (2, 128, False), (3, 0, False), (3, 1, True), (7, 9, True)):
        text = warned(BAY._replace(flags=flags, send=send))
        right = f"(4 here) count nowhere. Leave flag bit 1 out (--flags {flags & 5})" in text if wanted else not text
        yield f"flags {flags}, send size {send}: {'a' if wanted else 'no'} warning of CoE", "" if right else text or "none"
    text = warned(Dump(END))
    yield "a dump with nothing in it: a warning", "" if "no records of the categories 40, 41, 50 and 51" in text else "none"


def cases():
    yield from words()
    yield from sheets()
    yield from warnings()
