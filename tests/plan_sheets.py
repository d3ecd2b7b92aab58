"""What ./plan says and draws of sheets, tried without running it: refusals in words, and pictures."""

import random
import sys
import xml.etree.ElementTree as xml
from pathlib import Path

ROOT = Path(__file__).resolve().parent.parent
sys.path.insert(0, str(ROOT))

from build import SAMPLE, coe, eeprom, managers, on_coe, on_eeprom, sheet  # noqa: E402
from desk import explain, feed, lanes, picture  # noqa: E402
from desk.svg import width_of  # noqa: E402
from planning import lockerplan  # noqa: E402
from samples import sample, samples, text_of  # noqa: E402

ONE = managers((0x1180, 0x20, 1, 4))
SVG = "{http://www.w3.org/2000/svg}"


# ---- refusals in words


def damaged():
    """Sheets with some bytes changed, cut short or made longer; L left alone or made right."""
    chance = random.Random(1)
    values = (0, 1, 2, 3, 4, 5, 16, 17, 255)
    for whole in [data for _, data in samples()] + [SAMPLE] * 15:
        for _ in range(100):
            data = bytearray(whole)
            for _ in range(chance.randint(1, 3)):
                data[chance.randrange(min(len(data), 80))] = chance.choice((chance.choice(values), chance.randrange(256)))
            data = data[: chance.randrange(len(data))] if chance.random() < 0.2 else data + bytes(chance.choice((0, 0, 0, 1)))
            if chance.random() < 0.8 and len(data) > 2:
                data[:2] = (len(data) - 2).to_bytes(2, "big")
            yield bytes(data)


def explained(data):
    """The number that the words are for; 0 where nothing is refused."""
    found = explain.in_sheet(data)
    return found.number if found else 0


def refused(data):
    first = lockerplan(data)[0].split()
    return int(first[1]) if first[0] == "refused" else 0


def changed(data, at, *values):
    """A sheet with bytes replaced from a place on."""
    return data[:at] + bytes(values) + data[at + len(values) :]


SIX_AND_SEVEN = on_coe(coe(3, 0x1A00, *[255] * 255), coe(3, 0x1A01, 255, 249), coe(2, 0x1600, 1), usages=(2,))
# refused-8 with an output of one bit behind its nine inputs: its records are ten of five bytes from byte 11 on
EIGHT = sample("refused-8")
MORE = EIGHT[2:8] + bytes([11, 1, 10]) + EIGHT[11:61] + bytes.fromhex("0800640103") + EIGHT[61:] + coe(10, 0x1600, 1)
EIGHT_AND_SEVEN = len(MORE).to_bytes(2, "big") + MORE

# what is wrong, the sheet, the number, and what the words have to say
WORDS = [
    ("no bytes", b"", 2, ["the sheet has 0 bytes"]),
    ("L one too high", changed(SAMPLE, 0, 0, 57), 2, ["57 bytes follow; 56 do", "1 byte missing", "write L as 00 38"]),
    ("L one too low", changed(SAMPLE, 0, 0, 55), 2, ["55 bytes follow; 56 do", "1 byte too many"]),
    ("L of 8", bytes([0, 8, *[1] * 8]), 2, ["L is 8; it must be 9 to 16,384"]),
    ("the version", changed(SAMPLE, 2, 2), 3, ["version is 2", "byte 2 of the sheet, line 2"]),
    ("the flags", changed(SAMPLE, 3, 8), 4, ["flags are 0x08", "byte 3"]),
    ("17 sync managers", changed(SAMPLE, 8, 17), 4, ["17 sync managers; a device has at most 16", "byte 8"]),
    ("17 usages", changed(SAMPLE, 9, 17), 4, ["17 FMMU usages", "byte 9"]),
    ("a usage of a sync manager", changed(SAMPLE, 15, 5), 4, ["SM0's usage is 5", "byte 15"]),
    ("a usage of an FMMU", changed(SAMPLE, 37, 4), 4, ["FMMU1's usage is 4", "byte 37"]),
    ("a PDO's kind", changed(SAMPLE, 45, 3), 4, ["PDO 1's kind is 3", "byte 45"]),
    ("an EEPROM PDO's count", changed(SAMPLE, 52, 1), 4, ["kind EEPROM read and its count is 1", "byte 56"]),
    ("a PDO too long", changed(SAMPLE, 56, 2), 4, ["(its count, at byte 56, says 2)", "1 of 2 bytes missing"]),
    ("a PDO too many", changed(SAMPLE, 10, 4), 4, ["PDO 3's head", "byte 10 (now 4 PDOs)"]),
    ("bytes after the end", changed(SAMPLE, 10, 2), 4, ["ends at byte 51", "goes on for 6 bytes", "bytes 52 to 57"]),
    ("a mode", changed(SAMPLE, 18, 0x23), 5, ["SM1's control is 0x23", "mode (bits 0 and 1) is 3", "byte 18"]),
    ("a direction", changed(SAMPLE, 33, 0x28), 5, ["SM4's control is 0x28", "direction (bits 2 and 3) is 2"]),
    ("65,529 bits", sheet(0, 0, 0, ONE, (), [eeprom(1, 0, 0x1A00, 65529)]), 6,
     ["SM0: 65,529 bits; a sync manager has room for 65,528", "65,529 of PDO 0 (0x1A00, byte 16)", "take 1 bit or more out"]),
    ("no usage for inputs", on_coe(coe(3, 0x1A00, 8), usages=()), 7, ["SM3: 8 bits of inputs", "has: none", "usage 2"]),
    ("no usage for outputs", on_coe(coe(2, 0x1600, 9), usages=(2, 0)), 7, ["9 bits", "FMMU0 inputs, FMMU1 unused"]),
    ("7 in the inputs, 6 in the outputs", sample("both-refused-6"), 6, ["SM2: 65,529 bits", "SM2 (outputs)"]),
    ("6 in the inputs, 7 in the outputs", SIX_AND_SEVEN, 6, ["SM3: 65,529 bits", "SM3 (inputs)"]),
    ("8 in the inputs, 7 in the outputs", EIGHT_AND_SEVEN, 7, ["SM10: 1 bit of outputs", "FMMU0 inputs"]),
    ("an entry too long", sample("refused-8"), 8, ["FMMU0: 65,536 bytes; an FMMU entry has room for 65,535", "3 more"]),
]


def words():
    tried = list(damaged())
    wrong = [data.hex() for data in tried if explained(data) != refused(data)]
    reached = {refused(data) for data in tried}
    complaint = str(wrong[:2] or "") if reached == {0, 2, 3, 4, 5, 6, 7, 8} else f"only {reached}"
    yield f"{len(tried):,} damaged sheets have the model's number in words", complaint
    for what, data, number, phrases in WORDS:
        text = " ".join(explain.explanation(feed.Sheet(data, list(range(len(data)))), number).split())
        missing = [phrase for phrase in [f"rule {number} ", *phrases] if phrase not in text]
        yield f"in words: {what}", f"{missing} not in {text}" if missing or refused(data) != number else ""
    text = explain.explanation(feed.Sheet(SAMPLE, []), 9)
    yield "no words where the numbers differ", "" if text.startswith("No words") and text.count("\n") == 1 else text
    found = lanes.warnings(text_of(sample("gap")), sample("gap"))[0]
    yield "of an accepted sheet, where an FMMU misses", "" if "FMMU1 misses SM4" in found and "0x1183" in found else found


# ---- pictures

LARGE = on_eeprom(
    *[eeprom(1 + k % 2, k, 0x1A00 + k, 65528 - k) for k in range(16)],
    rows=managers(*[(0x1000 * k, 0x20, k % 3, 4 - k % 2) for k in range(16)]),
)
SHARED = on_coe(
    *[coe(1 + k, 0x1A00 + k, *[255] * (16 * k), k) for k in range(15)],
    rows=managers((0x1080, 0x22, 1, 2), *[(0xFFFF - 99 * k, 0x20, k % 3, 3 + k % 2) for k in range(15)]),
)
DRAWN = [
    *[(path.name, data) for path, data in samples() if "refused" not in path.stem],
    ("no sync managers", sheet(0, 0, 0)),
    ("sixteen large sync managers", LARGE),
    ("fifteen that share two FMMUs and miss them", SHARED),
]


def box_of(text):
    """The room that a text takes, by the width of its letters."""
    size, x, y = (float(text.get(word)) for word in ("font-size", "x", "y"))
    width = width_of(text.text, size)
    left = x - width / 2 if text.get("text-anchor") == "middle" else x
    return left, y - 0.75 * size, left + width, y + 0.2 * size


def over(one, other):
    return one[0] < other[2] and other[0] < one[2] and one[1] < other[3] and other[1] < one[3]


def flaws(text):
    """What is wrong with a drawing: texts that overlap or leave it, or too much of it."""
    root = xml.fromstring(text)
    texts = list(root.iter(f"{SVG}text"))
    boxes = [box_of(item) for item in texts]
    for k, box in enumerate(boxes):
        if box[0] < 0 or box[1] < 0 or box[2] > float(root.get("width")) or box[3] > float(root.get("height")):
            yield f"{texts[k].text} leaves the drawing"
        yield from (f"{texts[k].text} is over {texts[j].text}" for j in range(k) if over(box, boxes[j]))
    for entry in [item for item in root.iter(f"{SVG}rect") if item.get("rx")]:
        x, y, width, height = (float(entry.get(word)) for word in ("x", "y", "width", "height"))
        room = x, y, x + width, y + height
        crossing = [item.text for item, box in zip(texts, boxes) if over(box, room) and not x < box[0] < box[2] < x + width]
        yield from (f"{text} crosses an entry's box" for text in crossing)
    if len(list(root.iter())) > 6000:
        yield "too many parts"
    if root.find(f"{SVG}rect").get("fill") != "#ffffff":
        yield "no ground of its own"


def pictures():
    for name, data in DRAWN:
        yield f"picture: {name}", "; ".join(list(flaws(picture.picture(name, text_of(data), data)))[:3])
    accepted = [data for data in damaged() if not refused(data)][:150]
    wrong = [data.hex() for data in accepted if list(flaws(picture.picture("any", text_of(data), data)))]
    yield f"pictures of {len(accepted)} damaged sheets that are accepted", str(wrong[:2] or "")
    gap = picture.picture("gap", text_of(sample("gap")), sample("gap"))
    wanted = ("FMMU1 goes on at 0x1183..0x1184", "there: no sync manager", "meant for SM4", "not reached")
    yield "picture: where a merged entry goes wrong", str([phrase for phrase in wanted if phrase not in gap] or "")
    stored = (ROOT / "docs" / "bay.svg").read_text()
    fresh = stored == picture.picture("bay.hex", text_of(SAMPLE), SAMPLE)
    yield "docs/bay.svg is the picture of samples/bay.hex", "" if fresh else "it isn't"


def cases():
    yield from words()
    yield from pictures()
