"""The bay as a picture: device memory, FMMU entries and the image, from left to right.

Drawn from what `lockerplan` printed, and from the sheet for the usages and the bits left over. Nothing here is proved.
"""

from pathlib import PurePath
from typing import NamedTuple

from desk.device import USAGES, many
from desk.explain import INPUTS, OUTPUTS
from desk.lanes import LAST_ADDRESS, lanes, owners, read_back
from desk.svg import PALE, RED, Drawing, width_of
from desk.talk import Trouble, shown

WIDTH, MARGIN = 1080, 24
DEVICE, FMMU, IMAGE = 24, 480, 780  # where each column begins
BOX, CELL, HIGH = 200, 46, 24  # an entry's width, a byte's width and height
MOST_CELLS, ENDS, GAP = 6, 2, 72  # of more bytes only the first and last two are drawn, and a gap
ROW = 88  # from one sync manager to the next
TOP = 34  # from a row's top to its bytes
LISTED = 5  # sync managers that are named one by one


class Colour(NamedTuple):
    fill: str
    stroke: str


COLOURS = {"inputs": Colour("#a9cdf2", "#1a5a9e"), "outputs": Colour("#f5cf8e", "#8f5600")}
STRAY = Colour("#fbe3e4", RED)
OFF = Colour("#dde2e8", PALE)


class Bytes(NamedTuple):
    """Bytes that lie one after another: the first address, how many, and how many of their bits are in use."""

    first: int
    size: int
    bits: int

    def drawn(self):
        """The places that are drawn; None is the gap."""
        if self.size <= MOST_CELLS:
            return list(range(self.size))
        return [*range(ENDS), None, *range(self.size - ENDS, self.size)]

    def used(self, place):
        return max(0, min(8, self.bits - 8 * place))


def address(number):
    return f"0x{number:04x}" if number <= LAST_ADDRESS else "none"


def span(first, size):
    return f"0x{first:04x}..0x{first + size - 1:04x}" if size > 1 else f"0x{first:04x}"


def draw_cell(drawing, x, y, used, colour, dashed=False):
    """A byte as its eight bits, bit 0 at the left; those left over are hatched."""
    bit, dashes = CELL / 8, {"stroke_dasharray": "4 3"} if dashed else {}
    drawing.box(x, y, bit * used, HIGH, fill=colour.fill)
    drawing.box(x + bit * used, y, bit * (8 - used), HIGH, fill="url(#over)")
    for place in range(1, 8):
        drawing.line(x + bit * place, y, x + bit * place, y + HIGH, stroke=colour.stroke, stroke_width=0.4)
    drawing.box(x, y, CELL, HIGH, fill="none", stroke=colour.stroke, stroke_width=1.5, **dashes)


def draw_bytes(drawing, x, y, some, label, colour, dashed=False):
    """Bytes side by side, each with its address; answers where they end."""
    for place in some.drawn():
        if place is None:
            for line, text in ((10, f"{some.size - 2 * ENDS:,}"), (22, "more")):
                drawing.text(x + GAP / 2, y + line, text, 11, text_anchor="middle", fill=PALE)
            x += GAP
        else:
            drawing.text(x + CELL / 2, y - 4, label(some.first + place), 10, text_anchor="middle", fill=PALE)
            draw_cell(drawing, x, y, some.used(place), colour, dashed)
            x += CELL
    return x


def connect(drawing, way, y, left, right, colour):
    """Inputs go from the device to the image, outputs from the image to the device."""
    ends = [(left + 6, FMMU - 2), (FMMU + BOX + 2, right - 6)]
    for start, stop in ends:
        drawing.arrow(*((start, y, stop) if way is INPUTS else (stop, y, start)), colour.stroke)


def rounding(lane):
    """How the bits become bytes."""
    size, over = lane.channel.size, 8 * lane.channel.size - lane.bits
    left = many(over, "bit") if over else "none"
    return f"{many(lane.bits, 'bit')}: {many(size, 'byte')}, {left} left over" if size else "0 bits: no bytes"


def draw_manager(drawing, y, lane, colour):
    """A sync manager in device memory; answers where its bytes end."""
    channel = lane.channel
    words = f"{span(channel.start, channel.size)}{'' if channel.enabled else ', disabled'}"
    words += ", past the last address" if channel.end() > LAST_ADDRESS + 1 else ""
    drawing.text(DEVICE, y + 14, f"SM{channel.number}", 13, font_weight="bold")
    drawing.text(DEVICE + width_of("SM15 ", 13), y + 14, words)
    drawing.text(DEVICE, y + TOP + (HIGH + 15 if channel.size else 0), rounding(lane), 11, fill=PALE)
    some = Bytes(channel.start, channel.size, lane.bits)
    return draw_bytes(drawing, DEVICE, y + TOP, some, address, colour if channel.enabled else OFF)


def draw_image(drawing, y, lane, colour):
    some = Bytes(lane.logical, lane.channel.size, lane.bits)
    draw_bytes(drawing, IMAGE, y + TOP, some, lambda number: f"0x{number:x}", colour)


def draw_straight(drawing, y, way, lane):
    """A sync manager that its entry reaches, or that has nothing to reach; answers the room that it took."""
    colour = COLOURS[way.word]
    end = draw_manager(drawing, y, lane, colour)
    if lane.channel.size and lane.entry:
        draw_image(drawing, y, lane, colour)
        connect(drawing, way, y + TOP + HIGH / 2, end, IMAGE, colour)
    return ROW if lane.channel.size or lane.entry else ROW - HIGH - 12


def listing(channels):
    names = [f"SM{channel.number}" for channel in channels]
    more = [f"{len(names) - LISTED} more"] if len(names) > LISTED else []
    return ", ".join([*names[:LISTED], *more]) or "no sync manager"


def draw_stray(drawing, y, way, lane, plan):
    """First what the entry really has at these addresses, then the sync manager that it misses."""
    first, size = lane.reached(), lane.channel.size
    there = owners(plan, first, size)
    drawing.text(DEVICE, y + 14, f"FMMU{lane.entry.number} goes on at {span(first, size)}", 12, fill=RED, font_weight="bold")
    drawing.text(DEVICE, y + TOP + HIGH + 15, f"there: {listing(there)}", 11, fill=RED)
    end = draw_bytes(drawing, DEVICE, y + TOP, Bytes(first, size, 8 * size), address, STRAY, dashed=True)
    connect(drawing, way, y + TOP + HIGH / 2, end, IMAGE, STRAY)
    drawing.text(IMAGE, y + 14, f"meant for SM{lane.channel.number}", 12, fill=RED, font_weight="bold")
    draw_image(drawing, y, lane, Colour(COLOURS[way.word].fill, RED))
    below = y + ROW
    end, middle = draw_manager(drawing, below, lane, COLOURS[way.word]), below + TOP + HIGH / 2
    drawing.line(end + 6, middle, end + 40, middle, stroke=RED, stroke_width=2, stroke_dasharray="4 3")
    drawing.cross(end + 48, middle, RED)
    drawing.text(end + 60, middle + 4, "misplaced" if lane.channel in there else "not reached", 11, fill=RED)
    return 2 * ROW


def draw_entry(drawing, top, bottom, entry, colour):
    """An entry's box beside all the sync managers that it serves."""
    drawing.box(FMMU, top, BOX, bottom - top, rx=6, fill="#f6f8fa", stroke=colour.stroke, stroke_width=1.5)
    middle, x = top + 34, FMMU + BOX / 2
    kind = "reads" if entry.rights == "RO" else "writes"
    drawing.text(x, middle - 14, f"FMMU{entry.number} {kind} ({entry.rights})", 12, text_anchor="middle", font_weight="bold")
    drawing.text(x, middle + 3, f"{many(entry.size, 'byte')} from 0x{entry.physical:04x}", 12, text_anchor="middle")
    drawing.text(x, middle + 20, f"at logical 0x{entry.logical:08x}", 12, text_anchor="middle")


def draw_way(drawing, y, way, plan, sheet):
    """One direction: its heading, its sync managers and its entries; answers where it ends."""
    start, end = plan.segments[way.word]
    where = f"0x{start:08x}..0x{end:08x}, {many(end - start, 'byte')}" if end > start else "(empty)"
    drawing.line(MARGIN, y + 6, WIDTH - MARGIN, y + 6, stroke="#c5ccd5")
    drawing.text(DEVICE, y + 28, way.word.capitalize(), 15, font_weight="bold", fill=COLOURS[way.word].stroke)
    drawing.text(IMAGE, y + 28, where, 12, font_weight="bold", fill=COLOURS[way.word].stroke)
    y += 40
    found, boxes = lanes(plan, sheet, way), {}
    for lane in found:
        took = draw_stray(drawing, y, way, lane, plan) if lane.strays() else draw_straight(drawing, y, way, lane)
        if lane.entry:
            top, _ = boxes.get(lane.entry, (y + 8, 0))
            boxes[lane.entry] = top, y + ROW - 12
        y += took
    for entry, (top, bottom) in boxes.items():
        draw_entry(drawing, top, bottom, entry, COLOURS[way.word])
    if not found:
        drawing.text(DEVICE, y + 14, f"no sync manager is for {way.word}", 12, fill=PALE)
        y += 30
    return y


def draw_others(drawing, y, plan, sheet):
    """The sync managers that are no part of the image: mailboxes and others."""
    others = [manager for manager in sheet.managers if manager.usage not in (INPUTS.usage, OUTPUTS.usage)]
    if not others:
        return y
    drawing.line(MARGIN, y + 6, WIDTH - MARGIN, y + 6, stroke="#c5ccd5")
    drawing.text(DEVICE, y + 28, "Not in the image", 15, font_weight="bold")
    for manager in others:
        channel = plan.channels[manager.number]
        words = f"{span(channel.start, channel.size)}, {many(channel.size, 'byte')}" if channel.size else "no bytes"
        state = "" if channel.enabled else ", disabled"
        drawing.text(DEVICE, y + 50, f"SM{manager.number}", 13, font_weight="bold")
        drawing.text(DEVICE + width_of("SM15 ", 13), y + 50, f"{USAGES[manager.usage]}: {words}{state}")
        y += 20
    return y + 40


def draw_head(drawing, name, sheet):
    drawing.text(DEVICE, 34, f"{name}: how the bay is mapped", 17, font_weight="bold")
    shared = "on the CoE path: the inputs share one FMMU, and so do the outputs"
    own = "on the EEPROM path: each sync manager has the FMMU of its own number"
    drawing.text(DEVICE, 54, shared if sheet.on_coe() else own, 12, fill=PALE)
    for x, word, unit in ((DEVICE, "device memory", "device"), (FMMU, "FMMU entries", ""), (IMAGE, "the image", "logical")):
        drawing.text(x, 84, word, 13, font_weight="bold")
        if unit:
            drawing.text(x + width_of(word + " ", 13), 84, f"({unit} addresses)", 11, fill=PALE)
    return 92


def draw_key(drawing, y):
    drawing.line(MARGIN, y + 6, WIDTH - MARGIN, y + 6, stroke="#c5ccd5")
    draw_cell(drawing, DEVICE, y + 18, 5, COLOURS["inputs"])
    drawing.text(DEVICE + CELL + 10, y + 34, "a byte, bit 0 at the left: 5 bits in use, 3 left over (hatched)", 11)
    note = "Drawn from what lockerplan printed, and from the sheet for the bits left over."
    drawing.text(DEVICE, y + 62, f"{note} The program is proved, the drawing is not.", 11, fill=PALE)
    return y + 78


def picture(name, text, data):
    """The drawing of a plan, as the text of an SVG file."""
    plan, sheet = read_back(text, data)
    title = shown(PurePath(name).name, 40)
    drawing = Drawing(WIDTH, f"{title}: how the bay is mapped")
    y = draw_head(drawing, title, sheet)
    for way in (INPUTS, OUTPUTS):
        y = draw_way(drawing, y, way, plan, sheet)
    y = draw_others(drawing, y, plan, sheet)
    return drawing.whole(draw_key(drawing, y))


def draw(path, name, text, data):
    whole = picture(name, text, data)
    try:
        with open(path, "w", encoding="utf-8") as out:
            out.write(whole)
    except OSError as error:
        raise Trouble(f"{shown(path)}: {error.strerror}") from None
