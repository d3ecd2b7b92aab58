"""How each sync manager comes into the image: laid one after another in rising number, and reached by an FMMU entry."""

from typing import NamedTuple

from desk import device, printed
from desk.explain import INPUTS, OUTPUTS, bits_of, counted, size_of
from desk.printed import Channel, Entry
from desk.talk import Trouble

LAST_ADDRESS = 0xFFFF
RIGHTS = {"inputs": "RO", "outputs": "W"}


class Lane(NamedTuple):
    """A sync manager, its bits by the sheet, where the image has it, and the entry that serves it there."""

    channel: Channel
    bits: int
    logical: int
    entry: Entry or None

    def reached(self):
        """The device address that the entry has at the lane's first logical address."""
        return self.entry.physical + self.logical - self.entry.logical

    def strays(self):
        """Whether the entry is somewhere else in the device than the sync manager."""
        return self.entry is not None and self.channel.size > 0 and self.reached() != self.channel.start


def serving(plan, way, channel, logical):
    """The first entry of the direction that holds the address; for no bytes, the entry with the sync manager's number."""
    for entry in plan.entries:
        holds = entry.logical <= logical < entry.logical + entry.size if channel.size else entry.number == channel.number
        if entry.rights == RIGHTS[way.word] and holds:
            return entry
    return None


def lanes(plan, sheet, way):
    logical, _ = plan.segments[way.word]
    found = []
    for manager, pdos in counted(sheet, way).items():
        channel, bits = plan.channels[manager.number], bits_of(pdos)
        if size_of(pdos) != channel.size:  # what was printed holds
            bits = 8 * channel.size
        found.append(Lane(channel, bits, logical, serving(plan, way, channel, logical)))
        logical += channel.size
    return found


def read_alone(data):
    """A sheet that a program accepted, or wrote."""
    try:
        return device.read(data)
    except device.Finding as found:
        raise Trouble(f"the sheet, read beside the program, would be refused with {found.number}") from None


def read_back(text, data):
    """A plan as it was printed, and its sheet."""
    plan, sheet = printed.taken_apart(text), read_alone(data)
    if len(sheet.managers) != len(plan.channels):
        raise Trouble("the sheet, read beside the program, doesn't fit the plan that was printed")
    return plan, sheet


def owners(plan, first, size):
    """The sync managers that have a byte of this part of the device's memory."""
    return [c for c in plan.channels if c.size and c.start < first + size and first < c.end()]


def missed(lane):
    channel, entry = f"SM{lane.channel.number}", f"FMMU{lane.entry.number}"
    where = f"goes on at 0x{lane.reached():04x} (logical 0x{lane.logical:08x})"
    return f"accepted, but {entry} misses {channel}: {channel} starts at 0x{lane.channel.start:04x}, and {entry} {where}"


def warnings(text, data):
    """What a person should know of a plan that was accepted."""
    plan, sheet = read_back(text, data)
    found = [missed(lane) for way in (INPUTS, OUTPUTS) for lane in lanes(plan, sheet, way) if lane.strays()]
    if found:
        return [*found, "an FMMU keeps the first address: sync managers that share one must lie end to end, in number order"]
    return ["nothing was refused, and each FMMU follows its sync managers"]
