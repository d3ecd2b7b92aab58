"""What `lockerplan` printed, taken apart again."""

import re
from typing import NamedTuple

from desk.talk import Trouble

SEGMENT = re.compile(r"(inputs|outputs) (?:\(empty\)|0x(?P<start>[0-9a-f]{8})\.\.0x(?P<end>[0-9a-f]{8}))")
CHANNEL = re.compile(
    r"SM(?P<number>\d+): start 0x(?P<start>[0-9a-f]{4}), size 0x[0-9a-f]{4} \((?P<size>\d+)\), "
    r"direction [\w ]+, mode [\w ]+, (?P<state>\w+)"
)
ENTRY = re.compile(
    r"FMMU(?P<number>\d+): logical start 0x(?P<logical>[0-9a-f]{8}):0, size (?P<size>\d+), logical end bit 7, "
    r"physical start 0x(?P<physical>[0-9a-f]{4}):0, (?P<rights>RO|W), enabled"
)


class Channel(NamedTuple):
    number: int
    start: int
    size: int
    enabled: bool

    def end(self):
        return self.start + self.size


class Entry(NamedTuple):
    number: int
    logical: int
    size: int
    physical: int
    rights: str


class Plan(NamedTuple):
    """Each direction's segment, (start, end); every sync manager; every entry."""

    segments: dict
    channels: list
    entries: list


def segment_of(found):
    return (int(found["start"], 16), int(found["end"], 16)) if found["start"] else (0, 0)


def channel_of(found):
    return Channel(int(found["number"]), int(found["start"], 16), int(found["size"]), found["state"] == "enabled")


def entry_of(found):
    numbers = int(found["number"]), int(found["logical"], 16), int(found["size"]), int(found["physical"], 16)
    return Entry(*numbers, found["rights"])


def taken_apart(text):
    plan = Plan({}, [], [])
    for number, line in enumerate(text.splitlines(), 1):
        segment, channel, entry = (form.fullmatch(line) for form in (SEGMENT, CHANNEL, ENTRY))
        if segment:
            plan.segments[segment[1]] = segment_of(segment)
        elif channel:
            plan.channels.append(channel_of(channel))
        elif entry:
            plan.entries.append(entry_of(entry))
        else:
            raise Trouble(f"line {number} of the plan is of a form that isn't known here")
    if set(plan.segments) != {"inputs", "outputs"}:
        raise Trouble("the plan that was printed lacks a segment")
    return plan
