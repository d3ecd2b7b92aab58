"""Requests to the call for inputs and outputs: each bay's mailbox pass, then the call over the areas that it left.

Each bay is asked in the default and keeping, with the outputs straight after the inputs and at an offset of their own.
"""

from ask_sheets import longest
from bays import EITHER_ORDER, ONE_ORDER
from build import SAMPLE, area, pattern
from model import one_answer
from planning import configure_mailboxes
from registers import Refused
from stream import AFTER_INPUTS, KEEP, Request

GIVEN = 0
CLEARING, KEEPING = (AFTER_INPUTS, GIVEN), (KEEP | AFTER_INPUTS, KEEP)
EVERY = CLEARING + KEEPING
EITHER = AFTER_INPUTS, KEEP  # the default and keeping, with each way to start the outputs once


def told(how):
    """What a request's name says of byte 1."""
    keeping = ", keeping" if how & KEEP else ""
    return f"{keeping}, {'straight after' if how & AFTER_INPUTS else 'given'}"


def front(pairs):
    """The pairs as they stand at the front of the FMMU part."""
    return b"".join(map(bytes, pairs))


def call(how, data, fmmus, pairs=(), **words):
    """A call; `how` is byte 1, a the inputs' offset, b the group start, c the outputs' offset."""
    return Request("p", how, len(pairs), sheet=data, fmmus=front(pairs) + fmmus, **words)


def asked(name, data, fmmus=area(), ways=EVERY, a=100, b=40, c=60, channels=pattern(128), **words):
    """A call over an area in each of the ways; straight after the inputs, the lent output offset is below the group start."""
    for how in ways:
        outputs = max(0, b - 1) if how & AFTER_INPUTS else c
        yield name + told(how), call(how, data, fmmus, a=a, b=b, c=outputs, channels=channels, **words)


def left_by(request):
    """Both areas as the call leaves them, and the two offsets."""
    *_, inputs, outputs, fmmus, channels = one_answer(request).split()
    return bytes.fromhex(fmmus), bytes.fromhex(channels), (int(inputs), int(outputs))


def lent(bay):
    return dict(a=bay.offset, b=bay.group, table=bay.table)


def mailboxes(bay):
    """The mailbox pass, and the sync managers as it leaves them."""
    channels = bytearray(bay.channels)
    try:
        configure_mailboxes(bay.sheet, channels)
    except Refused:
        pass
    return Request("m", sheet=bay.sheet, channels=bay.channels), bytes(channels)


def planned(bay):
    """The outputs given at the inputs' own offset, so that the ranges overlap."""
    request, channels = mailboxes(bay)
    yield f"{bay.name}: mailboxes", request
    yield from asked(bay.name, bay.sheet, bay.fmmus, channels=channels, c=bay.offset, **lent(bay))


def outputs_first(bay):
    """The inputs from where the outputs end, over sync managers that no mailbox pass has written."""
    for how in (GIVEN, KEEP):
        first = call(how, bay.sheet, bay.fmmus, c=bay.offset, channels=bay.channels, **lent(bay))
        yield f"{bay.name}, outputs first{told(how)}", first._replace(a=left_by(first)[2][1])


def limits():
    """What stands in byte 1 beyond the sum is ignored; the longest sheet; under `times` it is called once."""
    whole = dict(a=100, b=40, c=60, channels=bytes(128))
    for how in (*range(8), 8, 248, 251, 252, 255):
        yield f"byte 1 is {how}", call(how, SAMPLE, area(), **whole)
    yield from asked("L is 16384", longest(16_384)[:16_386])
    for times in (2, 3, 4_294_967_295):
        yield f"the call, times {times}", call(GIVEN, SAMPLE, area(), times=times, **whole)


def ask():
    for bay in EITHER_ORDER:
        yield from planned(bay)
        yield from outputs_first(bay)
    for bay in ONE_ORDER:
        yield from planned(bay)
    yield from limits()
