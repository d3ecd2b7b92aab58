#!/usr/bin/env python3
"""Writes the requests of crates/probe/stdin (docs/PROBE.md).

    python3 tests/requests.py > crates/probe/stdin      the requests
    python3 tests/requests.py --names                   each request's name, after the line of crates/probe/stdout
                                                        at which its answer begins
"""

import sys
from pathlib import Path

import ask_both
import ask_call
import ask_dump
import ask_eighteen
import ask_old
import ask_pairs
import ask_portions
import ask_registers
import ask_sheets
import ask_sides
import ask_unnamed
import ask_writer
import model
from ask_call import asked, front
from ask_pairs import lined
from bays import IN, OUT
from build import SAMPLE, coe, on_coe
from stored import ROOT, samples
from stream import AFTER_INPUTS, BY_PAIRS, KEEP, Request, requests

sys.path.append(str(ROOT / "samples"))
import lesson

# one direction gives 7 and the other 6, which is the first in order
WIDE = [255] * 255
SEVEN_AND_SIX = {
    "inputs give 7 and outputs 6": on_coe(coe(3, IN, 1), coe(2, OUT, *WIDE), coe(2, OUT + 1, *WIDE), usages=(1,)),
    "inputs give 6 and outputs 7": on_coe(coe(2, OUT, 1), coe(3, IN, *WIDE), coe(3, IN + 1, *WIDE), usages=(2,)),
}


def lessons():
    """What the lessons of docs/TRAINING.md and docs/SHEET.md ask."""
    made = []

    def by_model(named):
        made.extend(named)
        return [list(model.answers(request)) for _, request in named]

    for name, tell in lesson.LESSONS.items():
        for _ in tell(by_model):
            pass
        yield from ((f"lesson {name}, {title}", request) for title, request in made)
        made.clear()


def programs():
    for path, sheet in samples():
        yield f"lockerplan, {path.stem}", Request("L", sheet=sheet)
    yield "lockerplan, no bytes", Request("L")
    yield "lockerplan, cut short", Request("L", sheet=SAMPLE[:-1])
    for name, sheet in SEVEN_AND_SIX.items():
        yield f"lockerplan, {name}", Request("L", sheet=sheet)
        yield f"planned over and over, {name}", Request("B", a=2, sheet=sheet)
        yield from asked(name, sheet)
    for times in (0, 1, 3):
        yield f"the sample planned {times} times", Request("B", a=times, sheet=SAMPLE, table=[(0x1A00, 2)])
    yield from by_pairs()


LISTS = {"": [(5, 0), (5, 1)], ", a number above 15": [(5, 0), (16, 9)], ", both directions": [(5, 0), (5, 3)]}


def by_pairs():
    """Plans over and over that go by pairs."""
    for name, pairs in LISTS.items():
        plan = Request("B", BY_PAIRS, len(pairs), a=3, sheet=lined("r17 r9 r w8"), fmmus=front(pairs))
        yield f"planned by pairs{name}", plan
        for how in (0, AFTER_INPUTS | KEEP, 251):
            yield f"planned by pairs{name}, byte 1 is {how}", plan._replace(write=how)
        yield f"planned by pairs{name}, one lent", plan._replace(write=255, room=1)
        yield f"planned by pairs{name}, no turns", plan._replace(a=0)
        yield f"planned by pairs{name}, on CoE", plan._replace(sheet=SAMPLE)
        yield f"planned by pairs{name}, the output muted", plan._replace(table=[(IN + 3, 0)])
    many = dict(room=9, a=2, sheet=lined("r65528 " * 9), fmmus=front((3, k) for k in range(9)))
    for how, told in ((0, "own numbers"), (BY_PAIRS, "pairs")):
        yield f"73,719 bytes planned by {told}", Request("B", how, **many)
    yield "planned by no pair", Request("B", BY_PAIRS, 9, a=1, sheet=lined("r17 w8"))
    one = Request("B", BY_PAIRS, 1, a=1, sheet=lined("r8 w65529"))
    yield "planned by pairs, refused before", one._replace(sheet=lined("r8 u"), fmmus=b"\x10\x10")
    yield "planned by pairs, refused behind", one._replace(fmmus=b"\0\1")
    yield "planned by pairs, the outputs too wide", one._replace(fmmus=b"\2\1")


def crate():
    """What the crate itself was asked: its answers stand in tests/oracle.answers."""
    with open(Path(__file__).parent / "oracle.requests", "rb") as stored:
        for k, request in enumerate(requests(stored)):
            yield f"the crate, {k}", request


def others():
    for letter in "aFKPz\0\xff":
        yield "no such letter", Request(letter)
    yield "one answer for several values", Request("d", c=7, times=3, sheet=SAMPLE)


def ask():
    """Each request with its name, in the order of the stream."""
    sheets, calls = (ask_sheets, ask_portions, ask_writer, ask_dump), (ask_call, ask_both, ask_old, ask_pairs, ask_eighteen)
    files = (ask_registers, *sheets, *calls, ask_sides, ask_unnamed)
    for part in (*(file.ask for file in files), lessons, programs, crate, others):
        yield from part()


# the last request ends the run: its sheet is one byte short
CUT = Request("d", sheet=SAMPLE).bytes()[:-1]


def main():
    if sys.argv[1:] == ["--names"]:
        line = 1
        for name, request in ask():
            print(line, name)
            line += "\n".join(model.answers(request)).count("\n") + 1
        print(line, "a request cut short")
        return
    for _, request in ask():
        sys.stdout.buffer.write(request.bytes())
    sys.stdout.buffer.write(CUT)


if __name__ == "__main__":
    main()
