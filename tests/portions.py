"""Document 02's 1/13: a sheet that comes in portions, into room that is lent at each call.

Worked out from documents 01 and 02: nothing here is read from the code that it is held against. They don't speak of made-up
states; what those are answered is a decision (docs/DECISIONS.md). A room is a bytearray, or a part of one as a memoryview,
and is changed only where a portion is taken.
"""

from typing import NamedTuple

from registers import demand
from sheet import read_sheet

KEPT = 16_386  # the most bytes that are held, and the least room


class State(NamedTuple):
    """What is handed from call to call. It is a plain value, so it can be made up."""

    held: int = 0
    surplus: bool = False


def take(state, portion, room):
    """Puts a portion behind the bytes that are held; of a byte that has no place it is only remembered that it came."""
    demand({14: len(room) < KEPT})
    stored = portion[: max(0, KEPT - state.held)]
    if stored:
        room[state.held : state.held + len(stored)] = stored
    return State(state.held + len(stored), state.surplus or len(stored) < len(portion))


def end(state, room):
    """The sheet that has come, read at once; surplus bytes make it too long."""
    demand({14: len(room) < KEPT})
    demand({2: state.surplus or state.held > KEPT})
    return read_sheet(bytes(room[: state.held]))
