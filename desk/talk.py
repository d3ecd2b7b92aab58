"""What the script says, where it says it, and the status that it ends with."""

import os

PLANNED, REFUSED, TROUBLE = 0, 1, 2
IN, OUT, ERR = 0, 1, 2  # the standard streams
CLOSED = set()  # those that were closed when the script began


class Trouble(Exception):
    """Ends the script with status 2; its text is the line that says why."""


def settle():
    """Gives a closed standard stream a place, so that no file opened later is taken for it."""
    for stream in (IN, OUT, ERR):
        try:
            os.fstat(stream)
        except OSError:
            os.open(os.devnull, os.O_RDWR)  # takes the lowest free number, which is this one
            CLOSED.add(stream)


def shown(text, room=100):
    """Text from outside, fit for a line: no control characters, and cut in the middle where it is long."""
    if len(text) > room:
        text = text[: room // 2] + "..." + text[-room // 2 :]
    return "".join(letter if letter.isprintable() else "?" for letter in text)


def in_a_row(words):
    """Words in a row: a, b and c."""
    return " and ".join([", ".join(words[:-1]), words[-1]] if len(words) > 1 else words)


def whisper(text):
    """Text on standard error as it is; where that can't be written there is nobody to tell."""
    try:
        os.write(ERR, text.encode("utf-8", "replace"))
    except OSError:
        pass


def say(line):
    whisper(f"plan: {line}\n")


def watched():
    """Whether a person reads standard error on a terminal."""
    return os.isatty(ERR)


def demand_output():
    if OUT in CLOSED:
        raise Trouble("standard output is closed")


def put(data):
    """Writes all of these bytes to standard output."""
    demand_output()
    left = data
    try:
        while left:
            left = left[os.write(OUT, left) :]
    except OSError as error:
        raise Trouble(f"standard output can't be written: {error.strerror}") from None


def fault(error):
    """A line for what should never happen: an error of the script itself."""
    at = error.__traceback__
    while at.tb_next:
        at = at.tb_next
    place = f"{os.path.basename(at.tb_frame.f_code.co_filename)}, line {at.tb_lineno}"
    say(f"a fault of the script itself ({place}): {type(error).__name__}: {shown(str(error))}")
    return TROUBLE
