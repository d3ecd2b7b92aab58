"""What is fed: a file or standard input, as it is, or as a sheet or a dump in hexadecimal."""

import os
from typing import NamedTuple

from desk.talk import CLOSED, IN, Trouble, say, shown, watched

MOST_TEXT = 4_194_304  # bytes: the longest sheet has 16,386, written out
MOST_DUMP = 524_288  # bytes, as lockersheet takes them
MOST_REQUESTS = 268_435_456
DIGITS = set("0123456789abcdefABCDEF")
MARK = b"\xef\xbb\xbf"  # the byte-order mark of UTF-8


class Sheet(NamedTuple):
    """The bytes of a sheet or of a dump, and the line of the text in which each stands; of raw bytes there is none."""

    data: bytes
    lines: list


def named(path):
    return "standard input" if path == "-" else shown(path) or "a file without a name"


def open_input(path):
    if path != "-":
        return open(path, "rb")
    if IN in CLOSED:
        raise Trouble("standard input is closed")
    if os.isatty(IN) and watched():
        say("reading standard input; Ctrl-D on a line of its own ends it")
    return os.fdopen(os.dup(IN), "rb")


def read(path, most):
    try:
        with open_input(path) as source:
            data = source.read(most + 1)
    except (OSError, ValueError) as error:  # ValueError: a name with a zero byte in it
        raise Trouble(f"{named(path)}: {getattr(error, 'strerror', None) or 'not a file name'}") from None
    if len(data) > most:
        raise Trouble(f"{named(path)}: more than {most:,} bytes; that is no file of this kind")
    return data


def text_of(path, else_do):
    """The text of a sheet or of a dump; what isn't text is named, with what to do, and never shown."""
    data = read(path, MOST_TEXT)
    if data.startswith((b"\xff\xfe", b"\xfe\xff")):
        raise Trouble(f"{named(path)}: is UTF-16; save it as UTF-8")
    if data.startswith(MARK):
        say(f"{named(path)}: begins with a byte-order mark, which is skipped")
        data = data[len(MARK) :]
    if b"\0" in data:
        raise Trouble(f"{named(path)}: holds zero bytes: binary, or UTF-16; {else_do}")
    return data.decode("utf-8", "replace").replace("\r\n", "\n").replace("\r", "\n")


def described(letter):
    """A character without showing what could do harm on a terminal."""
    if letter == "\ufffd":
        return "a byte that is no UTF-8"
    return f"'{letter}'" if " " < letter <= "~" else f"the character U+{ord(letter):04X}"


def digits_of(line, place):
    digits = "".join(line.partition("#")[0].split())
    for letter in digits:
        if letter not in DIGITS:
            raise Trouble(f"{place}: {described(letter)} is no hexadecimal digit (a comment begins with #)")
    if len(digits) % 2:
        raise Trouble(f"{place}: {len(digits):,} digits, which is odd; a byte has two, and both stand on one line")
    return digits


def sheet_of(path, else_do="a sheet is text, as in samples/bay.hex"):
    """Two digits are a byte, white space is free, # to the end of the line is a comment."""
    data, lines = bytearray(), []
    for number, line in enumerate(text_of(path, else_do).split("\n"), 1):
        digits = digits_of(line, f"{named(path)}, line {number}")
        data += bytes.fromhex(digits)
        lines += [number] * (len(digits) // 2)
    return Sheet(bytes(data), lines)


def dump_of(path, raw):
    """A dump in hexadecimal as a sheet is written, or raw: its bytes as they are."""
    if raw:
        return Sheet(read(path, MOST_DUMP), [])
    dump = sheet_of(path, "--raw reads a dump's bytes as they are")
    if len(dump.data) > MOST_DUMP:
        raise Trouble(f"{named(path)}: a dump of {len(dump.data):,} bytes; at most {MOST_DUMP:,} are read")
    return dump


def requests_of(path):
    return read(path, MOST_REQUESTS)
