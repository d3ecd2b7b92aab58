"""The sheets and the dumps of samples/, as people write them: two digits are a byte, white space is free, # begins a comment.

A dump says in its first line how it is planned: `# ./plan --dump OPTIONS samples/NAME.hex`.
"""

from pathlib import Path
from typing import NamedTuple

ROOT = Path(__file__).resolve().parent.parent
OPTIONS = {"--flags": "flags", "--receive": "receive", "--send": "send"}


class Dump(NamedTuple):
    """A dump's bytes, and what its command gives beside them."""

    data: bytes
    flags: int = 0
    receive: int = 0
    send: int = 0


def sheet_in(text):
    return bytes.fromhex("".join("".join(line.partition("#")[0].split()) for line in text.splitlines()))


def command_in(text):
    """The command of a dump, or nothing: a sheet has none."""
    first = text.partition("\n")[0].removeprefix("# ")
    return first if first.startswith("./plan --dump ") else ""


def dump_by(command, text):
    """The dump of a text, with the numbers that a command gives."""
    words = command.split()
    given = {OPTIONS[name]: int(value, 0) for name, value in zip(words, words[1:]) if name in OPTIONS}
    return Dump(sheet_in(text), **given)


def texts():
    return [(path, path.read_text()) for path in sorted((ROOT / "samples").glob("*.hex"))]


def samples():
    """Each sample's path and its sheet; dumps are none."""
    return [(path, sheet_in(text)) for path, text in texts() if not command_in(text)]


def dumps():
    """Each dump's path, its command and the dump."""
    found = [(path, command_in(text), text) for path, text in texts() if command_in(text)]
    return [(path, command, dump_by(command, text)) for path, command, text in found]


def sample(name):
    return sheet_in((ROOT / "samples" / f"{name}.hex").read_text())
