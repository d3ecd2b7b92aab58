#!/usr/bin/env python3
"""Lists the names that a file brings in and doesn't use: `python3 tests/unused.py`.

Looks at each .antt and .rt file of crates/ and prints file, line and name; what is passed on (`pub use`) is left out, and
what code brings in of std, where a trait's name is used by its methods. Fails where there is any. An operator `◌+◌` is
used as `+`, `◌+◌`, `◌+` or `+◌`; a module that is brought in under a name is used before a dot; a field or member right
behind a dot, a record's field that is set and an argument given by its name use none. A name that only a bound variable
shares isn't found.
"""

import re
import sys
from pathlib import Path
from typing import NamedTuple

ROOT = Path(__file__).resolve().parent.parent


class Brought(NamedTuple):
    name: str
    module: bool  # used before a dot, and not by itself
    at: int


def blank(text, start, end):
    """A text with a stretch of it left empty, so that lines keep their numbers."""
    return text[:start] + re.sub(r"[^\n]", " ", text[start:end]) + text[end:]


def without(pattern, text):
    for found in re.finditer(pattern, text, re.M | re.S):
        text = blank(text, *found.span())
    return text


# of a path: up to the braces, what is in them, or the module's other name
ANTT_USE = re.compile(
    r"^(?P<pub>(?:unfoldable )?pub )?use (?P<path>[^{;\s]+?)(?:\.\{(?P<names>[^}]*)\}| as (?P<other>\S+))? *$", re.M
)
GHOST_USE = re.compile(ANTT_USE.pattern.replace("use ", "ghost use ").replace(" *$", "; *$"), re.M)
RUST_USE = re.compile(r"^(?P<pub>pub )?use (?P<path>[\w:]+?)(?:::\{(?P<names>[^}]*)\}| as (?P<other>\w+))?; *$", re.M)


def brought_by(found):
    """The names that a `use` line brings."""
    if found["names"] is None:
        name = found["other"] or re.split(r"\.|::", found["path"])[-1]
        yield Brought(name, found.re is not RUST_USE, found.start())
        return
    for item in re.finditer(r"[^,]+", found["names"]):
        words = item[0].split()
        if words:
            name = words[-1] if len(words) > 1 else re.split(r"\.|::", words[0])[-1]
            yield Brought(name, False, found.start("names") + item.start() + len(item[0]) - len(item[0].lstrip()))


def taken(form, text):
    """What the `use` lines of a form bring, the text without them, and the first words of their paths."""
    names, heads = [], set()
    for found in form.finditer(text):
        names += [] if found["pub"] else brought_by(found)
        heads.add(found["path"].split(".")[0])
        text = blank(text, *found.span())
    return names, text, heads


WORD = re.compile(r'«([^»]*)»|"(?:\\.|[^"\\])*"|([^\s(){}.;,@"«»]+)')
FIELD = re.compile(r'(?<=[{;])\s*(?:«[^»]*»|[^\s(){}.;,@"«»]+)(?= = )')  # of a record, or an argument by its name


def words(text):
    """The names of an antt text, and those that stand before a dot."""
    alone, heads, text = set(), set(), FIELD.sub("", text)
    for found in WORD.finditer(text):
        if found.start() and text[found.start() - 1] == ".":
            continue
        name = found[1] or found[0]
        alone.add(name)
        if re.match(r"\.\S", text[found.end() : found.end() + 2]):
            heads.add(name)
    return alone, heads


def plain(name):
    """`«x»` is `x`."""
    return name[1:-1] if name.startswith("«") else name


def written(name):
    """The ways in which a name is written: by itself, and an operator by its parts."""
    yield {name}
    parts = {part for part in name.split("◌") if part}
    if "◌" in name:
        yield parts
        if len(parts) == 1:
            part = parts.pop()
            yield from ({"◌" + part}, {part + "◌"})


def unused_antt(names, text, paths):
    alone, heads = words(text)
    heads |= paths
    for brought in names:
        name = plain(brought.name)
        used = name in heads if brought.module else any(way <= alone for way in written(name))
        if not used:
            yield brought


def all_read(text):
    """A `use` line of another form would be passed over unseen."""
    if left := re.search(r"^(?:\w+ )*use \S.*", text, re.M):
        sys.exit(f"a line that isn't understood: {left[0]}")


def unused_in_antt(text):
    text = without(r"\{-.*?-\}|(?:^|(?<=\s))--[^\n]*", text)
    names, text, paths = taken(ANTT_USE, text)
    all_read(text)
    yield from unused_antt(names, text, paths)


def clauses(text):
    """A source's contracts, and the source without them."""
    said = ""
    for found in re.finditer(r"^\s*(?:ghost(?! use)|requires|ensures)\b[^{};]*\{", text, re.M):
        end, depth = found.end(), 1
        while depth:
            depth += {"{": 1, "}": -1}.get(text[end], 0)
            end += 1
        said += text[found.start() : end] + "\n"
        text = blank(text, found.start(), end)
    return said, text


def unused_in_rust(text):
    text = without(r"//[^\n]*", text)
    ghosts, text, paths = taken(GHOST_USE, text)
    names, text, _ = taken(RUST_USE, without(r"^use std::[^;]*;", text))
    all_read(text)
    said, text = clauses(text)
    yield from unused_antt(ghosts, said, paths)
    code = set(re.findall(r"\w+", text))
    yield from (brought for brought in names if brought.name not in code)


def is_made(path):
    """Whether rt made the file, in the out/ of its crate."""
    return "out" in path.relative_to(ROOT).parts


def main():
    count = 0
    for path in sorted([*ROOT.glob("crates/**/*.antt"), *ROOT.glob("crates/**/*.rt")]):
        text = "" if is_made(path) else path.read_text()
        for brought in (unused_in_antt if path.suffix == ".antt" else unused_in_rust)(text):
            count += 1
            print(f"{path.relative_to(ROOT)}:{text.count(chr(10), 0, brought.at) + 1}: {brought.name}")
    print(f"{count} names are brought in and not used")
    sys.exit(1 if count else 0)


if __name__ == "__main__":
    main()
