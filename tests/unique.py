#!/usr/bin/env python3
"""Holds each public function of the libraries to its uniqueness instance: `python3 tests/unique.py`.

A public function is a `pub fn` of crates/NAME/src, free or in an `impl`; what a crate passes on counts where it is
defined. Its instance is a declaration of the crate's proofs/Unique.antt of the type `Pins CONTRACT LOOK`. The contract
is the one generated for the function (`use ..FUNCTION.Reads as f`, `f.Post`), or it is written out, as an `abbrev` of
which a `States` says that it is what the source states. The look has to see the answer and each place that is lent to
be written. One function has none, READER: it hands on what a reader brings, which no contract pins. Prints what is
missing or wrong, and fails where anything is. That an instance holds is for the check to say.
"""

import re
import sys
from pathlib import Path
from typing import NamedTuple

ROOT = Path(__file__).resolve().parent.parent
READER = ("input", "read_full")


class Function(NamedTuple):
    path: str  # as its generated module is named: module.Type.name
    file: str
    public: bool
    answers: bool
    lent: int  # how many places are lent to it to be written


def crates():
    """The crates that crates.txt lists."""
    lines = (ROOT / "crates.txt").read_text().splitlines()
    return [line.partition(":")[0] for line in lines if line.strip() and not line.startswith("#")]


def close(text, at):
    """Where the parenthesis that opens at a place closes."""
    depth = 0
    for place in range(at, len(text)):
        depth += {"(": 1, ")": -1}.get(text[place], 0)
        if depth == 0:
            return place
    raise SystemExit(f"no closing parenthesis: {text[at:at + 60]}")


# the head of an `impl`, the end of one, or the head of a function up to its parameters
FUNCTION = re.compile(
    r"^(?:impl\b[^{]*?(?P<type>\w+)(?:<[^{]*>)? \{|\}|\s*(?P<pub>pub )?(?:\w+ )*fn (?P<name>\w+)[^(]*)", re.M
)


def functions_in(text, module, file):
    """Each function of a source, with the type that it belongs to before its name."""
    text = re.sub(r"//.*", "", text)
    owner = None
    for found in FUNCTION.finditer(text):
        if found["name"] is None:
            owner = found["type"]
            continue
        end = close(text, found.end())
        path = ".".join(word for word in (module, owner, found["name"]) if word)
        answers, lent = text[end + 1 :].lstrip().startswith("->"), text[found.end() : end].count("&mut ")
        yield Function(path, file, bool(found["pub"]), answers, lent)


def functions(crate):
    source = ROOT / "crates" / crate / "src"
    for path in sorted(source.rglob("*.rt")):
        words = path.relative_to(source).with_suffix("").parts
        module = ".".join(word for word in words if word not in ("lib", "main", "mod"))
        yield from functions_in(path.read_text(), module, str(path.relative_to(ROOT)))


def statements(path):
    """The statements of an .antt file without comments, one line each."""
    text = re.sub(r"\{-.*?-\}", "", path.read_text() if path.exists() else "", flags=re.S)
    text = re.sub(r"(^|(?<=\s))--.*", "", text, flags=re.M)
    return [line.rstrip() for line in re.sub(r"\s*\n[ \t]+", " ", text).splitlines()]


USE = re.compile(r"use (\S+) as (\S+)$")
# a generic function's instance holds at each value of its parameters, which its contract then takes
PINS = re.compile(r"(?:pub )?(\S+) : (?:\(.*\) → )?Pins \(?(\S+)(?: [^()]*\))? \(λ \S+ (\S+) (\S+)\. (.*)\)$")
SAYING = re.compile(r"abbrev (?:pub )?(\S+) : Saying (\S+)\.ended$")
STATES = re.compile(r"(?:pub )?\S+ : States (\S+)\.ended \(λ \S+ \S+ (\S+)\. (\S+)\.clauses (?:\S+ )?\2\) (\S+)$")


class Unique:
    """What a crate's Unique.antt says."""

    def __init__(self, crate):
        self.file = f"crates/{crate}/proofs/Unique.antt"
        self.read, self.written = f"Rattle.{crate}.proofs.", f"Rattle.{crate}.specs.contracts."
        lines = statements(ROOT / self.file)
        self.modules = {name: path for path, name in self.found(USE, lines)}
        self.sayings = dict(self.found(SAYING, lines))
        self.stated = {(name, post) for name, _, source, post in self.found(STATES, lines) if name == source}
        self.pins = self.found(PINS, lines)

    @staticmethod
    def found(form, lines):
        return [match.groups() for match in map(form.match, lines) if match]

    def function(self, contract):
        """The path of the function whose contract this is, or nothing."""
        written_out = contract in self.sayings
        name = self.sayings[contract] if written_out else contract.removesuffix(".Post")
        root, ending = (self.written, "") if written_out else (self.read, ".Reads")
        module = self.modules.get(name, "")
        if written_out and (name, contract) not in self.stated:
            return None
        if not module.startswith(root) or not module.endswith(ending):
            return None
        return module.removeprefix(root).removesuffix(ending)

    def instances(self):
        """Each instance: its name, the function's path, whether the look sees the answer, how many places it sees."""
        for name, contract, result, places, look in self.pins:
            seen = set(re.findall(rf"\b{re.escape(places)}((?:\.[0-9]+)*)\.now\b", look))
            yield name, self.function(contract), result in re.split(r"[\s().]+", look), len(seen)


def wrong_instances(unique, public):
    """The instances that aren't one of a public function, seen whole, and the first of it."""
    known = set()
    for name, path, answer, lent in unique.instances():
        function = public.get(path)
        if function is None:
            yield f"{unique.file}: {name} is of no public function"
        elif path in known:
            yield f"{unique.file}: {name} is a second instance of {path}"
        elif answer < function.answers or lent != function.lent:
            yield f"{unique.file}: {name} doesn't look at all that {path} answers and leaves"
        known.add(path)


def wrong_in(crate, public):
    unique = Unique(crate)
    named = {path for _, path, _, _ in unique.instances()}
    for path, function in public.items():
        if path not in named:
            yield f"{function.file}: {crate}'s {path} has no instance in {unique.file}"
    yield from wrong_instances(unique, public)


def main():
    wrong, libraries, stated = [], 0, 0
    for crate in crates():
        own = list(functions(crate))
        if (ROOT / "crates" / crate / "src" / "main.rt").exists():
            print(f"{crate}: a program, whose own functions ({len(own)}) are tested and have no contract to pin")
            continue
        public = {function.path: function for function in own if function.public and (crate, function.path) != READER}
        libraries, stated = libraries + 1, stated + len(public)
        wrong += wrong_in(crate, public)
    for line in wrong:
        print(line)
    print(f"{stated} public functions of {libraries} libraries; wrong or missing: {len(wrong)}")
    sys.exit(1 if wrong else 0)


if __name__ == "__main__":
    main()
