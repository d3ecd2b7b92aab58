"""The outputs that the pages show.

A block that begins with ```text shows a command, after `$ `, and what it prints; a line `...` stands for lines left out.
A block that begins with ```hex is a sheet, which the page's next `$ ./plan mine.hex` is given; one that begins with ```dump
is a dump, for its next `$ ./plan --dump OPTIONS mine.hex`.
A block that begins with ```rust is code of the library, as it stands in crates/.
"""

import io
import re
import subprocess
import sys
from typing import NamedTuple

import model
from dump import Head, read_dump
from planning import lockerplan
from registers import Refused
from stored import ROOT, dump_by, sample, sheet_in
from writer import sheet_bytes

sys.path += [str(ROOT / "samples"), str(ROOT)]
import lesson
from desk import command, feed, main

PAGES = ["README.md", "docs/TRAINING.md", "docs/SHEET.md", "docs/EXERCISES.md", "docs/ANSWERS.md"]
MINE, PIPED, PROBED = "./plan mine.hex", " | ./plan -", " | ./plan --probe -"
OPTIONS = r"(?:--(?:flags|receive|send) \w+ |--sheet )*"
DUMPED = re.compile(rf"(?P<made>.* \| )?\./plan --dump {OPTIONS}(?P<file>-|mine\.hex|samples/[\w-]+\.hex)")


class Shown(NamedTuple):
    page: str
    command: str
    lines: list
    sheet: str  # of the block ```hex or ```dump before it


def blocks(page):
    """Each fenced block's kind and lines."""
    kind, inside = None, []
    for line in (ROOT / page).read_text().splitlines():
        if not line.startswith("```"):
            inside.append(line)
        elif kind is None:
            kind, inside = line[3:], []
        else:
            yield kind, inside
            kind = None


def shown_on(page):
    sheet = ""
    for kind, lines in blocks(page):
        if kind in ("hex", "dump"):
            sheet = "\n".join(lines)
        elif kind == "text":
            yield Shown(page, lines[0].removeprefix("$ "), lines[1:], sheet)


def shown():
    return [one for page in PAGES for one in shown_on(page)]


def in_lines(lines):
    return "".join(line + "\n" for line in lines)


def text_of(sheet):
    """What `lockerplan` prints for a sheet, by the model."""
    return in_lines(lockerplan(sheet))


def dump_sheet(dump):
    """A dump's sheet, by the model."""
    return sheet_bytes(read_dump(dump.data, Head(dump.flags, dump.receive, dump.send)))


def dump_text(dump):
    """What ./plan prints for a dump, by the model: the plan of its sheet, or the refusal."""
    try:
        return text_of(dump_sheet(dump))
    except Refused as refused:
        return f"refused {refused.args[0]}\n"


def by_model(named):
    return [list(model.answers(request)) for _, request in named]


def made(command):
    """What a command writes."""
    return subprocess.run(command, shell=True, cwd=ROOT, stdout=subprocess.PIPE).stdout


def sheet_given(one):
    """The sheet, as it is written, that a command gives to ./plan, or None."""
    if one.command == MINE:
        return one.sheet
    if one.command.endswith(PIPED):
        return made(one.command.removesuffix(PIPED)).decode()
    if found := re.fullmatch(r"\./plan (samples/[\w-]+\.hex)", one.command):
        return (ROOT / found[1]).read_text()
    return None


def dump_given(one):
    """The dump that a command gives to ./plan --dump, or None."""
    found = DUMPED.fullmatch(one.command)
    if found is None:
        return None
    if found["made"]:
        return dump_by(one.command, made(found["made"].removesuffix(" | ")).decode())
    return dump_by(one.command, one.sheet if found["file"] == "mine.hex" else (ROOT / found["file"]).read_text())


def dumped_text(one, dump):
    """What a command of ./plan --dump prints: the plan by the model, or its sheet, with the script's own comments."""
    wish = command.understood(one.command.partition("./plan ")[2].split())
    return main.sheet_text(wish, feed.Sheet(dump.data, []), dump_sheet(dump)) if wish.sheet else dump_text(dump)


def right_text(one):
    """What a page's command prints, by the model; None where there is no such command."""
    dump = dump_given(one)
    if dump is not None:
        return dumped_text(one, dump)
    sheet = sheet_given(one)
    if sheet is not None:
        return text_of(sheet_in(sheet))
    if one.command.endswith(PROBED):
        return in_lines(model.answer_all(io.BytesIO(made(one.command.removesuffix(PROBED)))))
    told = lesson.LESSONS.get(one.command.removeprefix("python3 samples/lesson.py "))
    return in_lines(told(by_model)) if told else None


def fits(lines, text):
    """Whether the lines are the text, `...` standing for any lines."""
    pattern = "".join(r"(?:.*\n)*" if line == "..." else re.escape(line + "\n") for line in lines)
    return re.fullmatch(pattern, text) is not None


def sheets_on(page, wanted="hex"):
    return [in_lines(lines) for kind, lines in blocks(page) if kind == wanted]


def wrong_sheets():
    """Sheets of the pages that stand in samples/ too."""
    if sheets_on("docs/SHEET.md") != [(ROOT / "samples" / "blank.hex").read_text()]:
        yield "docs/SHEET.md's blank isn't samples/blank.hex"
    for number, text in enumerate(sheets_on("docs/EXERCISES.md"), 2):
        if sheet_in(text) != sample(f"refused-{number}"):
            yield f"a sheet of docs/EXERCISES.md isn't samples/refused-{number}.hex"
    if [sheet_in(text) for text in sheets_on("docs/EXERCISES.md", "dump")] != [sample("dump-refused-17")]:
        yield "the dump of docs/EXERCISES.md isn't samples/dump-refused-17.hex"


def wrong_code():
    """Code of the pages that no source has."""
    sources = [path.read_text() for path in ROOT.glob("crates/*/src/*.rt")]
    for page in PAGES:
        for kind, lines in blocks(page):
            if kind == "rust" and not any(in_lines(lines) in source for source in sources):
                yield f"{page} shows code that stands nowhere in crates/: {lines[0]}"


def wrong_pages():
    yield from wrong_sheets()
    yield from wrong_code()
    for one in shown():
        text = right_text(one)
        if text is None:
            yield f"{one.page} shows what no command prints: {one.command}"
        elif not fits(one.lines, text):
            yield f"{one.page}: this isn't what the model answers: {one.command}\n{text}"


def run(command, given=None):
    """What a command prints, typed at the root, and what it says beside that."""
    done = subprocess.run(command, shell=True, cwd=ROOT, input=given, capture_output=True, text=True)
    return done.stdout, done.stderr


def typed(one):
    """A page's command as it is run; what stands in mine.hex comes on standard input."""
    mine = one.command.endswith(" mine.hex")
    return (one.command.removesuffix("mine.hex") + "-", one.sheet) if mine else (one.command, None)


def wrong_runs():
    for one in shown():
        text, said = run(*typed(one))
        if text != right_text(one):
            yield f"{one.page}: {one.command} prints\n{text}{said}"
