#!/usr/bin/env python3
"""Checks samples/ and the outputs that the pages show against the model.

    python3 tests/samples.py          each samples/NAME.out is what the model answers for samples/NAME.hex, a dump by the
                                      command of its first line, and each output of the pages (tests/pages.py lists them)
                                      what it answers for their command; code that the pages show stands in crates/; and
                                      lockersheet's stored run is samples/bay-dump.hex with the model's sheet
    python3 tests/samples.py --write  makes each samples/NAME.out again, but bay.out: that is copied from document 01
    python3 tests/samples.py --run    runs ./plan on each samples/NAME.hex, on the longest sheets and on the longest
                                      report, and each command of the pages, and compares what they print
"""

import sys

import pages
from build import SAMPLE, coe, eeprom, managers, on_coe, on_eeprom
from pages import dump_sheet, dump_text, in_lines, text_of
from stored import ROOT, dumps, sample, samples

# L is 16,384: 9 bytes, four sync managers, two usages, and 63 PDOs of 254 or 255 lengths
LONGEST = on_coe(*[coe(2 + k % 2, 0x1A00 + k, *[1 + (i + k) % 7 for i in range(254 + (k < 36))]) for k in range(63)])
# sixteen sync managers, each with an entry of its own: the most lines that there are
ALL_ENTRIES = on_eeprom(
    *[eeprom(1 + k % 2, k, 0x1A00 + k, 65_528 - k) for k in range(16)],
    rows=managers(*[(0xF000 + 16 * k, 0x64 if k % 2 else 0x20, 1, 4 - k % 2) for k in range(16)]),
)


def answers():
    """Each sample's path, the command that plans it, and what the model answers."""
    yield from ((path, f"./plan samples/{path.name}", text_of(sheet)) for path, sheet in samples())
    yield from ((path, command, dump_text(dump)) for path, command, dump in dumps())


def wrong_outputs():
    if sample("bay") != SAMPLE:
        yield "samples/bay.hex isn't document 01's sample"
    for path, command, answer in answers():
        out, stem = path.with_suffix(".out"), path.stem.removeprefix("dump-").removeprefix("both-")
        refused = stem.replace("-", " ") + "\n"  # refused-2.hex must be refused with 2
        if answer != refused and (answer.startswith("refused") or stem.startswith("refused")):
            yield f"samples/{path.name} isn't refused as its name says"
        if not out.exists() or out.read_text() != answer:
            yield f"samples/{out.name} isn't what the model answers"
        if not command.endswith(f" samples/{path.name}"):
            yield f"the command of samples/{path.name} is about another file"


def wrong_program():
    """The run of lockersheet that the gate compares: the sample's dump, the numbers of its command, and the model's sheet."""
    _, _, dump = next(found for found in dumps() if found[0].stem == "bay-dump")
    numbers = "".join(f"{number}\n" for number in (dump.flags, dump.receive, dump.send))
    right = {"args": numbers.encode(), "stdin": dump.data, "stdout": dump_sheet(dump)}
    for name, data in right.items():
        if (ROOT / "crates" / "lockersheet" / name).read_bytes() != data:
            yield f"crates/lockersheet/{name} isn't that of samples/bay-dump.hex"


def limits():
    """Sheets at the limits of the program's own buffers, and what it prints for each."""
    accepted, report = text_of(LONGEST), text_of(ALL_ENTRIES)
    if len(LONGEST) != 16_386 or accepted.startswith("refused") or len(report) <= 1_024:
        sys.exit("the sheets at the limits aren't what they are meant to be")
    yield "16,386 bytes", LONGEST, accepted
    yield "16,387 bytes", LONGEST + b"\0", text_of(LONGEST + b"\0")
    yield "16,388 bytes", LONGEST + b"\0\0", text_of(LONGEST + b"\0\0")
    yield f"a report of {len(report):,} bytes", ALL_ENTRIES, report


def written(sheet):
    """A sheet as people write it, sixteen bytes to a line."""
    return in_lines(sheet[i : i + 16].hex(" ") for i in range(0, len(sheet), 16))


def wrong_runs():
    for path, command, _ in answers():
        text, said = pages.run(command)
        if text != path.with_suffix(".out").read_text():
            yield f"{command} doesn't print samples/{path.stem}.out but\n{text}{said}"
    for name, sheet, right in limits():
        text, said = pages.run("./plan -", written(sheet))
        if text != right:
            yield f"a sheet at a limit, {name}: ./plan prints\n{text}{said}"


def main():
    if sys.argv[1:] not in ([], ["--write"], ["--run"]):
        sys.exit(__doc__.strip())
    if sys.argv[1:] == ["--write"]:
        for path, _, answer in answers():
            if path.stem != "bay":
                path.with_suffix(".out").write_text(answer)
    if sys.argv[1:] == ["--run"]:
        wrong = [*wrong_runs(), *pages.wrong_runs()]
    else:
        wrong = [*wrong_outputs(), *wrong_program(), *pages.wrong_pages()]
    count = len(samples()) + len(dumps())
    print("\n".join(wrong) or f"{count} samples and {len(pages.shown())} outputs on the pages are as they should be")
    sys.exit(1 if wrong else 0)


if __name__ == "__main__":
    main()
