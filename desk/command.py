"""The command line, and what --help says."""

import os
import re
from pathlib import Path
from typing import NamedTuple

from desk.eeprom import Given
from desk.talk import Trouble, shown

HELP = """\
Plans a bay: gives its device sheet, written in hexadecimal, to the proved program `lockerplan` and shows what that prints.

  ./plan FILE                     the plan of a sheet, as in samples/bay.hex; - is standard input
  ./plan --explain FILE           also says a refusal in words: which rule, where in the sheet, what to do; of an
                                  accepted sheet, where an FMMU that is shared misses a sync manager
  ./plan --picture OUT.svg FILE   also draws the plan: device memory, FMMU entries, the image
  ./plan --dump FILE              the plan of a dump of the device's EEPROM, as in samples/bay-dump.hex, in place of a
                                  sheet: its category area, from byte 128 on; - is standard input. --explain and
                                  --picture go with it, and
      --flags N                   the sheet's flags, which a dump doesn't say: 1 mailbox + 2 CoE + 4 complete access
      --receive N, --send N       bytes of the mailboxes that the controller writes and reads. Each N is decimal or 0x..,
                                  and 0 if not given
      --raw                       the dump's bytes as they are, in place of hexadecimal
      --sheet                     prints the dump's sheet, with comments, in place of the plan: keep it, edit it, plan it
  ./plan --probe FILE             gives requests (docs/PROBE.md), as they are, to the program `probe`; - is standard input
  ./plan --build                  makes the three programs ready beforehand: the evening before a class
  ./plan --help                   this page
  ./plan [OPTIONS] -- FILE        a FILE whose name begins with -

The text of a sheet, or of a dump: two hexadecimal digits are a byte and stand on one line, white space is free, # begins a
comment. A dump is read by the proved program `lockersheet`, and the sheet that this writes is planned by `lockerplan`.

Exit status
  0    planned (--sheet: printed; --probe: answered; --build: all are ready)
  1    refused: standard output has `refused N`, and --explain says why
  2    anything else, said in a line on standard error: bad words on the command line, a file that can't be read or isn't
       in hexadecimal, a request that the probe calls bad, a build that failed, output that can't be written
  130, 143, 129   interrupted (SIGINT, SIGTERM, SIGHUP); a build that was begun is ended, and goes on from there next time

Where the sources changed, the program is proved and built first, with `rt`, which takes minutes the first time; standard
error shows how far it is. Of several ./plan at once one builds and the others wait; they wait for an `rt` in this folder too, and
an `rt` waits for the one that builds. The programs are proved; --explain, --picture and the comments of --sheet are not.
"""

PLAIN = ("--help", "-h", "--explain", "--build", "--probe", "--dump", "--raw", "--sheet")
MOST = {"--flags": 255, "--receive": 65_535, "--send": 65_535}
EXAMPLES = {"--flags": "1 (1 mailbox + 2 CoE + 4 complete access)", "--receive": "128", "--send": "128"}
NUMBER = re.compile(r"0[xX][0-9a-fA-F]{1,8}|[0-9]{1,10}")


class Wish(NamedTuple):
    """What is asked: `what` is plan, dump, probe, build or help. A dump alone has what stands behind `picture`."""

    what: str
    path: str = ""
    explain: bool = False
    picture: str = ""
    raw: bool = False
    sheet: bool = False
    given: Given = Given()


def number_of(name, word):
    """An option's number, judged before anything is built. Flags above 7 are the program's to refuse."""
    example = f"{name} {EXAMPLES[name]}"
    if word is None:
        raise Trouble(f"{name} needs a number: {example}")
    if not NUMBER.fullmatch(word):
        raise Trouble(f"{name} {shown(word)}: that is no number; write it in decimal or as 0x..: {example}")
    number = int(word, 16 if word[:2] in ("0x", "0X") else 10)
    if number > MOST[name]:
        raise Trouble(f"{name} {word}: it is at most {MOST[name]:,}; {example}, for example")
    return number


def taken_apart(words):
    """The options, with the picture's file and the numbers, and the files."""
    options, files, rest = {}, [], list(words)
    while rest:
        word = rest.pop(0)
        if word == "--":
            return options, files + rest
        name, given, value = word.partition("=")
        if word == "-" or not word.startswith("-"):
            files.append(word)
        elif word in PLAIN:
            options[word] = True
        elif name in MOST:
            if name in options:
                raise Trouble(f"{name} is given twice; leave one out")
            options[name] = number_of(name, value if given else rest.pop(0) if rest else None)
        elif name == "--picture":
            if not given and not rest:
                raise Trouble("--picture needs the name of the file to draw: --picture bay.svg")
            options[name] = value if given else rest.pop(0)
        else:
            raise Trouble(f"there is no option {shown(word)}; ./plan --help lists them")
    return options, files


def picture_file(name):
    """Judged before anything is built. A name that is no drawing's is likely a sheet, and would be overwritten."""
    if not name.endswith(".svg"):
        raise Trouble(f"--picture draws into a file whose name ends in .svg, and {shown(name)} doesn't")
    folder = Path(name).parent
    if not folder.is_dir():
        raise Trouble(f"{shown(name)}: its folder isn't there")
    if not os.access(name if os.path.exists(name) else folder, os.W_OK):
        raise Trouble(f"{shown(name)}: can't be written")
    return name


def check_dump(options):
    """What goes with --dump alone, and what doesn't go together."""
    stray = [name for name in ("--raw", "--sheet", *MOST) if name in options]
    if stray and "--dump" not in options:
        raise Trouble(f"{stray[0]} is for a dump: add --dump, or leave it out; a sheet says its own flags and sizes")
    if "--sheet" in options and "--picture" in options:
        raise Trouble("--sheet prints the sheet and plans nothing, so there is no picture: leave one of the two out")


def understood(words):
    options, files = taken_apart(words)
    if "--help" in options or "-h" in options:
        return Wish("help")
    alone = [name for name in ("--build", "--probe") if name in options]
    if alone and len(options) > 1:
        raise Trouble(f"{alone[0]} stands without other options")
    if "--build" in options:
        if files:
            raise Trouble(f"--build takes no file, and {shown(files[0])} was given")
        return Wish("build")
    check_dump(options)
    if len(files) != 1:
        example = "--dump samples/bay-dump.hex" if "--dump" in options else "samples/bay.hex"
        slip = f"one file at a time, not {len(files)}" if files else f"which file? ./plan {example}, for example"
        raise Trouble(f"{slip}; ./plan --help says more")
    if "--probe" in options:
        return Wish("probe", files[0])
    picture = picture_file(options["--picture"]) if "--picture" in options else ""
    wish = Wish("plan", files[0], "--explain" in options, picture)
    if "--dump" not in options:
        return wish
    given = Given(*(options.get(name, 0) for name in MOST))
    return wish._replace(what="dump", raw="--raw" in options, sheet="--sheet" in options, given=given)
