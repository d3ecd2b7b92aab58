#!/usr/bin/env python3
"""Tries ./plan and what it rests on (desk/): one line for each case, and exit status 1 if one is wrong.

    python3 tests/plan.py

Builds, waiting and interrupts are tried with a fake `rt` (tests/stub.py), and the samples by the proved program where that is
built: ./plan --build. It needs Python 3.9, the script itself 3.6.
"""

import contextlib
import os
import pty
import resource
import shutil
import signal
import subprocess
import sys
import time
from pathlib import Path

ROOT = Path(__file__).resolve().parent.parent
sys.path.insert(0, str(ROOT))

import plan_dumps  # noqa: E402
import plan_sheets  # noqa: E402
from build import SAMPLE  # noqa: E402
from desk import build, feed, kit  # noqa: E402
from pages import dump_sheet, dump_text  # noqa: E402
from samples import samples  # noqa: E402
from stored import Dump, dumps, sheet_in  # noqa: E402
from stream import Request  # noqa: E402
from stub import CRATES, PLANNED, Fake  # noqa: E402

BAY = (ROOT / "samples" / "bay.hex").read_text()


def line_of(ran, phrase, out=""):
    """What is wrong where one line on standard error should say the phrase, and nothing of what was fed."""
    if ran.status != 2 or ran.out != out:
        return f"status {ran.status}, standard output {ran.out[:60]!r}"
    if not ran.err.startswith("plan: ") or ran.err.count("\n") != 1 or len(ran.err) > 260:
        return f"not one short line: {ran.err[:300]!r}"
    if phrase not in ran.err or not ran.err[:-1].isprintable():
        return f"it says {ran.err!r}"
    return ""


def processor_time():
    """Seconds that all processes took that were waited for: other than by the clock, a busy machine doesn't count."""
    used = resource.getrusage(resource.RUSAGE_CHILDREN)
    return used.ru_utime + used.ru_stime


def slower(began, limit):
    took = processor_time() - began
    return "" if took < limit else f"{took:.1f} s"


def same(got, wanted):
    return "" if got == wanted else f"{got!r}, not {wanted!r}"


@contextlib.contextmanager
def read_only(path):
    mode = path.stat().st_mode
    path.chmod(0o555)
    yield
    path.chmod(mode)


# ---- the command line


def command_line(fake):
    ran = fake.run("--help")
    words = "--explain", "--picture", "--dump", "--flags", "--receive", "--send", "--raw", "--sheet", "--probe", "--build"
    missing = [word for word in (*words, "Exit status") if word not in ran.out]
    yield "--help is on standard output", same((ran.status, ran.err, missing), (0, "", []))
    for words, phrase in (
        ((), "which file?"),
        (("a", "b"), "one file at a time"),
        (("--exlpain", "a"), "no option --exlpain"),
        (("-\x1b[31mx" + "y" * 400,), "no option -?[31mx"),
        (("--build", "a"), "--build takes no file"),
        (("--probe", "--explain", "a"), "--probe stands without other options"),
        (("--picture",), "--picture needs"),
        (("--picture", "a.hex", "b.hex"), "ends in .svg"),
        (("--picture", "no/a.svg", "b.hex"), "its folder isn't there"),
        (("--", "-none.hex"), "-none.hex: No such file"),
        (("--dump",), "./plan --dump samples/bay-dump.hex"),
        (("--dump", "a", "b"), "one file at a time"),
        (("--dump", "--flags"), "--flags needs a number: --flags 1"),
        (("--dump", "--flags", "a.hex"), "--flags a.hex: that is no number; write it in decimal or as 0x.."),
        (("--dump", "--flags", "\x1b[2J" + "9" * 400, "a"), "that is no number"),
        (("--dump", "--flags", "0x100", "a"), "--flags 0x100: it is at most 255"),
        (("--dump", "--receive=65536", "a"), "--receive 65536: it is at most 65,535"),
        (("--dump", "--send", "-1", "a"), "--send -1: that is no number"),
        (("--dump", "--send", "٣", "a"), "that is no number"),
        (("--dump", "--send=", "a"), "that is no number"),
        (("--dump", "--flags", "1", "--flags", "3", "a"), "--flags is given twice"),
        (("--flags", "1", "a"), "--flags is for a dump: add --dump"),
        (("--raw", "a"), "--raw is for a dump"),
        (("--sheet", "a"), "--sheet is for a dump"),
        (("--dump", "--sheet", "--picture", "a.svg", "b"), "leave one of the two out"),
        (("--dump", "--probe", "a"), "--probe stands without other options"),
        (("--dump", "--build"), "--build stands without other options"),
    ):
        yield f"./plan {' '.join(words)[:40]!r}", line_of(fake.run(*words), phrase)
    with read_only(fake.folder):
        ran = fake.as_nobody("--picture", "a.svg", "b.hex")
    yield "--picture where nobody may write", line_of(ran, "a.svg: can't be written")
    fake.write("-odd.hex", fake.sheet.read_bytes())
    yield "-- before a name that begins with -", same(fake.run("--", "-odd.hex").status, 0)


# ---- what is fed


def fed(fake):
    for what, text, phrase in (
        ("an odd line is named", "00 09\n01 0\n", "line 2: 3 digits"),
        ("two odd lines that cancel out are named", "00 0\n9 01 00\n", "line 1: 3 digits"),
        ("a letter that is no digit", "00 09 # L\n01 0g\n", "line 2: 'g' is no"),
        ("a control character isn't echoed", "00 \x1b[2J\n", "line 1: the character U+001B"),
        ("a long line isn't echoed", "z" * 1_000_000, "line 1: 'z'"),
        ("binary", bytes(range(1, 256)), "line 1:"),
        ("bytes that are no UTF-8", b"00 09 \xc3\x28\n", "line 1: a byte that is no UTF-8"),
        ("zero bytes", b"0\x000\x00", "zero bytes"),
        ("UTF-16 with its mark", BAY.encode("utf-16"), "UTF-16"),
    ):
        text = text if isinstance(text, bytes) else text.encode()
        yield what, line_of(fake.run("-", data=text), phrase)
    yield "a file that isn't there", line_of(fake.run("none.hex"), "none.hex: No such file")
    yield "a name of 5,000 letters", line_of(fake.run("x" * 5000), "File name too long")
    yield "a folder", line_of(fake.run("."), "Is a directory")
    yield "an endless file", line_of(fake.run("/dev/zero"), "more than 4,194,304 bytes")
    yield "standard input closed", line_of(fake.shell('"$PLAN" - <&-'), "standard input is closed")
    yield "no permission", line_of(fake.as_nobody(str(fake.write("closed.hex", "00", 0))), "Permission denied")
    ran = fake.run("-", data=b"\xef\xbb\xbf00 02\n")
    yield "a byte-order mark is skipped, and said", same((ran.status, "byte-order mark" in ran.err), (0, True))
    for end in ("\r\n", "\r"):
        path = fake.write("ends.hex", BAY.replace("\n", end))
        yield f"lines that end in {end!r}", same(feed.sheet_of(str(path)).data, SAMPLE)


# ---- what is written


def written(fake):
    yield "standard output full", line_of(fake.shell('"$PLAN" "$SHEET" >/dev/full'), "No space left")
    yield "--help with standard output full", line_of(fake.shell('"$PLAN" --help >/dev/full'), "No space left")
    yield "standard output closed", line_of(fake.shell('"$PLAN" "$SHEET" >&-'), "standard output is closed")
    ran = fake.shell('{ sleep 0.3; "$PLAN" "$SHEET"; } | true; exit ${PIPESTATUS[0]}')
    yield "standard output whose reader has gone", line_of(ran, "Broken pipe")
    ran = fake.shell('"$PLAN" "$SHEET" 2>&-')
    yield "standard error closed", same((ran.status, ran.out), (0, PLANNED))
    ran = fake.shell('ln -s /dev/full full.svg; "$PLAN" --picture full.svg "$SHEET"')
    yield "a picture that can't be written", line_of(ran, "full.svg: No space left", PLANNED)
    for answer, status in (("refused 6\n", 1), ("refused 12\n", 1), ("inputs (empty)\n", 0), ("", 2), ("rubbish\n", 2)):
        fake.write("kit/answer", answer)
        yield f"status where the program prints {answer!r}", same(fake.run(fake.sheet).status, status)
    fake.run("--build")
    fake.write("kit/answer", "3\nbad request\n")
    yield "a request that the probe calls bad", line_of(fake.run("--probe", "-", data=b"x"), "cut short", "3\nbad request\n")
    fake.write("kit/answer", "refused 6\n")
    yield "on a terminal a refusal hints at --explain", "" if "--explain" in on_terminal(fake, fake.sheet) else "no hint"
    yield "elsewhere it doesn't", same(fake.run(fake.sheet).err, "")
    fake.write("kit/answer", PLANNED)


def on_terminal(fake, *words):
    """What a terminal shows of standard error."""
    master, slave = pty.openpty()
    started = fake.start(*words, stderr=slave)
    os.close(slave)
    shown = b""
    while True:
        try:
            some = os.read(master, 4096)
        except OSError:
            some = b""
        if not some:
            break
        shown += some
    started.communicate()
    os.close(master)
    return shown.decode()


# ---- dumps


def dumps_fed(fake):
    """What is wrong with a dump's file is said before anything is built."""
    for what, words, data, phrase in (
        ("bytes without --raw", (), b"\x28\0\0\0\xff\xff", "zero bytes: binary, or UTF-16; --raw reads a dump's bytes"),
        ("an odd line", (), b"28 00\n00 0\n", "line 2: 3 digits"),
        ("too many bytes", (), b"00" * 524_289, "a dump of 524,289 bytes; at most 524,288 are read"),
        ("too many bytes, raw", ("--raw",), bytes(524_289), "more than 524,288 bytes"),
    ):
        yield f"a dump: {what}", line_of(fake.run("--dump", *words, "-", data=data), phrase)
    yield "a dump that isn't there", line_of(fake.run("--dump", "none.hex"), "none.hex: No such file")


def answering(fake, sheet, text):
    fake.write("kit/answer-lockersheet", sheet)
    fake.write("kit/answer-lockerplan", text)


def sample_dumps(fake):
    """Each dump of samples/, its sheet and its plan by the model, planned by its own command."""
    for path, command, dump in dumps():
        text, words = dump_text(dump), [*command.split()[1:-1], path]
        refused = text.startswith("refused")
        sheet = text.encode() if refused else dump_sheet(dump)
        answering(fake, sheet, "rubbish" if refused else text)
        ran = fake.run(*words)
        yield f"{command}", same((ran.status, ran.out, ran.err), (1 if refused else 0, text, ""))
        given = f"{dump.flags} {dump.receive} {dump.send}\n".encode()
        got = fake.noted("words", "lockersheet"), fake.noted("fed", "lockersheet")
        yield "  gives lockersheet the numbers and the dump", same(got, (given, dump.data))
        ran = fake.run(*words, "--explain")
        wanted = ["where ", "of the dump, ", f"rule {text.split()[1]} "] if refused else ["each FMMU follows"]
        yield "  with --explain", same((ran.out.startswith(text), [w for w in wanted if w not in ran.out]), (True, []))


def bay_dump(fake):
    """The bay's dump, with each option."""
    dump, path = plan_dumps.BAY, ROOT / "samples" / "bay-dump.hex"
    sheet, text = dump_sheet(dump), dump_text(dump)
    answering(fake, sheet, text)
    ran = fake.run("--dump", "--flags=0x1", "--receive", "0X80", "--send", "0080", path)
    yield "numbers in hexadecimal and decimal", same((ran.status, fake.noted("words", "lockersheet")), (0, b"1 128 80\n"))
    fake.run("--dump", path)
    yield "numbers that aren't given are 0", same(fake.noted("words", "lockersheet"), b"0 0 0\n")
    yield "what lockersheet wrote is planned", same(fake.noted("fed", "lockerplan"), sheet)
    ran = fake.run("--dump", "--raw", "-", data=dump.data + bytes(range(256)))
    yield "--raw on standard input", same((ran.status, fake.noted("fed", "lockersheet")), (0, dump.data + bytes(range(256))))
    fake.write("kit/answer-lockerplan", "refused 9\n")
    ran = fake.shell(f'"$PLAN" --dump {path} --flags 1 --sheet >mine.hex && "$PLAN" mine.hex')
    got = ran.out, fake.noted("fed", "lockerplan")
    yield "--sheet plans nothing; what it prints can be planned", same(got, ("refused 9\n", sheet))
    first = fake.folder.joinpath("mine.hex").read_text().partition("\n")[0]
    yield "--sheet begins with what it is of", "" if "246 bytes" in first and "--flags 1 --receive 0" in first else first
    fake.write("kit/answer-lockerplan", text)
    ran = fake.run("--dump", "--picture", "dump.svg", path)
    drawn = fake.folder.joinpath("dump.svg").read_text()
    yield "--picture", same((ran.status, ran.out, "bay-dump.hex: how the bay is mapped" in drawn), (0, text, True))
    fake.write("kit/answer-lockersheet", dump_sheet(dump._replace(flags=3)))
    for words in ((), ("--sheet",)):
        ran = fake.run("--dump", "--flags", "3", "--send", "128", *words, path)
        one = ran.status == 0 and ran.err.count("\n") == 1 and "Leave flag bit 1 out (--flags 1), or write" in ran.err
        yield f"CoE on is warned of {' '.join(words)}", "" if one and len(ran.err) < 260 else ran.err or "no line"


def refused_dumps(fake):
    path = fake.write("dump.hex", "ff ff\n")
    for answer in (b"", b"rubbish\n", b"\0\x09\1", b"refused\n"):
        answering(fake, answer, PLANNED)
        yield f"lockersheet writes {answer!r}", line_of(fake.run("--dump", path), "neither a sheet nor a refusal")
    answering(fake, "refused 16\n", PLANNED)
    ran = fake.run("--dump", "--picture", "none.svg", path)
    got = ran.status, ran.out, "none was drawn" in ran.err, (fake.folder / "none.svg").exists()
    yield "no picture of what is refused", same(got, (1, "refused 16\n", True, False))
    ran = fake.run("--dump", "--explain", path)
    yield "no words where the numbers differ, of a dump", "" if "nothing would be refused" in ran.out else ran.out
    hint = "the same with --explain" in on_terminal(fake, "--dump", path)
    yield "on a terminal a refused dump hints at --explain", "" if hint else "no hint"
    answering(fake, dump_sheet(Dump(b"\xff\xff")), PLANNED)
    ran = fake.run("--dump", path)
    yield "a dump with nothing in it is warned of", "" if ran.status == 0 and "no records of the categories" in ran.err else ran.err
    for name in ("lockersheet", "lockerplan"):
        (fake.kit / f"answer-{name}").unlink()


def dump_builds(fake):
    """Both programs of a dump are built before either runs; for a sheet of it one is enough."""
    sheet = dump_sheet(Dump(b"\xff\xff"))
    fake.write("kit/answer-lockersheet", sheet)
    path = fake.write("dump.hex", "ff ff\n")
    for words, built in (((), ["lockersheet", "lockerplan"]), (("--sheet",), ["lockersheet"])):
        fake.forget()
        ran = fake.run("--dump", *words, path)
        yield f"--dump {' '.join(words)} builds {' and '.join(built)}", same((ran.status, fake.builds()), (0, built))
    (fake.kit / "answer-lockersheet").unlink()


# ---- builds


def build_needed(fake):
    """Whether each change makes a build necessary."""
    fake.forget()
    fake.run(fake.sheet)
    program, source = fake.project / "crates/lockerplan/out/lockerplan", fake.project / "crates/low/src/lib.rt"
    for what, change, needed in (
        ("nothing changed", lambda: None, 0),
        ("a source changed", lambda: source.write_text("// other\n"), 1),
        ("a proof was added", lambda: fake.write("project/crates/high/proofs/f/Answers.antt", "-- new\n"), 1),
        ("a crate that it doesn't rest on changed", lambda: fake.write("project/crates/probe/src/lib.rt", "// new\n"), 0),
        ("crates.txt changed", lambda: fake.write("project/crates.txt", CRATES.replace(" io", "")), 1),
        ("rt is another", lambda: fake.write("kit/version", "fake 2\n"), 1),
        ("the program is another", lambda: program.write_text("#!/bin/sh\necho inputs wrong\n"), 1),
        ("the program was removed", program.unlink, 1),
        ("target/ was removed", lambda: subprocess.run(["rm", "-r", fake.project / "target"]), 1),
    ):
        before = len(fake.builds())
        change()
        ran = fake.run(fake.sheet)
        built = len(fake.builds()) - before
        yield f"{what}: {'a build' if needed else 'no build'}", same((ran.status, ran.out, built), (0, PLANNED, needed))


def builds(fake):
    fake.forget()
    fake.write("kit/pause", "0.3")
    four = [fake.start(fake.sheet) for _ in range(4)]
    outs = {started.communicate()[0].decode() for started in four}
    yield "four at once: one builds, all plan", same((len(fake.builds()), outs), (1, {PLANNED}))
    began = processor_time()
    fake.run(fake.sheet)
    yield "the next takes under half a second of processor time", slower(began, 0.5)
    fake.forget()
    ran = fake.run(fake.sheet)
    wanted = ["building lockerplan: 3 crates", "low is proved, 1 of 3, ", "high is proved, 2 of 3, ", " so far", "after"]
    yield "progress in plain lines", same([phrase for phrase in wanted if phrase not in ran.err or "\r" in ran.err], [])
    fake.forget()
    shown = on_terminal(fake, fake.sheet)
    wanted = ["\rplan: proving low, 1 of 3, ", "\rplan: proving high, 2 of 3, ", " s so far"]
    yield "progress on a terminal, in a line that is renewed", same([phrase for phrase in wanted if phrase not in shown], [])
    fake.forget()
    ran = fake.run("--build")
    after = fake.run(fake.sheet).status, fake.run("--probe", fake.sheet).status
    got = ran.status, *after, fake.builds(), "lockerplan, lockersheet and probe are ready" in ran.err
    yield "--build makes all three ready, one after the other", same(got, (0, 0, 0, ["lockerplan", "lockersheet", "probe"], True))
    fake.write("project/crates/probe/src/lib.rt", "// changed\n")
    fake.write("kit/pause", "1")
    other = fake.start("--probe", fake.sheet)
    group_of(other)
    ran = fake.run(fake.sheet)
    yield "what is ready doesn't wait for another's build", same((ran.status, other.poll()), (0, None))
    other.communicate()
    fake.write("kit/pause", "0")


def failed_builds(fake):
    fake.forget()
    noise = "./proofs/f/Answers.antt:8:13: error: noise\n", "logic=not-proved\nrt: the library low did not build\n"
    fake.write("kit/fails", f"{noise[0]}fn low::f: not proved\n{noise[1]}")
    yield "a build that fails says why", line_of(fake.run(fake.sheet), "with status 1: fn low::f: not proved (run it there")
    fake.write("kit/fails", "noise\nsrc/lib.rt:1:1: error[unclosed]: no end\nrt: mend these first: no library was built\n")
    yield "so does one of a source that can't be read", line_of(fake.run(fake.sheet), "1: src/lib.rt:1:1: error[unclosed]")
    (fake.kit / "fails").unlink()
    yield "and is tried again", same(fake.run(fake.sheet).status, 0)
    fake.forget()
    (fake.kit / "bin/rt").rename(fake.kit / "bin/gone")
    yield "no rt on the PATH", line_of(fake.shell('PATH=/usr/bin:/bin "$PLAN" "$SHEET"'), "no `rt` on the PATH")
    (fake.kit / "bin/gone").rename(fake.kit / "bin/rt")
    with read_only(fake.project):
        yield "target/ can't be made", line_of(fake.as_nobody(fake.sheet), "target/ can't be written")
    fake.run(fake.sheet)
    place = fake.project / "target" / "plan"
    with read_only(place), read_only(place / "lock"):
        yield "what another built is run without writing", same(fake.as_nobody(fake.sheet).status, 0)
        fake.write("project/crates/low/src/lib.rt", "// changed again\n")
        yield "target/ can't be written", line_of(fake.as_nobody(fake.sheet), "target/ can't be written")


def beside_rt(fake):
    """`rt` run by hand doesn't know the script's lock."""
    fake.forget()
    fake.write("kit/pause", "0.5")
    words, folder = [fake.kit / "bin/rt", "run"], fake.project / "crates/probe"
    by_hand = subprocess.Popen(words, cwd=folder, env=fake.environment(), stderr=subprocess.PIPE)
    while not fake.builds():
        time.sleep(0.05)
    ran = fake.run(fake.sheet)
    by_hand.communicate()
    yield "an rt that runs in the folder is waited for", same((ran.status, by_hand.returncode, len(fake.builds())), (0, 0, 2))
    fake.write("kit/pause", "0")


# ---- interrupts


def group_of(started):
    """The build that a script started: its process group, once there is one."""
    for _ in range(100):
        ran = subprocess.run(["ps", "-o", "pid=", "--ppid", str(started.pid)], capture_output=True, text=True)
        if ran.stdout.strip():
            return int(ran.stdout.split()[0])
        time.sleep(0.05)
    return 0


def living(group):
    ran = subprocess.run(["ps", "-eo", "pgid=,stat="], capture_output=True, text=True)
    return [row for row in ran.stdout.splitlines() if row.split()[0] == str(group) and "Z" not in row.split()[1]]


def interrupts(fake):
    for number in (signal.SIGINT, signal.SIGTERM, signal.SIGHUP):
        fake.forget()
        fake.write("kit/pause", "20")
        started = fake.start(fake.sheet)
        group = group_of(started)
        started.send_signal(number)
        _, err = started.communicate(timeout=20)
        wrong = [] if group and not living(group) else ["the build lives on"]
        wrong += ["a traceback"] if b"Traceback" in err else []
        yield f"{number.name} ends the build", same((started.returncode, wrong), (-number, []))
        fake.write("kit/pause", "0")
        shutil.rmtree(fake.kit / "building", ignore_errors=True)
        yield f"after {number.name} the next run builds", same(fake.run(fake.sheet).status, 0)


def killed(fake):
    """A script that is killed can't end its build; the build keeps the lock, and the next script waits for it."""
    fake.forget()
    fake.write("kit/pause", "0.5")
    started = fake.start(fake.sheet)
    group_of(started)
    started.kill()
    started.communicate()
    ran = fake.run(fake.sheet)
    yield "a script that is killed leaves the lock to its build", same((ran.status, len(fake.builds())), (0, 2))
    fake.write("kit/pause", "0")


# ---- the proved program


def real_runs():
    if not build.ready(kit.find_rt(), "lockerplan"):
        yield "the samples, by the proved program: not tried, since it isn't built (./plan --build)", ""
        return
    for path, _ in samples():
        ran = subprocess.run([ROOT / "plan", "--explain", path], capture_output=True, text=True)
        out, number = path.with_suffix(".out").read_text(), path.stem.removeprefix("both-").replace("refused-", "rule ")
        words = number in ran.stdout if "rule" in number else "rule" not in ran.stdout
        wanted = 1 if "rule" in number else 0, True, True
        yield f"samples/{path.name}, by the proved program", same((ran.returncode, ran.stdout.startswith(out), words), wanted)
    began = processor_time()
    command = "diff <(./plan samples/bay.hex) <(./plan samples/gap.hex)"
    ran = subprocess.run(["bash", "-c", command], cwd=ROOT, capture_output=True, text=True)
    yield "two at once, by the proved program: SM4 differs", same((ran.stderr, ran.stdout.count("SM4: start")), ("", 2))
    yield "both take under a second of processor time", slower(began, 1)


def real_dumps():
    if not all(build.ready(kit.find_rt(), name) for name in ("lockersheet", "lockerplan")):
        yield "the dumps of samples/, by the proved programs: not tried, since they aren't built (./plan --build)", ""
        return
    for path, command, _ in dumps():
        words = [*command.split()[1:-1], path]
        ran = subprocess.run([ROOT / "plan", *words, "--explain"], capture_output=True, text=True)
        out = path.with_suffix(".out").read_text()
        number = out.split()[1] if out.startswith("refused") else ""
        explained = f"rule {number} " in ran.stdout if number else "rule" not in ran.stdout
        got = ran.returncode, ran.stdout.startswith(out), explained
        yield f"samples/{path.name}, by the proved programs", same(got, (1 if number else 0, True, True))
    sheet = dump_sheet(plan_dumps.BAY)
    command = "./plan --dump --flags 1 --receive 128 --send 128 --sheet samples/bay-dump.hex"
    ran = subprocess.run(command.split(), cwd=ROOT, capture_output=True, text=True)
    yield "the sheet of samples/bay-dump.hex, by the proved program", same(sheet_in(ran.stdout), sheet)
    more = plan_dumps.BAY.data + b"\xff"
    ran = subprocess.run([ROOT / "plan", "--dump", "--raw", "-"], input=more, stdout=subprocess.PIPE)
    wanted = dump_text(plan_dumps.BAY._replace(flags=0, receive=0, send=0))
    yield "samples/bay-dump.hex as raw bytes, by the proved programs", same(ran.stdout.decode(), wanted)


def real_refusals():
    """The probe plans many sheets in one run (its request L)."""
    if not build.ready(kit.find_rt(), "probe"):
        yield "damaged sheets, by the proved program: not tried, since the probe isn't built (./plan --build)", ""
        return
    sheets = list(plan_sheets.damaged())
    asked = b"".join(Request("L", sheet=data).bytes() for data in sheets)
    ran = subprocess.run([ROOT / "plan", "--probe", "-"], input=asked, capture_output=True)
    first = [line.split() for line in ran.stdout.decode().splitlines() if line.startswith(("inputs", "refused"))]
    numbers = [int(words[1]) if words[0] == "refused" else 0 for words in first]
    wrong = [data.hex() for data, number in zip(sheets, numbers) if plan_sheets.explained(data) != number]
    what = f"{len(sheets):,} damaged sheets have the proved program's number in words"
    yield what, same((len(numbers), wrong[:2]), (len(sheets), []))


def cases():
    fake = Fake()
    try:
        for group in (command_line, fed, written, dumps_fed, sample_dumps, bay_dump, refused_dumps, dump_builds):
            yield from group(fake)
        for group in (build_needed, builds, beside_rt, failed_builds, interrupts, killed):
            yield from group(fake)
    finally:
        fake.remove()
    yield from plan_sheets.cases()
    yield from plan_dumps.cases()
    yield from real_runs()
    yield from real_dumps()
    yield from real_refusals()


def main():
    signal.signal(signal.SIGINT, signal.default_int_handler)  # a shell may have had it ignored, for the script too
    wrong = 0
    for what, complaint in cases():
        wrong += bool(complaint)
        print(f"{what}: {complaint or 'ok'}", flush=True)
    sys.exit(1 if wrong else 0)


if __name__ == "__main__":
    main()
