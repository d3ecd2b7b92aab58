"""What ./plan does, from the command line to the exit status."""

import re
import shlex

from desk import build, command, eeprom, explain, feed, kit, picture, signals, talk, written
from desk.lanes import read_alone, warnings
from desk.talk import PLANNED, REFUSED, Trouble, in_a_row, put, say, shown

PROGRAMS = ["lockerplan", "lockersheet", "probe"]
REFUSAL = re.compile(rb"refused (\d+)\n")


def refused(wish, answer, words):
    """After a refusal: the words where they are wanted, else how to get them."""
    put(answer)
    if wish.explain:
        put(words(int(REFUSAL.fullmatch(answer)[1])).encode())
    elif talk.watched():
        same = wish.what == "dump" or wish.path == "-"
        again = "the same with --explain" if same else f"./plan --explain {shown(shlex.quote(wish.path))}"
        say(f"{again} says why")
    if wish.picture:
        say("what is refused has no picture: none was drawn")
    return REFUSED


def planned(wish, data, words):
    """Plans a sheet; `words` explains a refusal's number."""
    answer = build.answer("lockerplan", data)
    if REFUSAL.fullmatch(answer):
        return refused(wish, answer, words)
    if not answer.startswith(b"inputs "):
        raise Trouble("lockerplan printed neither a plan nor a refusal")
    put(answer)
    text = answer.decode("ascii", "replace")
    if wish.picture:
        picture.draw(wish.picture, feed.named(wish.path), text, data)
    if wish.explain:
        put("".join(f"{line}\n" for line in warnings(text, data)).encode())
    return PLANNED


def plan(wish):
    sheet = feed.sheet_of(wish.path)
    return planned(wish, sheet.data, lambda number: explain.explanation(sheet, number))


def sheet_text(wish, dump, data):
    flags, receive, send = wish.given
    options = f"--flags {flags} --receive {receive} --send {send}"
    title = f"The sheet of a dump of {len(dump.data):,} bytes: {feed.named(wish.path)}, with {options}."
    return written.text(data, [title, "docs/SHEET.md says what each field may be. What stands after # isn't read."])


def plan_dump(wish):
    """A dump becomes a sheet, and that is planned or printed."""
    dump = feed.dump_of(wish.path, wish.raw)

    def words(number):
        return explain.dump_explanation(dump, wish.given, number)

    beside = [] if wish.sheet else ["lockerplan"]
    answer = build.answer("lockersheet", dump.data, [str(number) for number in wish.given], beside)
    if REFUSAL.fullmatch(answer):
        return refused(wish, answer, words)
    if len(answer) < 11 or int.from_bytes(answer[:2], "big") != len(answer) - 2:
        raise Trouble("lockersheet wrote neither a sheet nor a refusal")
    for line in eeprom.warnings(read_alone(answer)):
        say(line)
    if wish.sheet:
        put(sheet_text(wish, dump, answer).encode())
        return PLANNED
    return planned(wish, answer, words)


def probe(wish):
    answer = build.answer("probe", feed.requests_of(wish.path))
    put(answer)
    if answer.endswith(b"bad request\n"):
        raise Trouble("the probe stopped at a request that is cut short or longer than docs/PROBE.md allows")
    return PLANNED


def act(words):
    wish = command.understood(words)
    if wish.what == "help":
        put(command.HELP.encode())
        return PLANNED
    if wish.what == "build":
        build.made_ready(kit.find_rt(), PROGRAMS)
        say(f"{in_a_row(PROGRAMS)} are ready")
        return PLANNED
    talk.demand_output()
    return {"plan": plan, "dump": plan_dump, "probe": probe}[wish.what](wish)


def main(words):
    talk.settle()
    try:
        signals.watch()
        return act(words)
    except Trouble as trouble:
        say(trouble)
        return talk.TROUBLE
    except signals.Interrupted as interrupted:
        say("interrupted")
        return signals.die(interrupted.args[0])
    except OSError as error:
        say(f"{shown(str(error.filename or 'the system'))}: {error.strerror}")
        return talk.TROUBLE
    except Exception as error:
        return talk.fault(error)
