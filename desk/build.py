"""The programs: proved and built where their sources changed, by one ./plan at a time.

target/plan/ holds the lock of a build, and for each program a stamp: of what it was built from, and of the program itself, which
`rt run` leaves in its crate's out/.
Running needs no lock: an answer counts only if the program is the same before and after.
"""

import fcntl
import hashlib
import os
import re
import select
import signal
import subprocess
import time

from desk.kit import ROOT, find_rt, listed, order, place, rt_runs, run, sources
from desk.progress import PATIENCE, Line, Progress, lasting
from desk.signals import kept_back
from desk.talk import Trouble, say, shown, watched

PLACE = ROOT / "target" / "plan"
LOCK = PLACE / "lock"
UNPROVED, ERROR = re.compile(r"fn \S+: (?:not proved|no proof)"), re.compile(r"\berror\b")


# ---- the lock


def taken():
    """The lock's file, or None while another builds. A lock that somebody removed with target/ counts for nothing."""
    try:
        PLACE.mkdir(parents=True, exist_ok=True)
        lock = os.open(LOCK, os.O_RDWR | os.O_CREAT, 0o666)
    except OSError as error:
        raise Trouble(f"target/ can't be written ({error.strerror}), and the program has to be built there first") from None
    try:
        fcntl.flock(lock, fcntl.LOCK_EX | fcntl.LOCK_NB)
        if os.path.samestat(os.fstat(lock), os.stat(LOCK)) and not rt_runs():
            return lock
    except (BlockingIOError, FileNotFoundError):
        pass
    os.close(lock)
    return None


def wait_for_lock():
    began, line, told = time.monotonic(), Line(), False
    try:
        while True:
            lock = taken()
            if lock is not None:
                return lock
            waited = time.monotonic() - began
            line.renew(f"plan: waiting for another build in this folder, {lasting(waited)} so far")
            if waited > PATIENCE and not told and not watched():
                told = True
                say("waiting for another build in this folder, of ./plan or of rt")
            time.sleep(0.2)
    finally:
        line.clear()


# ---- the stamps


def program_of(name):
    """One number for the program that is there; none where there is none."""
    try:
        return hashlib.sha256(place(name).read_bytes()).hexdigest()
    except FileNotFoundError:
        return ""


def ready(rt, name):
    """The program's number, if it was built from the sources that are there."""
    try:
        stamp = (PLACE / name).read_text()
    except FileNotFoundError:
        return ""
    program = program_of(name)
    return program if program and stamp == f"{sources(rt, name)} {program}\n" else ""


def write_stamp(name, stamp):
    if not program_of(name):
        raise Trouble(f"`rt run` passed, but left no crates/{name}/out/{name}; remove crates/{name}/out and try again")
    (PLACE / name).write_text(f"{stamp} {program_of(name)}\n")


# ---- the build


def lines_of(pipe, tick):
    """The lines of a pipe as they come; `tick` is called at least once a second."""
    rest = b""
    while True:
        tick()
        if select.select([pipe], [], [], 1)[0]:
            some = os.read(pipe.fileno(), 65536)
            *whole, rest = (rest + some).split(b"\n")
            yield from (line.decode("utf-8", "replace") for line in whole)
            if not some:
                return


def end(build):
    """Ends a build with all that it started. The group can be no other's as long as the build isn't waited for."""
    with kept_back():
        for number in (signal.SIGTERM, signal.SIGKILL):
            os.killpg(build.pid, number)
            time.sleep(0.2)
        build.wait()


def prove_and_build(rt, name, lock, progress):
    """Runs `rt run`, which proves, builds and runs the program, here on no input. Answers its status, which is the program's, 0,
    where all is well. It inherits the lock: if the script is killed, the build still has it."""
    build, piped = None, {"stdin": subprocess.DEVNULL, "stdout": subprocess.DEVNULL, "stderr": subprocess.PIPE}
    try:
        with kept_back():
            folder = ROOT / "crates" / name
            build = subprocess.Popen([rt, "run"], cwd=folder, start_new_session=True, pass_fds=[lock], **piped)
        for line in lines_of(build.stderr, progress.tick):
            progress.heard(line)
        return build.wait()
    except BaseException:
        if build and build.returncode is None:
            end(build)
        raise
    finally:
        progress.line.clear()


def reason_of(said):
    """The line of `rt` that tells most: the first function that wasn't proved, the first error, or the last line."""
    said = [line for line in said if line.strip()] or ["it printed nothing"]
    first = next((line for line in said if UNPROVED.match(line)), None)
    return shown(first or next((line for line in said if ERROR.search(line)), said[-1]), 120)


def build(rt, names, lock):
    stamps = {name: sources(rt, name) for name in names}  # of before: what changes meanwhile is built again
    progress = Progress(names, order(names), listed())
    for name in names:
        status = prove_and_build(rt, name, lock, progress)
        if status:
            reason = reason_of(progress.said)
            raise Trouble(f"`rt run` in crates/{name} failed with status {status}: {reason} (run it there to see all)")
        write_stamp(name, stamps[name])
    progress.ended()


def made_ready(rt, names):
    """Each program's number, once all of them are built from the sources that are there."""
    while True:
        programs = {name: ready(rt, name) for name in names}
        if all(programs.values()):
            return programs
        lock = wait_for_lock()
        if not all(ready(rt, name) for name in names):
            build(rt, names, lock)
        os.close(lock)


def answer(name, data, words=(), beside=()):
    """What a program, made ready where needed, writes for this input and these words; those `beside` it are built with it."""
    rt = find_rt()
    while True:
        program = made_ready(rt, [name, *beside])[name]
        ran = run(name, data, words)
        if program_of(name) == program:
            break
    if ran.returncode:
        raise Trouble(f"{name} ended with status {ran.returncode}: {shown(ran.stderr.decode('utf-8', 'replace').strip())}")
    return ran.stdout
