"""The Rattle kit: where `rt` is, what it would prove for a program, and where it leaves the program."""

import hashlib
import os
import shutil
import subprocess
from pathlib import Path

from desk.talk import Trouble

ROOT = Path(__file__).resolve().parent.parent
PARTS = ("src", "specs", "proofs")  # of a crate: what a proof is about
VERBS = ("check", "run", "test", "lib", "tidy", "verdict", "all", "ci", "must-fail")  # what `rt` does in an out/ of a crate


def find_rt():
    rt = shutil.which("rt")
    if rt is None:
        raise Trouble("there is no `rt` on the PATH: the Rattle toolchain is needed to prove, build and run the program")
    return rt


def identity(rt):
    asked = subprocess.run([rt, "version"], stdin=subprocess.DEVNULL, stdout=subprocess.PIPE, stderr=subprocess.STDOUT)
    if asked.returncode:
        raise Trouble(f"`rt version` failed with status {asked.returncode}")
    return asked.stdout


def rt_runs():
    """Whether somebody builds in this folder with `rt` itself, which doesn't know the lock of ./plan."""
    for process in Path("/proc").glob("[0-9]*"):
        try:
            _, rt, verb = [*(process / "cmdline").read_text(errors="replace").split("\0"), "", "", ""][:3]
            folder = Path(os.readlink(process / "cwd"))
        except OSError:  # it has ended, or is another account's
            continue
        if rt.endswith("/rt") and verb in VERBS and ROOT in (folder, *folder.parents):
            return True
    return False


def listed():
    """Each crate of crates.txt with what it rests on."""
    crates = {}
    for line in (ROOT / "crates.txt").read_text().splitlines():
        name, colon, below = line.partition("#")[0].partition(":")
        if colon:
            crates[name.strip()] = below.split()
    return crates


def order(names):
    """The crates that are proved for these programs, each behind all that it rests on: level by level."""
    crates, level = listed(), {}

    def visit(name):
        if name not in level:
            below = [crate for crate in crates[name] if crate in crates]
            for crate in below:
                visit(crate)
            level[name] = 1 + max((level[crate] for crate in below), default=0)

    for name in names:
        if name not in crates:
            raise Trouble(f"crates.txt doesn't list {name}")
        visit(name)
    return sorted(level, key=level.get)


def files_of(crate):
    for part in PARTS:
        yield from sorted(path for path in (ROOT / "crates" / crate / part).rglob("*") if path.is_file())


def sources(rt, name):
    """One number for all that a program is proved and built from."""
    whole = hashlib.sha256(identity(rt))
    for path in [ROOT / "crates.txt", *(path for crate in order([name]) for path in files_of(crate))]:
        whole.update(f"\n{path.relative_to(ROOT)} {hashlib.sha256(path.read_bytes()).hexdigest()}".encode())
    return whole.hexdigest()


def place(name):
    """Where `rt run` leaves a program. It is run as it is, with the machine's own loader and C library."""
    return ROOT / "crates" / name / "out" / name


def run(name, data, words=()):
    """Runs the program on this input, with these words behind its name."""
    return subprocess.run([place(name), *words], input=data, stdout=subprocess.PIPE, stderr=subprocess.PIPE)
