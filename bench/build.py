"""Builds the programs that bench/count counts, for x86-64, and counts the instructions that a run of one executes.

The kit's programs are for x86-64, so all are; qemu-user runs them on any machine, with a plugin that counts. What is
lacking of Debian's packages is installed where this is run as root, and named where not.
"""

import hashlib
import os
import platform
import re
import shutil
import subprocess
import sys
import tempfile
from pathlib import Path

RATTLE, C, RUST = "Rattle", "C", "Rust"
EACH_PASS, EACH_CALL = "C, reading in each pass", "C, reading in each call"
MORE, CHECKED = "C at -O3", "Rust, overflow checks on"
# of what byte 1 of the probe's letters p and B is a sum
AFTER_INPUTS, BY_PAIRS = 1, 4

HERE = Path(__file__).resolve().parent
ROOT = HERE.parent
TARGET = HERE / "target"
NATIVE = platform.machine() in ("x86_64", "amd64")
TRIPLE = "x86_64-unknown-linux-gnu"
CC = "gcc" if NATIVE else "x86_64-linux-gnu-gcc"
C_FLAGS = ["-std=c11", "-O2"]
# the processor that is emulated; what is added is what the kit's programs ask for, x86-64-v2
PROCESSOR = "qemu64,+ssse3,+sse4.1,+sse4.2,+popcnt"
# the environment lies on a program's stack: the same for every run
QUIET = {"PATH": "/usr/bin:/bin", "LC_ALL": "C"}


def stop(reason):
    print(f"not counted: {reason}")
    sys.exit(2)


def above_0(word):
    """A number of the command's words."""
    if not (word.isdecimal() and int(word) > 0):
        stop(f"{word} isn't a number above 0")
    return int(word)


def run(*command, **words):
    if not shutil.which(command[0]):
        stop(f"there is no {command[0]}")
    done = subprocess.run([str(word) for word in command], **words)
    if done.returncode:
        stop(f"{command[0]} ended with status {done.returncode}")
    return done


def first_line(*command):
    return run(*command, stdout=subprocess.PIPE, text=True).stdout.splitlines()[0]


# ---- what is needed


def cargo():
    """Cargo and its compiler. Beside x86-64, Debian's: it has the standard library for x86-64."""
    if NATIVE and shutil.which("cargo"):
        return "cargo", "rustc"
    return "/usr/bin/cargo", "/usr/bin/rustc"


def packages():
    """Debian's packages that are lacking."""
    lacking = []
    if not shutil.which("qemu-x86_64"):
        lacking += ["qemu-user"]
    if not shutil.which("cc"):
        lacking += ["gcc", "libc6-dev"]
    if not all(shutil.which(word) for word in cargo()):
        lacking += ["cargo-web", "rustc-web"]
    if not NATIVE:
        there = {
            "gcc-x86-64-linux-gnu": shutil.which(CC),
            "libc6-dev-amd64-cross": Path("/usr/x86_64-linux-gnu/include/stdio.h").exists(),
            "libc6:amd64": Path("/lib64/ld-linux-x86-64.so.2").exists(),
            "libstd-rust-web-dev:amd64": Path("/usr/lib/rustlib", TRIPLE).is_dir(),
        }
        lacking += [name for name, found in there.items() if not found]
    return lacking


def prepare():
    lacking = packages()
    if not lacking:
        return
    steps = [["apt-get", "update", "-q"], ["apt-get", "install", "-q", "-y", "--no-install-recommends", *lacking]]
    if not NATIVE:
        steps.insert(0, ["dpkg", "--add-architecture", "amd64"])
    words = " && ".join(" ".join(step) for step in steps)
    if os.geteuid() or not shutil.which("apt-get"):
        stop(f"these of Debian's packages are lacking; as root: {words}")
    print(f"installing: {words}", file=sys.stderr)
    for step in steps:
        run(*step, stdout=sys.stderr)


# ---- the programs


def crate_text():
    """The folder of the crate's text, whose files are those that the oracle recorded."""
    folder = os.environ.get("TUGMERANT_CRATE_TEXT")
    if not folder:
        stop("TUGMERANT_CRATE_TEXT, the folder of the crate's text, isn't set")
    folder = Path(folder).resolve()
    for line in (ROOT / "oracle" / "TEXT.sha256").read_text().splitlines():
        recorded, name = line.split()
        if not (folder / name).is_file():
            stop(f"there is no {folder / name}")
        if hashlib.sha256((folder / name).read_bytes()).hexdigest() != recorded:
            stop(f"{folder / name} is another text than the one recorded in oracle/TEXT.sha256")
    return folder


def c_program(name, *flags, source="plan.c"):
    program = TARGET / name
    run(CC, *C_FLAGS, *flags, "-o", program, HERE / source)
    return program


def rust_program(name, checks):
    """Cargo's settings from outside are left out: the profile is bench/rust/Cargo.toml's, but for the overflow checks."""
    program, compiler = cargo()
    environment = {word: value for word, value in os.environ.items() if not word.startswith(("CARGO_", "RUSTC", "RUSTFLAGS"))}
    environment |= {"RUSTC": compiler, "TUGMERANT_CRATE_TEXT": str(crate_text())}
    environment["CARGO_PROFILE_RELEASE_OVERFLOW_CHECKS"] = "true" if checks else "false"
    if not NATIVE:
        environment["CARGO_TARGET_X86_64_UNKNOWN_LINUX_GNU_LINKER"] = CC
    words = ["build", "--release", "--offline", "--locked", "--quiet", "--target", TRIPLE, "--target-dir", TARGET / name]
    run(program, *words, cwd=HERE / "rust", env=environment)
    return TARGET / name / TRIPLE / "release" / "bench"


def rattle_program():
    """The probe, proved. `rt run` runs it too, here on no input."""
    if not shutil.which("rt"):
        stop("there is no rt to build crates/probe with")
    folder = ROOT / "crates" / "probe"
    run("rt", "run", cwd=folder, stdin=subprocess.DEVNULL, stdout=subprocess.DEVNULL)
    return folder / "out" / "probe"


def probed(data, paired=False):
    """The input of C and Rust as a request of the probe (docs/PROBE.md): the letter B plans so many times, by pairs or not."""
    records = int.from_bytes(data[4:6], "big")
    table, rest = data[6 : 6 + 3 * records], data[6 + 3 * records :]
    number, pairs = b"\0\0", b""
    if paired:
        number, rest = rest[:2], rest[2:]
        end = 2 * int.from_bytes(number, "big")
        pairs, rest = rest[:end], rest[end:]
    # one byte past the longest sheet is refused as any longer one is
    sheet = rest[:16_387]
    counts = len(sheet), records, len(pairs), 0
    head = b"B" + bytes([BY_PAIRS * paired]) + number + data[0:4] + bytes(12) + b"".join(count.to_bytes(2, "big") for count in counts)
    return head + sheet + table + pairs


def in_portions(data, size):
    """The same for the letter H: the sheet taken so many times in portions of so many bytes, and read at the end."""
    sheet = data[6:]
    counts = len(sheet), 0, 0, 0
    room, size = len(sheet).to_bytes(2, "big"), size.to_bytes(4, "big")
    head = b"H\0" + room + size + data[0:4] + size + bytes(4) + b"".join(count.to_bytes(2, "big") for count in counts)
    return head + sheet


def c_portions(size):
    return c_program(f"portions-{size}", f"-DPORTION={size}")


def written_again(data):
    """The same for the letter w: the sheet read once, and written so many times into room of its own length."""
    sheet = data[6:]
    counts = len(sheet), 0, 0, 0
    head = b"w\0" + len(sheet).to_bytes(2, "big") + data[0:4] + bytes(12) + b"".join(count.to_bytes(2, "big") for count in counts)
    return head + sheet


def c_writer():
    return c_program("write", "-DWRITE")


def c_dumps():
    """The C program that reads dumps; it takes the request that the probe is asked."""
    return c_program("dump", source="dump.c")


def c_used():
    """The C program whose plans start from an FMMU area that is given."""
    return c_program("used", "-DUSED")


def c_paired():
    """The C program whose plans go by pairs; the mailbox pass and the call read the sheet, each for itself."""
    return c_program("paired", "-DPAIRED", "-DREADINGS=2")


def c_calls(*flags):
    """The C program that makes calls, by own numbers unless a flag says otherwise; it takes the probe's requests."""
    return c_program("calls" + "".join(flags), "-DCALLS", *flags)


def probe_answer(text):
    """What the probe answers where C says this: both segments, or the refusal."""
    words = text.splitlines()[-1].split()
    return " ".join(words[:2] if words[0] == "refused" else words[1:5]) + "\n"


def programs(rattle=None):
    """All that can be built, by name."""
    crate_text()  # before anything is installed or proved
    prepare()
    TARGET.mkdir(exist_ok=True)
    built = {
        RATTLE: rattle or rattle_program(),
        C: c_program("plan"),
        EACH_PASS: c_program("plan-each-pass", "-DREADINGS=3"),
        EACH_CALL: c_program("plan-each-call", "-DREADINGS=2"),
        MORE: c_program("plan-more", "-O3"),
        RUST: rust_program("rust", checks=False),
        CHECKED: rust_program("rust-checked", checks=True),
    }
    return {name: program for name, program in built.items() if program}


def same(right, text):
    """Equal; or the crate fails, which has no number, in a pass of the call that is refused; or the probe says the same in short."""
    failed = re.sub(r"refused (6|7|8|9|10) .*\n\Z", "fails\n", right)
    return text in (right, failed, probe_answer(right))


def compilers():
    """What each figure rests on, a line each."""
    lines = [
        f"- C: {first_line(CC, '--version')}, `{' '.join(C_FLAGS)}` unless said",
        f"- Rust: {first_line(cargo()[1], '--version')}, cargo's release profile (optimisation level 3), overflow checks off unless said",
    ]
    if shutil.which("rt"):
        lines.insert(0, f"- Rattle: {first_line('rt', 'version')}, which compiles by LLVM at `-O3` for x86-64-v2")
    return lines


# ---- counting


class Counter:
    """Runs programs under qemu-user and says what they executed."""

    def __init__(self):
        self.plugin = self.fitting()

    def fitting(self):
        """The plugin, built for the number that this qemu speaks."""
        for number in range(1, 10):
            plugin = TARGET / f"icount{number}.so"
            run("cc", "-O2", "-fPIC", "-shared", f"-DPLUGIN_API={number}", "-o", plugin, HERE / "icount.c")
            if self.executed(plugin, [c_program("plan")], bytes(6))[0]:
                return plugin
        stop("this qemu-x86_64 takes no plugin")

    def executed(self, plugin, command, data):
        """The number of instructions, or 0 where there was no count; and what the program wrote."""
        with tempfile.NamedTemporaryFile() as out:
            emulator = ["qemu-x86_64", "-cpu", PROCESSOR, "-plugin", f"{plugin},out={out.name}"]
            done = subprocess.run([*emulator, *command], input=data, capture_output=True, env=QUIET)
            count = Path(out.name).read_text().strip()
        return int(count or 0), done.stdout.decode(), done

    def count(self, program, data):
        count, text, done = self.executed(self.plugin, [program], data)
        if done.returncode or not count:
            stop(f"{program} ended with status {done.returncode}: {done.stderr.decode().strip()}")
        return count, text
