"""A copy of ./plan with a fake kit: its `rt` proves nothing, so that the script can be tried in seconds.

The fake `rt run` notes each build, fails where two run at once, takes its time, says of each crate what rt says, passes over a
library that hasn't changed, and leaves programs that answer what a test wants, one of them for all or each its own, and note
their words and what they read.
"""

import os
import shutil
import subprocess
import tempfile
from pathlib import Path
from typing import NamedTuple

ROOT = Path(__file__).resolve().parent.parent
NOBODY = 65534

RT = """\
#!/bin/sh
if [ "$1" = version ]; then cat "$FAKE/version"; exit; fi
exec 1>&2
name="${PWD##*/}"
echo "$name" >>"$FAKE/builds"
mkdir "$FAKE/building" || { echo "rt: two builds at once"; exit 1; }
trap 'rmdir "$FAKE/building"' EXIT
trap 'exit 1' PIPE TERM
[ ! -e "$FAKE/fails" ] || { cat "$FAKE/fails"; exit 1; }
for crate in low high "$name"; do
    [ "$crate" != "$name" ] && [ "../$crate/out/rlib" -nt "../$crate/src/lib.rt" ] && continue
    echo "rt: chose --jobs 2 for $crate"
    sleep "$(cat "$FAKE/pause")" & wait
    echo "crate $crate: modules loaded=0 checked=9"
    echo "logic=proved functions=1"
    mkdir -p "../$crate/out" && touch "../$crate/out/rlib"
done
cp "$FAKE/program" "out/$name"
echo "rt: running out/$name"
"""
PROGRAM = """\
#!/bin/sh
name="${0##*/}"
cat >"$FAKE/fed-$$" && mv -f "$FAKE/fed-$$" "$FAKE/fed-$name"
echo "$*" >"$FAKE/words-$$" && mv -f "$FAKE/words-$$" "$FAKE/words-$name"
[ -e "$FAKE/answer-$name" ] && exec cat "$FAKE/answer-$name"
cat "$FAKE/answer"
"""
CRATES = "low:\nhigh: low\nlockerplan: high low io\nlockersheet: high low io\nprobe: high low io # the other\n"
PLANNED = "inputs (empty)\noutputs (empty)\n"


class Ran(NamedTuple):
    status: int
    out: str
    err: str


class Fake:
    """A folder with the script (`project`) and the fake kit beside it."""

    def __init__(self):
        self.folder = Path(tempfile.mkdtemp(prefix="plan-"))
        self.folder.chmod(0o755)
        self.project, self.kit = self.folder / "project", self.folder / "kit"
        self.project.mkdir()
        shutil.copy(ROOT / "plan", self.project / "plan")
        shutil.copytree(ROOT / "desk", self.project / "desk", ignore=shutil.ignore_patterns("__pycache__"))
        (self.project / "crates.txt").write_text(CRATES)
        for name in ("low", "high", "lockerplan", "lockersheet", "probe"):
            self.write(f"project/crates/{name}/src/lib.rt", f"// {name}\n")
        self.write("kit/bin/rt", RT, 0o755)
        self.write("kit/program", PROGRAM, 0o755)
        for name, text in (("pause", "0"), ("version", "fake 1\n"), ("answer", PLANNED)):
            self.write(f"kit/{name}", text)
        self.sheet = self.write("sheet.hex", "00 09 01 00 00 00 00 00 00 00 00\n")
        self.kit.chmod(0o777)

    def write(self, name, text, mode=0o644):
        path = self.folder / name
        path.parent.mkdir(parents=True, exist_ok=True)
        path.write_bytes(text if isinstance(text, bytes) else text.encode())
        path.chmod(mode)
        return path

    def environment(self):
        path = f"{self.kit / 'bin'}:{os.environ['PATH']}"
        return {**os.environ, "PATH": path, "FAKE": str(self.kit)}

    def start(self, *words, **more):
        """The script, started; without other wishes its streams are pipes."""
        streams = {**{stream: subprocess.PIPE for stream in ("stdin", "stdout", "stderr")}, **more}
        return subprocess.Popen([self.project / "plan", *words], env=self.environment(), cwd=self.folder, **streams)

    def run(self, *words, data=b"", **more):
        started = self.start(*words, **more)
        out, err = started.communicate(data if started.stdin else None, timeout=60)
        return Ran(started.returncode, (out or b"").decode("utf-8", "replace"), (err or b"").decode("utf-8", "replace"))

    def shell(self, command):
        """A shell in which $PLAN is the script and $SHEET the sheet."""
        words = {**self.environment(), "PLAN": str(self.project / "plan"), "SHEET": str(self.sheet)}
        ran = subprocess.run(["bash", "-c", command], env=words, cwd=self.folder, capture_output=True, text=True, timeout=60)
        return Ran(ran.returncode, ran.stdout, ran.stderr)

    def as_nobody(self, *words):
        """Where the tests run as root, rights hold nobody back but nobody."""
        who = {"user": NOBODY, "group": NOBODY, "extra_groups": []} if os.geteuid() == 0 else {}
        return self.run(*words, **who)

    def noted(self, what, name):
        """What a program was fed (`fed`), or its words (`words`)."""
        return (self.kit / f"{what}-{name}").read_bytes()

    def builds(self):
        log = self.kit / "builds"
        return log.read_text().splitlines() if log.exists() else []

    def forget(self):
        """As if nothing had been built."""
        for made in (self.project / "target", *self.project.glob("crates/*/out")):
            shutil.rmtree(made, ignore_errors=True)
        (self.kit / "builds").unlink(missing_ok=True)

    def remove(self):
        shutil.rmtree(self.folder, ignore_errors=True)
