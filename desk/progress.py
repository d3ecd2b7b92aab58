"""How far a build is, on standard error: one line that is renewed on a terminal, plain lines elsewhere."""

import os
import re
import time

from desk.talk import ERR, in_a_row, say, watched, whisper

PATIENCE = 3  # seconds before a person is told why nothing happens
# what `rt run` prints of each crate that isn't as it left it: at its beginning; how much of it was new; that it is proved
BEGUN = re.compile(r"rt: chose --jobs \d+ for (\w+)")
CHECKED = re.compile(r"crate (\w+): modules loaded=\d+ checked=(\d+)")
PROVED = "logic=proved "


def lasting(seconds):
    minutes, seconds = divmod(int(seconds), 60)
    return f"{minutes} min {seconds} s" if minutes else f"{seconds} s"


class Line:
    """The one line that is renewed; where nobody watches there is none."""

    def __init__(self):
        self.width = 0

    def renew(self, text):
        if watched():
            self.width = max(20, os.get_terminal_size(ERR).columns or 80) - 1
            whisper(f"\r{text[:self.width]:<{self.width}}")

    def clear(self):
        if self.width:
            whisper("\r" + " " * self.width + "\r")
            self.width = 0


class Progress:
    """Takes what `rt run` prints line by line, and shows which crate it is at. Of a crate that hasn't changed it says nothing."""

    def __init__(self, names, crates, below):
        self.what, self.below = in_a_row(names), below
        self.left, self.all, self.at, self.new = list(crates), len(crates), "", 0
        self.began, self.told, self.line, self.said = time.monotonic(), False, Line(), []

    def so_far(self):
        return lasting(time.monotonic() - self.began)

    def tell(self):
        """Once, and only where there is something to wait for."""
        if not self.told:
            self.told = True
            self.line.clear()
            say(f"proving and building {self.what}: {self.all} crates, which takes minutes the first time")

    def tick(self):
        if time.monotonic() - self.began > PATIENCE:
            self.tell()
        at = f"building {self.what}"
        if self.at in self.left:
            at = f"proving {self.at}, {self.all - len(self.left) + 1} of {self.all}"
        self.line.renew(f"plan: {at}, {self.so_far()} so far")

    def heard(self, line):
        self.said.append(line)
        begun, checked = BEGUN.match(line), CHECKED.match(line)
        if begun:
            self.at = begun[1]
            self.left = [crate for crate in self.left if crate not in self.below.get(self.at, ())]
        if checked:
            self.new = int(checked[2])
        if line.startswith(PROVED) and self.at in self.left:
            self.left.remove(self.at)
            if self.new:
                self.tell()
                if not watched():
                    say(f"{self.at} is proved, {self.all - len(self.left)} of {self.all}, {self.so_far()} so far")

    def ended(self):
        self.line.clear()
        if self.told:
            say(f"{self.what}: proved and built after {self.so_far()}")
