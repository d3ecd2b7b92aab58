"""The probe's requests and answers (docs/PROBE.md), read side by side."""

import re
import struct
from collections import namedtuple

HEAD = struct.Struct(">BBHIIIIHHHH")
Request = namedtuple("Request", "letter how room a b c times sheet table fmmus channels raw")
LINE_OF_RUN = re.compile(r"(\d+): (.*)")


def requests(file):
    while head := file.read(HEAD.size):
        letter, how, room, a, b, c, times, sheet, table, fmmus, channels = HEAD.unpack(head)
        parts = [file.read(length) for length in (sheet, 3 * table, fmmus, channels)]
        records = [(parts[1][k] << 8 | parts[1][k + 1], parts[1][k + 2]) for k in range(0, len(parts[1]), 3)]
        yield Request(chr(letter), how, room, a, b, c, times, parts[0], records, parts[2], parts[3], head + b"".join(parts))


class Answers:
    """The lines of answers. A request is answered by steps: from each value of c on, an answer."""

    def __init__(self, file):
        self.file = file
        self.line = file.readline()

    def take(self):
        line, self.line = self.line.rstrip("\n"), self.file.readline()
        return line

    def of(self, request):
        if request.times <= 1:
            return [(request.c, self.take())] if self.line else []
        steps = []
        # no two runs of values touch: oracle/src/leaves.rs asks one value between them
        while found := LINE_OF_RUN.match(self.line):
            steps.append((int(found[1]), found[2]))
            self.take()
        return steps

    def ended(self):
        return not self.line


def paired(one, other):
    """Both answers at each value of c at which either changes."""
    one, other = dict(one), dict(other)
    left = right = None
    for c in sorted(one.keys() | other.keys()):
        left, right = one.get(c, left), other.get(c, right)
        yield left, right
