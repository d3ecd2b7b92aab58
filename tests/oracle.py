#!/usr/bin/env python3
"""Holds the stored answers of the crate itself to those of crates/probe/stdout, which the gate compares with what the probe writes.

    python3 tests/oracle.py

Both files, tests/oracle.requests and tests/oracle.answers, are made by oracle/compare --store 400; the answers are the crate's
alone. A call (p) is held to the crate's two passes: keeping over the area as it is, in the default over the area with the old entries of
both directions zeroed, unless 15 may be answered. Two lines agree if they are equal, or if the crate fails and the probe refuses with 6 to 10.
"""

import re
import sys
from pathlib import Path

import model
from requests import ask

HERE = Path(__file__).resolve().parent


def main():
    stdout = (HERE.parent / "crates/probe/stdout").read_text().splitlines()
    crate = (HERE / "oracle.answers").read_text().splitlines()
    line, met, failed = 0, 0, 0
    for name, request in ask():
        lines = "\n".join(model.answers(request)).count("\n") + 1
        if name.startswith("the crate, "):
            answer, stored = stdout[line], crate[met]
            fails = stored == "fails"
            if not (re.match(r"refused ([6-9]|10)( |$)", answer) if fails else answer == stored):
                sys.exit(f"{name}: the crate answered {stored}, stdout has {answer}")
            met, failed = met + 1, failed + fails
        line += lines
    if met != len(crate):
        sys.exit(f"{met} requests, {len(crate)} answers")
    print(f"{met} answers of the crate agree, {failed} of them failures that are refused")


if __name__ == "__main__":
    main()
