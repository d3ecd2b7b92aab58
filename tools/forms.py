#!/usr/bin/env python3
"""forms.py [FOLDER] [--list POINT]: counts in crates/*/src the places that docs/DESIGN-PASS.md speaks of, a row for each way of looking.

A row is a point of the page, what is looked for, and how many lines have it. With --list the lines are shown. Needs Python alone.
"""
import pathlib
import re
import sys

ROWS = [
    ("1", "own enum of the shape of Result: a case with a refusal's number", r"^\s+Refused\(u8\),"),
    ("1", "own enum of the shape of Option: a case for none", r"^\s+(Nowhere|Nothing|None),$"),
    ("1", "answer or flag with a value beside it: a field", r"^\s+(pub )?(answer: (Answer|Segments)|sound: bool|own: bool),"),
    ("1", "number in place of a refusal", r"(Refused|refused|no_sizes)\([0-9]+\)"),
    ("1", "refusal handed on by hand", r"Refused\((number|_)\)"),
    ("1", "number in place of a kind: a constant", r"^(pub )?const (FMMU|SYNC_MANAGER|TX_PDO|RX_PDO|END_MARK|INPUT|OUTPUT|NOWHERE|KIND|SLASH|CLOSE|R|HEX"
     r"|WORD|OK|NONE|REFUSED|SAME|DIFFER|MANAGERS|USAGES|PDOS|UNKNOWN|END): "),
    ("2", "one of two or more functions that differ in a size, a type or a constant",
     r"fn (fmmu_at|channel_at|unpack_from_slice|pack_to_slice|mode_at|direction_at|given|is_unnamed|misnumbered|put_mode|put_direction"
     r"|some_usage_unnamed|some_control_unnamed|some_unnamed|managers_of|usages_of|read_full|over_and_over|read_over_and_over"
     r"|written_over_and_over|put_channels|put_entries|with_table|without_table|plan_without_table|wide|least|bit_of)\("),
    ("2", "type that differs from another in a type alone", r"(struct (Offsets|Called|Done|Laid)|enum (Configured|Segments|FmmuRead|ChannelRead|Laid|Ends)) \{"),
    ("3", "loop that is a while or a loop", r"^\s+(while|loop)\b"),
    ("4", "equality by hand", r"fn (same|same_managers|same_usages|same_device|alike)\("),
    ("4", "conversion by hand: a cast that widens, or a function for one", r"(wire::(wide|least|bit_of)\(| as (u16|u32|u64|usize)\b)"),
    ("4", "conversion by hand: a cast to a byte", r" as u8\b"),
    ("4", "number for a case, or a case for a number", r"fn (number|at|mode_at|direction_at|state_of|mode_of|direction_of)\("),
    ("4", "answer by a chain of tests: return of a truth", r"return (true|false);"),
    ("5", "fact that several contracts ask", r"requires \{.*(manager_count sheet\.now ≤ 16|length entries\.(old|now) ≡ 16|length sheet\.now ≤ 16386)"),
    ("5", "route of the inputs beside that of the outputs", r"^\s+(pub )?outputs: Route,"),
    ("6", "list with its length beside it", r"(managers: \[SyncManager; 16\]|usages: \[u8; 16\]|\[Oversampling; 256\],|\[FmmuPair; 256\],|list: \[(SyncManager|u8); 16\],)"),
    ("7", "switch on what is asked for", r"match letter"),
]


def lines(folder, pattern):
    for path in sorted(pathlib.Path(folder).glob("crates/*/src/**/*.rt")):
        for number, line in enumerate(path.read_text().splitlines(), 1):
            if not line.lstrip().startswith("//") and re.search(pattern, line):
                yield f"{path.relative_to(folder)}:{number}: {line.strip()}"


def main():
    words = sys.argv[1:]
    point = words[words.index("--list") + 1] if "--list" in words else None
    folder = next((w for w in words if w != "--list" and w != point), ".")
    for where, what, pattern in ROWS:
        found = list(lines(folder, pattern))
        if point in (None, where):
            print(f"{where} {len(found):4} {what}")
        if point == where:
            print("".join(f"       {line}\n" for line in found), end="")


main()
