#!/usr/bin/env python3
"""Spells this repository's own definitions as Rattle's style has it, once, after the kit's port.py.

usage: respell.py [--check] FOLDER        FOLDER is the top of a checkout

A definition (abbrev, unfoldable), a field and a constructor are words: snake case, as `roundedUp` to `rounded_up` and `end-bit` to `end_bit`.
In a lemma's name a dash joins names, and each of them is in snake case, as `firstWith-hit` to `first_with-hit`. Types and facts keep their capital.
TABLE has what would meet another name. Files of src/ turn in their clauses and `ghost use` items alone. --check writes nothing and lists
names that would meet another one.
"""
import collections
import os
import re
import sys

# Lemmas that would have a definition's name.
TABLE = {name: name + "_lem" for name in "both_of bytes_on comes_back laid_both too_long two_bytes same_answer shared_kept body_bytes".split()}
# Names that are bound and never declared.
BOUND = "offsetsThen offsetsAgain fmmusAgain channelsAgain sheetBytes".split()
HEAD = re.compile(r"^(\s*)((?:pub |abbrev |unfoldable |private )*)([^\s:(){}.,]+)((?: \{[^{}\n]*\})*) : ")
NAME = re.compile(r"[A-Za-z0-9_'-]+")
WORD = re.compile(r"[^\s(){}.,;@\"«»:\[\]\x60]+")
SOURCE = re.compile(r"\b(?:fn|struct|enum|const|static|mod) (\w+)|\b(\w+)\s*:(?!:)")
CLAUSE = re.compile(r"\b(requires|ensures|ghost use|ghost)\b")


def files(top):
    for folder, dirs, names in os.walk(os.path.join(top, "crates")):
        dirs[:] = sorted(d for d in dirs if d not in ("out", ".git"))
        for name in sorted(names):
            if name.endswith((".antt", ".rt")):
                yield os.path.join(folder, name)


def snake(name, dash):
    parts = [re.sub(r"(?<=[a-z0-9])[A-Z]", lambda m: "_" + m[0].lower(), part) for part in name.split("-")]
    return dash.join(parts)


def declared(texts):
    """name -> its kinds: word (definition, field, constructor) or lemma."""
    kinds = collections.defaultdict(set)
    for path, text in texts.items():
        if not path.endswith(".antt") or path.endswith("/Proof.antt"):
            continue
        inside = None
        for line in text.split("\n"):
            head = re.match(r"^(\s*)(?:pub )?(?:unfoldable )?(record|data) ", line)
            if head:
                inside = len(head[1])
                continue
            if inside is not None and line.strip() and not line.startswith(" " * (inside + 1)):
                inside = None
            m = HEAD.match(line)
            if m and NAME.fullmatch(m[3]):
                word = inside is not None or "abbrev" in m[2] or "unfoldable" in m[2]
                kinds[m[3]].add("word" if word else "lemma")
    return kinds


def turned(kinds):
    table = {}
    for name, of in kinds.items():
        if name[0].isupper() or ("_" in name and name not in TABLE and not re.search("[a-z][A-Z]|-", name)):
            continue
        new = TABLE.get(name) or snake(name, "_" if "word" in of else "-")
        if new != name:
            table[name] = new
    return table | {name: snake(name, "-") for name in BOUND}


def ghost_parts(text):
    """The (start, end) of each clause and `ghost use` item of a file of src/."""
    parts, at = [], 0
    while True:
        m = CLAUSE.search(text, at)
        if not m:
            return parts
        line = text.rfind("\n", 0, m.start()) + 1
        if "//" in text[line : m.start()]:
            at = m.end()
            continue
        if m[1] == "ghost use":
            end = text.find(";", m.end()) + 1
        else:
            brace = text.find("{", m.end())
            if brace < 0 or not re.fullmatch(r"[\s\w*:]*", text[m.end() : brace]):
                at = m.end()
                continue
            depth, end = 1, brace + 1
            while depth:
                depth += {"{": 1, "}": -1}.get(text[end], 0)
                end += 1
        parts.append((m.start(), end))
        at = end


def turn(text, table, rust):
    # What a file calls a module or a name by stays.
    own = set(re.findall(r"(?m)(?:^use \S+ as |[{,]\s*\S+ as )([\w'-]+)", text))

    def code(part):
        return WORD.sub(lambda m: m[0] if m[0] in own else table.get(m[0], m[0]), part)

    def comment(part):
        return WORD.sub(lambda m: table[m[0]] if m[0] in table and re.search("[a-z][A-Z]", m[0]) else m[0], part)

    if rust:
        out, at = [], 0
        for start, end in ghost_parts(text):
            out += [text[at:start], code(text[start:end])]
            at = end
        lines = "".join(out + [text[at:]]).split("\n")
        return "\n".join(line[: line.find("//")] + comment(line[line.find("//") :]) if "//" in line else line for line in lines)
    lines = []
    for line in text.split("\n"):
        m = re.search(r"(^|\s)--( |$)", line)
        cut = m.start() if m else len(line)
        lines.append(code(line[:cut]) + comment(line[cut:]))
    return "\n".join(lines)


def main():
    words = sys.argv[1:]
    check = "--check" in words
    top = [w for w in words if w != "--check"][0]
    texts = {p: open(p, encoding="utf-8").read() for p in files(top)}
    kinds = declared(texts)
    table = turned(kinds)
    source = collections.defaultdict(set)
    for p, t in texts.items():
        if p.endswith(".rt"):
            for m in SOURCE.finditer(t):
                source[m[1] or m[2]].add(os.path.relpath(p, top))
    back = collections.defaultdict(list)
    for old, new in table.items():
        back[new].append(old)
    for new, olds in sorted(back.items()):
        if len(olds) > 1 or new in kinds or new in source:
            print(f"meets: {new} {olds} declared={sorted(kinds.get(new, []))} source={sorted(source.get(new, []))[:3]}")
    for p, t in texts.items():
        here = set(WORD.findall(t))
        std = set()
        for m in re.finditer(r"\buse (?!Rattle\.(?!std))[\w.·-]+\.\{([^}]*)\}", t):
            std |= {w.strip() for w in m[1].split(",")}
        for old in here & set(table):
            if old in std or table[old] in std or (table[old] in here and p.endswith(".antt")):
                print(f"here: {os.path.relpath(p, top)}: {old} -> {table[old]} {'std' if old in std or table[old] in std else 'there already'}")
    print(len(table), "names")
    if check:
        return
    for p, t in texts.items():
        new = turn(t, table, p.endswith(".rt"))
        if new != t:
            with open(p, "w", encoding="utf-8") as f:
                f.write(new)


main()
