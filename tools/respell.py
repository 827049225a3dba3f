#!/usr/bin/env python3
"""Respells this repository's own definitions and lemmas: words in snake case, types in upper camel case.

usage: python3 tools/respell.py [ROOT]

Run once, after the toolchain's own script has turned the files. A name is respelled if a file of specs/ or proofs/
declares it with a dash in it, unless it names a goal that the check makes, or a word of the library. Comments, strings
and the code of src/ stay; in a page of text only what stands between backquotes is turned.
"""

import os
import re
import sys

ROOT = sys.argv[1] if len(sys.argv) > 1 else "."
DECLARES = re.compile(
    r"^\s*(?:(?:abbrev|unfoldable|pub|data|record)\s+)*([^\s(){}\[\].,;:=]+)(?:\s+[^\s(){}\[\].,;:=]+)*\s*(?:[({].*)?:\s*(.*)$")
LOCAL = re.compile(r"\blet ([^\s(){}\[\].,;:=]+)")
BINDER = re.compile(r"[({]((?:[^\s(){}\[\].,;:=]+\s+)+):")
TOKEN = re.compile(r"[^\s(){}\[\].,;:`\"«»⌜⌝⟦⟧]+")
LIBRARY = re.compile(r"^\s*(?:ghost )?use (?:Rattle\.std|mathlib|borrow|Prim|logic)\b.*")


def files(*ends):
    for top in ("crates", "docs", "examples", "README.md"):
        path = os.path.join(ROOT, top)
        if os.path.isfile(path):
            yield path
        for folder, dirs, names in os.walk(path):
            dirs[:] = sorted(d for d in dirs if d != "out")
            for name in sorted(names):
                if name.endswith(ends):
                    yield os.path.join(folder, name)


def text_of(path):
    with open(path, encoding="utf-8") as f:
        return f.read()


def declared():
    """The names with a dash that this repository declares."""
    names, library = set(), set()
    for path in files(".antt", ".rt"):
        if path.endswith(".md"):
            continue
        for line in text_of(path).split("\n"):
            if LIBRARY.match(line):
                library.update(TOKEN.findall(line))
            if path.endswith(".rt") or line.lstrip().startswith("--"):
                continue
            m = DECLARES.match(line)
            if m and "-" in m.group(1) and "goal." not in m.group(2):
                names.add(m.group(1))
            bound = LOCAL.findall(line) + " ".join(BINDER.findall(line)).split()
            names.update(n for n in bound if "-" in n)
    return names - library, names & library


def respelled(name):
    if name[0].isupper():
        return "".join(part[0].upper() + part[1:] for part in name.split("-"))
    return name.replace("-", "_")


def turn(line, table, of_function=False):
    """The names of a line; in a function's proof, what the check names after the code, as w.count-is, stays."""

    def word(m):
        made = of_function and re.search(r"\b[cw]\.$", line[:m.start()])
        return m.group(0) if made else table.get(m.group(0), m.group(0))

    return TOKEN.sub(word, line)


def turn_code(line, table, of_function):
    """A line of a .rt or .antt file, but for its strings and its comment."""
    mark = re.search(r"(^|\s)(//|--)(\s|$)", line)
    code, rest = (line[:mark.start()], line[mark.start():]) if mark else (line, "")
    parts = re.split(r'("(?:[^"\\]|\\.)*")', code)
    return "".join(p if p.startswith('"') else turn(p, table, of_function) for p in parts) + rest


def turn_page(text, table):
    return re.sub(r"`[^`\n]+`", lambda m: turn(m.group(0), table), text)


def main():
    names, kept = declared()
    table = {n: respelled(n) for n in sorted(names)}
    taken = {}
    for old, new in table.items():
        if taken.setdefault(new, old) != old:
            print(f"falls together: {old} and {taken[new]} as {new}")
    for path in files(".antt", ".rt", ".md"):
        text = text_of(path)
        if path.endswith(".md"):
            turned = turn_page(text, table)
        else:
            before = set(TOKEN.findall("\n".join(l for l in text.split("\n") if not l.lstrip().startswith(("--", "//")))))
            for old in sorted(before & set(table)):
                if table[old] in before:
                    print(f"stood there before: {table[old]}, for {old}, in {path}")
            of_function = re.search(r"/proofs/[a-z+]", path) is not None
            turned = "\n".join(turn_code(line, table, of_function) for line in text.split("\n"))
        if turned != text:
            with open(path, "w", encoding="utf-8") as f:
                f.write(turned)
    for name in sorted(kept):
        print(f"the library's, and kept: {name}")
    print(f"{len(table)} names respelled")


main()
