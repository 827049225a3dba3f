#!/usr/bin/env python3
"""Lists the places of src/ that are written in an older form, by point of docs/DESIGN-PASS.md.

usage: python3 tools/places.py [FOLDER]     each place, one a line, and the counts last
       python3 tools/places.py --count [FOLDER]     the counts alone

It goes by text: a row is a place to look at. A place that stays has a comment that begins `Kept` at most six lines above it, and is counted apart.
"""

import difflib
import glob
import os
import re
import sys
from collections import defaultdict

KEPT = re.compile(r"^\s*// Kept ")


def files(folder):
    found = sorted(glob.glob(f"{folder}/crates/*/src/*.rt"))
    return [(os.path.relpath(f, folder), open(f, encoding="utf-8").read().split("\n")) for f in found]


def code(lines):
    return [re.sub(r"//.*", "", line) for line in lines]


def functions(lines):
    """(first line, name, header, body) of each function, by braces and indent."""
    i = 0
    while i < len(lines):
        head = re.match(r"( *)(?:pub(?:\(crate\))? )?(?:final )?fn (\w+)", lines[i])
        if not head:
            i += 1
            continue
        indent, start = head.group(1), i
        end = i
        while end < len(lines) and not re.match(rf"{indent}\}}|.*;\s*$" if end == start else rf"{indent}\}}", lines[end]):
            end += 1
        text = lines[start : end + 1]
        opening = next((k for k, line in enumerate(text) if k and line.rstrip() in (indent + "{", indent + "    {")), None)
        if opening is None:
            opening = next((k for k, line in enumerate(text) if line.rstrip().endswith("{")), len(text))
        yield start, head.group(2), text[: opening + 1], text[opening + 1 :]
        i = end + 1


# what a line says, by point
LINES = {
    1: re.compile(
        r"Result<Result<|-> Option<Refusal>|fn kind_number|const KIND: u8;|[=!]= <\w+ as Label>::"
        r"|fn .*&mut .*-> bool$"
        # a match on an Option or a Result whose arms spell out one of its methods
        r"|^\s*None => (None|false|\d+|Ok\(None\)|Ok\(\w+\)|head\.\S+|Err\(.*\)),$"
        r"|^\s*Err\(_\) => .*,$|^\s*Err\(fault\) => (return )?Ok\(Err\(fault\)\),$|^\s*_ => None,$"
    ),
    4: re.compile(
        r"fn (compare|is_below|is_equal|is_same|by_number|same_slots|is_later|digit)\b"
        r"|(?<!self)(?<!Kind::Frames)(?<!Kind::Stamps) as (usize|u8|u16|u32)\b"
        r"|/ 10_000_000|\.wrapping_mul\(16\)"
    ),
    6: re.compile(
        r"^\s*(pub )?(pub\(crate\) )?len: usize,|\bcount: usize,$|= \[.*; [0-9A-Z_]+\];"
        r"|start >= items\.len|: \[Option<Rule>; 8\],"
    ),
    7: re.compile(r"match vote|if more == 0|match stamp_named"),
}

# what a line and the next say: an early return that spells out a method or a `?`
PAIRS = [
    (re.compile(r"\s*let (Some|Ok)\(.*\) = .* else \{$"), re.compile(r"\s*return (None|Some\(\w+\));$")),
    (re.compile(r"\s*if let Some\((\w+)\) = .*\{$"), re.compile(r"\s*return Err\(")),
]


def by_line(name, lines, out):
    """The places of points 1, 4, 6 and 7."""
    for k, line in enumerate(lines):
        found = {point for point, said in LINES.items() if said.search(line)}
        if any(one.match(line) and then.match(lines[k + 1]) for one, then in PAIRS):
            found.add(1)
        # the library of scripts has no heap of its own
        if name.startswith("crates/script/") and re.search(r": (mut )?Vec<", line):
            found.add(6)
        # tests may lay out their lists as they like
        if "_tests/" in name:
            found.discard(6)
        out.extend((point, name, k, line.strip()) for point in sorted(found))


def point3(name, lines, out):
    """A `while`, and a `for` over a range whose variable finds an element, or which pushes or breaks with none."""
    for k, line in enumerate(lines):
        if re.match(r"\s*while (?!let)", line):
            out.append((3, name, k, line.strip()))
            continue
        loop = re.match(r"(\s*)for (\w+) in [^|]*\.\.", line)
        if not loop:
            continue
        end = k + 1
        while end < len(lines) and not lines[end].startswith(loop.group(1) + "}"):
            end += 1
        body = " ".join(lines[k + 1 : end])
        v = loop.group(2)
        finds = rf"\[[^\]]*\b{v}\b|\b(?:get|slot|slot_at|put_slot|answer|heard|sent|level|place)\([^;]*\b{v}\b"
        if re.search(finds, body) or (v.startswith("_") and re.search(r"\.push\(|break;", body)):
            out.append((3, name, k, line.strip()))


def point5(texts, out):
    """Clauses that stand in three functions or more, and functions of six parameters or more."""
    clauses = defaultdict(list)
    for name, lines in texts:
        crate = name.split("/")[1]
        for start, fn, head, body in functions(lines):
            for k, line in enumerate(head):
                found = re.match(r"\s*requires (\w+ )?\{ (.*) \}", line)
                if found:
                    clauses[crate, found.group(2)].append((name, start + k, line.strip()))
            # the parameters stand before the clauses
            text = " ".join(head)
            text = re.split(r"\b(?:requires|ensures)\b", text)[0]
            text = re.sub(r"^\s*(pub(\(crate\))? )?fn \w+(<.*?>)?(?=\()", "", text)
            many = len(re.findall(r"\b\w+: ", text))
            if many >= 6:
                out.append((5, name, start, f"fn {fn}: {many} parameters"))
    for same in clauses.values():
        if len(same) >= 3:
            out.extend((5, name, k, line) for name, k, line in same)


def shape(body):
    """The tokens of a body, with each name of its own as one word."""
    return re.findall(r"[a-z_]\w*!?(?=\()|[^\sa-zA-Z_0-9]|\b(?:for|if|let|match|return|while|else)\b", " ".join(body))


def point2(texts, out):
    """Functions of one crate whose bodies have the same shape."""
    by_crate = defaultdict(list)
    for name, lines in texts:
        for start, fn, head, body in functions(lines):
            tokens = shape(body)
            if len(tokens) >= 20 and len(body) > 4 and "tests" not in name:
                by_crate[name.split("/")[1]].append((name, start, fn, tokens))
    for found in by_crate.values():
        for k, (name, start, fn, tokens) in enumerate(found):
            for other in found[:k]:
                if difflib.SequenceMatcher(None, tokens, other[3], autojunk=False).ratio() >= 0.85:
                    out.append((2, name, start, f"fn {fn}, like {other[2]} of {other[0]}"))
                    break


def main():
    words = [w for w in sys.argv[1:] if w != "--count"]
    folder = words[0] if words else "."
    raw = files(folder)
    texts = [(name, code(lines)) for name, lines in raw]
    out = []
    for name, lines in texts:
        by_line(name, lines, out)
        point3(name, lines, out)
    point2(texts, out)
    point5(texts, out)
    of = dict(raw)
    kept = []
    for _, name, k, _ in out:
        near = of[name][max(0, k - 6) : k + 1]
        kept.append(any(KEPT.search(line) for line in near))
    if "--count" not in sys.argv:
        for (point, name, k, line), stays in sorted(zip(out, kept)):
            print(f"{point} {name}:{k + 1}: {'(kept) ' if stays else ''}{line}")
    for point in range(1, 8):
        all_of = [stays for (p, *_), stays in zip(out, kept) if p == point]
        print(f"point {point}: {len(all_of)} places, {sum(all_of)} with a reason beside them")


main()
