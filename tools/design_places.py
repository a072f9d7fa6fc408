#!/usr/bin/env python3
"""Counts the places in crates/*/src that today's Rattle would write otherwise, by point of docs/DESIGN-PASS.md.

    tools/design_places.py [FOLDER]       the counts
    tools/design_places.py -v [FOLDER]    and each place

FOLDER is the top of a checkout; the one that this file lies in, where none is given. It goes by text: what it finds is looked at by a reader, and a
place that stays has its reason on the page."""
import glob
import os
import re
import sys
from collections import defaultdict

ARGS = [a for a in sys.argv[1:] if a != "-v"]
VERBOSE = "-v" in sys.argv[1:]
TOP = ARGS[0] if ARGS else os.path.join(os.path.dirname(os.path.abspath(__file__)), "..")

# programs, exports for C and statements about them count where a point is about what a reader of src/ meets; twins are wanted there by the C names
EXPORTS = {"corbastrigo", "corbastrigo_c", "demands"}


def crate_of(path):
    return os.path.relpath(path, TOP).split(os.sep)[1]


def sources():
    for path in sorted(glob.glob(os.path.join(TOP, "crates", "*", "src", "*.rt"))):
        with open(path, encoding="utf-8") as f:
            yield path, f.read()


def bare(text):
    """The text without comments."""
    return re.sub(r"//[^\n]*", "", text)


FN = re.compile(r"^([ \t]*)((?:pub )?(?:unsafe )?(?:extern \"C\" )?fn (\w+)[^{;]*?\)[^{;]*?)((?:\n[ \t]*(?:requires|ensures)[^\n]*(?:\n[ \t]+×[^\n]*)*)*)\s*\n?[ \t]*\{\n(.*?)\n\1\}", re.M | re.S)


def functions(text):
    """(name, signature, clauses, body) of each function."""
    for m in FN.finditer(text):
        yield m.group(3), m.group(2), m.group(4), m.group(5)


def point(found):
    places = defaultdict(list)
    clauses = defaultdict(set)
    single, pairs = defaultdict(set), defaultdict(set)
    shapes = defaultdict(list)
    for path, text in sources():
        crate, code = crate_of(path), bare(text)
        where = os.path.relpath(path, os.path.join(TOP, "crates"))
        for m in re.finditer(r"\benum (\w+) \{(.*?)\n\}", code, re.S):
            if re.search(r"^\s+(Refused|Refuses|None|Cut|Out|Over|Wrong|Unread)\b", m.group(2), re.M):
                places["1a own enums of the shape of Option or Result"].append(f"{where}: {m.group(1)}")
        for m in re.finditer(r"\b(?:Refused|Refuses|Refusal::Number|Wrong|Err)\(\d+(?: \+ \w+)?\)|const (?:CUT_\w+|NO_LOAD): u8", code):
            places["1b numbers for refusals"].append(f"{where}: {m.group(0)}")
        for name, sig, req, body in functions(code):
            here = f"{where}: {name}"
            if re.search(r"\b\w+: Grouping,\s*map: &\[u8\]|has_map: u8,\s*map: &\[u8\]", sig):
                places["1c a flag with a value beside it"].append(here)
            if re.search(r"\b(kind: usize|by: u8|row: u8|opcode: u32|todo: usize)\b", sig):
                places["1d numbers for kinds"].append(here)
            if re.search(r"\b(writes|checked|old): bool\b", sig):
                places["7 a switch on which step to run"].append(here)
            if re.match(r"(same\w*|at_most|is_zero|larger|smaller|is_default|is_short|is_map|is_old|join\d|big_of|number_of|turned|put_little|octets\d+|wide\w*)$", name) or re.search(
                r"=> (true|false),\s*\w+::\w+(\([^)]*\))? => (true|false)", body
            ):
                places["4 equality, order, conversion by hand"].append(here)
            for m in re.finditer(r"\bwhile\b[^\n]*", body):
                places["3a loops that count by hand"].append(f"{here}: {m.group(0).strip()}")
            for m in re.finditer(r"\bfor \w+ in [^\n]*\.\.[^\n]*", body):
                places["3b loops over a range of numbers"].append(f"{here}: {m.group(0).strip()}")
            for clause in re.findall(r"(?:requires|ensures)(?: \w+)? \{(.*?)\}\s*(?=requires|ensures|$)", req.strip(), re.S):
                for part in re.split(r"\s×\s", clause):
                    part = re.sub(r"\.(old|new|now|entry)\b", "", re.sub(r"\s+", " ", part).strip("(){} "))
                    if len(part) > 4 and "result" not in part:
                        clauses[part].add(here)
            params = [p.strip() for p in re.findall(r"(\w+: [^,()]+)(?:,|\)|\n)", sig)]
            for i, a in enumerate(params):
                single[crate, a].add(here)
                for b in params[i + 1 :]:
                    if crate not in EXPORTS:
                        pairs[crate, a, b].add(here)
            lines = [l for l in body.split("\n") if l.strip()]
            if len(lines) >= 2 and crate not in EXPORTS:
                shape = re.sub(r"\b[A-Za-z_]\w*\b", lambda m: m.group(0) if m.group(0) in KEPT else "x", re.sub(r"\b\d\w*\b", "0", re.sub(r"\s+", " ", body)))
                shapes[shape].append(here)
        for m in re.finditer(r"= \[[^;\]]+; \w+\]|-> \[\w+; \w+\]", code):
            places["6 buffers of a fixed size"].append(f"{where}: {m.group(0)}")
    for part, names in clauses.items():
        if len({n for n in names}) >= 3:
            places["5a facts in three contracts or more"].append(f"{part} ({len(names)})")
    for (crate, a, b), names in pairs.items():
        if len(names) >= 3 and len(names) == min(len(single[crate, a]), len(single[crate, b])):
            places["5b parameters of a crate of which one never comes without the other, three times or more"].append(f"{crate}: {a}, {b} ({len(names)})")
    for shape, names in shapes.items():
        if len(names) >= 2:
            places["2 functions that differ in names and constants alone"].append(" = ".join(sorted(names)))
    for path in glob.glob(os.path.join(TOP, "crates", "*", "proofs", "**", "Answers.antt"), recursive=True):
        if "/out/" not in path:
            places["8 answers in proofs/"].append(os.path.relpath(path, TOP))
    found.update(places)


KEPT = {"if", "else", "return", "let", "mut", "while", "for", "in", "match", "true", "false", "self", "as", "loop", "break"}


def main():
    found = {}
    point(found)
    for name in sorted(found):
        print(f"{len(found[name]):5}  {name}")
        if VERBOSE:
            for place in sorted(found[name]):
                print(f"         {place}")


main()
