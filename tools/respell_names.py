#!/usr/bin/env python3
"""Brings the repository's own definitions and lemmas to today's spelling of names: words in snake case, a dash only between two names.

usage: tools/respell_names.py ROOT

It was run once, on the tree that the kit's port.py had turned; it stands here so that the older text can be turned again and compared.
Names of the kit, of functions in src/, of exports, strings, inputs and outputs stay. What it renames it prints, old and new.
"""

import collections
import glob
import os
import re
import sys

# Names that would fall together with another, or that need a word of their own.
BY_HAND = {
    "isDEFAULT": "is_op_default",
    "isMATCH": "is_op_match",
}
# A lemma that would have its function's name gets _lem (in these files alone; elsewhere the token is the function).
LEMMAS = {
    "at_width": r"asmap_check/proofs/Core|asmap_program/proofs/Widths|asmap_records/proofs/OutputLaws|demand_statements/proofs/(Build|Width)",
    "record_of": r"asmap_records/proofs/RoundTrip",
    "no_ones": r"asmap_codes/proofs/CoreLaws",
    "past_top": r"asmap_check_run/proofs/",
    "all_valid": r"demand_statements/proofs/CandidateLaws",
    "of_map": r"demand_statements/proofs/PickAnswers",
    "code_read": r"answers/proofs/NeverZeroCodes",
}
NAME = r"[A-Za-z0-9_'\u2080-\u2089ℕ⊥⊤≡≢≤<>+*/%^∷-]+"
TOKEN = re.compile(r"(?<![A-Za-z0-9_'\-])[A-Za-z][A-Za-z0-9_']*(?:-[A-Za-z0-9_'ℕ⊥≡≤<+*/%^∷]+)*")


def snake(name):
    name = re.sub(r"([a-z0-9])([A-Z])", r"\1_\2", name)
    name = re.sub(r"([A-Z]+)([A-Z][a-z])", r"\1_\2", name)
    return name.lower()


def read(path):
    with open(path, encoding="utf-8") as f:
        return f.read()


def own_files(root):
    """The files of specs/ and of lemmas; a function's own proof files are made anew and only follow."""
    specs = glob.glob(root + "/crates/*/specs/**/*.antt", recursive=True)
    proofs = glob.glob(root + "/crates/*/proofs/**/*.antt", recursive=True)
    walks = ("Proof.antt", "Invariants.antt", "Answers.antt")
    return specs + [p for p in proofs if os.path.basename(p) not in walks], [p for p in proofs if os.path.basename(p) in walks]


def code(text):
    return re.sub(r"(?m)--(?= |$).*$", "", text)


def collect(root):
    """What is bound in the repository's own files, what of it is public or at the top, and what of the kit the files name."""
    bound, top, fields, kit = set(), set(), set(), set()
    own, _ = own_files(root)
    for path in own:
        text = code(read(path))
        for m in re.finditer(r"(?m)^use (\S+?)\.\{([^}]*)\}", text):
            if not re.match(r"Rattle\.(?!std)", m.group(1)):
                kit |= {w.strip().split(" as ")[0] for w in m.group(2).split(",")}
        body = re.sub(r"(?m)^use .*$", "", text)
        for m in re.finditer(r"(?m)^(\s*)(?:abbrev |unfoldable )?(?:pub )?(?:abbrev |unfoldable )?(" + NAME + r"(?: " + NAME + r")*)(?: \{[^}]*\})* :(?= |$)", body):
            for name in m.group(2).split():
                bound.add(name)
                if not m.group(1):
                    top.add(name)
        for m in re.finditer(r"[({]\s*(" + NAME + r"(?: " + NAME + r")*) :", body):
            bound |= set(m.group(1).split())
        for m in re.finditer(r"\blet (" + NAME + r")", body):
            bound.add(m.group(1))
        for m in re.finditer(r"λ ((?:" + NAME + r" ?)+)\.", body):
            bound |= set(m.group(1).split())
        # fields and constructors, by record and data blocks
        for m in re.finditer(r"(?ms)^(?:pub |abbrev )*(?:record|data) .*?where\n((?:[ \t]+.*\n|\n)*)", body):
            for f in re.finditer(r"(?m)^\s+(?:pub )?(" + NAME + r")(?: \{[^}]*\})* :(?= |$)", m.group(1)):
                fields.add(f.group(1))
        for m in re.finditer(r"(?m)^\s*(" + NAME + r")((?: \S+)*) =", body):
            bound.add(m.group(1))
    return bound, top, fields, kit


def words_of(root, top, kit):
    """The names that may stand behind a dash: definitions of specs/, what the kit's files name, functions in src/."""
    words = set()
    for path in glob.glob(root + "/crates/*/specs/**/*.antt", recursive=True):
        for m in re.finditer(r"(?m)^(?:abbrev |unfoldable )?(?:pub )(?:abbrev |unfoldable )?(" + NAME + r")[^:\n]* :", code(read(path))):
            words.add(m.group(1))
            words.add(snake(m.group(1)))
    words |= {w for k in kit for w in [k] if "-" not in w and re.fullmatch(r"[a-z][a-z_0-9']*", w)}
    words |= {"append", "drop", "take", "length", "get_or", "set", "sets", "nil", "cons", "reverse", "map", "zero", "suc", "sum"}
    # plain words of English that are names only somewhere
    words -= {"in", "on", "of", "has", "from", "after", "written", "same", "none", "past", "within", "leaves", "unless", "most", "begin", "free", "held",
              "start", "stops", "accepted", "listed", "aborted", "answered", "scanned", "handed", "picked", "filled", "front", "rest", "closing",
              "opening", "matching", "defaulting", "stopping", "meeting", "grown", "opens", "slow", "top", "tail", "high", "low_", "number_", "sym", "at", "lt", "ge", "by", "the", "with", "or", "and", "is", "no", "not", "one", "to"}
    return words


def respell(token, words, fields):
    if token in BY_HAND:
        return BY_HAND[token]
    parts = token.split("-")
    done = []
    for part in parts:
        part = "get_or" if part == "getD" else part
        part = BY_HAND.get(part, part)
        done.append(snake(part) if part[:1].islower() and re.search(r"[A-Z]", part) and "ℕ" not in part else part)
    name = done[0]
    for part in done[1:]:
        joins = part in words or part[:1].isupper() or not re.match(r"[a-z0-9]", part)
        name += ("-" if joins and token not in fields else "_") + part
    return name


def main(root):
    bound, top, fields, kit = collect(root)
    words = words_of(root, top, kit)
    functions = {m.group(1) for p in glob.glob(root + "/crates/*/src/**/*.rt", recursive=True) for m in re.finditer(r"\bfn (\w+)", read(p))}
    table = {}
    for token in sorted(bound | fields):
        if token in kit or not re.match(r"[A-Za-z]", token):
            continue
        if token[:1].isupper() and "-" not in token:
            continue
        new = respell(token, words, fields)
        if new != token:
            table[token] = new
    taken = collections.defaultdict(set)
    for token in bound | fields | functions:
        taken[table.get(token, token)].add(token)
    for new, olds in sorted(taken.items()):
        if len(olds) > 1:
            print("together:", new, sorted(olds))
            for old in olds:
                if "-" in old and old not in fields:
                    table[old] = new + "_lem"
    for old, new in sorted(table.items()):
        print(f"{old} {new}")
    public = {t for t in table if t in top or t in fields or re.search(r"[A-Z]", t)}
    own, walks = own_files(root)
    lemma_of = {k: re.compile(v) for k, v in LEMMAS.items()}

    def turn(path, text, which):
        rename = dict(which)
        for word, where in lemma_of.items():
            if where.search(path):
                rename[word] = word + "_lem"
        return TOKEN.sub(lambda m: rename.get(m.group(0), m.group(0)), text)

    def write(path, text):
        if text != read(path):
            with open(path, "w", encoding="utf-8") as f:
                f.write(text)

    prose = {t: table[t] for t in public}
    for path in own + walks:
        text = read(path)
        lines = []
        for line in text.split("\n"):
            m = re.match(r"^use (\S+?)(\.\{[^}]*\}.*)?$", line)
            if m and not re.match(r"Rattle\.(?!std)", m.group(1)):
                lines.append(line)
            else:
                lines.append(turn(path, line, table))
        write(path, "\n".join(lines))
    for path in glob.glob(root + "/crates/*/src/**/*.rt", recursive=True):
        text = read(path)
        write(path, "".join(part if part.startswith('"') else turn(path, part, prose) for part in re.split(r'("(?:[^"\\\n]|\\.)*")', text)))
    for path in glob.glob(root + "/crates/*/must-fail/*.edit") + glob.glob(root + "/docs/**/*.md", recursive=True) + [root + "/README.md"]:
        write(path, turn(path, read(path), prose))


if __name__ == "__main__":
    main(sys.argv[1])
