#!/usr/bin/env python3
"""Brings the repository's own names in specs/ and proofs/ to snake case.

    python3 tools/respell.py        at the top, once, after the kit's port.py

A name that an .antt file of the repository declares is respelled wherever it stands: in the .antt files, in the clauses and
`ghost use` items of the .rt files, in the must-fail edits, and between backticks in the pages and comments. `goodAlign` becomes
`good_align`; a definition of specs/ has no dash, `find-in-list` becomes `find_in_list`; in a lemma's name a dash joins names, and
stays. Types, modules, names of src/ and names that Rattle makes stay. A name that would fall together with another has one of its
own in APART.
"""

import glob
import os
import re
import sys

TOKEN = re.compile(r"[A-Za-z0-9_'₀-₉κℕλα-ω⁻¹=+*≡≤-]+")
# Names that would fall together with another, and what they are called instead.
APART = {
    "good-range": "good_range_in",
    "good-size": "good_size_in",
    "range-number": "range_number_in",
    "size-number": "size_number_in",
    "size_number": "size_number_in",
    "find-size": "find_size_in",
    "same-arena": "same_arenas",
    "first_head": "first_head_lem",
    "joined_number": "joined_number_lem",
}
WORDS = {"use", "let", "in", "mod", "module", "unfolding", "where", "pub", "elim", "record", "data", "ruleset", "open"}


def texts(*patterns):
    found = set()
    for pattern in patterns:
        found |= set(glob.glob(pattern, recursive=True))
    return sorted(f for f in found if "/out/" not in f and os.path.isfile(f))


def antt():
    return [f for f in texts("crates/*/specs/**/*.antt", "crates/*/proofs/**/*.antt")]


def declared():
    """The names that the .antt files declare, but for those of functions' own proofs, and those of them that specs/ declares."""
    names, stated = set(), set()
    for f in antt():
        if os.path.basename(f) in ("Proof.antt", "Answers.antt", "Invariants.antt"):
            continue
        with open(f, encoding="utf-8") as file:
            for line in file:
                m = re.match(r"^\s*((?:abbrev |unfoldable |pub |record |data |ruleset )*)(\S+) (.*)$", line.rstrip("\n"))
                if not m or m.group(2) in WORDS or m.group(2).startswith("--"):
                    continue
                words, name, rest = m.group(1), m.group(2), m.group(3)
                if TOKEN.fullmatch(name) and (rest.startswith(":") or "record" in words or "data" in words or "ruleset" in words or ("(" in rest and ":" in rest and words)):
                    names.add(name)
                    stated |= {name} if "/specs/" in f else set()
                if " : " in rest and re.fullmatch(r"[\w' -]+", rest.split(" : ")[0]) and not line.lstrip().startswith(("let ", "use ")):
                    for other in [name, *rest.split(" : ")[0].split()]:
                        if TOKEN.fullmatch(other) and other not in WORDS:
                            names.add(other)
                            stated |= {other} if "/specs/" in f else set()
    return names, stated


def snake(name, stated):
    if name in APART:
        return APART[name]
    if name[0].isupper():
        return name
    out = re.sub(r"([a-z0-9])([A-Z])", lambda m: m.group(1) + "_" + m.group(2).lower(), name)
    return out.replace("-", "_") if name in stated else out


def turn(text, table):
    """The text with its names respelled. Behind a dot a name of APART may be a step that Rattle makes, and stays."""

    def one(m):
        name = m.group(0)
        if name in APART and m.start() > 0 and text[m.start() - 1] == ".":
            return name
        return table.get(name, name)

    return TOKEN.sub(one, text)


def ticked(text, table):
    return re.sub(r"`[^`\n]+`", lambda m: turn(m.group(0), table), text)


def turn_antt(text, table):
    out = []
    for line in text.split("\n"):
        at = line.find("--")
        if at >= 0 and (at == 0 or line[at - 1] == " "):
            out.append(turn(line[:at], table) + ticked(line[at:], table))
        else:
            out.append(turn(line, table))
    return "\n".join(out)


def turn_rt(text, table):
    out, depth = [], 0
    for line in text.split("\n"):
        bare = line.split("//")[0]
        if depth or re.match(r"\s*(ghost|requires|ensures)\b", bare):
            depth += bare.count("{") - bare.count("}")
            out.append(turn(line, table))
        else:
            out.append(ticked(line, table))
    return "\n".join(out)


def turn_edit(text, table):
    out = []
    for line in text.split("\n"):
        out.append(turn(line, table) if line.startswith(("old:", "new:")) else ticked(line, table))
    return "\n".join(out)


def main():
    names, stated = declared()
    table = {n: snake(n, stated) for n in names if snake(n, stated) != n}
    wrong = 0
    for f in antt():
        with open(f, encoding="utf-8") as file:
            text = re.sub(r"--.*", "", file.read())
        # Behind a dot stand fields, steps and parts of a path, which no name hides.
        tokens = {m.group(0) for m in TOKEN.finditer(text) if m.start() == 0 or text[m.start() - 1] != "."}
        came = {}
        for token in tokens:
            came.setdefault(table.get(token, token), set()).add(token)
        for new, old in came.items():
            if len(old) > 1:
                wrong += 1
                print(f"fall together in {f}: {sorted(old)} -> {new}")
    by = {}
    for n in names:
        by.setdefault(snake(n, stated), set()).add(n)
    for new, old in sorted(by.items()):
        if len(old) > 1:
            print(f"one name for two: {sorted(old)} -> {new}")
    if wrong and "--look" not in sys.argv:
        print(f"{wrong} places where names fall together; nothing was written")
        return 1
    if "--look" in sys.argv:
        print(len(names), len(table))
        return 0
    changed = 0
    for f in antt() + texts("crates/*/src/**/*.rt", "crates/*/must-fail/**/*.edit", "*.md", "docs/*.md", "crates/**/*.md"):
        with open(f, encoding="utf-8") as file:
            before = file.read()
        how = turn_antt if f.endswith(".antt") else turn_rt if f.endswith(".rt") else turn_edit if f.endswith(".edit") else ticked
        after = how(before, table)
        if after != before:
            changed += 1
            with open(f, "w", encoding="utf-8") as file:
                file.write(after)
    print(f"{len(table)} names respelled, {changed} files changed")
    return 0


if __name__ == "__main__":
    sys.exit(main())
