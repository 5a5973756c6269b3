#!/usr/bin/env python3
"""Counts, of crates/*/src, the places that docs/DESIGN-PASS.md speaks of, a block for each point.

    python3 tools/places.py [--list] [POINT...]     run at the top of a checkout; --list prints each place

What is found is where to look: a reader decides which of it is a place of the point.
"""

import collections
import glob
import re
import sys

FILES = {path: open(path, encoding="utf-8").read().split("\n") for path in sorted(glob.glob("crates/*/src/*.rt"))}


def lines(pattern):
    """Each line of code that fits, comments left out."""
    found = re.compile(pattern)
    return [f"{path}:{n + 1}: {text.strip()}" for path, rows in FILES.items() for n, text in enumerate(rows)
            if not text.strip().startswith("//") and found.search(text)]


def enums():
    """Each enum with its variants on one line."""
    made = []
    for path, rows in FILES.items():
        for at in re.finditer(r"(?m)^(?:pub )?enum (\w+) \{\n(.*?)^\}", "\n".join(rows), re.S):
            variants = [it.strip().rstrip(",") for it in at.group(2).split("\n") if it.strip()]
            made.append(f"{path}: {at.group(1)} {{ {', '.join(variants)} }}")
    return made


def functions():
    """The path, name, parameters, clauses and body of each function."""
    form = re.compile(r"(?ms)^( *)(?:pub(?:\(crate\))? )?(?:extern \"C\" )?fn (\w+)(?:<[^{(]*>)?\((.*?)\)(.*?)^\1\{\n(.*?)^\1\}")
    for path, rows in FILES.items():
        for at in form.finditer("\n".join(rows)):
            clauses = [" ".join(it.split()) for it in re.findall(r"(?:requires|ensures)(?: \w+)? (\{.*\})", at.group(4))]
            yield path, at.group(2), " ".join(at.group(3).split()), clauses, at.group(5)


def twins():
    """Functions whose bodies differ in names, numbers and types alone, from three steps on."""
    alike = collections.defaultdict(list)
    for path, name, _, _, body in functions():
        words = re.findall(r"\w+|[^\w\s]", body)
        keep = {"if", "else", "match", "while", "for", "let", "mut", "return", "self", "true", "false", "in"}
        shape = " ".join(it if it in keep or not re.match(r"\w", it) else "x" for it in words)
        if shape.count(";") + shape.count("= >") >= 3:
            alike[shape].append(f"{path}: {name}")
    same = collections.defaultdict(set)
    for path, name, _, _, _ in functions():
        same[name].add(path)
    return ([" = ".join(them) for them in alike.values() if len(them) > 1]
            + [f"{name}: {', '.join(sorted(them))}" for name, them in sorted(same.items()) if len(them) > 1])


def repeated(texts, least):
    return [f"{count} times {text}" for text, count in collections.Counter(texts).most_common() if count >= least]


def clauses():
    """Clauses that stand in three functions or more, the own names of the parameters aside."""
    return repeated([re.sub(r"\b(self|\w+)\.(?=(now|old|new|0|base|align)\b)", "x.", it) for _, _, _, them, _ in functions() for it in set(them)], 3)


def together():
    """Pairs of parameters, side by side, of three functions or more."""
    pairs = []
    for _, _, params, _, _ in functions():
        them = [it.strip() for it in params.split(",") if it.strip()]
        pairs += [f"{a}, {b}" for a, b in zip(them, them[1:])]
    return repeated(pairs, 3)


POINTS = {
    "1 enums": enums,
    "1 flags in structs": lambda: lines(r"^\s+pub \w+: bool,"),
    "1 numbers for refusals and kinds": lambda: lines(r"\b(answer|stop|op|number|joins): u64"),
    "2 twins": twins,
    "3 loops": lambda: lines(r"^\s*while "),
    "3 indices counted by hand": lambda: lines(r"^\s*\w+ (\+=|-=) 1;|^\s*(\w+) = \2 [+-] 1;"),
    "4 equality, order, conversion, printing": lambda: lines(
        r"fn (same|lt|le|eq|cmp|is_digit|is_letter|is_space|wide|glyph|number|mode_of|of_\w+|with_head|show\w*)\("),
    "5 clauses": clauses,
    "5 parameters": together,
    "6 buffers with a length or a place beside": lambda: lines(r"fn .*\[u(8|64)\], \w+: (usize|u64)|^\s+\w+: &(mut )?\[u(8|64)\],$"),
    "7 switches": lambda: lines(r"\bmatch (self|which|op|aim|mode|stage|asked)\b"),
    "8 answers": lambda: [f"{path}: {len(re.findall(r'(?m)^pub .* : goal', open(path, encoding='utf-8').read()))}"
                          for path in sorted(glob.glob("crates/*/proofs/**/Answers.antt", recursive=True))],
}


def main():
    asked = [it for it in sys.argv[1:] if it != "--list"]
    for point, find in POINTS.items():
        if asked and point[0] not in asked:
            continue
        found = find()
        total = sum(int(it.rsplit(" ", 1)[1]) for it in found) if point.startswith("8") else len(found)
        print(f"{point}: {total}")
        if "--list" in sys.argv:
            print("".join(f"    {it}\n" for it in found), end="")


main()
