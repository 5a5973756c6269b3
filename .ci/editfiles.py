"""The must-fail edits of the repository: which there are, what each changes, and whether that is code."""

import os
import re

PARTS = ("src", "specs", "proofs")

# The names of which rt ci tries an edit; it tries none in a folder below must-fail.
NAME = re.compile(r"[A-Za-z0-9_-][A-Za-z0-9_.-]*\.edit")

# A line of a source file that is no code: a contract, what a contract uses, or a comment.
NO_CODE = re.compile(r"\s*((requires|ensures)\*?( \w+)? \{|ghost |//)")


class BadEdit(Exception):
    pass


def crates():
    with open("crates.txt", encoding="utf-8") as file:
        lines = [line.split("#")[0].split(":")[0].split() for line in file]
    return [words[0] for words in lines if words]


def name_of(crate, edit):
    return f"{crate}/{os.path.basename(edit).removesuffix('.edit')}"


def edits_of(crate):
    """The edits of a crate that rt ci tries."""
    folder = os.path.join("crates", crate, "must-fail")
    names = sorted(os.listdir(folder)) if os.path.isdir(folder) else []
    return [os.path.join(folder, name) for name in names if NAME.fullmatch(name) and os.path.isfile(os.path.join(folder, name))]


def strays():
    """Files that look like edits and that nothing tries: in another folder, of a crate that is not listed, or of another name."""
    tried, lost = {edit for crate in crates() for edit in edits_of(crate)}, []
    for folder, _, files in os.walk("crates"):
        for name in files:
            path = os.path.join(folder, name)
            if path not in tried and (name.endswith(".edit") or "must-fail" in path.split(os.sep)):
                lost.append(path)
    return sorted(lost)


def pairs_of(edit):
    """The (file, old, new) triples of an edit."""
    pairs, name, old = [], None, None
    try:
        with open(edit, encoding="utf-8") as file:
            lines = file.read().split("\n")
    except UnicodeDecodeError:
        raise BadEdit("it is no text") from None
    for line in lines:
        if line.startswith("file: "):
            name = line[len("file: "):].strip()
        elif line.startswith("old: "):
            old = line[len("old: "):]
        elif line.startswith("new:"):
            if name is None or not old:
                raise BadEdit("a 'new:' line without a file or an 'old:' line")
            pairs.append((name, old, line[len("new:"):].removeprefix(" ")))
            old = None
    if not pairs:
        raise BadEdit("it has no 'old:' and 'new:' pair")
    return pairs


def changes_code(crate, edit):
    """Whether an edit changes code, and not only a definition or a contract. One that cannot be applied is refused."""
    before, after, code = {}, {}, False
    for name, old, new in pairs_of(edit):
        place = os.path.join("crates", crate, name)
        if name.split("/")[0] not in PARTS or os.path.normpath(name) != name or not os.path.isfile(place):
            raise BadEdit(f"no file {name} of the crate")
        if place not in before:
            with open(place, encoding="utf-8") as file:
                before[place] = after[place] = file.read()
        if after[place].count(old) != 1:
            raise BadEdit(f"an 'old:' text is in its file {after[place].count(old)} times")
        code = code or name.startswith("src/") and is_code(line_with(after[place], old), old, new)
        after[place] = after[place].replace(old, new)
    if after == before:
        raise BadEdit("it changes nothing")
    return code


def line_with(text, part):
    at = text.index(part)
    end = text.find("\n", at)
    return text[text.rfind("\n", 0, at) + 1:end if end >= 0 else len(text)]


def is_code(line, old, new):
    """Whether a line of a source file is code, before or after a part of it is replaced."""
    return not (NO_CODE.match(line) and NO_CODE.match(line.replace(old, new)))
