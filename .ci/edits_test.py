#!/usr/bin/env python3
"""Tests how .ci/edits.py judges: python3 .ci/edits_test.py

What rt ci says of an edit with the judgement that it must get; then whole runs on a small repository, with a log in place of
rt ci's. Nothing is proved.
"""

import os
import subprocess
import sys
import tempfile

from refusals import refusal

HERE = os.path.dirname(os.path.abspath(__file__))
FACT = "refused, as it must be: note: src/lib.rt:2:1: it is not proved that what the function ensures holds when it returns (`returns`)"
OF_NAMES = "refused, as it must be (only because a proof file names what the edit took away, so this says little of the contract: change a value and keep the names): proofs/f/Answers.antt:4:5: error: `f-spec`: `x` is not in scope"
AT_LIMIT = "refused, as it must be (only by a limit of the prover, which gave no verdict, so this says less of the contract: choose a change that it refuses sooner): proofs/f/Answers.antt:4:5: error: antt ran out of stack"
NOT_REFUSED = "NOT REFUSED: the crate is still proved with this edit (one that means the same as before cannot be refused: remove it)"
NOT_APPLIED = "BAD EDIT: an 'old:' text is in src/lib.rt 0 times, and not once"
NOT_COMPILED = "BAD EDIT: it did not reach the prover; the first lines of what it said:"
NOT_TRIED = "NOT TRIED: its check was killed, most likely for memory, so nothing is known of it: run this again"

# (what rt ci says of an edit, whether the refusal counts)
SAID = [
    ([FACT], True),
    (["refused, as it must be: proofs/Laws.antt:7:2: error: `sum`: `omega`: the goal does not follow from what it read."], True),
    ([], False),
    ([FACT, FACT], False),
    ([OF_NAMES], False),
    ([AT_LIMIT], False),
    (["refused, as it must be"], False),
    ([NOT_REFUSED], False),
    ([NOT_APPLIED], False),
    ([NOT_COMPILED], False),
    ([NOT_TRIED], False),
]

SOURCE = "fn f() -> u64\n    ensures low { result ≡ 1 }\n{\n    1\n}\n"
CODE = "crates/one/must-fail/code.edit"
CONTRACT = "crates/one/must-fail/contract.edit"
OTHER = "crates/two/must-fail/code.edit"
FILES = {
    "crates.txt": "one: two # the first\ntwo staticlib:\n# three:\n",
    "crates/one/src/lib.rt": SOURCE,
    "crates/two/src/lib.rt": SOURCE,
    CODE: "# Another number.\nfile: src/lib.rt\nold:     1\nnew:     2\n",
    CONTRACT: "file: src/lib.rt\nold: ≡ 1\nnew: ≡ 2\n",
    OTHER: "file: src/lib.rt\nold:     1\nnew:     3\n",
}


def log(**said):
    """A log of rt ci, with what it says of some edits in place of a refusal."""
    lines = ["== one", "fn one::f: proved", "rt: one proved"]
    for name in ("one/code", "one/contract", "two/code"):
        lines += [f"rt: must-fail {name}.edit: {text}" for text in said.get(name.replace("/", "_"), [FACT])]
    return "\n".join([*lines, "rt: ok; handles allowed: none; must-fail edits: 3 refused", "5 passed, 0 failed", ""])


FOUND = "3 edits found: 2 of code, 1 of definitions or contracts"
PASSED = [FOUND, "3 passed, 0 failed"]
NOWHERE = "file: src/lib.rt\nold: 7\nnew: 8\n"
TWICE = "file: src/lib.rt\nold: 1\nnew: 8\n"
SAME = "file: src/lib.rt\nold:     1\nnew:     1\n"
OUTSIDE = "file: src/../src/lib.rt\nold:     1\nnew:     2\n"
NO_PAIR = "file: src/lib.rt\nold:     1\n"

# (what it has, words of edits.py, further files, exit status, what must be said)
RUNS = [
    ("a look", ["--look"], {}, 0, PASSED),
    ("a look at one crate", ["--look", "two"], {}, 0, ["1 edits found", "1 passed, 0 failed"]),
    ("a look, a text not in its file", ["--look"], {CODE: NOWHERE}, 1, ["one/code: FAILED: an 'old:' text is in its file 0 times", "2 passed, 1 failed"]),
    ("a look, a text twice in its file", ["--look"], {CODE: TWICE}, 1, ["one/code: FAILED: an 'old:' text is in its file 2 times"]),
    ("a look, an edit that changes nothing", ["--look"], {CODE: SAME}, 1, ["one/code: FAILED: it changes nothing"]),
    ("a look, a file of another folder", ["--look"], {CODE: OUTSIDE}, 1, ["one/code: FAILED: no file"]),
    ("a look, no 'new:' line", ["--look"], {CODE: NO_PAIR}, 1, ["one/code: FAILED: it has no"]),
    ("a look, no text", ["--look"], {CODE: "\udcff\n"}, 1, ["one/code: FAILED: it is no text"]),
    ("a look, an edit in another folder", ["--look"], {"crates/one/must-fail/more/lost.edit": NOWHERE}, 1, ["more/lost.edit: FAILED", "3 passed, 1 failed"]),
    ("a look, an edit with another name", ["--look"], {"crates/one/must-fail/lost.edit.txt": ""}, 1, ["lost.edit.txt: FAILED"]),
    ("a look, an edit with a name that rt does not take", ["--look"], {"crates/one/must-fail/a b.edit": NOWHERE}, 1, ["a b.edit: FAILED"]),
    ("a look, an edit of a crate that is not listed", ["--look"], {"crates/three/must-fail/lost.edit": ""}, 1, ["three/must-fail/lost.edit: FAILED"]),
    ("a log", ["--judge", "log"], {"log": log()}, 0, PASSED),
    ("a log with bytes that are no text", ["--judge", "log"], {"log": log() + "\udcff\n"}, 0, PASSED),
    ("a log, one accepted", ["--judge", "log"], {"log": log(one_code=[NOT_REFUSED])}, 1, [FOUND, "one/code: FAILED: NOT REFUSED", "2 passed, 1 failed"]),
    ("a log, one of names", ["--judge", "log"], {"log": log(two_code=[OF_NAMES])}, 1, ["two/code: FAILED: refused (only because", "2 passed, 1 failed"]),
    ("a log, one at a limit", ["--judge", "log"], {"log": log(two_code=[AT_LIMIT])}, 1, ["two/code: FAILED: refused (only by a limit"]),
    ("a log, one not compiled", ["--judge", "log"], {"log": log(one_code=[NOT_COMPILED])}, 1, ["one/code: FAILED: BAD EDIT"]),
    ("a log without one", ["--judge", "log"], {"log": log(one_contract=[])}, 1, ["one/contract: FAILED: it was not judged"]),
    ("a log with one twice", ["--judge", "log"], {"log": log(one_contract=[FACT, FACT])}, 1, ["one/contract: FAILED: it was judged 2 times"]),
    ("a log, one that cannot be applied", ["--judge", "log"], {"log": log(), CODE: NOWHERE}, 1, ["in its file 0 times"]),
    ("a log with nothing", ["--judge", "log"], {"log": ""}, 1, ["0 passed, 3 failed"]),
    ("no log", ["--judge", "log"], {}, 1, ["No such file"]),
    ("no edit", ["--look"], {"crates.txt": "four:\n", CODE: None, CONTRACT: None, OTHER: None}, 1, ["no edit was found", "0 passed, 1 failed"]),
]


def lay(top, files):
    for name, text in files.items():
        if text is not None:
            place = os.path.join(top, name)
            os.makedirs(os.path.dirname(place), exist_ok=True)
            with open(place, "wb") as file:
                file.write(text.encode("utf-8", errors="surrogateescape"))


def wrong_run(words, further, status, says):
    """What is wrong with a run, or None."""
    with tempfile.TemporaryDirectory() as top:
        lay(top, FILES | further)
        ran = subprocess.run([sys.executable, os.path.join(HERE, "edits.py"), *words], cwd=top, stdin=subprocess.DEVNULL,
                             stdout=subprocess.PIPE, stderr=subprocess.STDOUT, check=False)
    said = ran.stdout.decode("utf-8", errors="replace")
    missing = [text for text in says if text not in said]
    if ran.returncode == status and not missing:
        return None
    return f"it ended with {ran.returncode}, and did not say {missing}:\n{said}"


def main():
    wrong = []
    for said, counts in SAID:
        if (refusal(said) is None) != counts:
            wrong.append(f"of {said}: {refusal(said)}")
    for name, *run in RUNS:
        said = wrong_run(*run)
        if said is not None:
            wrong.append(f"{name}: {said}")
    for text in wrong:
        print(f"edits_test: {text}")
    print(f"edits_test: {len(SAID) + len(RUNS) - len(wrong)} judged as they should be, {len(wrong)} not")
    return 1 if wrong else 0


if __name__ == "__main__":
    sys.exit(main())
