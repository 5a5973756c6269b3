#!/usr/bin/env python3
"""Judges the must-fail edits, each of which the prover must refuse because a fact fails. rt ci tries them.

    python3 .ci/edits.py --look [CRATE...]          whether every edit can be applied, and none lies where nothing tries it
    python3 .ci/edits.py --judge LOG [CRATE...]     after rt ci, whose log is given: whether each is refused because a fact fails

Run from the top of the repository. An edit is a file crates/NAME/must-fail/LABEL.edit. It fails if an 'old:' text is not in its
file exactly once, if it changes nothing, if the crate is still proved with it, if it does not reach the prover, if the prover
has no verdict on it, or if it is refused only because a proof cites a name that the edit took away (refusals.py): a right
program without that name would be refused as well.

Every edit that is found is judged: one of which the log says nothing, or two things, is a failure. The last line but one says how
many were found, and how many change code and how many only definitions or contracts; the last line is 'N passed, M failed'. The
exit status is 0 exactly if M is 0, and an edit was found.
"""

import argparse
import sys

from editfiles import BadEdit, changes_code, crates, edits_of, name_of, strays
from refusals import refusal, said_in


def wrong_with(crate, edit, said):
    """What is wrong with an edit, or None. With what the log of rt ci says of all edits, how this one was judged counts too."""
    try:
        changes_code(crate, edit)
    except BadEdit as bad:
        return str(bad)
    return None if said is None else refusal(said.get(name_of(crate, edit), []))


def is_of_code(crate, edit):
    try:
        return changes_code(crate, edit)
    except BadEdit:
        return False


def words():
    """What is asked for."""
    parser = argparse.ArgumentParser()
    what = parser.add_mutually_exclusive_group(required=True)
    what.add_argument("--look", action="store_true")
    what.add_argument("--judge", metavar="LOG")
    parser.add_argument("crates", nargs="*", metavar="CRATE")
    return parser.parse_args()


def main():
    given = words()
    said = None
    if given.judge:
        with open(given.judge, encoding="utf-8", errors="replace") as file:
            said = said_in(file.read())
    edits = [(crate, edit) for crate in sorted(set(given.crates or crates())) for edit in edits_of(crate)]
    wrong = [f"{stray}: FAILED: nothing tries it" for stray in strays()]
    stray = len(wrong)
    for crate, edit in edits:
        fault = wrong_with(crate, edit, said)
        if fault is not None:
            wrong.append(f"edit {name_of(crate, edit)}: FAILED: {fault}")
    passed = len(edits) - (len(wrong) - stray)
    if not edits:
        wrong.append("no edit was found")
    for text in wrong:
        print(text)
    code = sum(is_of_code(crate, edit) for crate, edit in edits)
    print(f"{len(edits)} edits found: {code} of code, {len(edits) - code} of definitions or contracts")
    print(f"{passed} passed, {len(wrong)} failed")
    return 1 if wrong else 0


if __name__ == "__main__":
    sys.exit(main())
