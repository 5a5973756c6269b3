#!/usr/bin/env python3
"""Writes crates/land_cases/stdin and crates/land_cases/stdout: records for the list land, the block land, the flush and the
pair, and what each must give.

    python3 tests/land_cases.py            writes them; the same files come out each time
    python3 tests/land_cases.py --check    compares the stored files, and writes nothing

Run from the top of the repository.

The models follow the text of document 01, of request K4 for the pair, of K10 for low water and of K11 for finds, and share no code
with the Rattle code. Those of the block land and the flush were written from document 01 alone, before the code of these two.
Those of the list land and of the pair were not written blind: their authors had read `units` and `list_land`, and the crates
of the pair, before. What both lands share (set_model.py) was written from document 01 and the list's model. Low water was
written from the papers, by an author who had not read the code.
"""

import sys

import block_model
import block_records
import flush_model
import flush_records
import list_model
import list_records
import pair_model
import pair_records
from records import asked, given, seen
from set_model import DELETE, FINDS, INSERT, OPEN, WALK

FILES = "crates/land_cases/"
# The bytes that the program reads.
MOST_BYTES = 262144


def answers():
    """The answers that each OP can give. A find in a block land never gives 3: it leaves no more ranges than there were. No call
    of a pair does."""
    may = {flush_model.OP: (0, 5, 6)}
    may.update({pair_model.FIRST_OP + op: n for op, n in ((INSERT, (0, 1, 4, 5, 6)), (DELETE, (0, 1, 4, 5, 6, 7)))})
    may.update({pair_model.FIRST_OP + op: (0, 2, 4, 5, 6) for op in FINDS})
    for land, of_change in ((list_model, (0, 1, 4, 5, 6)), (block_model, (0, 1, 3, 4, 5, 6))):
        may[land.FIRST_OP + OPEN] = (0, 5)
        may[land.FIRST_OP + WALK] = (0, 2, 5, 6)
        may.update({land.FIRST_OP + op: of_change for op in (INSERT, DELETE)})
        may.update({land.FIRST_OP + op: (0, 2, 4, 5, 6) for op in FINDS})
    return may


def check(stops, ways):
    """Every OP meets every answer that it can give, and no other; the flush every stop; and the pair's calls every way."""
    may = answers()
    assert set(seen) == {(op, n) for op in may for n in may[op]}
    assert set(stops) == {0, 1, 3}
    assert len(ways) == 6
    assert min(*seen.values(), *stops.values(), *ways.values()) >= 6


def written():
    """The two files: the records, and what they must give."""
    list_records.write()
    block_records.write()
    flush_records.write()
    pair_records.write()
    check(flush_records.stops_seen, pair_records.ways_seen)
    text = "\n".join(asked) + "\n"
    assert len(text) < MOST_BYTES
    return {"stdin": text, "stdout": "\n".join(given) + "\n"}


def show():
    print(len(asked), "records")
    for op, numbers in sorted(answers().items()):
        print("op", op, "answers", {n: seen[op, n] for n in numbers})
    print("stops", dict(sorted(flush_records.stops_seen.items())))
    print("ways", dict(sorted(pair_records.ways_seen.items())))


def stored(name):
    with open(FILES + name, encoding="ascii") as f:
        return f.read()


def main(arguments):
    files = written()
    if arguments == ["--check"]:
        differ = [name for name, text in files.items() if stored(name) != text]
        print("crates/land_cases:", "DIFFERS in " + ", ".join(differ) if differ else "as written")
        return 1 if differ else 0
    for name, text in files.items():
        with open(FILES + name, "w", encoding="ascii") as f:
            f.write(text)
    show()
    return 0


if __name__ == "__main__":
    sys.exit(main(sys.argv[1:]))
