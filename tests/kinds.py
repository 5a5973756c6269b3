#!/usr/bin/env python3
"""Tests that an address, a size and an alignment are three kinds: python3 tests/kinds.py

It writes crates over `units` and `list_land` into a temporary folder and checks them there. Each is a line of code with one word
changed; the line as it should be must be accepted, and every change refused by the compiler for the kind that it expects and the
kind that it finds. A crate that unwraps a kind outside `units` must be refused as well. What rt has built of the two libraries
is taken over, and else proved first.

The last line is 'N passed, M failed'; the exit status is 0 exactly if M is 0.
"""

import os
import shutil
import subprocess
import sys
import tempfile
from concurrent.futures import ThreadPoolExecutor

TOP = os.path.dirname(os.path.dirname(os.path.abspath(__file__)))

CODE = """use units::Addr;
use units::Align;
use units::Arena;
use units::Mode;
use units::Range;
use units::Size;
use list_land::Found;
use list_land::ListLand;
use list_land::Opened;

pub fn call(land: ListLand, words: &mut [u64], base: Addr, limit: Addr, size: Size, align: Align) -> %s {
    %s
}
"""


def mismatch(expected, found):
    return f"error[mismatched-types]: expected `{expected}`, found `{found}`"


# A crate's name, what it returns, its line of code, and the refusal, or None where it is accepted.
CASES = [
    ("range", "Range", "Range::new(base, limit)", None),
    ("range_size_as_addr", "Range", "Range::new(base, size)", mismatch("Addr", "Size")),
    ("range_align_as_addr", "Range", "Range::new(align, limit)", mismatch("Addr", "Align")),
    ("field", "Range", "Range { base, limit }", None),
    ("field_size_as_addr", "Range", "Range { base, limit: size }", mismatch("Addr", "Size")),
    ("arena", "Arena", "Arena { base, limit, align }", None),
    ("arena_size_as_align", "Arena", "Arena { base, limit, align: size }", mismatch("Align", "Size")),
    ("arena_number_as_align", "Arena", "Arena { base, limit, align: 8 }", "error[mismatched-types]: expected `Align`, found an integer"),
    ("open", "Opened", "ListLand::open(base, limit, align, words)", None),
    ("open_size_as_addr", "Opened", "ListLand::open(base, size, align, words)", mismatch("Addr", "Size")),
    ("open_size_as_align", "Opened", "ListLand::open(base, limit, size, words)", mismatch("Align", "Size")),
    ("find", "Found", "land.find_first(words, size, Mode::Low)", None),
    ("find_addr_as_size", "Found", "land.find_first(words, base, Mode::Low)", mismatch("Size", "Addr")),
    ("find_align_as_size", "Found", "land.find_first(words, align, Mode::Low)", mismatch("Size", "Align")),
    ("number", "u64", "base.number()", None),
    ("unwrapped_addr", "u64", "base.0", "error[private-field]: field `0` of struct `Addr` is private"),
    ("unwrapped_size", "u64", "size.0", "error[private-field]: field `0` of struct `Size` is private"),
    ("unwrapped_align", "u64", "align.0", "error[private-field]: field `0` of struct `Align` is private"),
]


# The libraries that a case uses.
OVER = ("units", "list_land")


def write(room, place, text):
    place = os.path.join(room, place)
    os.makedirs(os.path.dirname(place), exist_ok=True)
    with open(place, "w", encoding="utf-8") as file:
        file.write(text)


def below(lines):
    """Of the lines of crates.txt those of the crates that a case stands on."""
    uses = {line.split(":")[0].split()[0]: line.split(":")[1].split() for line in lines if ":" in line.split("#")[0]}
    found, left = {}, list(OVER)
    while left:
        crate = left.pop()
        if crate in uses and crate not in found:
            found[crate] = f"{crate}: {' '.join(uses[crate])}\n"
            left += uses[crate]
    return found


def lay_out(room):
    """The crates that the cases stand on, as they were built, and the cases over them."""
    with open(os.path.join(TOP, "crates.txt"), encoding="utf-8") as file:
        lines = below(file.readlines())
    for crate in lines:
        shutil.copytree(os.path.join(TOP, "crates", crate), os.path.join(room, "crates", crate), symlinks=True,
                        ignore=shutil.ignore_patterns("must-fail", "incremental"))
    for name, returns, line, _ in CASES:
        write(room, f"crates/kind_{name}/src/lib.rt", CODE % (returns, line))
        lines[name] = f"kind_{name}: {' '.join(OVER)}\n"
    write(room, "crates.txt", "".join(lines.values()))


def wrong(room, case):
    """What is wrong with how rt checks a case, or None."""
    name, _, _, refusal = case
    ran = subprocess.run(["rt", "check"], cwd=os.path.join(room, "crates", f"kind_{name}"), stdin=subprocess.DEVNULL,
                         stdout=subprocess.PIPE, stderr=subprocess.STDOUT, check=False)
    said = ran.stdout.decode("utf-8", errors="replace")
    accepted = ran.returncode == 0 and said.rstrip("\n").split("\n")[-1].startswith("logic=proved")
    if refusal is None:
        return None if accepted else "it is refused:\n" + said
    if accepted:
        return "it is NOT refused"
    if ran.returncode != 1:
        return f"it is not refused, but rt ended with {ran.returncode}:\n{said}"
    return None if refusal in said else f"it is not refused by '{refusal}':\n{said}"


def main():
    failed = 0
    with tempfile.TemporaryDirectory() as room:
        lay_out(room)
        # The first builds what all of them stand on, where that is not built.
        found = [wrong(room, CASES[0])]
        with ThreadPoolExecutor(min(os.cpu_count() or 1, 4)) as pool:
            found += pool.map(lambda case: wrong(room, case), CASES[1:])
    for (_, _, line, refusal), fault in zip(CASES, found):
        failed += fault is not None
        says = "accepted" if refusal is None else "refused: " + refusal
        print(f"kinds: {line}: {says if fault is None else 'FAILED: ' + fault}")
    print(f"{len(CASES) - failed} passed, {failed} failed")
    return 1 if failed else 0


if __name__ == "__main__":
    sys.exit(main())
