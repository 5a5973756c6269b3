"""What document 01 says of both lands: the arena rules, the order of the checks, and the calls on a set of free bytes; and
of document 02 request K10, the mark and the low water of a handle, and request K11, by which only an insert and a delete are
answered 3.

What is free is a Python set of bytes, and the isolated ranges are the runs of that set. Where every end and size of a call
is a multiple of a larger step, the set holds one byte of each step: the step is then free as a whole or not at all.

A land is a module with FIRST_OP (the number of its opening in a record), lent_good, opened, met, fits and laid.
"""

from collections import namedtuple
from math import gcd

OPEN, INSERT, DELETE, FIRST, LAST, LARGEST, WALK = range(7)
FINDS = (FIRST, LAST, LARGEST)
NONE, LOW, HIGH, ENTIRE = range(4)
MODES = (NONE, LOW, HIGH, ENTIRE)
TOP = 2**40
MAX = 2**64 - 1
NO_RANGE = (0, 0)

# A handle of a block land has head 0. `filled` is the mark, `low` is low water.
Handle = namedtuple("Handle", "base limit align head ranges bytes filled low", defaults=(0, 0))
Result = namedtuple("Result", "answer handle range old words")
Outcome = namedtuple("Outcome", "answer ranges found old")


def fixed_good(h):
    """The fixed fields of a handle keep the arena rules."""
    if h.align not in (8, 16, 32, 64, 128, 256, 512, 1024, 2048, 4096):
        return False
    return h.base % h.align == 0 and h.limit % h.align == 0 and 0 < h.base <= h.limit <= TOP


def low_water_sound(h):
    """The mark is 0 or 1, low water is at most the free bytes, and where the mark is unset both are 0."""
    if h.filled == 0:
        return h.low == 0 and h.bytes == 0
    return h.filled == 1 and h.low <= h.bytes


def noted(before, after):
    """The handle `after` an accepted call on the land of the handle `before`, with its mark and low water."""
    if before.filled == 0 and after.bytes == 0:
        return after._replace(filled=0, low=0)
    totals = [after.bytes] if before.filled == 0 else [before.low, after.bytes]
    return after._replace(filled=1, low=min(totals))


def total(ranges):
    return sum(e - b for b, e in ranges)


def marked(ranges, step):
    """The bytes of some ranges, one of each step."""
    assert total(ranges) <= 100000 * step
    return {byte for b, e in ranges for byte in range(b, e, step)}


def isolated(free, step):
    """The isolated ranges of a set of free bytes, in address order."""
    starts = sorted(b for b in free if b - step not in free)
    ends = sorted(b + step for b in free if b + step not in free)
    return list(zip(starts, ends))


def step_of(ranges, size=0):
    """The largest step of which every end and the size are multiples."""
    return gcd(size, *(end for r in ranges for end in r))


def joined(pieces):
    """The isolated ranges of some pieces, which may touch."""
    step = step_of(pieces)
    return isolated(marked(pieces, step), step)


def around(ranges, byte):
    """The range that contains a byte."""
    return next(r for r in ranges if r[0] <= byte < r[1])


def refusal(number):
    return Outcome(number, None, NO_RANGE, NO_RANGE)


def changed(op, met, asked):
    """An insert or a delete of a range that keeps the rules."""
    step = step_of([*met, asked])
    free, wanted = marked(met, step), marked([asked], step)
    if op == INSERT:
        if wanted & free:
            return refusal(1)
        after = isolated(free | wanted, step)
        return Outcome(0, after, around(after, asked[0]), NO_RANGE)
    if wanted - free:
        return refusal(1)
    return Outcome(0, isolated(free - wanted, step), around(met, asked[0]), NO_RANGE)


def chosen(op, met, size):
    """The range that a find chooses, or None."""
    enough = [r for r in met if r[1] - r[0] >= size]
    if not enough:
        return None
    if op == FIRST:
        return min(enough)
    if op == LAST:
        return max(enough)
    longest = max(e - b for b, e in enough)
    return min(r for r in enough if r[1] - r[0] == longest)


def found_by(op, met, size, mode):
    """A find of a size that keeps the rules."""
    old = chosen(op, met, size)
    if old is None:
        return refusal(2)
    found = old
    if op != LARGEST and mode == LOW:
        found = (old[0], old[0] + size)
    if op != LARGEST and mode == HIGH:
        found = (old[1] - size, old[1])
    if mode == NONE:
        return Outcome(0, met, found, old)
    step = step_of(met, size)
    return Outcome(0, isolated(marked(met, step) - marked([found], step), step), found, old)


def outcome(op, h, met, a, b):
    """What a call does to the isolated ranges `met`; of an insert or a delete, where a table has room for it."""
    if op in (INSERT, DELETE):
        if not h.base <= a < b <= h.limit or a % h.align or b % h.align:
            return refusal(4)
        return changed(op, met, (a, b))
    if op == WALK:
        above = [r for r in met if r[0] >= a]
        return Outcome(0, met, min(above), NO_RANGE) if above else refusal(2)
    if a % h.align or (a == 0 and op != LARGEST):
        return refusal(4)
    return found_by(op, met, a, b)


def refused(number, h, words):
    return Result(number, h, NO_RANGE, NO_RANGE, words)


def opening(land, h, words):
    """What an opening gives. It looks at the fixed fields and the lent length only."""
    if not fixed_good(h) or not land.lent_good(h, words):
        return refused(5, Handle(0, 0, 0, 0, 0, 0), words)
    return Result(0, Handle(h.base, h.limit, h.align, 0, 0, 0), NO_RANGE, NO_RANGE, land.opened(words))


def fault(land, h, words):
    """5, 6 or 0: the answer of a call that has got no further than its set-up and the words."""
    if not fixed_good(h) or not land.lent_good(h, words):
        return 5
    return 0 if land.met(h, words) is not None and low_water_sound(h) else 6


def call(land, op, h, words, a, b):
    """What a call gives."""
    if op == OPEN:
        return opening(land, h, words)
    number = fault(land, h, words)
    if number:
        return refused(number, h, words)
    met = land.met(h, words)
    assert met == joined(met)
    out = outcome(op, h, met, a, b)
    if out.answer:
        return refused(out.answer, h, words)
    if op in (INSERT, DELETE) and not land.fits(out.ranges, words):
        return refused(3, h, words)
    handle, after = land.laid(h, words, out.ranges)
    assert land.met(handle, after) == out.ranges
    return Result(0, handle, out.found, out.old, after)
