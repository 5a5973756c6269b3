"""The records that have been written, and what the records of both lands share.

A record is one line: OP base limit align head ranges bytes filled low NWORDS w0 .. A B C (see
crates/land_cases/src/main.rt). Its line of output is the answer, the handle returned, the range, the old range, and the
words afterwards.
"""

from collections import Counter
from itertools import dropwhile

from set_model import (
    DELETE, ENTIRE, FINDS, FIRST, HIGH, Handle, INSERT, LARGEST, LAST, LOW, MAX, NONE, OPEN, WALK, call, joined, noted,
)

# The most words that the program lends of one land.
LENT = 64

asked, given, seen = [], [], Counter()


def add(op, numbers, line):
    """Adds a record and the numbers that it must give, of which the first is the answer."""
    assert all(0 <= n <= MAX for n in [*numbers, *line])
    asked.append(" ".join(map(str, [op, *numbers])))
    given.append(" ".join(map(str, line)))
    seen[op, line[0]] += 1


def fixed(base, limit, align=8):
    """A handle with no ranges."""
    return Handle(base, limit, align, 0, 0, 0)


# The arena of 01's sessions, and one of its length whose addresses are short.
ARENA = fixed(4096, 4160)
SHORT = fixed(16, 80)


def once_noted(h):
    """The handle with the mark and low water of a land whose one accepted call left its bytes."""
    return noted(fixed(0, 0), h)


def low_water(totals):
    """The mark and the low water of a history, from the free bytes after each of its accepted calls."""
    counted = list(dropwhile(lambda total: total == 0, totals))
    return (1, min(counted)) if counted else (0, 0)


def low_water_in_turn(h, turn):
    """The handle with one of the marks and low waters that are sound beside its bytes."""
    if h.bytes == 0:
        return h._replace(filled=turn % 2, low=0)
    return h._replace(filled=1, low=(h.bytes, 0, h.bytes // 2)[turn % 3])


def bad_low_waters(size):
    """Marks and low waters that are not sound beside so many free bytes, which are not 0: a kind each, then others."""
    return [(2, size), (1, size + 1), (0, 0), (0, size), (2**32 + 1, 0), (MAX, size), (1, MAX), (0, 1)]


def every_set(base, count):
    """The isolated ranges of each set of `count` units of 8 bytes."""
    for bits in range(2**count):
        yield joined([(base + 8 * k, base + 8 * k + 8) for k in range(count) if bits >> k & 1])


class Dice:
    """A generator of its own, so that every Python rolls the same."""

    def __init__(self, seed):
        self.state = seed

    def below(self, n):
        self.state = (self.state * 6364136223846793005 + 1442695040888963407) % 2**64
        return (self.state >> 33) % n

    def one_of(self, xs):
        return xs[self.below(len(xs))]

    def junk(self, count):
        """Words as a host may have left them."""
        return [self.one_of([0, 1, 7, self.below(1000)]) for _ in range(count)]


class Player:
    """Calls of one land, each of which becomes a record."""

    def __init__(self, land, seed):
        self.land = land
        self.dice = Dice(seed)

    def record(self, op, h, words, a=0, b=0):
        """Adds a record of one call, and answers what it must give."""
        words = list(words)
        assert len(words) <= LENT
        r = call(self.land, op, h, words, a, b)
        assert r.answer == 0 or r.words == words
        add(self.land.FIRST_OP + op, [*h, len(words), *words, a, b, 0], [r.answer, *r.handle, *r.range, *r.old, *r.words])
        return r

    def spot(self, h):
        """A multiple of the alignment in the arena, its limit included."""
        return h.base + h.align * self.dice.below((h.limit - h.base) // h.align + 1)

    def part(self, h, r):
        """A part of a range."""
        units = (r[1] - r[0]) // h.align
        i = self.dice.below(units)
        j = i + 1 + self.dice.below(units - i)
        return r[0] + i * h.align, r[0] + j * h.align

    def change(self, h, met, op):
        """An insert or a delete with its range: mostly a good one."""
        if met and op == DELETE and self.dice.below(4):
            return op, *self.part(h, self.dice.one_of(met))
        a, b = sorted((self.spot(h), self.spot(h)))
        if self.dice.below(3):
            b = min(b, a + 2 * h.align)
        if a == b and self.dice.below(5):
            a, b = (a, a + h.align) if a < h.limit else (a - h.align, a)
        return op, a, b

    def request(self, h, words):
        """A call with its numbers: mostly a good one."""
        met = self.land.met(h, words)
        kind = self.dice.below(20)
        if kind < 13:
            return self.change(h, met, INSERT if kind < 7 else DELETE)
        if kind < 18:
            op = self.dice.one_of(FINDS)
            size = h.align * (1 + self.dice.below(3))
            if self.dice.below(6) == 0:
                size = self.dice.one_of([0, h.align // 2, 12, MAX - 7, h.limit - h.base])
            return op, size, self.dice.below(4)
        inside = self.dice.one_of(met)[0] + self.dice.below(2) if met else 0
        return WALK, self.dice.one_of([inside, inside, self.spot(h), 0, h.base, MAX]), 0

    def history(self, h, words, steps):
        """An opening, then calls one after the other."""
        r = self.record(OPEN, h, words)
        totals = []
        for _ in range(steps):
            op, a, b = self.request(r.handle, r.words)
            r = self.record(op, r.handle, r.words, a, b)
            totals += [] if r.answer else [r.handle.bytes]
            assert r.handle[6:] == low_water(totals)

    def on_damage(self, h, words, expect=6):
        """A call on words that may not be sound: with a good request, or one that breaks the rules."""
        op = 1 + self.dice.below(6)
        if op in (INSERT, DELETE):
            a, b = self.dice.one_of(
                [(h.base, h.base + h.align), (h.limit - h.align, h.limit), (h.base, h.base), (h.base + 4, h.limit)]
            )
        elif op == WALK:
            a, b = self.dice.one_of([0, h.base, h.limit, MAX]), 0
        else:
            a, b = self.dice.one_of([h.align, 2 * h.align, 0, 12]), self.dice.below(4)
        r = self.record(op, h, words, a, b)
        assert expect is None or r.answer == expect

    def edges(self, empty, whole, parts):
        """Edges of 01 on lands of arena [4096, 4160): one with no range, one free as a whole, one with ranges apart."""
        h, words = empty
        assert [self.record(op, h, words, 8, ENTIRE).answer for op in FINDS] == [2, 2, 2]
        assert [self.record(LARGEST, h, words, 0, mode).answer for mode in range(4)] == [2, 2, 2, 2]
        assert self.record(WALK, h, words, 0).answer == 2
        for op, (h, words) in ((DELETE, whole), (INSERT, parts)):
            for a, b in [
                (4096, 4096), (4096, 4168), (4160, 4160), (4160, 4168), (4088, 4104), (4104, 4096), (4096, 4100),
                (4100, 4112), (0, 0), (0, 8), (0, MAX - 7), (MAX - 7, 8), (MAX, MAX), (4096, MAX - 7), (4096, 4160),
            ]:
                answer = self.record(op, h, words, a, b).answer
                assert (answer == 4) == ((a, b) != (4096, 4160))
            for find in FINDS:
                for size in (0, 12, 72, 64, 4, MAX, MAX - 7):
                    answer = self.record(find, h, words, size, NONE).answer
                    if size % 8 or (size == 0 and find != LARGEST):
                        assert answer == 4
                    elif size > 64:
                        assert answer == 2
            for a in (0, 4095, 4096, 4097, 4104, 4105, 4128, 4129, 4159, 4160, MAX):
                assert self.record(WALK, h, words, a).answer in (0, 2)

    def low_waters(self, empty, held):
        """Marks and low waters on lands of arena [16, 80): one with no range, one with 16 bytes at 16 and 8 at 48."""
        h, words = held
        # For each call a good request, one that breaks the rules, and the bytes that the good one leaves.
        calls = [
            (INSERT, (64, 72), (16, 20), 32), (DELETE, (16, 24), (16, 16), 16), (FIRST, (8, LOW), (12, LOW), 16),
            (LAST, (8, HIGH), (0, LOW), 16), (LARGEST, (0, ENTIRE), (4, LOW), 8), (WALK, (16, 0), (MAX, 0), 24),
        ]
        kinds, others = bad_low_waters(24)[:4], bad_low_waters(24)[4:]
        for op, good, bad, left in calls:
            for filled, low in [*kinds, others[op % 4]]:
                assert self.record(op, h._replace(filled=filled, low=low), words, *good).answer == 6
            assert self.record(op, h._replace(low=25), words, *bad).answer == 6
            assert self.record(op, h._replace(low=25, align=4), words, *good).answer == 5
            for low in (0, 12, 24):
                r = self.record(op, h._replace(low=low), words, *good)
                assert (r.answer, r.handle[5:]) == (0, (left, 1, min(low, left)))
            assert self.record(op, h._replace(low=7), words, *bad).handle == h._replace(low=7)
        for find in FINDS:
            assert self.record(find, h._replace(low=7), words, 8, NONE).handle == h._replace(low=7)
        h, words = empty
        for filled in (0, 1):
            r = self.record(INSERT, h._replace(filled=filled), words, 16, 24)
            assert r.handle[5:] == (8, 1, 0 if filled else 8)
            assert self.record(WALK, h._replace(filled=filled), words, 0).answer == 2
        for filled, low in ((1, 1), (0, 8), (2, 0), (MAX, 8)):
            assert self.record(INSERT, h._replace(filled=filled, low=low), words, 16, 24).answer == 6

    def alignments(self, words):
        """Each alignment on an arena of length 0."""
        for align in (4, 8, 16, 32, 64, 128, 256, 512, 1024, 2048, 4096, 8192):
            h = fixed(8192, 8192, align)
            good = 8 <= align <= 4096
            assert self.record(OPEN, h, words).answer == (0 if good else 5)
            assert self.record(INSERT, h, words, 8192, 16384).answer == (4 if good else 5)
            assert self.record(LARGEST, h, words, 0, ENTIRE).answer == (2 if good else 5)
            assert self.record(WALK, h, words, 0).answer == (2 if good else 5)
