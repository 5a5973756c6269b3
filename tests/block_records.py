"""The records of the block land: 01's sessions and edges, openings, every insert and delete in small arenas, finds, walks, full
tables, histories, bad set-ups, damaged tables, marks and low waters of all kinds, and the order of the checks.

Node space of more than 2,097,152 words is not played: the program lends at most 64."""

import block_model
from block_model import broken, capacity, laid
from records import ARENA, Player, SHORT, every_set, fixed, once_noted
from set_model import (
    DELETE, ENTIRE, FINDS, FIRST, HIGH, Handle, INSERT, LARGEST, LAST, LOW, MAX, MODES, NONE, NO_RANGE, OPEN, TOP, WALK,
)

CALLS = (INSERT, DELETE, FIRST, LAST, LARGEST, WALK)

player = Player(block_model, 21)
dice, record, on_damage = player.dice, player.record, player.on_damage


def table(h, ranges, spare=0, odd=()):
    """A sound handle and words: the ranges, `spare` pairs of 0, and an odd last word, if one is given."""
    return laid(h, [0] * (2 * (len(ranges) + spare)) + list(odd), list(ranges))


def sessions():
    """The starred sessions of 01 for the block land, with what 01 states of each."""
    r = record(OPEN, ARENA, [3, MAX])
    assert r == (0, ARENA, NO_RANGE, NO_RANGE, [0, 0])
    r = record(INSERT, r.handle, r.words, 4096, 4104)
    assert (r.answer, r.range, r.words) == (0, (4096, 4104), [4096, 4104])
    full = record(INSERT, r.handle, r.words, 4112, 4120)
    assert full == (3, r.handle, NO_RANGE, NO_RANGE, r.words)
    r = record(INSERT, r.handle, r.words, 4104, 4112)
    assert (r.answer, r.range, r.words) == (0, (4096, 4112), [4096, 4112])
    h, words = table(ARENA, [(4096, 4120)])
    assert record(DELETE, h, words, 4104, 4112) == (3, h, NO_RANGE, NO_RANGE, words)
    r = record(DELETE, h, words, 4096, 4104)
    assert (r.answer, r.range, r.words) == (0, (4096, 4120), [4104, 4120])


def edges():
    """The edges of 01 that concern the block land, and others like them."""
    player.edges(
        table(ARENA, [], 2), table(ARENA, [(4096, 4160)], 1, [5]), table(ARENA, [(4104, 4112), (4128, 4152)])
    )
    player.alignments([0, 0, 9])
    assert record(OPEN, fixed(TOP, TOP, 4096), [1, 2]).answer == 0
    assert record(OPEN, fixed(4096, TOP, 4096), [1, 2, 3]).answer == 0
    for odd in ((), (MAX,)):
        h, words = table(ARENA, [], 0, odd)
        for a, b in ((4096, 4104), (4096, 4160), (4152, 4160)):
            assert record(INSERT, h, words, a, b).answer == 3
            assert record(DELETE, h, words, a, b).answer == 1
        assert record(INSERT, h, words, 4096, 4096).answer == 4
        assert [record(op, h, words, 8, ENTIRE).answer for op in FINDS] == [2, 2, 2]
        assert record(LARGEST, h, words, 0, NONE).answer == 2
        assert record(WALK, h, words, 0).answer == 2


def openings():
    """Openings on node words of any value, and with counts, mark and low water of any value, which an opening does not read."""
    for count in (0, 1, 2, 3, 4, 5, 6, 7, 8, 9, 16, 31, 63, 64):
        words = [dice.one_of([1, 8, 4096, 2**63, MAX]) for _ in range(count)]
        r = record(OPEN, Handle(4096, 4160, 8, 0, dice.below(9), dice.below(99), dice.below(3), dice.below(99)), words)
        assert r.answer == 0 and r.handle == ARENA
        assert r.words == [0] * (count - count % 2) + words[count - count % 2:]
    for h in (fixed(8, TOP), fixed(TOP - 8, TOP), fixed(16, 16, 16), fixed(4096, 8192, 4096), fixed(32, TOP - 32, 32)):
        r = record(OPEN, h._replace(ranges=MAX, bytes=MAX, filled=MAX, low=MAX), [MAX] * 5)
        assert r == (0, h, NO_RANGE, NO_RANGE, [0, 0, 0, 0, MAX])


def changes_on(h, words):
    """Every insert and every delete on one table."""
    units = (h.limit - h.base) // h.align
    for op in (INSERT, DELETE):
        for i in range(units):
            for j in range(i + 1, units + 1):
                assert record(op, h, words, h.base + h.align * i, h.base + h.align * j).answer in (0, 1, 3)


def every_change():
    """Every insert and delete on every set of four units at a full table, of three with room, and on some larger tables."""
    for ranges in every_set(8, 4):
        changes_on(*table(fixed(8, 40), ranges))
    for ranges in every_set(8, 3):
        changes_on(*table(fixed(8, 32), ranges, 1, [77]))
    six = fixed(64, 112)
    changes_on(*table(six, [(72, 80), (96, 104)]))
    changes_on(*table(six, [(64, 112)]))
    changes_on(*table(six, [(64, 72), (80, 88), (96, 104)], 0, [MAX]))
    changes_on(*table(fixed(4096, 4176, 16), [(4096, 4112), (4128, 4160)], 1, [1]))


def every_find():
    """Finds in every mode on every set of three units at a full table; then on equal ranges."""
    for ranges in every_set(8, 3):
        h, words = table(fixed(8, 32), ranges)
        for op in FINDS:
            for size, mode in ((8, NONE), (8, LOW), (16, LOW), (8, HIGH), (16, HIGH), (16, ENTIRE)):
                assert record(op, h, words, size, mode).answer in (0, 2)
    h, words = table(fixed(64, 168), [(64, 80), (88, 112), (120, 144), (152, 160)], 1, [8])
    for op in FINDS:
        for size in (0, 8, 16, 24, 32):
            for mode in (LOW, HIGH):
                record(op, h, words, size, mode)
    for mode in MODES:
        assert record(LARGEST, h, words, 8, mode).range == (88, 112)
        assert record(LARGEST, h, words, 0, mode).old == (88, 112)
        assert record(FIRST, h, words, 24, mode).range == (88, 112)
        assert record(LAST, h, words, 24, mode).range == (120, 144)
    assert record(FIRST, h, words, 16, HIGH).range == (64, 80)
    assert record(LAST, h, words, 16, LOW).range == (120, 136)
    assert record(LAST, h, words, 16, HIGH).range == (128, 144)


def walks():
    """Walks from every number near some ranges, and from numbers far off."""
    h, words = table(fixed(16, 72), [(16, 24), (32, 48), (56, 64)], 1, [40])
    for a in [*range(14, 75), 0, 1, TOP, 2**63, MAX]:
        r = record(WALK, h, words, a)
        assert r.range == ((16, 24) if a <= 16 else (32, 48) if a <= 32 else (56, 64) if a <= 56 else NO_RANGE)


def full_tables():
    """Full tables: 3 is judged after merging, 1 comes before it, and what does not grow the set is accepted."""
    two = table(ARENA, [(4104, 4112), (4128, 4136)])
    long = table(ARENA, [(4096, 4120), (4128, 4160)], 0, [4096])
    three = table(ARENA, [(4096, 4104), (4120, 4128), (4144, 4152)])
    for (h, words), op, a, b, answer in [
        # Apart from both; below, above, between, at either end; merging with one, with two; overlaps.
        (two, INSERT, 4144, 4152, 3), (two, INSERT, 4144, 4160, 3), (two, INSERT, 4096, 4104, 0),
        (two, INSERT, 4112, 4120, 0), (two, INSERT, 4120, 4128, 0), (two, INSERT, 4112, 4128, 0),
        (two, INSERT, 4136, 4144, 0), (two, INSERT, 4136, 4160, 0), (two, INSERT, 4104, 4112, 1),
        (two, INSERT, 4096, 4120, 1), (two, INSERT, 4096, 4160, 1), (two, INSERT, 4120, 4144, 1),
        (two, INSERT, 4128, 4136, 1), (two, INSERT, 4112, 4136, 1), (two, INSERT, 4100, 4104, 4),
        (two, DELETE, 4104, 4112, 0), (two, DELETE, 4128, 4136, 0), (two, DELETE, 4104, 4136, 1),
        # Splits, ends, wholes, gaps.
        (long, DELETE, 4104, 4112, 3), (long, DELETE, 4136, 4144, 3), (long, DELETE, 4136, 4152, 3),
        (long, DELETE, 4096, 4104, 0), (long, DELETE, 4112, 4120, 0), (long, DELETE, 4096, 4120, 0),
        (long, DELETE, 4152, 4160, 0), (long, DELETE, 4128, 4136, 0), (long, DELETE, 4112, 4136, 1),
        (long, DELETE, 4096, 4160, 1), (long, DELETE, 4120, 4128, 1), (long, DELETE, 4104, 4128, 1),
        (long, INSERT, 4120, 4128, 0), (long, INSERT, 4112, 4128, 1), (long, DELETE, 4104, 4168, 4),
        (three, INSERT, 4104, 4120, 0), (three, INSERT, 4128, 4144, 0), (three, INSERT, 4104, 4112, 0),
        (three, INSERT, 4112, 4120, 0), (three, INSERT, 4136, 4144, 0), (three, INSERT, 4152, 4160, 0),
        (three, INSERT, 4104, 4144, 1), (three, INSERT, 4136, 4160, 1), (three, DELETE, 4120, 4128, 0),
        (three, INSERT, 4112, 4128, 1),
    ]:
        assert record(op, h, words, a, b).answer == answer
    # A gap of three units at a full table: its middle is refused, its ends merge.
    h, words = table(ARENA, [(4096, 4104), (4128, 4160)])
    assert [record(INSERT, h, words, a, a + 8).answer for a in (4104, 4112, 4120)] == [0, 3, 0]
    for op in FINDS:
        for mode in MODES:
            assert record(op, *long, 16, mode).answer == 0
            assert record(op, *three, 8, mode).answer == 0


def wide_arenas():
    """Arenas far larger than any list land's here."""
    r = record(OPEN, fixed(8, TOP), [0] * 6)
    for op, a, b in [
        (INSERT, TOP - 8, TOP), (INSERT, 8, 16), (INSERT, 2**39, 2**39 + 64), (INSERT, 24, 32), (LARGEST, 0, NONE), (LAST, 8, HIGH),
        (FIRST, 16, LOW), (WALK, 17, 0), (WALK, 2**39, 0), (WALK, 2**39 + 1, 0), (INSERT, TOP - 8, TOP), (INSERT, TOP, TOP + 8),
        (LARGEST, 64, NONE), (FIRST, TOP, ENTIRE), (LAST, 2**63, LOW),
    ]:
        r = record(op, r.handle, r.words, a, b)
    unit = 2**30
    r = record(OPEN, fixed(unit, TOP, 4096), [MAX] * 5)
    for op, a, b, answer in [
        (INSERT, unit, TOP, 0), (LARGEST, TOP - unit, NONE, 0), (FIRST, TOP, NONE, 2), (DELETE, 2**39, 2**39 + unit, 0),
        (DELETE, 2 * unit, 3 * unit, 3), (LARGEST, 0, NONE, 0), (INSERT, 2**39, 2**39 + unit, 0), (LAST, 2**39, HIGH, 0),
        (INSERT, TOP - unit, TOP, 0), (FIRST, 2**38, LOW, 0), (INSERT, unit, 2 * unit, 3), (LAST, unit, ENTIRE, 0),
        (WALK, 2**38, 0, 0), (INSERT, 2**39, TOP, 0),
    ]:
        r = record(op, r.handle, r.words, a, b)
        assert r.answer == answer


def histories():
    """Calls one after the other from an opening on words of any value."""
    for h, count, steps in [
        (fixed(8, 24), 2, 8), (fixed(8, 48), 3, 19), (fixed(8, 48), 4, 24), (fixed(640, 720), 5, 70), (fixed(4096, 4192), 6, 24),
        (fixed(4096, 4192), 9, 24), (fixed(48, 128, 16), 4, 16), (fixed(32, 256, 32), 7, 16), (fixed(TOP - 48, TOP), 4, 16),
        (fixed(TOP - 64, TOP, 16), 1, 7), (fixed(8192, 8192 + 4096 * 9, 4096), 6, 19), (fixed(16, 512, 16), 24, 24), (fixed(64, 512), 63, 15),
    ]:
        player.history(h, dice.junk(count), steps)
    # A table that fills and empties: every second unit goes in, then the gaps, then all of it goes out.
    r = record(OPEN, fixed(64, 192), [MAX] * 17)
    for k in range(8):
        r = record(INSERT, r.handle, r.words, 176 - 16 * k, 184 - 16 * k)
    assert r.handle.ranges == capacity(r.words)
    for k in (3, 0, 6, 1, 5, 2, 4):
        r = record(INSERT, r.handle, r.words, 72 + 16 * k, 80 + 16 * k)
    assert r.words == [64, 184] + [0] * 14 + [MAX]
    for k in range(7):
        r = record(DELETE, r.handle, r.words, 168 - 16 * k, 176 - 16 * k)
    for _ in range(9):
        r = record(FIRST, r.handle, r.words, 8, LOW)
    assert (r.answer, r.handle.ranges) == (2, 0)


def bad_set_ups():
    """Fixed fields that break the arena rules, also with a table that is not sound and a bad request."""
    for i, h in enumerate([
        fixed(4096, 4160, 0), fixed(4096, 4160, 1), fixed(4096, 4160, 2), fixed(4096, 4160, 4), fixed(24, 48, 24), fixed(48, 72, 12),
        fixed(8192, 16384, 8192), fixed(4096, 4160, MAX), fixed(2**63, 2**63, 2**63), fixed(4096, 4160, 2**63), fixed(4095, 4160, 9),
        fixed(0, 64), fixed(0, 0), fixed(0, TOP, 4096), fixed(4100, 4160), fixed(4104, 4160, 16), fixed(4096, 4156), fixed(4096, 4152, 16),
        fixed(4160, 4096), fixed(4104, 4096), fixed(MAX - 7, 8), fixed(4096, TOP + 8), fixed(TOP, TOP + 8), fixed(TOP + 8, TOP + 8),
        fixed(4096, 2**41, 4096), fixed(4096, 2**63), fixed(8, MAX), fixed(8, MAX - 7), fixed(0, 0, 0), fixed(8, 2**32 + 4),
    ]):
        words = dice.one_of([[], [0, 0], [0, 0, 0, 0, 5]])
        assert record(OPEN, h, [MAX, 1, 9][:len(words)]) == (5, fixed(0, 0, 0), NO_RANGE, NO_RANGE, [MAX, 1, 9][:len(words)])
        op = CALLS[i % 6]
        assert record(op, h, words, h.base, h.limit if op in (INSERT, DELETE) else 0).answer == 5
        op = CALLS[(i + 2) % 6]
        damaged = h._replace(ranges=dice.one_of([1, 3, MAX]), bytes=16)
        assert record(op, damaged, words, dice.one_of([8, 12, 0]), dice.below(4)).answer == 5
    # Ranges that fit the arena but for its alignment, its base or its limit.
    for h in (fixed(4096, 4160, 4), fixed(0, 4160), fixed(4096, 4164), fixed(4092, 4160)):
        _, words = table(h, [(4096, 4112)], 1)
        for op, a, b in ((INSERT, 4112, 4120), (LAST, 8, NONE), (WALK, 0, 0)):
            assert record(op, h._replace(ranges=1, bytes=16), words, a, b).answer == 5


def some_tables():
    """Sound tables to damage."""
    return [
        table(ARENA, [(4096, 4112), (4120, 4128), (4136, 4152)], 2, [MAX]),
        table(fixed(8, 64), [(16, 24), (32, 40)]),
        table(fixed(48, 128, 16), [(48, 64), (96, 128)], 1, [7]),
        table(fixed(32, 128, 32), [(64, 96)]),
        table(fixed(TOP - 32, TOP), [(TOP - 8, TOP)], 1),
        table(ARENA, [], 2),
        table(ARENA, [], 0, [3]),
    ]


def on_broken(rules, h, words):
    """A call on a table that breaks these rules and no other, with a sound mark and low water."""
    assert broken(h, words) == rules
    on_damage(once_noted(h), words)


def damaged_counts():
    """A sound table under counts that do not fit it."""
    for h, words in some_tables():
        room = capacity(words)
        # Doubled in 64 bits, 2**63 is 0, and the last is twice the count.
        for ranges in (room + 1, 2 * room + 2, 2**32, MAX, 2**63, 2**63 + h.ranges):
            on_broken({"count"}, h._replace(ranges=ranges), words)
        for size in (h.bytes + 1, h.bytes + h.align, MAX, 2**63, *([h.bytes - 1, h.bytes - h.align] if h.bytes else [])):
            on_broken({"bytes"}, h._replace(bytes=size), words)
        if h.ranges:
            b, e = words[2 * h.ranges - 2], words[2 * h.ranges - 1]
            on_broken({"tail"}, h._replace(ranges=h.ranges - 1, bytes=h.bytes - (e - b)), words)
            on_broken({"tail", "bytes"}, h._replace(ranges=h.ranges - 1), words)
            on_broken({"tail"}, h._replace(ranges=0, bytes=0), words)
        if h.ranges < room:
            assert {"non-empty", "inside"} <= broken(h._replace(ranges=h.ranges + 1), words)
            on_damage(h._replace(ranges=h.ranges + 1), words)
        # The odd last word is neither read nor written.
        if len(words) % 2:
            for odd in (0, 1, 4096, MAX):
                on_damage(h, words[:-1] + [odd], None)


def damaged_tails():
    """A sound table with one word of its tail not 0; with a range there that the counts leave out."""
    for h, words in some_tables():
        for k in range(2 * h.ranges, 2 * capacity(words)):
            for value in (1, 2**63, h.limit, MAX):
                on_broken({"tail"}, h, words[:k] + [value] + words[k + 1:])
    h, words = table(ARENA, [(4096, 4104), (4112, 4120), (4152, 4160)], 1)
    on_broken({"tail"}, h._replace(ranges=2, bytes=16), words)
    on_broken({"tail"}, h._replace(ranges=1, bytes=8), words)
    # Pairs of 0 before the range.
    h, words = table(ARENA, [], 3)
    on_broken({"tail"}, h, words[:4] + [4096, 4104])


def ranges_of_bad_tables():
    """The fixed fields, the ranges and the rules that the ranges break."""
    aligned, filled, inside, apart = {"aligned"}, {"non-empty"}, {"inside"}, {"separated"}
    sixteen = fixed(4096, 4160, 16)
    return [
        (ARENA, [(4100, 4112)], aligned), (ARENA, [(4096, 4108)], aligned), (ARENA, [(4097, 4113)], aligned),
        (sixteen, [(4104, 4128)], aligned), (sixteen, [(4096, 4120)], aligned), (sixteen, [(4104, 4120)], aligned),
        (ARENA, [(4096, 4104), (4116, 4128)], aligned), (ARENA, [(4096, 4104), (4112, 4124), (4136, 4144)], aligned),
        (ARENA, [(4096, 4104), (4112, 4120), (4136, 4159)], aligned), (fixed(4096, 8192, 4096), [(4096, 6144)], aligned),
        (ARENA, [(4096, 4096)], filled), (ARENA, [(4160, 4160)], filled), (ARENA, [(4096, 4104), (4112, 4112)], filled),
        (ARENA, [(4112, 4112), (4120, 4136)], filled), (ARENA, [(4096, 4104), (4112, 4112), (4120, 4128)], filled),
        (ARENA, [(4112, 4104), (4120, 4136)], filled), (ARENA, [(4096, 4120), (4136, 4128)], filled),
        (ARENA, [(4096, 4112), (4144, 4136), (4152, 4160)], filled), (ARENA, [(4096, 4152), (4160, 4112)], filled),
        (ARENA, [(4088, 4096)], inside), (ARENA, [(4088, 4104)], inside), (ARENA, [(4088, 4168)], inside),
        (ARENA, [(4152, 4168)], inside), (ARENA, [(4160, 4168)], inside), (ARENA, [(8, 16)], inside),
        (ARENA, [(0, 4104)], inside), (ARENA, [(0, 8), (4096, 4104)], inside), (ARENA, [(4096, 4104), (4152, 4168)], inside),
        (ARENA, [(4096, 4104), (4112, 4120), (TOP, TOP + 8)], inside), (ARENA, [(4096, 4104), (MAX - 15, MAX - 7)], inside),
        (ARENA, [(4096, MAX - 7)], inside), (ARENA, [(2**63, 2**63 + 8)], inside), (fixed(8, TOP), [(8, TOP + 8)], inside),
        (fixed(16, 16, 16), [(16, 32)], inside), (fixed(16, 16, 16), [(0, 16)], inside),
        (ARENA, [(4096, 4104), (4104, 4112)], apart), (ARENA, [(4096, 4128), (4128, 4160)], apart),
        (ARENA, [(4096, 4104), (4112, 4120), (4120, 4128)], apart), (ARENA, [(4096, 4104), (4104, 4112), (4120, 4128)], apart),
        (ARENA, [(4096, 4112), (4104, 4120)], apart), (ARENA, [(4096, 4160), (4104, 4112)], apart),
        (ARENA, [(4104, 4112), (4096, 4160)], apart), (ARENA, [(4096, 4104), (4096, 4104)], apart),
        (ARENA, [(4112, 4120), (4096, 4104)], apart), (ARENA, [(4096, 4104), (4128, 4136), (4112, 4120)], apart),
        (ARENA, [(4144, 4152), (4096, 4104), (4112, 4120)], apart), (ARENA, [(4096, 4104), (4112, 4128), (4096, 4104)], apart),
        (sixteen, [(4096, 4112), (4112, 4128)], apart), (ARENA, [(4104, 4112), (4096, 4104)], apart),
        # More than one rule.
        (ARENA, [(4096, 4104), (0, 0), (4112, 4120)], {"non-empty", "inside", "separated"}),
        (ARENA, [(0, 0)], {"non-empty", "inside"}), (ARENA, [(4100, 4100)], {"aligned", "non-empty"}),
        (ARENA, [(4088, 4092)], {"aligned", "inside"}), (ARENA, [(4096, MAX)], {"aligned", "inside"}),
    ]


def damaged_ranges():
    """Ranges that break a rule in a table whose counts agree, at a full table and with room."""
    for i, (h, ranges, rules) in enumerate(ranges_of_bad_tables()):
        on_broken(rules, *(table(h, ranges, 1, [6]) if i % 2 else table(h, ranges)))
    # A range that ends before it starts, with a length that wraps.
    on_broken({"non-empty", "bytes"}, Handle(4096, 4160, 8, 0, 1, 2**64 - 8), [4104, 4096])
    on_broken({"non-empty", "bytes"}, Handle(4096, 4160, 8, 0, 1, 2**64 - 64), [4160, 4096, 0, 0])


def order_of_checks():
    """Two faults at once: 5 before 6 before 4 before 1 or 2 before 3."""
    full = table(ARENA, [(4096, 4112), (4128, 4144)])
    h, words = full
    for bad in map(once_noted, (h._replace(ranges=3), h._replace(bytes=8), h._replace(ranges=1, bytes=16))):
        assert [record(op, bad._replace(align=4), words, 8, 8).answer for op in CALLS] == [5] * 6
        assert [record(op, bad, words, 4100, 4100).answer for op in CALLS] == [6] * 6
        assert record(INSERT, bad, words, 4096, 4104).answer == 6
        assert record(INSERT, bad, words, 4152, 4160).answer == 6
        assert record(FIRST, bad, words, 64, LOW).answer == 6
    for a, b in ((4098, 4104), (4104, 4098), (4096, 4170), (4088, 4136), (4096, 4096), (4128, 4128), (4152, 4168)):
        assert record(INSERT, *full, a, b).answer == 4
        assert record(DELETE, *full, a, b).answer == 4
    for op in FINDS:
        assert record(op, *full, 76, LOW).answer == 4
        assert record(op, *full, 24, LOW).answer == 2
    assert record(INSERT, *full, 4096, 4160).answer == 1
    assert record(DELETE, *full, 4104, 4136).answer == 1


def write():
    """Adds the records, always the same in the same order."""
    sessions()
    edges()
    openings()
    every_change()
    every_find()
    walks()
    full_tables()
    wide_arenas()
    histories()
    bad_set_ups()
    damaged_counts()
    damaged_tails()
    damaged_ranges()
    player.low_waters(table(SHORT, [], 1), table(SHORT, [(16, 32), (48, 56)], 1, [6]))
    order_of_checks()
