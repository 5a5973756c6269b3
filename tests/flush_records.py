"""The records of the flush: all moves, stops by 3 and by 1, refusals in 01's order, lists and tables of any kind, and low
water, which a flush reads once for each land.

A record is one line: 20, the list's handle, NWORDS w0 .., 0, the block land's handle, NNODES n0 .. (both handles have the
form base limit align head ranges bytes filled low; the block land's head is 0). Its line of output is the answer, the number
moved, the stop, both handles, the node words and the arena words afterwards.
"""

from collections import Counter

import block_model
import list_model
from flush_model import OP, flush
from block_records import table
from records import (
    ARENA, Dice, LENT, Player, SHORT, add, bad_low_waters, every_set, fixed, low_water, low_water_in_turn, once_noted,
)
from set_model import DELETE, FIRST, INSERT, LARGEST, LAST, LOW, MAX, OPEN, TOP, joined, total

dice = Dice(22)
stops_seen = Counter()


def record(h, words, g, nodes):
    """Adds a record of a flush, and answers what it must give."""
    assert len(words) <= LENT and len(nodes) <= LENT
    r = flush(h, words, g, nodes)
    # No word of the list changes: what is left of it begins further on.
    assert r.words == words
    if r.answer:
        assert (r.moved, r.stop, r.list, r.block, r.nodes) == (0, 0, h, g, nodes)
    else:
        before, held = list_model.met(h, words), block_model.met(g, nodes)
        assert r.moved == h.ranges - r.list.ranges and (r.stop == 0) == (r.list.ranges == 0)
        assert list_model.met(r.list, r.words) == before[r.moved:]
        assert block_model.met(r.block, r.nodes) == joined(held + before[:r.moved])
        assert r.block.bytes - g.bytes == h.bytes - r.list.bytes == total(before[:r.moved])
        assert r.moved or (r.list, r.block) == (h, g)
    numbers = [*h, len(words), *words, 0, *g, len(nodes), *nodes]
    add(OP, numbers, [r.answer, r.moved, r.stop, *r.list, *r.block, *r.nodes, *r.words])
    if not r.answer:
        stops_seen[r.stop] += 1
    return r


def lands(h, listed, held, spare=0, odd=(), fill=0):
    """A sound list over words of one value, and a sound table with `spare` pairs of 0 and an odd last word, if one is given."""
    return *list_model.laid(h, [fill] * ((h.limit - h.base) // 8), listed), *table(h, held, spare, odd)


def moves():
    """Flushes that move all."""
    for listed, held, spare, odd in [
        ([], [], 0, []), ([], [], 0, [5]), ([], [], 2, []), ([], [(4104, 4120)], 0, []), ([], [(4104, 4120)], 1, [MAX]),
        ([(4096, 4104)], [], 1, []), ([(4096, 4160)], [], 1, [4]), ([(4096, 4104), (4112, 4128), (4136, 4160)], [], 3, []),
        ([(4096, 4104), (4112, 4128), (4136, 4160)], [], 5, [1]), ([(4104, 4112)], [(4096, 4104), (4112, 4120)], 0, []),
        ([(4104, 4112), (4120, 4128)], [(4096, 4104), (4112, 4120), (4128, 4160)], 0, [9]),
        ([(4096, 4104), (4112, 4120), (4128, 4136)], [(4104, 4112), (4120, 4128)], 0, []),
        ([(4096, 4104), (4152, 4160)], [(4104, 4152)], 0, []), ([(4096, 4104), (4152, 4160)], [(4120, 4128)], 2, []),
        ([(4120, 4128)], [(4096, 4104), (4144, 4160)], 1, [MAX]), ([(4120, 4136)], [(4096, 4104)], 1, []),
    ]:
        r = record(*lands(ARENA, listed, held, spare, odd, 77))
        assert (r.answer, r.moved, r.stop, r.list.head) == (0, len(listed), 0, 0)
    assert record(*lands(fixed(8192, 8192, 4096), [], [], 0, [3])).answer == 0
    assert record(*lands(fixed(48, 128, 16), [(64, 80), (96, 128)], [(80, 96)])).block.bytes == 64
    assert record(*lands(fixed(TOP - 64, TOP), [(TOP - 8, TOP)], [(TOP - 64, TOP - 8)])).moved == 1
    every_second = [(8 + 16 * k, 16 + 16 * k) for k in range(32)]
    assert record(*lands(fixed(8, 520), every_second, [], 32)).moved == 32
    assert record(*lands(fixed(8, 520), every_second, [], 31, [2])).moved == 31


def stops():
    """Flushes that stop: by 3, with ranges that merge at the full table before it; by 1, wherever the two overlap."""
    three = [(16, 24), (32, 48), (56, 80)]
    for listed, held, spare, moved, stop in [
        (three, [], 0, 0, 3), (three, [], 1, 1, 3), (three, [], 2, 2, 3), ([(16, 80)], [], 0, 0, 3),
        # The first merges above, the second closes a gap, the third is apart.
        ([(16, 24), (32, 40), (56, 64), (72, 80)], [(24, 32), (40, 48)], 0, 3, 3),
        ([(24, 32), (40, 48), (64, 72)], [(16, 24), (32, 40)], 0, 3, 0),
        ([(24, 32), (48, 56)], [(16, 24)], 0, 1, 3), ([(32, 40), (48, 56)], [(16, 24)], 0, 0, 3),
        # Its last would merge, but the one before it is refused.
        ([(32, 40), (64, 72)], [(16, 24), (48, 64)], 0, 0, 3),
        # Room for one more, which the first takes; the second merges; the third is apart.
        ([(16, 24), (40, 48), (64, 72)], [(48, 56)], 1, 2, 3),
        # The list's range is the table's; is within it; has it within; reaches into it from below, from above; has two within.
        ([(24, 32)], [(24, 32)], 1, 0, 1), ([(32, 40)], [(24, 48)], 1, 0, 1),
        ([(24, 48)], [(32, 40)], 1, 0, 1), ([(24, 40)], [(32, 48)], 1, 0, 1),
        ([(32, 48)], [(24, 40)], 1, 0, 1), ([(16, 80)], [(24, 32), (48, 56)], 1, 0, 1),
        # The second is refused; the second, after one that merges; the third.
        ([(16, 24), (40, 48), (64, 72)], [(40, 48)], 2, 1, 1),
        ([(16, 24), (40, 56), (64, 72)], [(24, 32), (48, 56)], 0, 1, 1),
        ([(16, 24), (32, 40), (72, 80)], [(56, 80)], 2, 2, 1),
        # 1 before 3 at a full table.
        ([(16, 32)], [(24, 32)], 0, 0, 1), ([(32, 48), (64, 72)], [(40, 56)], 0, 0, 1),
        ([(24, 32), (40, 80)], [(16, 24), (48, 56)], 0, 1, 1),
    ]:
        for odd, fill in (([], 77), ([24], MAX)):
            r = record(*lands(SHORT, listed, held, spare, odd, fill))
            assert (r.answer, r.moved, r.stop, r.list.ranges) == (0, moved, stop, len(listed) - moved)
            assert r.list.head == (listed[moved][0] if stop else 0)


def every_pair():
    """Every list and every table of three units, at each capacity up to 2."""
    for listed in every_set(8, 3):
        for held in every_set(8, 3):
            for room in range(len(held), 3):
                record(*lands(fixed(8, 32), listed, held, room - len(held)))


def faults():
    """Lists and tables with no fault, a wrong set-up, or a fault of soundness, in all pairs."""
    h, words, g, nodes = lands(SHORT, [(16, 24), (40, 56)], [(24, 32), (64, 72)], 1, [6])
    lists = [
        (0, h, words), (5, h._replace(align=4), words), (5, h, words[:-1]), (5, h, words + [0]), (6, h._replace(ranges=1), words),
        (6, h._replace(head=20), words), (6, h, [*words[:3], 1, *words[4:]]), (6, h, [*words[:4], 48, *words[5:]]),
    ]
    tables = [
        (0, g, nodes), (5, g._replace(align=8192), nodes), (5, g._replace(limit=8), nodes), (6, g._replace(ranges=MAX), nodes),
        (6, once_noted(g._replace(bytes=15)), nodes), (6, g, [*nodes[:5], 1, 6]), (6, g, [24, 32, 32, 40, 0, 0, 6]),
    ]
    for of_list, a, b in lists:
        for of_table, c, d in tables:
            # Of a 5 and a 6, the 5 is given.
            assert record(a, b, c, d).answer == min([n for n in (of_list, of_table) if n], default=0)
    # Wrong set-ups that both lands have.
    for bad in (fixed(16, 32, 24), fixed(0, 16), fixed(20, 36), fixed(32, 16), fixed(TOP, TOP + 8)):
        assert record(bad, [0] * max(0, (bad.limit - bad.base) // 8), bad, [0, 0]).answer == 5


def differences():
    """Two good lands whose base, limit or alignment differ, alone and with a fault of soundness."""
    for a, b in [
        (ARENA, fixed(4104, 4160)), (ARENA, fixed(4088, 4160)), (ARENA, fixed(4096, 4152)), (ARENA, fixed(4096, 4168)),
        (ARENA, fixed(4096, 4160, 16)), (fixed(4096, 4160, 16), ARENA), (fixed(4096, 4160, 64), fixed(4096, 4160, 32)),
        (fixed(4096, 4096), fixed(8192, 8192)), (fixed(4096, 4096), fixed(4096, 8192)), (ARENA, fixed(8, TOP)),
    ]:
        words = [0] * ((a.limit - a.base) // 8)
        assert record(a, words, b, [0, 0]).answer == 5
        assert record(a._replace(ranges=1), words, b, [0, 0]).answer == 5
        assert record(a, words, b._replace(bytes=8), [0, 0]).answer == 5
        assert record(a._replace(head=4097), words, b, [0, 8]).answer == 5
    # A table that holds what the list has, in an arena that is larger at one end.
    h, words, _, _ = lands(ARENA, [(4096, 4160)], [])
    for limit in (4160, 4168):
        r = record(h, words, *block_model.laid(fixed(4096, limit), [0, 0], []))
        assert (r.answer, r.moved) == ((0, 1) if limit == 4160 else (5, 0))


def low_waters():
    """Low water is read once for each land, not at each range; and marks and low waters that are not sound."""
    three = [(16, 24), (32, 48), (64, 72)]
    new = (0, 0)
    for of_list, of_block, held, spare, then_list, then_block in [
        # Into a land without a mark: the sum, not the first range. A list that is emptied keeps its mark.
        (32, new, [], 3, 0, (1, 32)), (32, new, [], 2, 8, (1, 24)), (24, new, [], 1, 24, (1, 8)), (16, new, [], 1, 16, (1, 8)),
        # Into a land with a mark.
        (32, (1, 0), [], 3, 0, (1, 0)), (0, (1, 8), [(24, 32)], 2, 0, (1, 8)), (32, (1, 3), [(24, 32)], 1, 0, (1, 3)),
        # None is moved: by 3, by 1.
        (32, new, [], 0, 32, new), (20, (1, 0), [], 0, 20, (1, 0)), (0, (1, 8), [(16, 24)], 2, 0, (1, 8)),
    ]:
        h, words, g, nodes = lands(SHORT, three, held, spare)
        r = record(h._replace(low=of_list), words, g._replace(filled=of_block[0], low=of_block[1]), nodes)
        assert (r.answer, r.list[6:], r.block[6:]) == (0, (1, then_list), then_block)
    # An empty list, with a mark and without, into a land that has none either.
    for filled in (0, 1):
        h, words, g, nodes = lands(SHORT, [], [], 1)
        r = record(h._replace(filled=filled), words, g, nodes)
        assert (r.answer, r.list.filled, r.block.filled) == (0, filled, 0)
    h, words, g, nodes = lands(SHORT, three, [(48, 56)], 1)
    for filled, low in bad_low_waters(32):
        assert record(h._replace(filled=filled, low=low), words, g, nodes).answer == 6
    for filled, low in bad_low_waters(8):
        assert record(h, words, g._replace(filled=filled, low=low), nodes).answer == 6
    # 5 of the block land before 6 of the list.
    assert record(h._replace(low=33), words, g._replace(align=16), nodes).answer == 5
    assert record(h._replace(low=33), words, g._replace(low=9, limit=72), nodes).answer == 5


def random_ranges(h, thin):
    """Some units of an arena, of which one in `thin` is taken, as isolated ranges."""
    return joined([(b, b + h.align) for b in range(h.base, h.limit, h.align) if dice.below(thin) == 0])


def random_pairs():
    """Lists and tables by chance: mostly apart, some that overlap, with more room or less."""
    for i in range(55):
        align = dice.one_of([8, 8, 8, 16, 32])
        base = align * dice.one_of([1, 2, 100])
        h = fixed(base, base + align * (4 + dice.below(12 if align == 8 else 6)), align)
        held = random_ranges(h, 4)
        listed = random_ranges(h, 2)
        if i % 5:
            taken = {b for r in held for b in range(*r, align)}
            listed = joined([(b, b + align) for r in listed for b in range(*r, align) if b not in taken])
        words = dice.junk((h.limit - h.base) // 8)
        g, nodes = table(h, held, dice.below(4), dice.one_of([[], [dice.below(99)]]))
        h, words = list_model.laid(h, words, listed)
        record(low_water_in_turn(h, i), words, low_water_in_turn(g, i + 1), nodes)


def histories():
    """Calls on a list and a table in turn, with flushes between them."""
    lists, tables = Player(list_model, 23), Player(block_model, 24)
    for h, count in ((ARENA, 4), (fixed(8, 104), 7), (fixed(32, 256, 32), 5), (fixed(TOP - 96, TOP), 2)):
        one = lists.record(OPEN, h, dice.junk((h.limit - h.base) // 8))
        two = tables.record(OPEN, h, dice.junk(count))
        totals, others = [], []
        for _ in range(3):
            for _ in range(3):
                op, a, b = lists.change(one.handle, list_model.met(one.handle, one.words), dice.one_of([INSERT, INSERT, DELETE]))
                one = lists.record(op, one.handle, one.words, a, b)
                totals += [] if one.answer else [one.handle.bytes]
            r = record(one.handle, one.words, two.handle, two.words)
            one = one._replace(handle=r.list, words=r.words)
            two = two._replace(handle=r.block, words=r.nodes)
            op, mode = dice.one_of([(FIRST, LOW), (LAST, LOW), (LARGEST, LOW), (DELETE, None)])
            _, a, b = (op, h.align, mode) if op != DELETE else tables.change(two.handle, block_model.met(two.handle, two.words), op)
            two = tables.record(op, two.handle, two.words, a, b)
            totals += [r.list.bytes]
            others += [r.block.bytes] + ([] if two.answer else [two.handle.bytes])
            assert (one.handle[6:], two.handle[6:]) == (low_water(totals), low_water(others))


def write():
    """Adds the records, always the same in the same order."""
    moves()
    stops()
    every_pair()
    faults()
    differences()
    low_waters()
    random_pairs()
    histories()
