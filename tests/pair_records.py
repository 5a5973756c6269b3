"""The records of the pair: the worked examples of the requests K4 and K10, every pair of small sets, refusals in their order,
lands that overlap or touch, and histories.

A record is one line: 31 to 35 (insert, delete, find first, last, largest), the numbers of a flush (flush_records.py), A B C.
Its line of output is the answer, both handles, the range, the old range, the node words and the arena words afterwards.
"""

from collections import Counter

import block_model
import list_model
from flush_records import lands
from pair_model import FIRST_OP, Lands, overlap, pair_call
from records import ARENA, Dice, LENT, SHORT, add, every_set, fixed, low_water, low_water_in_turn, once_noted
from set_model import DELETE, ENTIRE, FINDS, FIRST, HIGH, INSERT, LARGEST, LAST, LOW, MAX, NONE, NO_RANGE, joined

dice = Dice(33)
ways_seen = Counter()


def held(p):
    """The ranges of both lands of a sound pair."""
    return list_model.met(p.list, p.words), block_model.met(p.block, p.nodes)


def way(op, p, r):
    """The way that an accepted call took."""
    (listed, tabled), (left, grown) = held(p), held(r.lands)
    if op == INSERT:
        return "into the list" if r.range in left else "into the block land"
    if op == DELETE:
        return "handed over" if r.range in tabled and left != listed else "out of one land"
    return "found in the list" if r.old in listed else "found in the block land"


def record(op, p, a=0, b=0):
    """Adds a record of a call of the pair, and answers what it must give."""
    assert len(p.words) <= LENT and len(p.nodes) <= LENT
    r = pair_call(op, p, a, b)
    after = r.lands
    if r.answer:
        assert (after, r.range, r.old) == (p, NO_RANGE, NO_RANGE)
    else:
        assert not overlap(after)
        assert op not in FINDS or b != NONE or after == p
        ways_seen[way(op, p, r)] += 1
    numbers = [*p.list, len(p.words), *p.words, 0, *p.block, len(p.nodes), *p.nodes, a, b, 0]
    add(FIRST_OP + op, numbers, [r.answer, *after.list, *after.block, *r.range, *r.old, *after.nodes, *after.words])
    return r


def pair(h, listed, tabled, room, odd=(), fill=0):
    """A sound pair, whose block land has room for so many ranges."""
    return Lands(*lands(h, listed, tabled, room - len(tabled), odd, fill))


def example(listed, tabled, op, a, b, answer, found, then_listed, then_tabled):
    """A worked example at capacity 1: the ranges before, a call, its answer and range, the ranges after."""
    r = record(op, pair(ARENA, listed, tabled, 1, fill=9), a, b)
    assert (r.answer, r.range, *held(r.lands)) == (answer, found, then_listed, then_tabled)


def examples():
    """The worked examples of the request."""
    grain, above = [(4096, 4104)], [(4112, 4128)]
    # The flush may use up the room.
    example(grain, [], INSERT, 4112, 4128, 0, (4112, 4128), above, grain)
    # No second flush, though the range of the list would now fit.
    example([(4112, 4120)], grain, INSERT, 4104, 4112, 0, (4096, 4112), [(4112, 4120)], [(4096, 4112)])
    # The upper fragment merges with the list's range.
    example([(4120, 4128)], [(4096, 4120)], DELETE, 4104, 4112, 0, (4096, 4120), above, grain)
    # A run across both lands.
    across = ([(4112, 4120)], [(4096, 4112)])
    example(*across, FIRST, 24, LOW, 2, NO_RANGE, *across)
    example(*across, LAST, 24, HIGH, 2, NO_RANGE, *across)
    example(*across, DELETE, 4104, 4120, 7, NO_RANGE, *across)
    example(*across, DELETE, 4104, 4128, 1, NO_RANGE, *across)
    # The lower base among equals, in either land.
    example([(4112, 4120)], grain, LARGEST, 8, ENTIRE, 0, (4096, 4104), [(4112, 4120)], [])
    example(grain, [(4112, 4120)], LARGEST, 8, ENTIRE, 0, (4096, 4104), [], [(4112, 4120)])


def low_waters():
    """The example of request K10 from openings at capacity 1, further calls on it, and a block land without a mark."""
    p = pair(ARENA, [], [], 1, fill=9)
    assert (p.list, p.block) == (ARENA, ARENA)
    # The call, and the bytes, mark and low water that it leaves the list and the block land.
    for op, a, b, of_list, of_block in [
        (INSERT, 4096, 4104, (0, 0, 0), (8, 1, 8)),
        (INSERT, 4112, 4128, (16, 1, 16), (8, 1, 8)),
        (DELETE, 4096, 4104, (16, 1, 16), (0, 1, 0)),
        # The inner flush empties the list for a moment, then 16 bytes go into it.
        (INSERT, 4136, 4152, (16, 1, 16), (16, 1, 0)),
        (INSERT, 4096, 4104, (24, 1, 16), (16, 1, 0)),
        (LAST, 8, NONE, (24, 1, 16), (16, 1, 0)),
        (DELETE, 4136, 4152, (8, 1, 8), (16, 1, 0)),
        (FIRST, 16, HIGH, (8, 1, 8), (0, 1, 0)),
        # The inner flush empties the list, and the range goes into the block land.
        (INSERT, 4104, 4120, (0, 1, 0), (24, 1, 0)),
    ]:
        r = record(op, p, a, b)
        p = r.lands
        assert (r.answer, p.list[5:], p.block[5:]) == (0, of_list, of_block)
    # The block land gets its first bytes by the inner flush: low water is what the whole call leaves.
    p = record(INSERT, pair(ARENA, [(4096, 4104), (4120, 4128)], [], 3), 4144, 4152).lands
    assert (p.list[5:], p.block[5:]) == ((0, 1, 0), (24, 1, 24))
    # A fragment that is handed over is the first of the list.
    p = record(DELETE, pair(ARENA, [], [(4096, 4120)], 1), 4104, 4112).lands
    assert (p.list[5:], p.block[5:]) == ((8, 1, 8), (8, 1, 8))


def apart_sets(base, count):
    """Every two sets of `count` units with no unit in both."""
    for listed in every_set(base, count):
        for tabled in every_set(base, count):
            if not set(units(listed)) & set(units(tabled)):
                yield listed, tabled


def units(ranges):
    return [b for r in ranges for b in range(*r, 8)]


def every_pair():
    """Every pair of three units at capacity 1, with one call that goes through the calls in turn."""
    calls = [(op, a, b) for a, b in ((8, 16), (16, 24), (24, 32), (8, 32)) for op in (INSERT, DELETE)]
    calls += [(op, size, mode) for op in FINDS for size, mode in ((8, LOW), (16, HIGH), (8, NONE), (24, ENTIRE))]
    turn = 0
    for listed, tabled in apart_sets(8, 3):
        if len(tabled) <= 1:
            for _ in range(8):
                p = pair(fixed(8, 32), listed, tabled, 1)
                p = p._replace(list=low_water_in_turn(p.list, turn), block=low_water_in_turn(p.block, turn // 7))
                record(calls[turn % 20][0], p, *calls[turn % 20][1:])
                turn += 7
    assert turn > 7 * 20


def splits():
    """Deletes inside the range of a full block land, below a range of the list that touches or not; and across both."""
    h = fixed(8, 64)
    for listed in ([], [(40, 48)], [(48, 56)], [(40, 56)], [(40, 64)]):
        p = pair(h, listed, [(8, 40)], 1)
        for a, b in ((16, 24), (16, 32), (24, 32), (8, 16), (32, 40)):
            r = record(DELETE, p, a, b)
            assert (r.answer, r.range) == (0, (8, 40))
            assert held(r.lands)[1] == joined([(8, a)] if a > 8 else [(b, 40)])
        for a, b in ((32, 48), (8, 56), (24, 64)):
            whole = listed and listed[0][0] == 40 and b <= listed[0][1]
            assert record(DELETE, p, a, b).answer == (7 if whole else 1)


def requests():
    """Ranges and sizes that break the rules, before 1 and 2."""
    for p in (pair(SHORT, [], [], 1), pair(SHORT, [(32, 40)], [(16, 32)], 1)):
        for op in FINDS:
            for size in (4, 12, MAX):
                assert record(op, p, size, dice.below(4)).answer == 4
        for op in (INSERT, DELETE):
            for a, b in ((16, 16), (16, 88), (32, 24), (20, 32), (0, 8), (MAX - 7, 8)):
                assert record(op, p, a, b).answer == 4
        for op in FINDS:
            assert record(op, p, 0, NONE).answer == (4 if op != LARGEST else 0 if p.list.ranges else 2)


def refusals():
    """5, 6, 6 for lands that overlap, 4, in this order; lands that touch are no fault."""
    good = pair(SHORT, [(16, 24), (40, 56)], [(24, 32), (64, 72)], 3, [6])
    wrong = [
        (5, good._replace(list=good.list._replace(align=4))), (5, good._replace(words=good.words[:-1])),
        (5, good._replace(block=good.block._replace(limit=8))), (5, good._replace(block=good.block._replace(limit=88))),
        (5, good._replace(block=good.block._replace(align=16))), (5, good._replace(block=good.block._replace(base=8))),
        (6, good._replace(list=good.list._replace(ranges=1))), (6, good._replace(list=good.list._replace(head=20))),
        (6, good._replace(block=once_noted(good.block._replace(bytes=15)))), (6, good._replace(nodes=[*good.nodes[:5], 1, 6])),
        (6, good._replace(list=good.list._replace(filled=2))), (6, good._replace(list=good.list._replace(low=25))),
        (6, good._replace(list=good.list._replace(filled=0, low=0))), (6, good._replace(block=good.block._replace(filled=MAX))),
        (6, good._replace(block=good.block._replace(low=17))), (6, good._replace(block=good.block._replace(filled=0, low=0))),
        (6, pair(SHORT, [(24, 48)], [(32, 40)], 1)), (6, pair(SHORT, [(32, 40)], [(24, 48)], 1)),
        (6, pair(SHORT, [(16, 24), (64, 80)], [(24, 32), (40, 72)], 2)),
        (4, good), (4, pair(SHORT, [(32, 40)], [(24, 32), (40, 80)], 2)),
    ]
    for number, p in wrong:
        for op in (INSERT, DELETE):
            assert record(op, p, 16, 20).answer == number
        for op in FINDS:
            assert record(op, p, 12, LOW).answer == number
    # 5 before 6, whichever land has them.
    torn = good._replace(list=good.list._replace(ranges=1))
    assert record(INSERT, torn._replace(block=good.block._replace(align=4))).answer == 5
    assert record(DELETE, torn._replace(block=good.block._replace(limit=88))).answer == 5


def spots(h):
    return range(h.base, h.limit, h.align)


def request(h):
    """A call with its numbers: mostly a good one."""
    kind = dice.below(10)
    if kind < 7:
        a = dice.one_of(spots(h))
        b = min(h.limit, a + h.align * (1 + dice.below(3))) + (4 if dice.below(20) == 0 else 0)
        return INSERT if kind < 4 else DELETE, a, b
    return dice.one_of(FINDS), h.align * (1 + dice.below(3)) + (4 if dice.below(20) == 0 else 0), dice.below(4)


def written(p):
    """The host writes a word that is free in neither land."""
    free = {b for r in sum(held(p), []) for b in range(*r, 8)}
    granted = [k for k in range(len(p.words)) if p.list.base + 8 * k not in free]
    words = list(p.words)
    if granted:
        words[dice.one_of(granted)] = dice.one_of([0, 1, 2, 7, 8, 9, 97, MAX])
    return p._replace(words=words)


def histories():
    """Calls one after the other on small arenas, at capacities 0 to 4."""
    for h, room in ((fixed(8, 80), 0), (fixed(8, 80), 1), (fixed(4096, 4176), 2), (fixed(32, 320, 32), 3), (fixed(8, 88), 4)):
        p = pair(h, [], [], room)
        totals = []
        for _ in range(22):
            op, a, b = request(h)
            r = record(op, p, a, b)
            totals += [] if r.answer else [(r.lands.list.bytes, r.lands.block.bytes)]
            assert r.lands.list[6:] == low_water([listed for listed, _ in totals])
            assert r.lands.block[6:] == low_water([tabled for _, tabled in totals])
            p = written(r.lands)


def write():
    """Adds the records, always the same in the same order."""
    examples()
    low_waters()
    every_pair()
    splits()
    requests()
    refusals()
    histories()
