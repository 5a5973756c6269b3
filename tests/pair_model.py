"""A pair of a list land and a block land on one arena, by request K4 of document 02, each land with its own low water, by
request K10."""

from collections import namedtuple

import block_model
import list_model
from flush_model import flush, refusal
from set_model import DELETE, FIRST, INSERT, LARGEST, NONE, NO_RANGE, call, joined, noted, total

# The number of an insert in a record, less INSERT.
FIRST_OP = 30

Lands = namedtuple("Lands", "list words block nodes")
Result = namedtuple("Result", "answer lands range old")


def overlap(p):
    """Some byte is free in both lands."""
    held = list_model.met(p.list, p.words) + block_model.met(p.block, p.nodes)
    return total(joined(held)) != total(held)


def on_list(p, op, a, b):
    """A call on the list land alone."""
    r = call(list_model, op, p.list, p.words, a, b)
    return Result(r.answer, p._replace(list=r.handle, words=r.words), r.range, r.old)


def on_block(p, op, a, b):
    """A call on the block land alone."""
    r = call(block_model, op, p.block, p.nodes, a, b)
    return Result(r.answer, p._replace(block=r.handle, nodes=r.words), r.range, r.old)


def free_bytes(ranges, a, b):
    """How many bytes of [a, b) are in the ranges."""
    return sum(max(0, min(e, b) - max(s, a)) for s, e in ranges)


def shares(p, a, b):
    """How many bytes of [a, b) are free in the list, and how many in the block land."""
    return free_bytes(list_model.met(p.list, p.words), a, b), free_bytes(block_model.met(p.block, p.nodes), a, b)


def insert(p, a, b):
    """Accepted if no byte is free in either; then a flush, then into the block land, and on 3 into the list."""
    bad = on_list(p, INSERT, a, b).answer == 4
    if bad or shares(p, a, b) != (0, 0):
        return Result(4 if bad else 1, p, NO_RANGE, NO_RANGE)
    f = flush(*p)
    flushed = Lands(f.list, f.words, f.block, f.nodes)
    r = on_block(flushed, INSERT, a, b)
    return on_list(flushed, INSERT, a, b) if r.answer == 3 else r


def hand_over(p, a, b):
    """The lower fragment stays in the block land, and the upper goes to the list."""
    old = next(r for r in block_model.met(p.block, p.nodes) if r[0] <= a < r[1])
    less = on_block(p, DELETE, a, old[1])
    more = on_list(less.lands, INSERT, b, old[1])
    assert (less.answer, more.answer) == (0, 0)
    return Result(0, more.lands, old, NO_RANGE)


def delete(p, a, b):
    """On the land that holds the whole range; 1 if some byte is not free, else 7 if neither holds it all."""
    if on_list(p, DELETE, a, b).answer == 4:
        return Result(4, p, NO_RANGE, NO_RANGE)
    listed, tabled = shares(p, a, b)
    if listed + tabled < b - a:
        return Result(1, p, NO_RANGE, NO_RANGE)
    if listed == b - a:
        return on_list(p, DELETE, a, b)
    if tabled < b - a:
        return Result(7, p, NO_RANGE, NO_RANGE)
    r = on_block(p, DELETE, a, b)
    return hand_over(p, a, b) if r.answer == 3 else r


def list_taken(op, one, other):
    """The list's range is taken: the lower, the higher, the longer; among equals the lower."""
    if op == LARGEST and one[1] - one[0] != other[1] - other[0]:
        return one[1] - one[0] > other[1] - other[0]
    return one > other if op not in (FIRST, LARGEST) else one < other


def find(p, op, size, mode):
    """Both lands are asked with none; then the land taken is asked with the mode."""
    one, other = on_list(p, op, size, NONE), on_block(p, op, size, NONE)
    if one.answer and other.answer:
        assert one.answer == other.answer
        return Result(one.answer, p, NO_RANGE, NO_RANGE)
    if other.answer or not one.answer and list_taken(op, one.old, other.old):
        return on_list(p, op, size, mode)
    return on_block(p, op, size, mode)


def pair_call(op, p, a, b):
    """What a call of a pair gives."""
    number = refusal(*p)
    if not number and overlap(p):
        number = 6
    if number:
        return Result(number, p, NO_RANGE, NO_RANGE)
    if op in (INSERT, DELETE):
        r = insert(p, a, b) if op == INSERT else delete(p, a, b)
    else:
        r = find(p, op, a, b)
    if r.answer:
        return r
    # Each land is read after the whole call; what the calls inside it noted is not kept.
    lands = r.lands._replace(list=noted(p.list, r.lands.list), block=noted(p.block, r.lands.block))
    return r._replace(lands=lands)
