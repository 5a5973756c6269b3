"""The flush from a list land to a block land, by document 01. By request K10 it counts as one accepted call on each land."""

from collections import namedtuple

import block_model
import list_model
from set_model import INSERT, call, fault, noted

OP = 20

Flushed = namedtuple("Flushed", "answer moved stop list block nodes words")


def refusal(h, words, g, nodes):
    """5 for the list, 5 for the block land, 5 for their difference, 6 for the list, 6 for the block land; or 0."""
    of_list, of_block = fault(list_model, h, words), fault(block_model, g, nodes)
    if 5 in (of_list, of_block) or h[:3] != g[:3]:
        return 5
    return of_list or of_block


def flush(h, words, g, nodes):
    """What a flush gives of a list handle h with its words and a block handle g with its nodes."""
    number = refusal(h, words, g, nodes)
    if number:
        return Flushed(number, 0, 0, h, g, nodes, words)
    left = list_model.met(h, words)
    moved, stop, block, after = 0, 0, g, nodes
    while left and not stop:
        r = call(block_model, INSERT, block, after, *left[0])
        stop = r.answer
        if not stop:
            left = left[1:]
            moved += 1
            block, after = r.handle, r.words
    handle, kept = list_model.laid(h, words, left)
    assert list_model.met(handle, kept) == left
    # What the inserts noted of the block land on the way is not kept.
    return Flushed(0, moved, stop, handle, noted(g, block), after, kept)
