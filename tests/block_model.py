"""The words of the block land, by document 01."""

from set_model import Handle, noted, total

FIRST_OP = 10
MOST_NODES = 2097152


def lent_good(_h, words):
    return len(words) <= MOST_NODES


def capacity(words):
    return len(words) // 2


def opened(words):
    """Opening sets the pair words to 0, and leaves an odd last word."""
    return written([], words)


def written(ranges, words):
    """The words of a table: a pair for each range, then pairs of 0, then the odd last word that was there."""
    pairs = ranges + [(0, 0)] * (capacity(words) - len(ranges))
    return [end for pair in pairs for end in pair] + words[2 * capacity(words):]


def fits(ranges, words):
    return len(ranges) <= capacity(words)


def pairs(words):
    return [(words[2 * i], words[2 * i + 1]) for i in range(capacity(words))]


def broken(h, words):
    """The rules of a sound table that this one breaks."""
    if h.ranges > capacity(words):
        return {"count"}
    ranges, rest = pairs(words)[:h.ranges], pairs(words)[h.ranges:]
    rules = {
        "tail": any(pair != (0, 0) for pair in rest),
        "aligned": any(b % h.align or e % h.align for b, e in ranges),
        "non-empty": any(b >= e for b, e in ranges),
        "inside": any(b < h.base or e > h.limit for b, e in ranges),
        "separated": any(e >= b for (_, e), (b, _) in zip(ranges, ranges[1:])),
        "bytes": total(ranges) != h.bytes,
    }
    return {name for name, breaks in rules.items() if breaks}


def met(h, words):
    """The ranges of the table, or None where it is not sound."""
    return None if broken(h, words) else pairs(words)[:h.ranges]


def laid(h, words, ranges):
    """The next handle and the words that hold these isolated ranges."""
    return noted(h, Handle(h.base, h.limit, h.align, 0, len(ranges), total(ranges))), written(ranges, words)
