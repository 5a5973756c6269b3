"""The words of the list land, by document 01."""

from set_model import Handle, noted, total

FIRST_OP = 0


def lent_good(h, words):
    return len(words) * 8 == h.limit - h.base


def opened(words):
    """Opening writes no word."""
    return words


def fits(_ranges, _words):
    """A list has no capacity."""
    return True


def met(h, words):
    """The ranges that the walk from head meets, or None where the list is not sound."""
    ranges = []
    at = h.head
    while at != 0:
        if at % h.align or not h.base <= at < h.limit:
            return None
        if ranges and at <= ranges[-1][1]:
            return None
        number = (at - h.base) // 8
        if words[number] & 1:
            end, following = at + 8, words[number] - 1
        elif number + 1 == len(words):
            return None
        else:
            end, following = words[number + 1], words[number]
            if end < at + 16:
                return None
        if end % h.align or end > h.limit:
            return None
        ranges.append((at, end))
        at = following
    if h.ranges != len(ranges) or h.bytes != total(ranges):
        return None
    return ranges


def laid(h, words, ranges):
    """The next handle and the words that hold these isolated ranges, over the words that were there."""
    after = list(words)
    for (b, e), (following, _) in zip(ranges, ranges[1:] + [(0, 0)]):
        number = (b - h.base) // 8
        if e - b == 8:
            after[number] = following + 1
        else:
            after[number] = following
            after[number + 1] = e
    head = ranges[0][0] if ranges else 0
    return noted(h, Handle(h.base, h.limit, h.align, head, len(ranges), total(ranges))), after
