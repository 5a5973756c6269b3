"""The records of the list land: 01's sessions and edges, every insert and delete in a small arena, histories, bad set-ups,
damaged handles, marks and low waters of all kinds, and damaged words."""

from list_model import laid, lent_good, met
import list_model
from records import Player, every_set, once_noted
from set_model import (
    DELETE, ENTIRE, FINDS, FIRST, HIGH, Handle, INSERT, LARGEST, LAST, LOW, MAX, NONE, OPEN, TOP, WALK, fault, fixed_good,
)

player = Player(list_model, 20)
dice, record, on_damage = player.dice, player.record, player.on_damage


def arena(base, count, align=8, ranges=()):
    """A sound handle and words that hold these ranges; the other words are 0."""
    return laid(Handle(base, base + 8 * count, align, 0, 0, 0), [0] * count, list(ranges))


def sessions():
    """The starred sessions of 01 for the list land, with what 01 states of each."""
    r = record(OPEN, Handle(4096, 4160, 8, 0, 0, 0), [0] * 8)
    assert r.answer == 0 and r.handle == (4096, 4160, 8, 0, 0, 0, 0, 0) and r.words == [0] * 8
    none = (0, 0)
    stated = [
        (INSERT, 4096, 4112, 0, (4096, 4112), none, {0: 0, 1: 4112}),
        (INSERT, 4120, 4128, 0, (4120, 4128), none, {0: 4120, 3: 1}),
        (INSERT, 4112, 4120, 0, (4096, 4128), none, {0: 0, 1: 4128, 2: 0, 3: 1}),
        (INSERT, 4104, 4136, 1, none, none, {}),
        (DELETE, 4104, 4112, 0, (4096, 4128), none, {0: 4113, 1: 4128, 2: 0, 3: 4128}),
        (FIRST, 16, LOW, 0, (4112, 4128), (4112, 4128), {0: 1}),
        (LARGEST, 0, NONE, 0, (4096, 4104), (4096, 4104), {}),
        (FIRST, 16, NONE, 2, none, none, {}),
    ]
    for op, a, b, answer, found, old, words in stated:
        before = r
        r = record(op, r.handle, r.words, a, b)
        assert (r.answer, r.range, r.old) == (answer, found, old)
        assert all(r.words[k] == w for k, w in words.items())
        if not words:
            assert (r.handle, r.words) == (before.handle, before.words)
    assert r.words == [1, 4128, 0, 4128, 0, 0, 0, 0] and r.handle == (4096, 4160, 8, 4096, 1, 8, 1, 8)

    # 01's input of the program that plays requests.
    r = record(OPEN, Handle(4096, 4160, 8, 0, 0, 0), [0] * 8)
    for op, a, b, line in [
        (INSERT, 4096, 4112, (0, 4096, 4112)),
        (INSERT, 4120, 4128, (0, 4120, 4128)),
        (FIRST, 16, NONE, (0, 4096, 4112, 4096, 4112)),
        (INSERT, 4120, 4128, (1, 0, 0)),
    ]:
        r = record(op, r.handle, r.words, a, b)
        assert ((r.answer, *r.range, *r.old) if op == FIRST else (r.answer, *r.range)) == line
    assert (r.handle.ranges, r.handle.bytes) == (2, 24)


def edges():
    """The edges of 01 that concern the list land, and others like them."""
    player.edges(arena(4096, 8), arena(4096, 8, 8, [(4096, 4160)]), arena(4096, 8, 8, [(4104, 4112), (4128, 4152)]))
    player.alignments([])
    assert record(OPEN, Handle(4096, 4096, 4096, 0, 0, 0), []).answer == 0
    assert record(OPEN, Handle(TOP, TOP, 4096, 0, 0, 0), []).answer == 0
    for align in (64, 512):
        r = record(OPEN, Handle(512, 1024, align, 0, 0, 0), [0] * 64)
        r = record(INSERT, r.handle, r.words, 1024 - align, 1024)
        r = record(INSERT, r.handle, r.words, 512, 512 + align)
        r = record(LAST, r.handle, r.words, align, HIGH)
        assert r.answer == 0
    # Opening looks at no head, no count, no mark, no low water and no word.
    assert record(OPEN, Handle(4096, 4112, 8, 4097, 9, MAX, 7, MAX), [MAX, 3]).handle == (4096, 4112, 8, 0, 0, 0, 0, 0)


def every_change():
    """Every insert and delete in an arena of four words, on every set of free bytes."""
    base = 8
    for ranges in every_set(base, 4):
        h, words = laid(Handle(base, base + 32, 8, 0, 0, 0), [5, 6, 0, 9], ranges)
        for op in (INSERT, DELETE):
            for i in range(4):
                for j in range(i + 1, 5):
                    assert record(op, h, words, base + 8 * i, base + 8 * j).answer in (0, 1)


def every_find():
    """Finds in every mode in an arena of three words, on every set of free bytes; then two equal largest ranges."""
    base = 8
    for ranges in every_set(base, 3):
        h, words = laid(Handle(base, base + 24, 8, 0, 0, 0), [0, 1, 2], ranges)
        for op in FINDS:
            for mode in (NONE, LOW, HIGH, ENTIRE):
                if op == LARGEST and mode == HIGH:
                    continue
                for size in (8, 16) if mode in (LOW, HIGH) else (8,):
                    record(op, h, words, size, mode)
    h, words = arena(64, 12, 8, [(64, 80), (88, 112), (120, 144), (152, 160)])
    for op in FINDS:
        for size in (0, 8, 16, 24, 32):
            for mode in (LOW, HIGH):
                record(op, h, words, size, mode)
    assert record(LARGEST, h, words, 8, ENTIRE).range == (88, 112)
    assert record(LAST, h, words, 24, ENTIRE).range == (120, 144)


def histories():
    """Calls one after the other from an opening on words of any value."""
    for base, count, align, steps in [
        (8, 2, 8, 7), (8, 5, 8, 16), (4096, 12, 8, 15), (TOP - 48, 6, 8, 10), (48, 10, 16, 19), (TOP - 64, 8, 16, 7),
        (32, 12, 32, 13), (96, 8, 32, 8), (8, 11, 8, 24), (640, 9, 8, 16), (TOP - 64, 8, 32, 7), (16, 12, 16, 16),
    ]:
        words = dice.junk(count)
        if base == 8:
            words[1] = MAX
        player.history(Handle(base, base + 8 * count, align, 0, 0, 0), words, steps)


def bad_set_ups():
    """Fixed fields and lent lengths that break the arena rules, also with a list that is not sound and a bad request."""
    one = [0, 4112]
    for i, (h, words) in enumerate([
        (Handle(4096, 4112, 0, 0, 0, 0), one), (Handle(4096, 4112, 4, 0, 0, 0), one), (Handle(4096, 4112, 1, 0, 0, 0), one),
        (Handle(24, 48, 24, 0, 0, 0), [0] * 3), (Handle(48, 72, 12, 0, 0, 0), [0] * 3), (Handle(8192, 8192, 8192, 0, 0, 0), []),
        (Handle(4096, 4112, MAX, 0, 0, 0), one), (Handle(4096, 4112, 2**63, 0, 0, 0), one),
        (Handle(0, 16, 8, 0, 0, 0), one), (Handle(0, 0, 8, 0, 0, 0), []), (Handle(0, 32, 16, 0, 0, 0), [0] * 4),
        (Handle(4100, 4116, 8, 0, 0, 0), one), (Handle(4104, 4128, 16, 0, 0, 0), [0] * 3),
        (Handle(4112, 4096, 8, 0, 0, 0), []), (Handle(4112, 4096, 8, 0, 0, 0), one), (Handle(4096, 8, 8, 0, 0, 0), one),
        (Handle(TOP - 8, TOP + 8, 8, 0, 0, 0), one), (Handle(TOP, TOP + 8, 8, 0, 0, 0), [0]), (Handle(TOP + 8, TOP + 8, 8, 0, 0, 0), []),
        (Handle(2**64 - 16, 2**64 - 8, 8, 0, 0, 0), [0]), (Handle(8, 2**64 - 8, 8, 0, 0, 0), one), (Handle(8, MAX, 8, 0, 0, 0), one),
        (Handle(4096, 4116, 8, 0, 0, 0), one), (Handle(4096, 4113, 8, 0, 0, 0), one), (Handle(4096, 4120, 16, 0, 0, 0), [0] * 3),
        (Handle(4096, 4112, 8, 0, 0, 0), [0]), (Handle(4096, 4112, 8, 0, 0, 0), [0] * 3), (Handle(4096, 4112, 8, 0, 0, 0), []),
        (Handle(4096, 4096, 8, 0, 0, 0), [0]), (Handle(4096, 4160, 32, 0, 0, 0), [0] * 7),
        (Handle(8, 8 + 2**35, 8, 0, 0, 0), []),
    ]):
        assert record(OPEN, h, words).answer == 5
        op = (INSERT, DELETE, FIRST, LAST, LARGEST, WALK)[i % 6]
        assert record(op, h, words, h.base, h.limit if op in (INSERT, DELETE) else 0).answer == 5
        op = (INSERT, DELETE, FIRST, LAST, LARGEST, WALK)[(i + 2) % 6]
        damaged = h._replace(head=dice.one_of([h.base, 3, MAX]), ranges=1, bytes=16)
        assert record(op, damaged, words, dice.one_of([8, 12, 0]), dice.below(4)).answer == 5


def some_lands():
    """Sound lists to damage."""
    return [
        arena(4096, 8, 8, [(4096, 4112), (4120, 4128), (4136, 4160)]),
        arena(8, 7, 8, [(16, 24), (32, 40), (56, 64)]),
        arena(48, 10, 16, [(48, 64), (96, 128)]),
        arena(32, 8, 32, [(64, 96)]),
        arena(TOP - 16, 2, 8, [(TOP - 8, TOP)]),
    ]


def damaged_handles():
    """A sound list under a handle that does not fit it."""
    for h, words in some_lands():
        for head in (h.head + 1, h.head + 4, h.head + h.align // 2, h.base - h.align, h.limit, h.limit + h.align, 0, 1, 2**63, MAX, MAX - 7):
            on_damage(h._replace(head=head), words)
        for ranges in (h.ranges + 1, h.ranges - 1, 0, MAX, MAX - 1):
            on_damage(h._replace(ranges=ranges), words)
        for size in (h.bytes + 1, h.bytes - 1, h.bytes + h.align, h.bytes - h.align, MAX, 2**63):
            on_damage(once_noted(h._replace(bytes=size)), words)
        on_damage(once_noted(h._replace(ranges=0, bytes=0)), words)
        on_damage(h._replace(head=0, ranges=0), words)
        on_damage(once_noted(h._replace(head=0, bytes=0)), words)
        # These are sound: no ranges at all, or all but the first.
        on_damage(once_noted(h._replace(head=0, ranges=0, bytes=0)), words, None)
        held = met(h, words)
        if len(held) > 1:
            b, e = held[0]
            fewer = once_noted(h._replace(head=held[1][0], ranges=h.ranges - 1, bytes=h.bytes - (e - b)))
            assert fault(list_model, fewer, words) == 0
            on_damage(fewer, words, None)
            on_damage(h._replace(head=held[1][0]), words)


def damaged_words():
    """A sound list with one word of a descriptor changed."""
    for h, words in some_lands():
        held = met(h, words)
        for i, (b, e) in enumerate(held):
            k = (b - h.base) // 8
            far = [b, e, held[0][0], h.base, h.limit, h.limit + h.align, h.base - h.align, MAX - 7, 2**63, e + 4, 2, 4]
            tag = words[k] & 1
            firsts = [words[k] ^ 1] + [x + tag for x in far] + [MAX - 1 + tag]
            seconds = [] if tag else [b + 8, b, b - 8, 0, e + 1, e + 4, e + h.align, e - h.align, h.limit + h.align, MAX - 7, MAX, TOP]
            if i + 1 < len(held):
                seconds += [] if tag else [*held[i + 1]]
            for at, values in ((k, firsts), (k + 1, seconds)):
                for v in dict.fromkeys(values):
                    changed = list(words)
                    changed[at] = v
                    if changed == words or (len(firsts) > 3 and dice.below(5) >= (5 if h.base == 4096 else 2)):
                        continue
                    on_damage(h, changed, 6 if met(h, changed) is None else None)


def one_rule_broken():
    """Lists whose counts agree, so that each breaks one rule only."""
    for h, words in [
        # A block of 8 bytes; of no bytes; that ends before it starts, with a count that wraps.
        (Handle(4096, 4128, 8, 4096, 1, 8), [0, 4104, 0, 0]),
        (Handle(4096, 4128, 8, 4104, 1, 8), [0, 0, 4112, 0]),
        (Handle(4096, 4128, 8, 4096, 1, 0), [0, 4096, 0, 0]),
        (Handle(4096, 4128, 8, 4104, 1, 2**64 - 8), [0, 0, 4096, 0]),
        # A grain at alignment 16, and in the second place.
        (Handle(4096, 4128, 16, 4096, 1, 8), [1, 0, 0, 0]),
        (Handle(4096, 4160, 16, 4096, 2, 24), [4128, 4112, 0, 0, 1, 0, 0, 0]),
        # Ranges that touch: two blocks, two grains, a grain and a block; ranges that overlap.
        (Handle(4096, 4128, 8, 4096, 2, 32), [4112, 4112, 0, 4128]),
        (Handle(4096, 4128, 8, 4096, 2, 16), [4105, 1, 0, 0]),
        (Handle(4096, 4128, 8, 4096, 2, 24), [4105, 0, 4120, 0]),
        (Handle(4096, 4128, 8, 4096, 2, 40), [4112, 4120, 0, 4128]),
        # A block tag in the arena's last word.
        (Handle(4096, 4128, 8, 4120, 1, 8), [0, 0, 0, 0]),
        (Handle(4096, 4128, 8, 4120, 1, 16), [0, 0, 0, 0]),
        (Handle(4096, 4112, 8, 4104, 1, 8), [0, 4112]),
        (Handle(8, 16, 8, 8, 1, 8), [0]),
        # Blocks that end above the arena, or unaligned.
        (Handle(4096, 4128, 8, 4096, 1, 40), [0, 4136, 0, 0]),
        (Handle(TOP - 32, TOP, 8, TOP - 32, 1, 40), [0, TOP + 8, 0, 0]),
        (Handle(4096, 4128, 8, 4096, 1, 2**64 - 4104), [0, 2**64 - 8, 0, 0]),
        (Handle(4096, 4128, 8, 4096, 1, 20), [0, 4116, 0, 0]),
        (Handle(4096, 4128, 16, 4096, 1, 24), [0, 4120, 0, 0]),
        # Ranges that start unaligned, below or above the arena.
        (Handle(4096, 4128, 8, 4100, 1, 12), [0, 4112, 0, 0]),
        (Handle(4096, 4128, 8, 4100, 1, 8), [1, 0, 0, 0]),
        (Handle(4096, 4128, 16, 4104, 1, 24), [0, 0, 4128, 0]),
        (Handle(4096, 4128, 8, 4088, 1, 16), [0, 4104, 0, 0]),
        (Handle(4096, 4128, 8, 8, 1, 8), [1, 1, 1, 1]),
        (Handle(4096, 4128, 8, 4128, 1, 8), [1, 1, 1, 1]),
        # Words that point back, to themselves, and round in a ring.
        (Handle(4096, 4128, 8, 4112, 2, 24), [0, 4112, 4097, 0]),
        (Handle(4096, 4128, 8, 4096, 1, 8), [4097, 0, 0, 0]),
        (Handle(4096, 4128, 8, 4096, 2, 32), [4096, 4112, 0, 0]),
        (Handle(4096, 4128, 8, 4096, 2, 16), [4113, 0, 4097, 0]),
        # The last with a next.
        (Handle(4096, 4128, 8, 4096, 1, 8), [MAX, 0, 0, 0]),
        (Handle(4096, 4128, 8, 4096, 1, 16), [4128, 4112, 0, 0]),
        (Handle(4096, 4128, 8, 4096, 1, 16), [8, 4112, 0, 0]),
        (Handle(4096, 4128, 8, 4096, 1, 8), [4121, 0, 0, 1]),
    ]:
        assert fixed_good(h) and lent_good(h, words)
        h = once_noted(h)
        on_damage(h, words)
        # 6 wins over 4.
        assert record(INSERT, h, words, 4096, 4096).answer == 6
        assert record(FIRST, h, words, 12, LOW).answer == 6
    # And lists that no call here made, but sound: a grain in the last word, a block to the arena's end.
    assert record(WALK, Handle(4096, 4128, 8, 4120, 1, 8, 1, 8), [MAX, MAX, MAX, 1], 0).range == (4120, 4128)
    assert record(DELETE, Handle(TOP - 32, TOP, 16, TOP - 16, 1, 16, 1, 0), [MAX, MAX, 0, TOP], TOP - 16, TOP).answer == 0


def write():
    """Adds the records, always the same in the same order."""
    sessions()
    edges()
    every_change()
    every_find()
    histories()
    bad_set_ups()
    damaged_handles()
    player.low_waters(arena(16, 8), arena(16, 8, 8, [(16, 32), (48, 56)]))
    damaged_words()
    one_rule_broken()
