#!/usr/bin/env python3
"""Test input and expected output for the program that plays requests.

    play_cases.py                      write crates/play/stdin and crates/play/stdout
    play_cases.py --check              compare the stored files, write nothing
    play_cases.py --model              play standard input, answers to standard output
    play_cases.py --random BYTES SEED  a random script to standard output

The model marks single free bytes. It follows the paper, not the program.
"""

import io
import os
import sys

TOP = os.path.dirname(os.path.dirname(os.path.abspath(__file__)))
STDIN = os.path.join(TOP, "crates", "play", "stdin")
STDOUT = os.path.join(TOP, "crates", "play", "stdout")


# ---------------------------------------------------------------- the model

ALIGNMENTS = [8, 16, 32, 64, 128, 256, 512, 1024, 2048, 4096]
LARGEST_NUMBER = 2**64 - 1
LARGEST_LIMIT = 2**40
MOST_WORDS = 4096

# The fields after each name: n is a number, m a mode.
FORMS = {
    b"arena": "nnn",
    b"insert": "nn",
    b"delete": "nn",
    b"first": "nm",
    b"last": "nm",
    b"largest": "nm",
    b"walk": "n",
    b"describe": "",
}
MODES = [b"none", b"low", b"high", b"entire"]


def number(field):
    """The value of a decimal field, or None."""
    if not field.isdigit():  # bytes: true for one or more of 0 to 9 only
        return None
    digits = field.lstrip(b"0")  # int() takes no endless zeros
    if len(digits) > 20:
        return None
    value = int(digits or b"0")
    return value if value <= LARGEST_NUMBER else None


def parse(line):
    """Name and values of a line, or None if it is outside the forms."""
    fields = line.split(b" ")
    name = fields[0]
    if name not in FORMS or len(fields) - 1 != len(FORMS[name]):
        return None
    values = []
    for kind, field in zip(FORMS[name], fields[1:]):
        if kind == "n":
            value = number(field)
        else:
            value = field if field in MODES else None
        if value is None:
            return None
        values.append(value)
    return name, values


def arena_is_good(base, limit, align):
    if align not in ALIGNMENTS:
        return False
    if base % align != 0 or limit % align != 0:
        return False
    if base == 0:
        return False
    if not (base <= limit <= LARGEST_LIMIT):
        return False
    return (limit - base) // 8 <= MOST_WORDS


class Land:
    """One mark for each byte of the arena: 1 if it is free."""

    def __init__(self, base, limit, align):
        self.base = base
        self.limit = limit
        self.align = align
        self.free = bytearray(limit - base)

    def isolated(self):
        """All isolated ranges in address order, by a scan of the marks."""
        ranges = []
        at = 0
        while True:
            low = self.free.find(1, at)
            if low < 0:
                return ranges
            at = self.free.find(0, low)
            if at < 0:
                at = len(self.free)
            ranges.append((self.base + low, self.base + at))

    def containing(self, base, limit):
        """The isolated range that contains [base, limit)."""
        found = [r for r in self.isolated() if r[0] <= base and limit <= r[1]]
        assert len(found) == 1
        return found[0]

    def marks(self, base, limit):
        return self.free[base - self.base:limit - self.base]

    def mark(self, base, limit, value):
        self.free[base - self.base:limit - self.base] = bytes([value]) * (limit - base)

    def range_is_good(self, base, limit):
        return (base < limit
                and base % self.align == 0 and limit % self.align == 0
                and self.base <= base and limit <= self.limit)

    def insert(self, base, limit):
        if not self.range_is_good(base, limit):
            return (4, 0, 0)
        if 1 in self.marks(base, limit):
            return (1, 0, 0)
        self.mark(base, limit, 1)
        return (0,) + self.containing(base, limit)

    def delete(self, base, limit):
        if not self.range_is_good(base, limit):
            return (4, 0, 0)
        if 0 in self.marks(base, limit):
            return (1, 0, 0)
        old = self.containing(base, limit)
        self.mark(base, limit, 0)
        return (0,) + old

    def find(self, name, size, mode):
        if size % self.align != 0:
            return (4, 0, 0, 0, 0)
        if size == 0 and name != b"largest":
            return (4, 0, 0, 0, 0)
        ranges = self.isolated()
        if name == b"largest":
            # The longest, and the lowest base among equals; only then the size.
            longest = max([r[1] - r[0] for r in ranges], default=0)
            ranges = [r for r in ranges if r[1] - r[0] == longest][:1]
            if mode in (b"low", b"high"):
                mode = b"entire"
        ranges = [r for r in ranges if r[1] - r[0] >= size]
        if not ranges:
            return (2, 0, 0, 0, 0)
        old = ranges[-1] if name == b"last" else ranges[0]
        found = old
        if mode == b"low":
            found = (old[0], old[0] + size)
        if mode == b"high":
            found = (old[1] - size, old[1])
        if mode != b"none":
            self.mark(found[0], found[1], 0)
        return (0,) + found + old

    def walk(self, at):
        for base, limit in self.isolated():
            if base >= at:
                return (0, base, limit)
        return (2, 0, 0)


def text(values):
    return b" ".join(b"%d" % v for v in values) + b"\n"


class Player:
    def __init__(self):
        self.land = None

    def answer(self, line):
        """What one line prints; the line is given without its newline."""
        request = parse(line)
        if request is None:
            return b"?\n"
        name, values = request
        if name == b"arena":
            if not arena_is_good(*values):
                return text([5])
            self.land = Land(*values)
            return text([0])
        if self.land is None:
            return b"?\n"
        if name == b"insert":
            return text(self.land.insert(*values))
        if name == b"delete":
            return text(self.land.delete(*values))
        if name == b"walk":
            return text(self.land.walk(*values))
        if name == b"describe":
            ranges = self.land.isolated()
            head = (0, len(ranges), self.land.free.count(1))
            return b"".join(text(values) for values in [head] + ranges)
        return text(self.land.find(name, *values))


def play(source, target):
    """Play all lines; one without a newline is not carried out."""
    player = Player()
    for line in source:  # a binary file is split at b"\n" only
        if line.endswith(b"\n"):
            target.write(player.answer(line[:-1]))
        else:
            target.write(b"?\n")


# ------------------------------------------------------------ random choices

class Random:
    """Splitmix, written out, so that no Python version changes a case."""

    def __init__(self, seed):
        self.state = seed % 2**64

    def next(self):
        self.state = (self.state + 0x9E3779B97F4A7C15) % 2**64
        z = self.state
        z = (z ^ (z >> 30)) * 0xBF58476D1CE4E5B9 % 2**64
        z = (z ^ (z >> 27)) * 0x94D049BB133111EB % 2**64
        return z ^ (z >> 31)

    def below(self, n):
        return self.next() % n

    def chance(self, percent):
        return self.below(100) < percent

    def pick(self, items):
        return items[self.below(len(items))]

    def shuffle(self, items):
        for i in range(len(items) - 1, 0, -1):
            j = self.below(i + 1)
            items[i], items[j] = items[j], items[i]


def line_of(*fields):
    return b" ".join(f if isinstance(f, bytes) else b"%d" % f for f in fields)


FAR = [0, 1, 7, 8, 2**32, 2**40 - 8, 2**40, 2**40 + 8, 2**63 - 8, 2**63,
       2**64 - 4096, 2**64 - 8, 2**64 - 1]


def random_arena(rng, words):
    """An arena line; good in most cases, of about 0 to that many words."""
    align = rng.pick([8] * 20 + [16] * 6 + [32] * 3 + ALIGNMENTS)
    most = max(words * 8 // align, 1)
    if align > 64 and rng.chance(30):
        most = min(8, MOST_WORDS * 8 // align)
    length = (most if rng.chance(30) else rng.below(most + 1)) * align
    if length == 0 and rng.chance(70):
        length = align
    base = rng.pick([align, align * (1 + rng.below(9)), 4096 * (1 + rng.below(9)),
                     2**40 - length, align * (1 + rng.below(2**27))])
    limit = base + length
    if rng.chance(25):
        fault = rng.below(10)
        if fault == 0:
            base, limit = 0, length
        elif fault == 1:
            base += rng.pick([1, 4, align // 2])
        elif fault == 2:
            limit += rng.pick([1, 4, align // 2])
        elif fault == 3:
            align = rng.pick([0, 1, 2, 4, 7, 9, 12, 24, 48, 8192, align * 3, align + 8])
        elif fault == 4:
            limit = base - align
        elif fault == 5:
            base = 2**40 - length + align
            limit = 2**40 + align
        elif fault == 6:
            limit = base + rng.pick([32768, 32768 + 8, 32768 + align, 65536])
        elif fault == 7:
            base = rng.pick(FAR)
        elif fault == 8:
            limit = rng.pick(FAR)
        else:
            align = rng.pick(FAR)
    return line_of(b"arena", base, limit, align)


def part_of(rng, land, outer):
    """A range in the outer one, often touching an end of it."""
    units = (outer[1] - outer[0]) // land.align
    low = 0 if rng.chance(30 if units < 5 else 12) else rng.below(units)
    high = low + 1 + rng.below(min(units - low, rng.pick([1, 1, 2, 5])))
    if rng.chance(20 if units < 5 else 3):
        high = units
    return outer[0] + low * land.align, outer[0] + high * land.align


def random_range(rng, land, name):
    """A range for insert or delete: one to be accepted, or near a border."""
    free = land.isolated()
    ends = [land.base] + [a for r in free for a in r] + [land.limit]
    gaps = [(a, b) for a, b in zip(ends[0::2], ends[1::2]) if a < b]
    wanted = gaps if name == b"insert" else free
    if wanted and rng.chance(75):
        base, limit = part_of(rng, land, rng.pick(wanted))
    elif land.limit > land.base and rng.chance(60):
        base, limit = part_of(rng, land, (land.base, land.limit))
    else:
        base = rng.pick(ends)
        limit = rng.pick(ends)
        if base > limit and rng.chance(70):
            base, limit = limit, base
    if rng.chance(9):
        base += rng.pick([-land.align, land.align, -8, 8, -4, 4, -1, 1])
    if rng.chance(9):
        limit += rng.pick([-land.align, land.align, -8, 8, -4, 4, -1, 1])
    if rng.chance(2):
        base = rng.pick(FAR)
    if rng.chance(2):
        limit = rng.pick(FAR)
    return max(base, 0), max(limit, 0)


def random_size(rng, land):
    lengths = [b - a for a, b in land.isolated()]
    size = land.align * (1 + rng.below(4))
    if lengths and rng.chance(55):
        size = rng.pick(lengths)
    if rng.chance(25):
        size += rng.pick([-land.align, land.align, land.align, -8, 8, 4, 1])
    if rng.chance(5):
        size = rng.pick([0, 0, land.limit - land.base, land.limit - land.base + land.align])
    if rng.chance(2):
        size = rng.pick(FAR)
    return max(size, 0)


def random_request(rng, land):
    kind = rng.below(100)
    # More inserts while there are few ranges.
    if kind < 38 or (len(land.isolated()) < 7 and rng.chance(30)):
        return line_of(b"insert", *random_range(rng, land, b"insert"))
    if kind < 60:
        return line_of(b"delete", *random_range(rng, land, b"delete"))
    if kind < 84:
        name = rng.pick([b"first", b"last", b"largest"])
        return line_of(name, random_size(rng, land), rng.pick([b"none"] + MODES))
    if kind < 94:
        ends = [land.base, land.limit] + [a for r in land.isolated() for a in r]
        at = rng.pick(ends) + rng.pick([0, 0, 0, -8, 8, -1, 1, 5])
        return line_of(b"walk", rng.pick(FAR) if rng.chance(8) else max(at, 0))
    return b"describe"


def spoil(rng, line):
    """A line changed a little; nearly always outside the forms."""
    kind = rng.below(9)
    at = rng.below(len(line))
    odd = rng.pick([b"\0", b"\t", b"\r", b" ", b"-", b"+", b"0", b"9", b"x", b"A", b"\xb0",
                    b"\xff"])
    fields = line.split(b" ")
    place = rng.below(len(fields))
    if kind == 0:
        return line[:at] + line[at + 1:]
    if kind == 1:
        return line[:at] + odd + line[at:]
    if kind == 2:
        return line[:at] + odd + line[at + 1:]
    if kind == 3:
        return line + odd
    if kind == 4:
        return b" ".join(fields[:place] + fields[place + 1:])
    if kind == 5:
        return b" ".join(fields[:place] + [fields[place]] + fields[place:])
    if kind == 6:
        fields[place] = rng.pick([b"", b"8", b"low", b"insert", b"describe"])
        return b" ".join(fields)
    if kind == 7:
        return line.replace(b" ", b"  ", 1) if b" " in line else line.upper()
    if fields[place].isdigit():
        fields[place] = b"%d" % (int(fields[place]) + 2**64 * (1 + rng.below(3)))
    return b" ".join(fields)


def random_line(rng, player, words):
    if player.land is None or rng.chance(3):
        line = random_arena(rng, words)
        if player.land is None and rng.chance(60):
            line = random_request(rng, Land(64, 128, 8))
    else:
        line = random_request(rng, player.land)
    if rng.chance(4):
        fields = line.split(b" ")
        line = b" ".join(b"0" * rng.below(30) + f if f.isdigit() else f for f in fields)
    if rng.chance(4):
        line = spoil(rng, line)
    return line


def random_script(size, seed):
    """Lines of about the given size in all; an odd seed leaves the last one open."""
    rng = Random(seed)
    player = Player()
    done = 0
    while done < size:
        words = MOST_WORDS if rng.chance(1) else 64
        line = random_line(rng, player, words)
        player.answer(line)
        done += len(line) + 1
        yield line + b"\n"
    if seed % 2 == 1:
        yield b"describe"


# ------------------------------------------------------------ the stored input

SAMPLE = b"""arena 4096 4160 8
insert 4096 4112
insert 4120 4128
first 16 none
insert 4120 4128
describe
"""


class Script:
    """The input so far, and a player that has played it."""

    def __init__(self):
        self.data = bytearray()
        self.player = Player()
        # Lines that change nothing, to lie across these positions of the input:
        # position, bytes of the line before it, the line.
        self.crossings = []

    def put(self, line):
        assert b"\n" not in line
        self.data += line + b"\n"
        return self.player.answer(line)

    def add(self, *lines):
        for line in lines:
            while self.crossings:
                position, before, good = self.crossings[0]
                start = position - before
                if len(self.data) + len(line) + 1 <= start - 7:
                    break
                # A walk with leading zeros fills up to the start.
                room = start - len(self.data)
                assert 7 <= room < 66000
                self.put(b"walk " + b"0" * (room - 6))
                self.crossings.pop(0)
                self.put(good)
            self.put(line)

    def set_up(self, base, limit, align, ranges):
        """An arena with these ranges; no lines if that is what stands."""
        land = self.player.land
        if (land is None or (land.base, land.limit, land.align) != (base, limit, align)
                or land.isolated() != ranges):
            self.add(line_of(b"arena", base, limit, align))
            for r in ranges:
                self.add(line_of(b"insert", *r))
            assert self.player.land.isolated() == ranges


GOOD = [b"arena 4096 4160 8", b"insert 4136 4144", b"delete 4096 4104", b"first 8 low",
        b"last 8 high", b"largest 8 entire", b"walk 4096", b"describe"]


def misspelt(name):
    """Words near a name."""
    words = []
    for i in range(len(name)):
        words.append(name[:i] + name[i + 1:])
        words.append(name[:i] + name[i:i + 1] + name[i:])
        words.append(name[:i] + name[i:i + 1].upper() + name[i + 1:])
    for i in range(1, len(name)):
        words.append(name[:i])
    words += [name.upper(), name[::-1], name + name, name + b"s", b"a" + name]
    # Lengths of 8, 9 and 16 letters, filled on either side.
    for length in (8, 9, 16):
        fill = length - len(name)
        if fill > 0:
            words += [name + b"a" * fill, b"a" * fill + name,
                      name + b"\0" * fill, b"\0" * fill + name]
    words += [name + b"\0", b"\0" + name, name[:2] + b"\0" + name[2:],
              b"a" * 8 + name, b"\0" * 8 + name, name + b"\0" * 8, name + b"a" * 8]
    seen = []
    for word in words:
        if word != name and word not in seen:
            seen.append(word)
    return seen


BAD_NUMBERS = [b"", b"+8", b"-8", b"-0", b"+", b"-", b"8.0", b"8.", b".8", b"8e0", b"8e3",
               b"0x8", b"0X1000", b"1000h", b"0b1000", b"0o10", b"1_6", b"4,096", b"4'096",
               b"8a", b"a8", b"a", b"ff", b"8/", b"8:", b"/8", b":8", b"\xb8", b"8\xb8",
               b"\xef\xbc\x98", b"\xd9\xa8", b"\xc2\xb2", b"8\0", b"\x008", b"4\x000",
               b"8\r", b"8\t", b"\t8", b"8u64", b"'8'", b"\"8\"", b"(8)", b"*", b"?", b"nan",
               b"inf", b"low", b"none", b"walk", b"describe"]

BORDER_NUMBERS = (list(range(2**64 - 7, 2**64 + 10))
                  + [2**64 - 8, 2**64 - 16, 2**63 - 8, 2**63, 2**63 + 8, 2**64 - 4096,
                     2 * 2**64 - 1, 2 * 2**64, 10**19, 10**20 - 1, 10**20, 10**21 - 1, 10**30,
                     2**128 - 8, 2**128])


def with_field(line, place, field):
    fields = line.split(b" ")
    fields[place] = field
    return b" ".join(fields)


def form_faults():
    """Each form with fields missing, surplus, or joined in another way."""
    lines = []
    for good in GOOD:
        fields = good.split(b" ")
        name = fields[0]
        for i in range(len(fields)):
            lines.append(b" ".join(fields[:i] + fields[i + 1:]))
            lines.append(b" ".join(fields[:i + 1] + fields[i:]))
        for tail in (b" 8", b" 0", b" none", b" low", b" " + name, b" ", b"  ", b"\r", b" \r",
                     b"\t", b"\0", b"\x0b", b"\x0c", b"\xa0", b"\xc2\xa0", b";", b".", b" #",
                     b"\\n", b"?"):
            lines.append(good + tail)
        for front in (b" ", b"  ", b"\t", b"\r", b"\0", b"\xef\xbb\xbf", b"0 ", b"8 ", b"#", b"> "):
            lines.append(front + good)
        for i in range(1, len(fields)):
            for gap in (b"  ", b"\t", b" \t", b"\r", b"\0", b" \0", b",", b", ", b"", b"\xa0",
                        b"\xc2\xa0", b"_", b"   "):
                lines.append(b" ".join(fields[:i]) + gap + b" ".join(fields[i:]))
        if len(fields) > 1:
            lines.append(b" ".join(fields[::-1]))
            lines.append(b" ".join(fields[1:]))
            lines.append(b" ".join(fields[1:] + fields[:1]))
        lines.append(good + b" " + good)
        for i in range(1, len(good)):
            lines.append(good[:i])
        for other in (b"arena", b"insert", b"first", b"walk", b"describe"):
            # The name of one form with the fields of another.
            if other != name:
                lines.append(b" ".join([other] + fields[1:]))
    return lines


def name_faults():
    lines = []
    for good in GOOD:
        name = good.split(b" ")[0]
        for word in misspelt(name):
            lines.append(with_field(good, 0, word))
    for word in (b"find", b"find first", b"open", b"close", b"flush", b"quit", b"exit", b"help",
                 b"free", b"alloc", b"list", b"a", b"z", b"abcdefgh", b"abcdefghi",
                 b"abcdefghijklmnop", b"zzzzzzzz", b"zzzzzzzzz", b"zzzzzzzzzzzzzzzz",
                 b"8", b"0", b"4096 4160", b"4096 4160 8", b"none", b"low 8", b"low 8 first",
                 b"\"describe\"", b"describe()", b"// describe", b"# describe", b"?"):
        lines.append(word)
    return lines


def mode_faults():
    lines = []
    for form in (b"first 8 ", b"last 8 ", b"largest 0 "):
        for word in (b"", b"0", b"8", b"1", b"None", b"LOW", b"hi", b"all", b"any", b"first",
                     b"describe", b"none low", b"low high", b"low 8", b"8 low", b" low", b"low ",
                     b"lowhigh", b"-low", b"low\r", b"low\0", b"l\xf6w"):
            lines.append(form + word)
    for mode in MODES:
        for word in misspelt(mode):
            lines.append(b"first 8 " + word)
    lines += [b"first low 8", b"last none 8", b"largest high 0", b"first low low", b"last 8 last",
              b"largest largest entire", b"insert low high", b"walk low", b"arena low high none"]
    return lines


def number_faults():
    """Other numbers in each numeric place; some of them are good."""
    lines = []
    for good in GOOD:
        fields = good.split(b" ")
        for place in range(1, len(fields)):
            if not fields[place].isdigit():
                continue
            value = int(fields[place])
            for field in BAD_NUMBERS:
                lines.append(with_field(good, place, field))
            for n in BORDER_NUMBERS:
                lines.append(with_field(good, place, b"%d" % n))
            for factor in (1, 2, 3, 5, 10, 2**64):
                # These would be good if the upper part were lost.
                lines.append(with_field(good, place, b"%d" % (factor * 2**64 + value)))
            for n in (2**64 - 1, 2**64, 2**64 - 8, 10**20 - 1):
                lines.append(with_field(good, place, b"0" * 25 + b"%d" % n))
    for good in (b"walk 4096", b"insert 4144 4152", b"delete 4144 4152", b"first 8 none",
                 b"largest 0 none"):
        for zeros in (1, 2, 15, 16, 17, 19, 20, 21, 40):
            fields = good.split(b" ")
            if good[:6] in (b"insert", b"delete"):
                zeros += 50
            lines.append(b" ".join(b"0" * zeros + f if f.isdigit() else f for f in fields))
    lines += [b"insert 4144 4152", b"insert 0004144 0000000000000000000000000000004152",
              b"delete 00000000000000000000000000004144 4152"]
    return lines


def byte_faults():
    """Every byte but the newline in a few places."""
    lines = [b"", b" ", b"  ", b"   ", b" " * 8, b" " * 9, b"\r", b"\t", b"\0" * 8, b"\0" * 16]
    for c in range(256):
        if c != 10:
            lines.append(bytes([c]))
    for c in range(256):
        if c != 10:
            byte = bytes([c])
            lines += [b"describe" + byte, b"wa" + byte + b"k 8", b"walk" + byte + b"8",
                      b"walk 4" + byte + b"96"]
    return lines


def often(lines, between, step):
    """The lines with another one after every few."""
    result = []
    for i, line in enumerate(lines):
        result.append(line)
        if i % step == step - 1:
            result.append(between)
    return result


def refused_arenas():
    words = MOST_WORDS * 8
    pairs = [(0, 0, 8), (0, 64, 8), (0, 4096, 4096), (8, 0, 8), (0, 2**40, 8),
             # above 2^40
             (2**40 - 8, 2**40 + 8, 8), (2**40, 2**40 + 8, 8), (2**40 + 8, 2**40 + 8, 8),
             (2**40 - 64, 2**40 + 4096, 8), (2**40, 2**40 + 4096, 4096),
             (2**41, 2**41 + 64, 8), (2**63, 2**63 + 64, 8), (2**64 - 64, 2**64 - 8, 8),
             (2**64 - 8, 2**64 - 8, 8), (2**64 - 4096, 2**64 - 4096, 4096),
             # the ends not aligned
             (4097, 4160, 8), (4100, 4160, 8), (4096, 4161, 8), (4096, 4164, 8), (4100, 4164, 8),
             (4104, 4160, 16), (4096, 4152, 16), (4104, 4152, 16), (4, 4, 8), (4097, 4097, 8),
             (2048, 4096, 4096), (4096, 6144, 4096), (2048, 6144, 4096), (1, 2, 8),
             # base above limit
             (4160, 4096, 8), (4104, 4096, 8), (8192, 4096, 4096), (2**40, 8, 8),
             (2**64 - 8, 8, 8), (2**64 - 8, 4096, 8), (2**40 + 8, 2**40, 8),
             # too large
             (4096, 4096 + words + 8, 8), (8, 8 + words + 8, 8), (16, 16 + words + 16, 16),
             (4096, 4096 + words + 4096, 4096), (2048, 2048 + words + 2048, 2048),
             (2**40 - words - 8, 2**40, 8), (4096, 4096 + 2 * words, 8), (4096, 2**40, 4096),
             (8, 2**40, 8), (4096, 4096 + 2**32, 8), (4096, 4096 + 2**35, 8),
             # several faults at a time
             (0, 0, 0), (0, 1, 0), (1, 0, 1), (2**64 - 1, 2**64 - 1, 2**64 - 1)]
    for align in (0, 1, 2, 3, 4, 5, 6, 7, 9, 10, 12, 14, 15, 17, 18, 20, 24, 28, 31, 33, 40, 48,
                  56, 63, 65, 72, 96, 127, 192, 255, 320, 511, 768, 1000, 1023, 1025, 1536, 2047,
                  3072, 4064, 4088, 4095, 4097, 4104, 5120, 6144, 8191, 8192, 12288, 16384, 32768,
                  65536, 2**31, 2**32, 2**32 + 8, 2**40, 2**63, 2**63 + 8, 2**64 - 8, 2**64 - 1):
        step = align if 0 < align < 2**40 else 8
        pairs.append((4096 * 3 * step % 2**39, 4096 * 3 * step % 2**39, align))
        pairs.append((4096, 8192, align))
    return [line_of(b"arena", *p) for p in pairs]


def good_arenas():
    words = MOST_WORDS * 8
    pairs = [(8, 8, 8), (8, 16, 8), (4096, 4096, 8), (4096, 4096, 4096), (4096, 8192, 4096),
             (2**40, 2**40, 8), (2**40, 2**40, 4096), (2**40 - 8, 2**40, 8),
             (2**40 - 4096, 2**40, 4096), (2**40 - words, 2**40, 8), (2**40 - words, 2**40, 4096),
             (8, 8 + words, 8), (4096, 4096 + words, 8), (4096, 4096 + words, 4096),
             (16, 16 + words, 16), (4096, 4096 + words - 8, 8), (2**32, 2**32 + 64, 8),
             (2**32 - 32, 2**32 + 32, 32)]
    return pairs


def well_formed_calls():
    return [b"describe", b"walk 0", b"walk 4096", b"walk 18446744073709551615", b"insert 4096 4104",
            b"insert 0 0", b"insert 4104 4096", b"delete 4096 4104", b"first 8 none",
            b"first 8 low", b"last 8 high", b"largest 0 entire", b"largest 0 none", b"first 0 none",
            b"first 12 low"]


def part_2_malformed(script):
    script.add(b"describe")
    lines = form_faults() + name_faults() + mode_faults() + number_faults() + byte_faults()
    script.set_up(4096, 4160, 8, [(4096, 4112), (4120, 4128)])
    script.add(*often(lines, b"describe", 60))
    script.set_up(4096, 4160, 8, [(4096, 4112), (4120, 4128)])
    script.add(b"describe")


def part_2_arenas(script):
    # Refused ones keep the arena and its ranges.
    script.set_up(4096, 4160, 8, [(4096, 4112), (4120, 4128)])
    for line in refused_arenas():
        script.add(line, b"describe")
    script.add(b"insert 4112 4120", b"describe", b"insert 4152 4160", b"delete 4096 4104",
               b"describe")
    # Too large a number is no refused arena.
    for line in (b"arena 18446744073709551616 4160 8", b"arena 0 18446744073709551616 8",
                 b"arena 0 0 18446744073709551616", b"arena 4096 99999999999999999999 8"):
        script.add(line, b"describe")
    # Accepted ones start anew.
    for base, limit, align in good_arenas():
        script.add(line_of(b"arena", base, limit, align), b"describe", b"walk 0",
                   b"largest 0 none", line_of(b"first", align, b"low"),
                   line_of(b"insert", base, limit), line_of(b"insert", base, base + align),
                   line_of(b"walk", base), line_of(b"walk", base + 1), b"describe",
                   line_of(b"last", limit - base, b"none"),
                   line_of(b"last", limit - base + align, b"none"),
                   line_of(b"delete", limit - align, limit), b"describe",
                   line_of(b"insert", limit, limit + align),
                   line_of(b"insert", base - align, base),
                   line_of(b"arena", base, limit, align + 1), b"describe")
    # The same line twice: the second one starts anew too.
    script.add(b"arena 8 72 8", b"insert 8 24", b"arena 8 72 8", b"describe", b"insert 16 32",
               b"describe", b"arena 8 72 7", b"describe", b"arena 0000008 0072 08", b"describe")


def part_2_alignments(script):
    for align in ALIGNMENTS:
        base, limit = 3 * align, 7 * align
        script.add(line_of(b"arena", base, limit, align))
        a = [base + i * align for i in range(5)]
        script.add(line_of(b"insert", a[1], a[2]), line_of(b"insert", a[3], a[4]))
        # Off by 8, 4 and 1; with alignment 8 the first of these is aligned.
        for off in (8, 4, 1):
            script.add(line_of(b"insert", a[0] + off, a[1]), line_of(b"insert", a[0], a[1] + off),
                       line_of(b"insert", a[0], a[1] - off),
                       line_of(b"insert", a[0] + off, a[1] + off),
                       line_of(b"insert", a[0] - off, a[1]),
                       line_of(b"insert", a[0], a[0] + off),
                       line_of(b"delete", a[3] + off, a[4]), line_of(b"delete", a[3], a[4] - off),
                       line_of(b"delete", a[3], a[4] + off),
                       line_of(b"delete", a[3] - off, a[4] - off),
                       line_of(b"first", off, b"none"), line_of(b"first", align + off, b"none"),
                       line_of(b"last", align - off, b"none"),
                       line_of(b"largest", off, b"none"),
                       line_of(b"largest", align - off, b"none"),
                       line_of(b"walk", a[1] - off), line_of(b"walk", a[1] + off), b"describe")
        if align > 8:
            script.add(line_of(b"arena", base + 8, limit, align),
                       line_of(b"arena", base, limit + 8, align),
                       line_of(b"arena", base + 8, limit + 8, align))
        script.add(line_of(b"insert", a[0], a[1]), line_of(b"insert", a[2], a[3]),
                   line_of(b"insert", a[2], a[2] + align), b"describe",
                   line_of(b"first", align, b"low"), line_of(b"last", align, b"high"),
                   line_of(b"largest", 2 * align, b"high"), b"describe")


def part_2_ranges(script):
    """The range rules, and the slips of the paper."""
    three = [(4096, 4104), (4112, 4128), (4136, 4152)]
    cases = [(4096, 4096), (4160, 4160), (4104, 4096), (4160, 4096), (4088, 4096), (4088, 4104),
             (4152, 4168), (4160, 4168), (4088, 4168), (4096, 4168), (4088, 4160), (0, 4096),
             (0, 4160), (0, 0), (0, 8), (4096, 2**40), (4096, 2**64 - 8), (2**64 - 8, 4104),
             (2**64 - 8, 2**64 - 8), (2**64 - 1, 2**64 - 1), (2**64 - 8, 0), (4100, 4104),
             (4096, 4100), (4100, 4108), (4097, 4105), (4103, 4160), (4096, 4159),
             # good ranges
             (4104, 4112), (4128, 4136), (4152, 4160), (4096, 4104), (4112, 4120), (4120, 4128),
             (4112, 4128), (4136, 4144), (4144, 4152), (4136, 4152), (4096, 4160), (4104, 4136),
             (4096, 4128), (4096, 4112), (4104, 4120), (4112, 4144), (4120, 4144), (4128, 4160),
             (4144, 4160)]
    for name in (b"insert", b"delete"):
        for r in cases:
            script.set_up(4096, 4160, 8, three)
            script.add(line_of(name, *r))
            if script.player.land.isolated() != three:
                script.add(b"describe")
        script.add(b"describe")
    # Both ends free and a gap between; both ends taken and a free byte between.
    script.add(b"arena 4096 4160 8", b"insert 4096 4104", b"insert 4152 4160",
               b"delete 4096 4160", b"insert 4104 4152", b"delete 4104 4152", b"insert 4120 4128",
               b"insert 4104 4152", b"insert 4112 4136", b"delete 4096 4160", b"describe",
               b"insert 4104 4120", b"describe", b"insert 4128 4152", b"describe",
               b"delete 4096 4160", b"describe", b"delete 4096 4104", b"walk 0")
    # A block shrinks to a grain at its low end and at its high end, and grows again.
    script.add(b"arena 4096 4160 8", b"insert 4104 4120", b"delete 4112 4120", b"describe",
               b"insert 4112 4120", b"delete 4104 4112", b"describe", b"insert 4096 4112",
               b"describe", b"delete 4104 4112", b"describe", b"delete 4096 4104", b"describe",
               b"delete 4112 4120", b"describe")
    # Walks from every byte near the ranges.
    script.set_up(4096, 4160, 8, three)
    for at in list(range(4095, 4138)) + [0, 1, 8, 4151, 4152, 4159, 4160, 2**40, 2**63, 2**64 - 1]:
        script.add(line_of(b"walk", at))
    script.add(b"arena 4096 4160 8", b"walk 0", b"walk 4096", b"walk 18446744073709551615")


def part_2_finds(script):
    """Each find and mode with every kind of size."""
    sets = [[(4104, 4112), (4120, 4136), (4144, 4160)],
            [(4096, 4120), (4128, 4144), (4152, 4160)],
            []]
    sizes = [0, 1, 4, 7, 8, 9, 12, 16, 20, 24, 25, 32, 64, 68, 72, 2**40, 2**63, 2**64 - 8,
             2**64 - 1]
    for ranges in sets:
        for name in (b"first", b"last", b"largest"):
            for mode in MODES:
                for size in sizes:
                    script.set_up(4096, 4160, 8, ranges)
                    script.add(line_of(name, size, mode))
                    if script.player.land.isolated() != ranges:
                        script.add(b"describe")
    # The find that leaves a grain, and then nothing.
    for name in (b"first", b"last"):
        for mode in (b"low", b"high"):
            script.set_up(4096, 4160, 8, [(4104, 4128), (4136, 4160)])
            script.add(line_of(name, 16, mode), b"describe", line_of(name, 8, mode), b"describe",
                       line_of(name, 8, mode), b"describe")
    # Equal largest ranges go from low to high.
    script.set_up(4096, 4160, 8, [(4096, 4104), (4112, 4128), (4136, 4152)])
    script.add(b"largest 16 none", b"largest 0 low", b"describe", b"largest 16 high", b"describe",
               b"largest 16 entire", b"largest 8 low", b"describe", b"largest 0 entire")


def part_2_small(script):
    """Every set of free words in an arena of three, every good request on it."""
    base, words = 8, 3
    at = [base + 8 * i for i in range(words + 1)]
    requests = []
    for name in (b"insert", b"delete"):
        for i in range(words):
            for j in range(i + 1, words + 1):
                requests.append(line_of(name, at[i], at[j]))
    for name in (b"first", b"last", b"largest"):
        for size in (0, 8, 16, 24, 32):
            for mode in MODES:
                if size > 0 or name == b"largest":
                    requests.append(line_of(name, size, mode))
    for bits in range(2**words):
        land = Land(at[0], at[-1], 8)
        for i in range(words):
            if bits >> i & 1:
                land.mark(at[i], at[i + 1], 1)
        ranges = land.isolated()
        for line in requests:
            script.set_up(at[0], at[-1], 8, ranges)
            script.add(line)
            if script.player.land.isolated() != ranges:
                script.add(b"describe")


def part_3(script):
    """Very long lines."""
    script.set_up(4096, 4160, 8, [(4096, 4112), (4120, 4128)])
    script.add(b"n" * 70000)
    script.add(b" " * 66000)
    script.add(b"insert " + b"0" * 150000 + b"4136 4144", b"describe")
    script.add(b"insert 4144 " + b"0" * 5000 + b"4152", b"describe")
    script.add(b"describe" * 1200, b"describe " * 1200, b"walk " + b"9" * 9000,
               b"walk " + b"0" * 9000 + b"18446744073709551615",
               b"walk " + b"0" * 9000 + b"18446744073709551616",
               b"first 8 " + b"low" * 2000, b"\0" * 9000, b"describe")


def part_4(script):
    """A full chequered arena at the highest place."""
    rng = Random(4)
    limit = 2**40
    base = limit - 8 * MOST_WORDS
    at = [base + 8 * i for i in range(MOST_WORDS + 1)]
    even = list(range(0, MOST_WORDS, 2))
    odd = list(range(1, MOST_WORDS, 2))
    rng.shuffle(even)
    rng.shuffle(odd)
    script.add(line_of(b"arena", base, limit, 8))
    for i in even:
        script.add(line_of(b"insert", at[i], at[i + 1]))
    script.add(b"describe")
    for line in (b"first 8 none", b"last 8 none", b"largest 0 none", b"largest 8 none",
                 b"first 16 none", b"last 16 low", b"largest 16 entire", b"walk 0"):
        script.add(line)
    for i in (0, 1, 2, 2047, 2048, 4093, 4094, 4095, 4096):
        script.add(line_of(b"walk", at[i]), line_of(b"walk", at[i] + 1))
    script.add(line_of(b"insert", base, limit), line_of(b"delete", base, limit),
               line_of(b"insert", at[4095], limit + 8), line_of(b"insert", at[1], at[4]),
               line_of(b"delete", at[0], at[3]), line_of(b"insert", at[1001], at[1004]))
    # Some merging.
    for i in odd[:240]:
        script.add(line_of(b"insert", at[i], at[i + 1]))
    script.add(b"describe")
    # Finds, and deletes that cut or take away.
    for i in range(12):
        script.add(b"largest 0 none", b"largest 0 entire", b"last 24 low", b"first 16 high",
                   b"first 24 low", b"last 8 high", b"first 8 entire", b"last 40 none")
    for i in even[:80]:
        script.add(line_of(b"delete", at[i], at[i + 1]))
    for i in odd[:40]:
        script.add(line_of(b"delete", at[i - 1], at[i + 1]), line_of(b"delete", at[i], at[i + 1]))
    script.add(b"describe")
    # The whole arena as one range, cut and closed again.
    script.add(line_of(b"arena", base, limit, 8), line_of(b"insert", base, limit), b"describe",
               line_of(b"insert", at[7], at[8]), line_of(b"delete", at[2000], at[2001]),
               line_of(b"delete", at[1998], at[1999]), b"first 32768 none", b"last 15984 none",
               b"first 15984 none", b"largest 16768 none", b"largest 16776 none", b"describe",
               line_of(b"insert", at[2000], at[2001]), line_of(b"insert", at[1998], at[1999]),
               b"first 32768 none", b"last 32760 high", b"describe", b"largest 0 low", b"describe")


def part_5(script, lines):
    """Random requests in small arenas."""
    rng = Random(5)
    for i in range(lines):
        script.add(random_line(rng, script.player, 64))
        if i % 40 == 39:
            script.add(b"describe")


def part_0(script):
    """The cases before any arena."""
    script.add(*well_formed_calls())
    # Prefixes of the good arena line may be well formed too, but none is accepted.
    lines = form_faults() + name_faults() + mode_faults() + number_faults() + byte_faults()
    lines = [line for line in lines if line != GOOD[0]]
    script.add(*often(lines, b"describe", 60))
    for line in refused_arenas():
        script.add(line, b"describe")
    script.add(*well_formed_calls())
    assert script.player.land is None


def stored_input():
    script = Script()
    part_0(script)
    # 1. The paper's sample.
    for line in SAMPLE[:-1].split(b"\n"):
        script.put(line)
    assert bytes(script.data).endswith(SAMPLE)
    # Good lines across the read buffers; the first two are split inside a name and inside a
    # number, the third has its newline last before the border, the fourth first after it.
    script.crossings = [(65536, 3, b"first 8 none"), (131072, 9, b"walk 00004096"),
                        (524288, 15, b"largest 0 none"), (589824, 14, b"largest 0 none"),
                        (655360, 7, b"largest 0 none")]
    # 2. Cases by hand.
    part_2_malformed(script)
    part_2_arenas(script)
    part_2_alignments(script)
    part_2_ranges(script)
    part_2_finds(script)
    part_2_small(script)
    # 3. to 5.
    part_3(script)
    part_4(script)
    part_5(script, 5000)
    script.set_up(4096, 4160, 8, [(4096, 4112), (4120, 4128)])
    script.add(b"describe")
    # 6. A good last line without its newline.
    return bytes(script.data) + b"describe"


def output_for(data):
    target = io.BytesIO()
    play(io.BytesIO(data), target)
    return target.getvalue()


def main(arguments):
    if arguments == ["--model"]:
        play(sys.stdin.buffer, sys.stdout.buffer)
        sys.stdout.buffer.flush()
        return 0
    if len(arguments) == 3 and arguments[0] == "--random":
        for line in random_script(int(arguments[1]), int(arguments[2])):
            sys.stdout.buffer.write(line)
        return 0
    if arguments not in ([], ["--check"]):
        sys.stderr.write(__doc__)
        return 2
    data = stored_input()
    status = 0
    for path, content in ((STDIN, data), (STDOUT, output_for(data))):
        if arguments == []:
            os.makedirs(os.path.dirname(path), exist_ok=True)
            with open(path, "wb") as f:
                f.write(content)
            print("wrote", path, len(content))
            continue
        try:
            with open(path, "rb") as f:
                same = f.read() == content
        except OSError:
            same = False
        print(path, "is as written" if same else "DIFFERS")
        if not same:
            status = 1
    return status


if __name__ == "__main__":
    sys.exit(main(sys.argv[1:]))
