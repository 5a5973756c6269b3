//! Arenas, sets of ranges, requests and memory.

use limbegoru_model::arena::HIGHEST_LIMIT;
use limbegoru_model::{set, Arena, Call, Find, LowWater, Range};

use crate::lent::Lent;
use crate::random::Random;

/// The most words of a small arena; an arena of a large alignment has at most 2 units.
const MOST_WORDS: u64 = 300;

/// An alignment, often a small one.
pub fn align(random: &mut Random) -> u64 {
    let large = random.pick(&[32, 64, 128, 256, 512, 1024, 2048, 4096]);
    random.pick(&[8, 8, 8, 8, 8, 8, 16, 16, 16, large])
}

/// An arena whose words can be lent: 0 to some 300 words, low, somewhere, or ending at 2^40.
pub fn small_arena(random: &mut Random) -> Arena {
    let align = align(random);
    let most = (MOST_WORDS * 8 / align).max(2);
    let units = if random.once_in(4) { random.below(most.min(8) + 1) } else { random.between(most / 8, most) };
    arena_of(random, align, units)
}

/// An arena of 0 to 60 units, so that ranges often touch and are often of the same length.
pub fn tiny_arena(random: &mut Random) -> Arena {
    let align = random.pick(&[8, 8, 8, 16, 16, 64]);
    let units = if random.once_in(8) { random.below(9) } else { random.between(16, 60) };
    arena_of(random, align, units)
}

/// An arena of so many units: low, somewhere, or ending at 2^40.
fn arena_of(random: &mut Random, align: u64, units: u64) -> Arena {
    let highest = HIGHEST_LIMIT / align - units;
    let first = match random.below(8) {
        0 => 1,
        1 => highest,
        2 => random.between(1, highest),
        _ => random.between(1, 600),
    };
    Arena::new(first * align, (first + units) * align, align).expect("it keeps the rules")
}

/// Any arena, for a block land: it needs no words.
pub fn any_arena(random: &mut Random) -> Arena {
    if random.once_in(2) {
        return small_arena(random);
    }
    let align = align(random);
    let top = HIGHEST_LIMIT / align;
    let first = if random.once_in(2) { 1 } else { random.between(1, top) };
    let behind = if random.once_in(2) { top } else { random.between(first, top) };
    Arena::new(first * align, behind * align, align).expect("it keeps the rules")
}

/// A small number above 0.
fn few(random: &mut Random) -> u64 {
    random.pick(&[1, 1, 1, 1, 2, 2, 2, 3, 3, 4, 6, 11])
}

/// An aligned address of the arena, or its limit.
pub fn address(random: &mut Random, arena: &Arena) -> u64 {
    arena.base() + arena.align() * random.below(arena.length() / arena.align() + 1)
}

/// Isolated ranges of the arena in address order, at most so many.
pub fn ranges(random: &mut Random, arena: &Arena, most: usize) -> Vec<Range> {
    let units = arena.length() / arena.align();
    let stride = arena.align() * random.pick(&[1, 1, 1 + units / 60, 1 + units / 9]);
    let mut ranges = Vec::new();
    let mut base = arena.base() + stride * random.below(3);
    while ranges.len() < most {
        let limit = base + stride * few(random);
        if limit > arena.limit() {
            break;
        }
        ranges.push(Range::new(base, limit));
        base = limit + stride * few(random);
    }
    ranges
}

/// A mark and a low water that are sound beside so many free bytes: a set mark with low water 0, the bytes, or
/// something between, and where there are none also an unset one.
pub fn low_water(random: &mut Random, bytes: u64) -> LowWater {
    if bytes == 0 {
        return LowWater { filled: random.below(2), low: 0 };
    }
    let between = random.below(bytes);
    LowWater { filled: 1, low: random.pick(&[0, bytes, between, bytes - 1]) }
}

/// A number near another one: equal, or off by one, by 8, by an alignment, by the tag.
pub fn near(random: &mut Random, arena: &Arena, number: u64) -> u64 {
    let step = random.pick(&[0, 1, 4, 8, 16, arena.align(), 2 * arena.align()]);
    match random.below(5) {
        0 => number ^ 1,
        1 | 2 => number.wrapping_sub(step),
        _ => number.wrapping_add(step),
    }
}

/// Any number, often one that means something in the arena or at an edge of the rules.
pub fn number(random: &mut Random, arena: &Arena, ranges: &[Range]) -> u64 {
    let edges = [0, 1, 8, 4096, HIGHEST_LIMIT, 1 << 63, u64::MAX, arena.base(), arena.limit(), arena.length()];
    let meant = match random.below(6) {
        0 => random.pick(&edges),
        1 => address(random, arena),
        2 => return random.word(),
        _ if ranges.is_empty() => address(random, arena),
        3 => random.pick(ranges).limit,
        _ => random.pick(ranges).base,
    };
    if random.once_in(2) {
        near(random, arena, meant)
    } else {
        meant
    }
}

/// A part of a range, aligned as the range is and not empty: often a short one, often at an end.
fn part(random: &mut Random, arena: &Arena, whole: Range) -> Range {
    let units = whole.length() / arena.align();
    let length = if random.once_in(40) { random.between(1, units) } else { few(random).min(units) };
    let first = match random.below(4) {
        0 => 0,
        1 => units - length,
        _ => random.between(0, units - length),
    };
    let base = whole.base + first * arena.align();
    Range::new(base, base + length * arena.align())
}

/// The gaps before, between and behind the ranges.
fn gaps(arena: &Arena, ranges: &[Range]) -> Vec<Range> {
    let bases = ranges.iter().map(|range| range.base).chain([arena.limit()]);
    let limits = [arena.base()].into_iter().chain(ranges.iter().map(|range| range.limit));
    limits.zip(bases).map(|(base, limit)| Range::new(base, limit)).filter(|gap| gap.base < gap.limit).collect()
}

/// A range moved by an alignment at one end or both.
fn moved(random: &mut Random, arena: &Arena, range: Range) -> Range {
    let mut shift = |number: u64| match random.below(4) {
        0 => number.wrapping_sub(arena.align()),
        1 => number.wrapping_add(arena.align()),
        _ => number,
    };
    Range::new(shift(range.base), shift(range.limit))
}

/// A range for an insert or a delete: a part of the ranges where it is accepted, near them, near the others, somewhere,
/// or breaking the rules.
fn request(random: &mut Random, arena: &Arena, good: &[Range], others: &[Range]) -> Range {
    let from = if random.once_in(5) { others } else { good };
    let chosen = if from.is_empty() { Range::new(arena.base(), arena.limit()) } else { random.pick(from) };
    match random.below(16) {
        0..=10 if chosen.length() > 0 => part(random, arena, chosen),
        11 if chosen.length() <= 6 * arena.align() => chosen,
        12 => moved(random, arena, chosen),
        13 => Range::new(number(random, arena, good), number(random, arena, others)),
        14 if random.once_in(3) => Range::new(address(random, arena), address(random, arena)),
        _ => {
            let base = address(random, arena);
            Range::new(base, base + arena.align() * few(random))
        }
    }
}

/// A size for a find.
pub fn size(random: &mut Random, arena: &Arena, ranges: &[Range]) -> u64 {
    match random.below(16) {
        0 => 0,
        1 => number(random, arena, ranges),
        2 => random.pick(&[arena.length(), arena.length() + arena.align(), 0u64.wrapping_sub(arena.align())]),
        3..=6 if !ranges.is_empty() => random.pick(ranges).length(),
        7 if !ranges.is_empty() => random.pick(ranges).length() + arena.align(),
        8 if !ranges.is_empty() => random.pick(ranges).length() - arena.align(),
        9 => few(random) * arena.align() + random.pick(&[1, 4, 8]),
        _ => few(random) * arena.align(),
    }
}

/// The number of a mode; at times a number that is none.
pub fn mode(random: &mut Random) -> u64 {
    if random.once_in(24) {
        return random.pick(&[4, 5, 7, 256, 1 << 32, (1 << 32) + 1, u64::MAX]);
    }
    random.below(4)
}

/// A find.
fn find(random: &mut Random, arena: &Arena, ranges: &[Range]) -> Call {
    let find = random.pick(&[Find::First, Find::First, Find::Last, Find::Last, Find::Largest]);
    Call::Find(find, size(random, arena, ranges), mode(random))
}

/// How often each call is made. Inserts are frequent below a share of free bytes, deletes above it.
pub struct Mix {
    tenths_free: u64,
    finds_in_20: u64,
    walks_in_20: u64,
}

impl Mix {
    /// Any mix.
    pub fn any(random: &mut Random) -> Mix {
        Mix { tenths_free: random.below(11), finds_in_20: random.below(6), walks_in_20: random.below(3) }
    }

    /// Any mix without walks.
    pub fn of_a_pair(random: &mut Random) -> Mix {
        Mix { tenths_free: random.between(6, 10), finds_in_20: random.below(9), walks_in_20: 0 }
    }

    /// A call of the mix on a land that has these ranges.
    pub fn call(&self, random: &mut Random, arena: &Arena, ranges: &[Range]) -> Call {
        let drawn = random.below(20);
        if drawn < self.finds_in_20 {
            return find(random, arena, ranges);
        }
        if drawn < self.finds_in_20 + self.walks_in_20 {
            return Call::Walk(number(random, arena, ranges));
        }
        let below = 10 * set::bytes(ranges) <= self.tenths_free * arena.length();
        let insert = random.below(10) < if below { 7 } else { 3 };
        let gaps = gaps(arena, ranges);
        match insert {
            true => Call::Insert(request(random, arena, &gaps, ranges)),
            false => Call::Delete(request(random, arena, ranges, &gaps)),
        }
    }
}

/// Words of any value, many of which could stand in a descriptor of the arena.
pub fn words(random: &mut Random, arena: &Arena, length: usize) -> Vec<u64> {
    let dull = random.pick(&[None, None, Some(0), Some(u64::MAX)]);
    (0..length).map(|_| dull.unwrap_or_else(|| number(random, arena, &[]))).collect()
}

/// Lends words between guards of such values; at times with no guards.
pub fn lend(random: &mut Random, arena: &Arena, inner: &[u64]) -> Lent {
    let (before, behind) = (random.place(5), random.place(5));
    let front = words(random, arena, before);
    let back = words(random, arena, behind);
    Lent::new(inner, &front, &back)
}
