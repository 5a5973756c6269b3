//! Chequered arenas, and the requests made beforehand from a fixed seed.

use std::array::from_ref;

use crate::abi::*;

pub const ALIGN: u64 = 8;
pub const BASE: u64 = 4096;
/// Pairs of node space beyond the number of ranges, where there is enough.
pub const SPARE_PAIRS: usize = 16;
/// Ranges longer than all before them, spread evenly: a find of their size comes to rest there.
const STAIRS: usize = 8;

/// xorshift64*.
pub struct Random(u64);

impl Random {
    pub fn new(seed: u64) -> Self {
        Self(seed | 1)
    }

    /// A number below `n`.
    pub fn below(&mut self, n: u64) -> u64 {
        self.0 ^= self.0 >> 12;
        self.0 ^= self.0 << 25;
        self.0 ^= self.0 >> 27;
        (self.0.wrapping_mul(0x2545_F491_4F6C_DD1D) >> 33) % n
    }
}

/// How much node space there is for a number of ranges.
#[derive(Clone, Copy, PartialEq)]
pub enum Filling {
    /// Some pairs more than ranges.
    Roomy,
    /// Half as many pairs as ranges.
    Short,
    /// Some pairs more than ranges, and half of the ranges in the list.
    Halved,
    /// So many times the ranges.
    Times(usize),
}

impl Filling {
    pub fn capacity(self, ranges: usize) -> usize {
        match self {
            Self::Roomy | Self::Halved => ranges + SPARE_PAIRS,
            Self::Short => ranges / 2,
            Self::Times(times) => times * ranges,
        }
    }
}

/// Free ranges with granted gaps between them, the capacity of node space, and how many of the ranges a pair has there.
pub struct Chequer {
    pub arena: Range,
    pub ranges: Vec<Range>,
    pub capacity: usize,
    pub tabled: usize,
}

fn stair(step: usize) -> u64 {
    48 + 16 * step as u64
}

impl Chequer {
    /// Free ranges of 8 to 32 bytes, a quarter of them grains, and the stairs; gaps of 8 to 32 bytes.
    pub fn new(count: usize, filling: Filling, random: &mut Random) -> Self {
        let mut lengths: Vec<u64> = (0..count).map(|_| 8 + 8 * random.below(4)).collect();
        for step in 0..STAIRS {
            lengths[step * count / STAIRS] = stair(step);
        }
        let mut at = BASE;
        let mut ranges = Vec::with_capacity(count);
        for length in lengths {
            let base = at + 8 + 8 * random.below(4);
            at = base + length;
            ranges.push(Range { base, limit: at });
        }
        let arena = Range { base: BASE, limit: at + 8 };
        let capacity = filling.capacity(count);
        let tabled = if filling == Filling::Halved { count / 2 } else { capacity };
        Self { arena, ranges, capacity, tabled }
    }

    /// The same arena and node space with some of the ranges.
    fn with(&self, ranges: Vec<Range>) -> Self {
        Self { ranges, ..*self }
    }

    fn bytes(&self) -> u64 {
        self.ranges.iter().map(|r| r.limit - r.base).sum()
    }

    /// The mark of a land into which one call put all ranges; its low water is their bytes.
    fn filled(&self) -> u64 {
        u64::from(!self.ranges.is_empty())
    }
}

/// A land of either kind, or a pair, that holds a chequer's ranges, written down by the paper's layout and by no call.
pub trait Land:
    Calls<Proved> + Calls<ExitC> + Calls<BestC> + Calls<HandRust> + Copy + PartialEq + std::fmt::Debug
{
    fn holding(chequer: &Chequer) -> (Self, Self::Memory);

    /// Makes the counts those of a walk that checks nothing, and the mark and low water such as fit them.
    fn recount(&mut self, memory: &Self::Memory);
}

impl Land for ListLand {
    fn holding(chequer: &Chequer) -> (Self, Self::Memory) {
        let arena = chequer.arena;
        let mut words = vec![0; ((arena.limit - arena.base) / 8) as usize];
        let mut next = 0;
        for range in chequer.ranges.iter().rev() {
            let i = ((range.base - arena.base) / 8) as usize;
            if range.limit - range.base == 8 {
                words[i] = next + 1;
            } else {
                words[i] = next;
                words[i + 1] = range.limit;
            }
            next = range.base;
        }
        let land = Self {
            base: arena.base,
            limit: arena.limit,
            align: ALIGN,
            head: next,
            ranges: chequer.ranges.len() as u64,
            bytes: chequer.bytes(),
            filled: chequer.filled(),
            low: chequer.bytes(),
        };
        (land, [words])
    }

    fn recount(&mut self, [words]: &Self::Memory) {
        (self.ranges, self.bytes) = (0, 0);
        let mut at = self.head;
        while at != 0 && self.ranges < words.len() as u64 {
            let i = (at.wrapping_sub(self.base) / 8) as usize;
            let (Some(first), second) = (words.get(i), words.get(i + 1)) else { break };
            let limit = if first & 1 == 1 { at + 8 } else { second.copied().unwrap_or(0) };
            self.ranges += 1;
            self.bytes = self.bytes.wrapping_add(limit.wrapping_sub(at));
            at = first & !1;
        }
        (self.filled, self.low) = fitting(self.filled, self.low, self.bytes);
    }
}

impl Land for BlockLand {
    fn holding(chequer: &Chequer) -> (Self, Self::Memory) {
        let mut nodes: Vec<u64> = chequer.ranges.iter().flat_map(|range| [range.base, range.limit]).collect();
        nodes.resize(2 * chequer.capacity, 0);
        let land = Self {
            base: chequer.arena.base,
            limit: chequer.arena.limit,
            align: ALIGN,
            ranges: chequer.ranges.len() as u64,
            bytes: chequer.bytes(),
            filled: chequer.filled(),
            low: chequer.bytes(),
        };
        (land, [nodes])
    }

    fn recount(&mut self, [nodes]: &Self::Memory) {
        let pairs = nodes.chunks_exact(2).take(self.ranges as usize);
        self.bytes = pairs.map(|pair| pair[1].wrapping_sub(pair[0])).fold(0, u64::wrapping_add);
        (self.filled, self.low) = fitting(self.filled, self.low, self.bytes);
    }
}

/// A mark and low water that are sound beside so many free bytes: those given, where they are.
fn fitting(filled: u64, low: u64, bytes: u64) -> (u64, u64) {
    (u64::from(filled == 1 || bytes != 0), low.min(bytes))
}

/// A pair with the ranges that are marked in the block land, and the others in the list.
pub fn divided(chequer: &Chequer, tabled: &[bool]) -> (Pair, [Vec<u64>; 2]) {
    let those = |mark| {
        let marked = chequer.ranges.iter().zip(tabled).filter(|(_, tabled)| **tabled == mark);
        chequer.with(marked.map(|(range, _)| *range).collect())
    };
    let (list, [words]) = ListLand::holding(&those(false));
    let (block, [nodes]) = BlockLand::holding(&those(true));
    (Pair { list, block }, [words, nodes])
}

impl Land for Pair {
    /// Those in the block land lie anywhere in the arena.
    fn holding(chequer: &Chequer) -> (Self, Self::Memory) {
        let count = chequer.ranges.len();
        let random = &mut Random::new(count as u64);
        let mut tabled: Vec<bool> = (0..count).map(|i| i < chequer.tabled).collect();
        for i in 1..count {
            tabled.swap(i, random.below(i as u64 + 1) as usize);
        }
        divided(chequer, &tabled)
    }

    fn recount(&mut self, [words, nodes]: &Self::Memory) {
        self.list.recount(from_ref(words));
        self.block.recount(from_ref(nodes));
    }
}

#[derive(Clone, Copy)]
pub struct Change {
    pub insert: bool,
    pub range: Range,
}

/// What is asked of a land.
#[derive(Clone, Copy, Debug, PartialEq)]
pub enum Workload {
    /// Random insert and delete.
    Changes,
    /// Find first low, and insert back.
    Finds,
    /// The walk from random numbers.
    Walk,
    /// Find last, mode none.
    Last,
    /// Find largest of size 0, mode none.
    Largest,
    /// The flush of half of the ranges; the copying back of node space is part of it.
    Flush,
    /// As the first, on a pointer.
    ChangesAt,
    /// The walk on a pointer.
    WalkAt,
}

pub const WORKLOADS: [Workload; 8] = [
    Workload::Changes,
    Workload::Finds,
    Workload::Walk,
    Workload::Last,
    Workload::Largest,
    Workload::Flush,
    Workload::ChangesAt,
    Workload::WalkAt,
];
pub const WORKLOAD_NAMES: [&str; 8] = ["1", "2", "walk", "last", "largest", "flush", "1-at", "walk-at"];

impl Workload {
    pub fn name(self) -> &'static str {
        WORKLOAD_NAMES[self as usize]
    }
}

pub enum Requests {
    Changes(Vec<Change>),
    /// Sizes to find.
    Sizes(Vec<u64>),
    /// Where walks begin.
    Froms(Vec<u64>),
    /// So many flushes, and the node space before each.
    Flushes(usize, Vec<u64>),
}

impl Requests {
    /// Requests that a land holding the chequer accepts one after the other, where need be tried out on the hand-written
    /// Rust. A pair refuses to delete what has come to lie in both lands; another request is made then.
    pub fn new<L: Land>(workload: Workload, chequer: &Chequer, calls: usize, random: &mut Random) -> Self {
        let (land, mut memory) = L::holding(chequer);
        let pairs = calls.div_ceil(2);
        match workload {
            Workload::Changes | Workload::ChangesAt => {
                let mut trial = Trial { land, memory };
                Self::Changes((0..pairs).flat_map(|_| trial.accepted_change(chequer, random)).collect())
            }
            Workload::Finds => {
                let mut trial = Trial { land, memory };
                Self::Sizes((0..pairs).map(|_| trial.accepted_size(random)).collect())
            }
            Workload::Walk | Workload::WalkAt => {
                let last = chequer.ranges.last().map_or(0, |range| range.base);
                Self::Froms((0..calls).map(|_| BASE + random.below(last - BASE + 1)).collect())
            }
            Workload::Last => Self::Sizes((0..calls).map(|_| 8 + 8 * random.below(4)).collect()),
            Workload::Largest => Self::Sizes(vec![0; calls]),
            Workload::Flush => Self::Flushes(calls, memory.as_mut().last().cloned().unwrap_or_default()),
        }
    }

    /// The number of requests.
    pub fn len(&self) -> usize {
        match self {
            Self::Changes(changes) => changes.len(),
            Self::Sizes(numbers) | Self::Froms(numbers) => numbers.len(),
            Self::Flushes(calls, _) => *calls,
        }
    }
}

/// A land on which requests are tried out.
struct Trial<L: Land> {
    land: L,
    memory: L::Memory,
}

impl<L: Land> Trial<L> {
    fn change(&mut self, change: Change) -> u64 {
        let changed = change_by::<HandRust, L>(self.land, &mut self.memory, change);
        self.land = changed.land;
        changed.answer
    }

    /// A change that is accepted, and the one back.
    fn accepted_change(&mut self, chequer: &Chequer, random: &mut Random) -> [Change; 2] {
        loop {
            let [there, back] = change_and_back(chequer, random);
            if self.change(there) == ANSWER_OK {
                assert_eq!(self.change(back), ANSWER_OK, "answer to the change back");
                return [there, back];
            }
        }
    }

    /// A size that is found; what was found is inserted back.
    fn accepted_size(&mut self, random: &mut Random) -> u64 {
        loop {
            let size = stair(random.below(STAIRS as u64) as usize) - 8 * random.below(2);
            let found = Calls::<HandRust>::find_first(self.land, &mut self.memory, size, MODE_LOW);
            if found.answer == ANSWER_OK {
                self.land = found.land;
                let back = Change { insert: true, range: found.range };
                assert_eq!(self.change(back), ANSWER_OK, "answer to the change back");
                return size;
            }
        }
    }
}

/// Part of a random free range is deleted and inserted again, or a random gap inserted and deleted again.
fn change_and_back(chequer: &Chequer, random: &mut Random) -> [Change; 2] {
    let ranges = &chequer.ranges;
    let insert = random.below(2) == 1;
    let range = if insert {
        let i = random.below(ranges.len() as u64 - 1) as usize;
        Range { base: ranges[i].limit, limit: ranges[i + 1].base }
    } else {
        part_of(ranges[random.below(ranges.len() as u64) as usize], random)
    };
    [insert, !insert].map(|insert| Change { insert, range })
}

/// The whole range, its lower or upper half, or all but a word at each end.
fn part_of(range: Range, random: &mut Random) -> Range {
    let length = range.limit - range.base;
    let half = range.base + length / 16 * 8;
    let part = match random.below(4) {
        0 => Range { limit: half, ..range },
        1 => Range { base: half, ..range },
        2 if length >= 24 => Range { base: range.base + 8, limit: range.limit - 8 },
        _ => range,
    };
    if part.base == part.limit {
        range
    } else {
        part
    }
}

#[inline(always)]
pub fn change_by<I, L: Calls<I>>(land: L, memory: &mut L::Memory, change: Change) -> Changed<L> {
    if change.insert {
        land.insert(memory, change.range)
    } else {
        land.delete(memory, change.range)
    }
}
