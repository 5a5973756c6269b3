//! The block land: ranges recorded in separate node space.

use crate::answer::{ACCEPTED, DAMAGED, SET_UP};
use crate::arena::{Arena, Range};
use crate::call::{Call, Done, Opened};
use crate::low_water::LowWater;
use crate::set;

/// Node space is at most this number of words.
pub const MOST_WORDS: usize = 2_097_152;

/// A block handle.
#[derive(Clone, Copy, Debug, Default, PartialEq, Eq, Hash)]
pub struct BlockHandle {
    /// The arena's base.
    pub base: u64,
    /// The arena's limit.
    pub limit: u64,
    /// The alignment.
    pub align: u64,
    /// The number of ranges.
    pub ranges: u64,
    /// The number of free bytes.
    pub bytes: u64,
    /// The mark.
    pub filled: u64,
    /// Low water.
    pub low: u64,
}

impl BlockHandle {
    /// The handle of these isolated ranges on a land whose one accepted call left them; with no ranges, of a new land.
    pub fn of(arena: &Arena, ranges: &[Range]) -> BlockHandle {
        BlockHandle::default().after(arena, ranges)
    }

    /// The next handle after an accepted call that left these isolated ranges.
    pub(crate) fn after(&self, arena: &Arena, ranges: &[Range]) -> BlockHandle {
        let bytes = set::bytes(ranges);
        let LowWater { filled, low } = self.low_water().noted(bytes);
        BlockHandle {
            base: arena.base(),
            limit: arena.limit(),
            align: arena.align(),
            ranges: ranges.len() as u64,
            bytes,
            filled,
            low,
        }
    }

    /// The mark and the low water.
    pub fn low_water(&self) -> LowWater {
        LowWater { filled: self.filled, low: self.low }
    }
}

/// The arena of a block land, if its numbers and the length of node space keep the rules.
pub fn arena(base: u64, limit: u64, align: u64, nodes: &[u64]) -> Option<Arena> {
    Arena::new(base, limit, align).filter(|_| nodes.len() <= MOST_WORDS)
}

/// The capacity is the number of words halved, rounded down.
pub fn capacity(nodes: &[u64]) -> u64 {
    nodes.len() as u64 / 2
}

/// Range number i stands as base in word 2i and limit in word 2i + 1.
fn pairs(nodes: &[u64]) -> impl Iterator<Item = Range> + '_ {
    nodes.chunks_exact(2).map(|pair| Range::new(pair[0], pair[1]))
}

/// The ranges of the table, or nothing if it is not sound: the count is at most the capacity, all pair words from the
/// range count on are 0, the ranges are in address order, aligned, non-empty, inside the arena and separated, the byte
/// count is their sum, and the handle's mark and low water are sound.
pub fn read(arena: &Arena, handle: &BlockHandle, nodes: &[u64]) -> Option<Vec<Range>> {
    if handle.ranges > capacity(nodes) {
        return None;
    }
    let count = handle.ranges as usize;
    let ranges: Vec<Range> = pairs(nodes).take(count).collect();
    let rest = pairs(nodes).skip(count).all(|pair| pair == Range::NOTHING);
    let allowed = ranges.iter().all(|range| arena.allows_range(*range));
    let separated = ranges.windows(2).all(|two| two[0].limit < two[1].base);
    let counted = rest && allowed && separated && handle.bytes == set::bytes(&ranges);
    (counted && handle.low_water().sound(handle.bytes)).then_some(ranges)
}

/// Writes the pair words of these isolated ranges: all from the range count on are 0. An odd last word is never
/// written.
pub fn write(ranges: &[Range], nodes: &mut [u64]) {
    let pair_words = nodes.len() / 2 * 2;
    nodes[..pair_words].fill(0);
    for (i, range) in ranges.iter().enumerate() {
        nodes[2 * i] = range.base;
        nodes[2 * i + 1] = range.limit;
    }
}

/// Opening a block land. It sets all its pair words to 0; a new land has no ranges, no mark and low water 0.
pub fn open(base: u64, limit: u64, align: u64, nodes: &mut [u64]) -> Opened<BlockHandle> {
    match arena(base, limit, align, nodes) {
        Some(arena) => {
            write(&[], nodes);
            Opened { land: BlockHandle::of(&arena, &[]), answer: ACCEPTED }
        }
        None => Opened { land: BlockHandle::default(), answer: SET_UP },
    }
}

/// The whole of a call, or the number of its refusal, checked in the order 5, 6, 4, 1 or 2, 3.
fn accept(handle: &BlockHandle, nodes: &[u64], call: &Call) -> Result<(Arena, set::Step), u64> {
    let arena = arena(handle.base, handle.limit, handle.align, nodes).ok_or(SET_UP)?;
    let ranges = read(&arena, handle, nodes).ok_or(DAMAGED)?;
    let step = set::step(&arena, Some(capacity(nodes)), &ranges, call)?;
    Ok((arena, step))
}

/// A call on a block land. After an accepted call the pair words hold the layout. A refusal changes nothing.
pub fn call(handle: BlockHandle, nodes: &mut [u64], call: &Call) -> Done<BlockHandle> {
    match accept(&handle, nodes, call) {
        Err(answer) => Done::refused(handle, answer),
        Ok((arena, step)) => {
            write(&step.after, nodes);
            Done { land: handle.after(&arena, &step.after), answer: ACCEPTED, range: step.range, old: step.old }
        }
    }
}
