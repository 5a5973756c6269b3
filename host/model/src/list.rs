//! The list land: ranges recorded inside the free memory.

use crate::answer::{ACCEPTED, DAMAGED, SET_UP};
use crate::arena::{Arena, Range};
use crate::call::{Call, Done, Opened};
use crate::low_water::LowWater;
use crate::set;

/// A list handle.
#[derive(Clone, Copy, Debug, Default, PartialEq, Eq, Hash)]
pub struct ListHandle {
    /// The arena's base.
    pub base: u64,
    /// The arena's limit.
    pub limit: u64,
    /// The alignment.
    pub align: u64,
    /// The base of the first range, or 0.
    pub head: u64,
    /// The number of ranges.
    pub ranges: u64,
    /// The number of free bytes.
    pub bytes: u64,
    /// The mark.
    pub filled: u64,
    /// Low water.
    pub low: u64,
}

impl ListHandle {
    /// The handle of these isolated ranges on a land whose one accepted call left them; with no ranges, of a new land.
    pub fn of(arena: &Arena, ranges: &[Range]) -> ListHandle {
        ListHandle::default().after(arena, ranges)
    }

    /// The next handle after an accepted call that left these isolated ranges.
    pub(crate) fn after(&self, arena: &Arena, ranges: &[Range]) -> ListHandle {
        let bytes = set::bytes(ranges);
        let LowWater { filled, low } = self.low_water().noted(bytes);
        ListHandle {
            base: arena.base(),
            limit: arena.limit(),
            align: arena.align(),
            head: ranges.first().map_or(0, |first| first.base),
            ranges: ranges.len() as u64,
            bytes,
            filled,
            low,
        }
    }

    /// The mark and the low water.
    pub fn low_water(&self) -> LowWater {
        LowWater { filled: self.filled, low: self.low }
    }
}

/// The arena of a list land, if its numbers keep the rules and the lent words are exactly (limit - base) / 8.
pub fn arena(base: u64, limit: u64, align: u64, words: &[u64]) -> Option<Arena> {
    Arena::new(base, limit, align).filter(|arena| arena.words() == words.len() as u64)
}

/// The descriptor at an aligned address of the arena: its range and the next range's base, or nothing if it is not
/// tagged by its true length or has not all its words in the arena.
fn descriptor(arena: &Arena, words: &[u64], base: u64) -> Option<(Range, u64)> {
    let number = arena.word_at(base);
    let first = *words.get(number)?;
    if first & 1 == 1 {
        return Some((Range::new(base, base + 8), first - 1));
    }
    let range = Range::new(base, *words.get(number + 1)?);
    (range.length() >= 16).then_some((range, first))
}

/// The ranges that the walk from head meets, or nothing if the list is not sound: ascending ranges, each base above the
/// previous limit, each inside the arena and aligned, each tagged by its true length, the last with next 0, the
/// handle's two counts equal the number met and the sum of their lengths, and its mark and low water are sound.
pub fn read(arena: &Arena, handle: &ListHandle, words: &[u64]) -> Option<Vec<Range>> {
    let mut met: Vec<Range> = Vec::new();
    let mut base = handle.head;
    while base != 0 {
        let above = met.last().is_none_or(|previous| base > previous.limit);
        let inside = arena.base() <= base && base < arena.limit();
        if !(above && inside && arena.aligned(base)) {
            return None;
        }
        let (range, next) = descriptor(arena, words, base)?;
        if !arena.allows_range(range) {
            return None;
        }
        met.push(range);
        base = next;
    }
    let counted = handle.ranges == met.len() as u64 && handle.bytes == set::bytes(&met);
    (counted && handle.low_water().sound(handle.bytes)).then_some(met)
}

/// Writes the words of the descriptors of these isolated ranges, and no other. A block's first word is the next range's
/// base, or 0 for the last, its second word its own limit. A grain's one word is the next range's base, or 0, plus 1.
pub fn write(arena: &Arena, ranges: &[Range], words: &mut [u64]) {
    for (i, range) in ranges.iter().enumerate() {
        let next = ranges.get(i + 1).map_or(0, |next| next.base);
        let number = arena.word_at(range.base);
        if range.length() == 8 {
            words[number] = next + 1;
        } else {
            words[number] = next;
            words[number + 1] = range.limit;
        }
    }
}

/// Opening a list land. It writes no word; a new land has no ranges, no mark and low water 0.
pub fn open(base: u64, limit: u64, align: u64, words: &[u64]) -> Opened<ListHandle> {
    match arena(base, limit, align, words) {
        Some(arena) => Opened { land: ListHandle::of(&arena, &[]), answer: ACCEPTED },
        None => Opened { land: ListHandle::default(), answer: SET_UP },
    }
}

/// The whole of a call, or the number of its refusal, checked in the order 5, 6, 4, 1 or 2.
fn accept(handle: &ListHandle, words: &[u64], call: &Call) -> Result<(Arena, set::Step), u64> {
    let arena = arena(handle.base, handle.limit, handle.align, words).ok_or(SET_UP)?;
    let ranges = read(&arena, handle, words).ok_or(DAMAGED)?;
    Ok((arena, set::step(&arena, None, &ranges, call)?))
}

/// A call on a list land. After an accepted call the words of the present descriptors hold the layout, and every other
/// arena word keeps its old value. A refusal changes nothing.
pub fn call(handle: ListHandle, words: &mut [u64], call: &Call) -> Done<ListHandle> {
    match accept(&handle, words, call) {
        Err(answer) => Done::refused(handle, answer),
        Ok((arena, step)) => {
            write(&arena, &step.after, words);
            Done { land: handle.after(&arena, &step.after), answer: ACCEPTED, range: step.range, old: step.old }
        }
    }
}
