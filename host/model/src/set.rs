//! The calls on a set of free bytes, kept as its isolated ranges in address order.

use crate::answer::{FULL, NONE_FOUND, OVERLAP, REQUEST};
use crate::arena::{Arena, Range};
use crate::call::{Call, Find, MODE_ENTIRE, MODE_HIGH, MODE_LOW, MODE_NONE};

/// An accepted call on a set.
#[derive(Clone, Debug, PartialEq, Eq)]
pub struct Step {
    /// The isolated ranges afterwards.
    pub after: Vec<Range>,
    /// The range of the call; of a find, the found range.
    pub range: Range,
    /// The old range of a find; (0, 0) of the other calls.
    pub old: Range,
}

/// The isolated ranges of all bytes of these ranges, which may stand in any order, touch and overlap: neither the byte
/// before nor the byte after an isolated range is free.
pub fn isolated(mut ranges: Vec<Range>) -> Vec<Range> {
    ranges.retain(|range| range.base < range.limit);
    ranges.sort();
    let mut apart: Vec<Range> = Vec::with_capacity(ranges.len());
    for range in ranges {
        match apart.last_mut() {
            Some(last) if range.base <= last.limit => last.limit = last.limit.max(range.limit),
            _ => apart.push(range),
        }
    }
    apart
}

/// The sum of the lengths.
pub fn bytes(ranges: &[Range]) -> u64 {
    ranges.iter().map(|range| range.length()).sum()
}

/// How many bytes of the range are free.
pub(crate) fn free_in(set: &[Range], range: Range) -> u64 {
    set.iter().map(|free| free.common(range).length()).sum()
}

/// The isolated range that contains the range.
pub(crate) fn containing(set: &[Range], range: Range) -> Range {
    let contains = |free: &&Range| free.base <= range.base && range.limit <= free.limit;
    *set.iter().find(contains).expect("free bytes side by side are in one isolated range")
}

/// The set without the bytes of the range.
pub(crate) fn without(set: &[Range], range: Range) -> Vec<Range> {
    let below = |free: &Range| Range::new(free.base, free.limit.min(range.base));
    let above = |free: &Range| Range::new(free.base.max(range.limit), free.limit);
    let rest = set.iter().flat_map(|free| [below(free), above(free)]);
    isolated(rest.collect())
}

/// Insert: accepted if no byte of the range is free. Returns the isolated range that then contains it.
fn insert(set: &[Range], range: Range) -> Result<Step, u64> {
    if free_in(set, range) != 0 {
        return Err(OVERLAP);
    }
    let mut after = set.to_vec();
    after.push(range);
    let after = isolated(after);
    Ok(Step { range: containing(&after, range), old: Range::NOTHING, after })
}

/// Delete: accepted if every byte is free. Returns the isolated range that contained it before.
fn delete(set: &[Range], range: Range) -> Result<Step, u64> {
    if free_in(set, range) != range.length() {
        return Err(OVERLAP);
    }
    Ok(Step { range: containing(set, range), old: Range::NOTHING, after: without(set, range) })
}

/// The range that a find chooses.
fn choose(set: &[Range], find: Find, size: u64) -> Option<Range> {
    let reaches = |range: &&Range| range.length() >= size;
    let chosen = match find {
        Find::First => set.iter().filter(reaches).min_by_key(|range| range.base),
        Find::Last => set.iter().filter(reaches).max_by_key(|range| range.base),
        Find::Largest => {
            let longest = set.iter().map(|range| range.length()).max()?;
            let equals = set.iter().filter(|range| range.length() == longest);
            equals.min_by_key(|range| range.base).filter(reaches)
        }
    };
    chosen.copied()
}

/// The part of the old range that a find returns. *None* and *entire* return the old range as found; *low* and *high*
/// return size bytes at its low or high end. Of the largest, *low* and *high* act as *entire*.
fn part(old: Range, find: Find, size: u64, mode: u64) -> Range {
    match (find, mode) {
        (Find::First | Find::Last, MODE_LOW) => Range::new(old.base, old.base + size),
        (Find::First | Find::Last, MODE_HIGH) => Range::new(old.limit - size, old.limit),
        _ => old,
    }
}

/// The finds. *None* removes nothing, the others remove the found range. It is all of the old range or lies at an end
/// of it, so that no find leaves more ranges than it met.
fn find(set: &[Range], find: Find, size: u64, mode: u64) -> Result<Step, u64> {
    let old = choose(set, find, size).ok_or(NONE_FOUND)?;
    let range = part(old, find, size, mode);
    let after = match mode {
        MODE_NONE => set.to_vec(),
        _ => without(set, range),
    };
    Ok(Step { after, range, old })
}

/// Walk: given any number, the isolated range of lowest base at or above it.
fn walk(set: &[Range], from: u64) -> Result<Step, u64> {
    let at_or_above = set.iter().filter(|range| range.base >= from);
    let lowest = at_or_above.min_by_key(|range| range.base);
    Ok(Step { after: set.to_vec(), range: *lowest.ok_or(NONE_FOUND)?, old: Range::NOTHING })
}

/// The rules of a request: the range's, or the size's and the mode's. A walk takes any number.
fn keeps_the_rules(arena: &Arena, call: &Call) -> bool {
    match *call {
        Call::Insert(range) | Call::Delete(range) => arena.allows_range(range),
        Call::Find(find, size, mode) => arena.allows_size(size, find == Find::Largest) && mode <= MODE_ENTIRE,
        Call::Walk(_) => true,
    }
}

/// 3 for an insert or a delete that would leave more ranges than the capacity. A list land has no capacity.
fn with_room(capacity: Option<u64>, step: Step) -> Result<Step, u64> {
    match capacity {
        Some(capacity) if step.after.len() as u64 > capacity => Err(FULL),
        _ => Ok(step),
    }
}

/// A call on the isolated ranges of a land, or the number of its refusal, checked in the order 4, 1 or 2, 3. Only an
/// insert and a delete are answered 3.
pub fn step(arena: &Arena, capacity: Option<u64>, set: &[Range], call: &Call) -> Result<Step, u64> {
    if !keeps_the_rules(arena, call) {
        return Err(REQUEST);
    }
    match *call {
        Call::Insert(range) => with_room(capacity, insert(set, range)?),
        Call::Delete(range) => with_room(capacity, delete(set, range)?),
        Call::Find(which, size, mode) => find(set, which, size, mode),
        Call::Walk(from) => walk(set, from),
    }
}
