//! The calls of a pair on the sets of its two lands, each kept as its isolated ranges in address order.

use crate::answer::{FULL, IN_BOTH, OVERLAP, REQUEST};
use crate::arena::{Arena, Range};
use crate::call::{Call, Find};
use crate::{flush, set};

/// The sets of the two lands of a pair. Lands that overlap are refused before a call is done on them.
#[derive(Clone, Debug, PartialEq, Eq)]
pub struct Lands {
    /// The arena of both.
    pub arena: Arena,
    /// The capacity of the block land.
    pub capacity: u64,
    /// The isolated ranges of the list land.
    pub list: Vec<Range>,
    /// The isolated ranges of the block land.
    pub block: Vec<Range>,
}

/// An accepted call on a pair.
#[derive(Clone, Debug, PartialEq, Eq)]
pub struct Step {
    /// The lands afterwards.
    pub after: Lands,
    /// The range of the call; of a find, the found range.
    pub range: Range,
    /// The old range of a find; (0, 0) of the other calls.
    pub old: Range,
}

impl Lands {
    /// Is a byte free in both lands? Touching is not overlapping.
    pub fn overlap(&self) -> bool {
        let both = [self.list.as_slice(), self.block.as_slice()].concat();
        set::bytes(&set::isolated(both)) < set::bytes(&self.list) + set::bytes(&self.block)
    }

    /// Insert is accepted if no byte is free in either; it then flushes the list, inserts into the block land, and on 3
    /// into the list.
    pub fn insert(&self, range: Range) -> Result<Step, u64> {
        if !self.arena.allows_range(range) {
            return Err(REQUEST);
        }
        if set::free_in(&self.list, range) + set::free_in(&self.block, range) != 0 {
            return Err(OVERLAP);
        }
        let flushed = self.flushed();
        match flushed.on_block(&Call::Insert(range)) {
            Err(FULL) => flushed.on_list(&Call::Insert(range)),
            done => done,
        }
    }

    /// Delete acts on the land that holds the whole range. If a block delete would be answered 3, the lower fragment
    /// stays in the block land and the upper goes to the list. 7, after 1, for a delete of free bytes that lie in both
    /// lands.
    pub fn delete(&self, range: Range) -> Result<Step, u64> {
        if !self.arena.allows_range(range) {
            return Err(REQUEST);
        }
        let in_list = set::free_in(&self.list, range);
        let in_block = set::free_in(&self.block, range);
        if in_list + in_block != range.length() {
            return Err(OVERLAP);
        }
        if in_list == range.length() {
            return self.on_list(&Call::Delete(range));
        }
        if in_block != range.length() {
            return Err(IN_BOTH);
        }
        match self.on_block(&Call::Delete(range)) {
            Err(FULL) => self.hand_over(range),
            done => done,
        }
    }

    /// First and last take the lower or higher of the two lands' finds, largest the longer, the lower base among
    /// equals. What neither land finds, both refuse with the same number.
    pub fn find(&self, find: Find, size: u64, mode: u64) -> Result<Step, u64> {
        let call = Call::Find(find, size, mode);
        let of_list = self.on_list(&call);
        let of_block = self.on_block(&call);
        match (&of_list, &of_block) {
            (Ok(list), Ok(block)) if goes_first(find, list.range, block.range) => of_list,
            (Ok(_), Err(_)) => of_list,
            _ => of_block,
        }
    }

    /// The lands after a flush of the list.
    fn flushed(&self) -> Lands {
        let moved = flush::moved(&self.arena, self.capacity, &self.list, &self.block);
        Lands { list: self.list[moved.number..].to_vec(), block: moved.tabled, ..*self }
    }

    /// A call on the list land. The block land does not change.
    fn on_list(&self, call: &Call) -> Result<Step, u64> {
        let set::Step { after: list, range, old } = set::step(&self.arena, None, &self.list, call)?;
        Ok(Step { after: Lands { list, block: self.block.clone(), ..*self }, range, old })
    }

    /// A call on the block land. The list land does not change.
    fn on_block(&self, call: &Call) -> Result<Step, u64> {
        let set::Step { after: block, range, old } = set::step(&self.arena, Some(self.capacity), &self.block, call)?;
        Ok(Step { after: Lands { list: self.list.clone(), block, ..*self }, range, old })
    }

    /// Takes a range out of the block land: the lower fragment stays there, the upper goes to the list, where it merges
    /// with a range that it touches. Returns the block land's isolated range.
    fn hand_over(&self, range: Range) -> Result<Step, u64> {
        let held = set::containing(&self.block, range);
        let upper = Range::new(range.limit, held.limit);
        let block = set::without(&self.block, Range::new(range.base, held.limit));
        let taken = Lands { list: self.list.clone(), block, ..*self };
        let step = taken.on_list(&Call::Insert(upper))?;
        Ok(Step { range: held, ..step })
    }
}

/// Does a find take the one of two found ranges before the other?
fn goes_first(find: Find, one: Range, other: Range) -> bool {
    match find {
        Find::First => one.base < other.base,
        Find::Last => one.base > other.base,
        Find::Largest if one.length() == other.length() => one.base < other.base,
        Find::Largest => one.length() > other.length(),
    }
}
