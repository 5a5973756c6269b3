//! The ledger of demand 3.
//!
//! The ledger is fed the set's arena and alignment, a block land's capacity, and in turn each insert, delete and find
//! with its range, or its size and mode; it sees no answer, no handle and no word. It marks bytes of the arena: one
//! mark stands for the bytes of one unit of the alignment, since no call that keeps the rules divides a unit.
//!
//! By request K11 the capacity is tested in an insert and a delete alone: no find answers 3.
//!
//! For request K10 it keeps the history's totals: the number of marked bytes after each step that answers 0. A walk and
//! a find in mode *none* leave the total as it was, so it makes no difference that no walk is fed.

use crate::arena::{Arena, Range};
use crate::call::{Find, MODE_ENTIRE, MODE_HIGH, MODE_LOW, MODE_NONE};
use crate::low_water::LowWater;

/// What a step of the ledger gives.
#[derive(Clone, Copy, Debug, Default, PartialEq, Eq)]
pub struct Entry {
    /// The answer number.
    pub answer: u64,
    /// The range of the step; of a find, the found range.
    pub range: Range,
    /// The old range of a find; (0, 0) of the other steps.
    pub old: Range,
}

impl Entry {
    /// A refused step returns ranges (0, 0).
    pub(crate) fn refused(answer: u64) -> Entry {
        Entry { answer, ..Entry::default() }
    }
}

/// The marks of a set's arena, and the history's totals.
#[derive(Clone, Debug, PartialEq, Eq)]
pub struct Ledger {
    arena: Arena,
    capacity: Option<u64>,
    marks: Vec<bool>,
    totals: Vec<u64>,
}

impl Ledger {
    /// After an accepted opening no byte is marked, and the history is empty. Only a block land has a capacity.
    pub fn new(arena: Arena, capacity: Option<u64>) -> Ledger {
        let units = arena.length() / arena.align();
        Ledger { arena, capacity, marks: vec![false; units as usize], totals: Vec::new() }
    }

    /// Is the byte at the address marked? No byte outside the arena is.
    pub fn marked(&self, address: u64) -> bool {
        let inside = self.arena.base() <= address && address < self.arena.limit();
        inside && self.marks[self.unit(address)]
    }

    /// The isolated ranges in address order.
    pub fn isolated(&self) -> Vec<Range> {
        let starts = |i: &usize| self.marks[*i] && (*i == 0 || !self.marks[*i - 1]);
        let first_units = (0..self.marks.len()).filter(starts);
        first_units.map(|i| self.around(&self.marks, i)).collect()
    }

    /// The mark is set if a step has left the set non-empty; low water is the least total from the first such step on.
    pub fn low_water(&self) -> LowWater {
        let from_the_first = self.totals.iter().skip_while(|total| **total == 0);
        from_the_first.min().map_or(LowWater::NEW, |least| LowWater { filled: 1, low: *least })
    }

    /// An insert, which the history counts if it answers 0.
    pub fn insert(&mut self, range: Range) -> Entry {
        let entry = self.inner_insert(range);
        self.counted(entry)
    }

    /// A delete, which the history counts if it answers 0.
    pub fn delete(&mut self, range: Range) -> Entry {
        let entry = self.inner_delete(range);
        self.counted(entry)
    }

    /// A find, which the history counts if it answers 0.
    pub fn find(&mut self, find: Find, size: u64, mode: u64) -> Entry {
        let entry = self.inner_find(find, size, mode);
        self.counted(entry)
    }

    /// A flush into a block land, which each history counts as one step: the number of ranges moved, and the refusal
    /// that stopped it, or 0.
    pub fn flush(&mut self, block: &mut Ledger) -> (u64, u64) {
        let moved = self.inner_flush(block);
        self.count();
        block.count();
        moved
    }

    /// The history counts the present total.
    pub(crate) fn count(&mut self) {
        let units = self.marks.iter().filter(|mark| **mark).count() as u64;
        self.totals.push(units * self.arena.align());
    }

    /// The history counts a step that answers 0.
    fn counted(&mut self, entry: Entry) -> Entry {
        if entry.answer == 0 {
            self.count();
        }
        entry
    }

    /// Insert: 1 if a byte of the range is marked. Otherwise it marks the range and returns the isolated range that
    /// then contains it.
    pub(crate) fn inner_insert(&mut self, range: Range) -> Entry {
        if !self.arena.allows_range(range) {
            return Entry::refused(4);
        }
        let units = self.unit(range.base)..self.unit(range.limit);
        if self.marks[units.clone()].contains(&true) {
            return Entry::refused(1);
        }
        let mut marks = self.marks.clone();
        marks[units.clone()].fill(true);
        let range = self.around(&marks, units.start);
        self.leave(marks, range)
    }

    /// Delete: 1 if a byte of the range is not marked. Otherwise it returns the isolated range that contains it, and
    /// unmarks the bytes asked for.
    pub(crate) fn inner_delete(&mut self, range: Range) -> Entry {
        if !self.arena.allows_range(range) {
            return Entry::refused(4);
        }
        let units = self.unit(range.base)..self.unit(range.limit);
        if self.marks[units.clone()].contains(&false) {
            return Entry::refused(1);
        }
        let containing = self.around(&self.marks, units.start);
        let mut marks = self.marks.clone();
        marks[units].fill(false);
        self.leave(marks, containing)
    }

    /// Finds: 2 if no isolated range qualifies. Otherwise they choose and return as under Calls, and unmark the found
    /// range in every mode but *none*.
    pub(crate) fn inner_find(&mut self, find: Find, size: u64, mode: u64) -> Entry {
        if !self.arena.allows_size(size, find == Find::Largest) || mode > MODE_ENTIRE {
            return Entry::refused(4);
        }
        let Some(old) = self.chosen(find, size) else {
            return Entry::refused(2);
        };
        let mut found = old;
        if find != Find::Largest && mode == MODE_LOW {
            found.limit = old.base + size;
        }
        if find != Find::Largest && mode == MODE_HIGH {
            found.base = old.limit - size;
        }
        if mode != MODE_NONE {
            let units = self.unit(found.base)..self.unit(found.limit);
            self.marks[units].fill(false);
        }
        Entry { answer: 0, range: found, old }
    }

    /// Moves the isolated ranges in address order to the block land, until one is refused.
    pub(crate) fn inner_flush(&mut self, block: &mut Ledger) -> (u64, u64) {
        let mut moved = 0;
        for range in self.isolated() {
            let refusal = block.inner_insert(range).answer;
            if refusal != 0 {
                return (moved, refusal);
            }
            self.inner_delete(range);
            moved += 1;
        }
        (moved, 0)
    }

    /// The number of the unit that begins at the address, or holds it.
    fn unit(&self, address: u64) -> usize {
        ((address - self.arena.base()) / self.arena.align()) as usize
    }

    /// The isolated range of these marks around a marked unit.
    fn around(&self, marks: &[bool], unit: usize) -> Range {
        let mut first = unit;
        while first > 0 && marks[first - 1] {
            first -= 1;
        }
        let mut behind = unit;
        while behind < marks.len() && marks[behind] {
            behind += 1;
        }
        let address = |unit: usize| self.arena.base() + unit as u64 * self.arena.align();
        Range::new(address(first), address(behind))
    }

    /// The isolated range that a find chooses: the ranges are gone through in address order.
    fn chosen(&self, find: Find, size: u64) -> Option<Range> {
        let mut chosen: Option<Range> = None;
        for range in self.isolated() {
            let better = match (find, chosen) {
                (_, None) => true,
                (Find::First, Some(_)) => false,
                (Find::Last, Some(_)) => true,
                (Find::Largest, Some(longest)) => range.length() > longest.length(),
            };
            if better && range.length() >= size {
                chosen = Some(range);
            }
        }
        chosen
    }

    /// In a block land, an insert or a delete that would leave more isolated ranges than the capacity answers 3 instead.
    /// Any other answers 0.
    fn leave(&mut self, marks: Vec<bool>, range: Range) -> Entry {
        let begins = |i: &usize| marks[*i] && (*i == 0 || !marks[*i - 1]);
        let count = (0..marks.len()).filter(begins).count() as u64;
        if self.capacity.is_some_and(|capacity| count > capacity) {
            return Entry::refused(3);
        }
        self.marks = marks;
        Entry { answer: 0, range, old: Range::NOTHING }
    }
}
