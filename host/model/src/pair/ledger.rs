//! The ledger of a pair: it marks each land's bytes apart, by the steps of request K4. Free means marked for either
//! land. Like the ledger of one land it sees no answer, no handle and no word. The history of each land counts each
//! step of the pair that answers 0 once, whatever was done inside it.

use crate::arena::{Arena, Range};
use crate::call::Find;
use crate::ledger::{Entry, Ledger};

/// The marks and the histories of the two lands of a pair.
#[derive(Clone, Debug, PartialEq, Eq)]
pub struct PairLedger {
    arena: Arena,
    list: Ledger,
    block: Ledger,
}

impl PairLedger {
    /// The ledger of a pair of newly opened lands, with the block land's capacity.
    pub fn new(arena: Arena, capacity: u64) -> PairLedger {
        PairLedger { arena, list: Ledger::new(arena, None), block: Ledger::new(arena, Some(capacity)) }
    }

    /// The ledger of a pair of lands that hold these ranges already, put in by one step, or nothing if the lands cannot
    /// hold them or overlap.
    pub fn holding(arena: Arena, capacity: u64, list: &[Range], block: &[Range]) -> Option<PairLedger> {
        let mut ledger = PairLedger::new(arena, capacity);
        let listed = list.iter().all(|range| ledger.list.inner_insert(*range).answer == 0);
        let tabled = block.iter().all(|range| {
            ledger.block.inner_insert(*range).answer == 0 && !ledger.units(*range).any(|unit| ledger.list.marked(unit))
        });
        ledger.count();
        (listed && tabled).then_some(ledger)
    }

    /// The marks and the history of the list land.
    pub fn list(&self) -> &Ledger {
        &self.list
    }

    /// The marks and the history of the block land.
    pub fn block(&self) -> &Ledger {
        &self.block
    }

    /// Is the byte at the address marked for either land?
    pub fn marked(&self, address: u64) -> bool {
        self.list.marked(address) || self.block.marked(address)
    }

    /// An insert, which each history counts if it answers 0.
    pub fn insert(&mut self, range: Range) -> Entry {
        let entry = self.inner_insert(range);
        self.counted(entry)
    }

    /// A delete, which each history counts if it answers 0.
    pub fn delete(&mut self, range: Range) -> Entry {
        let entry = self.inner_delete(range);
        self.counted(entry)
    }

    /// A find, which each history counts if it answers 0.
    pub fn find(&mut self, find: Find, size: u64, mode: u64) -> Entry {
        let entry = self.inner_find(find, size, mode);
        self.counted(entry)
    }

    /// The history of each land counts the present total.
    fn count(&mut self) {
        self.list.count();
        self.block.count();
    }

    /// Each history counts a step that answers 0.
    fn counted(&mut self, entry: Entry) -> Entry {
        if entry.answer == 0 {
            self.count();
        }
        entry
    }

    /// Insert: 1 if a byte is marked for either land. Otherwise a flush, and the range is marked for the block land, or
    /// for the list where the block land answers 3.
    fn inner_insert(&mut self, range: Range) -> Entry {
        if !self.arena.allows_range(range) {
            return Entry::refused(4);
        }
        if self.units(range).any(|unit| self.marked(unit)) {
            return Entry::refused(1);
        }
        self.list.inner_flush(&mut self.block);
        let entry = self.block.inner_insert(range);
        if entry.answer == 3 {
            return self.list.inner_insert(range);
        }
        entry
    }

    /// Delete: 1 if a byte is marked for neither land, 7 if no land has them all. Otherwise a step of the land that has
    /// them; if the block land answers 3, the marks above the range go to the list.
    fn inner_delete(&mut self, range: Range) -> Entry {
        if !self.arena.allows_range(range) {
            return Entry::refused(4);
        }
        if self.units(range).any(|unit| !self.marked(unit)) {
            return Entry::refused(1);
        }
        if self.units(range).all(|unit| self.list.marked(unit)) {
            return self.list.inner_delete(range);
        }
        if self.units(range).any(|unit| self.list.marked(unit)) {
            return Entry::refused(7);
        }
        let entry = self.block.inner_delete(range);
        if entry.answer == 3 {
            return self.hand_over(range);
        }
        entry
    }

    /// Finds: a step of the land whose find is the lower, the higher or the longer.
    fn inner_find(&mut self, find: Find, size: u64, mode: u64) -> Entry {
        let (mut list, mut block) = (self.list.clone(), self.block.clone());
        let listed = list.inner_find(find, size, mode);
        let tabled = block.inner_find(find, size, mode);
        let lower = listed.range.base < tabled.range.base;
        let longer = listed.range.length().cmp(&tabled.range.length());
        let list_is_taken = match (listed.answer, tabled.answer) {
            (0, 0) => match find {
                Find::First => lower,
                Find::Last => !lower,
                Find::Largest => longer.is_gt() || (longer.is_eq() && lower),
            },
            (0, _) => true,
            _ => false,
        };
        if list_is_taken {
            self.list = list;
            return listed;
        }
        self.block = block;
        tabled
    }

    /// Unmarks the range for the block land; the marks that touch it above go to the list.
    fn hand_over(&mut self, range: Range) -> Entry {
        let mut top = range.limit;
        while self.block.marked(top) {
            top += self.arena.align();
        }
        let entry = self.block.inner_delete(Range::new(range.base, top));
        self.list.inner_insert(Range::new(range.limit, top));
        entry
    }

    /// An address of each unit of a range that keeps the rules.
    fn units(&self, range: Range) -> impl Iterator<Item = u64> {
        (range.base..range.limit).step_by(self.arena.align() as usize)
    }
}
