//! Request K4: a pair that takes over. A pair is one block land and one list land on the same arena; it offers insert,
//! delete and the finds.
//!
//! * [`lands`]: the calls on the sets of the two lands
//! * [`ledger`]: the ledger of a pair
//!
//! Checked in the order 5 of the list, 5 of the block land, their difference, 6 of the list, 6 of the block land, 6 of
//! overlapping lands, 4, 1 or 2, 7. A refusal returns ranges (0, 0) and the pair given, and changes no word. Each land
//! keeps its own low water, read after each accepted call: what an inner flush leaves for a moment is not read.
//!
//! ```
//! use limbegoru_model::{block, list, pair, Pair, Range};
//!
//! let (mut words, mut nodes) = ([0; 8], [0; 2]);
//! let list = list::open(4096, 4160, 8, &words).land;
//! let block = block::open(4096, 4160, 8, &mut nodes).land;
//! let first = pair::insert(Pair { list, block }, &mut words, &mut nodes, Range::new(4096, 4104));
//! assert_eq!((first.answer, nodes), (0, [4096, 4104]));
//! let second = pair::insert(first.pair, &mut words, &mut nodes, Range::new(4112, 4120));
//! assert_eq!((second.answer, second.pair.list.head, words[2]), (0, 4112, 1));
//! ```

pub mod lands;
pub mod ledger;

use crate::answer::{ACCEPTED, DAMAGED};
use crate::arena::Range;
use crate::block::{self, BlockHandle};
use crate::call::Find;
use crate::flush;
use crate::list::{self, ListHandle};
use lands::{Lands, Step};

/// The handles of a pair.
#[derive(Clone, Copy, Debug, Default, PartialEq, Eq, Hash)]
pub struct Pair {
    /// The list handle.
    pub list: ListHandle,
    /// The block handle.
    pub block: BlockHandle,
}

impl Pair {
    /// The next handles after an accepted call that left these lands.
    fn after(&self, lands: &Lands) -> Pair {
        let list = self.list.after(&lands.arena, &lands.list);
        let block = self.block.after(&lands.arena, &lands.block);
        Pair { list, block }
    }
}

/// What an insert or a delete returns.
#[derive(Clone, Copy, Debug, PartialEq, Eq)]
pub struct Changed {
    /// The next handles.
    pub pair: Pair,
    /// The answer number.
    pub answer: u64,
    /// The range of the land concerned.
    pub range: Range,
}

/// What a find returns.
#[derive(Clone, Copy, Debug, PartialEq, Eq)]
pub struct Found {
    /// The next handles.
    pub pair: Pair,
    /// The answer number.
    pub answer: u64,
    /// The found range.
    pub range: Range,
    /// The old range, of the land taken.
    pub old: Range,
}

/// Makes a range free that has no free byte in either land: flushes the list, inserts into the block land, and on 3
/// into the list. Returns the isolated range, of the land that took it, that then contains it.
pub fn insert(pair: Pair, words: &mut [u64], nodes: &mut [u64], range: Range) -> Changed {
    let step = look(&pair, words, nodes).and_then(|lands| lands.insert(range));
    changed(leave(pair, words, nodes, step))
}

/// Takes a range out of the land that holds all of it. Returns the isolated range of that land that contained it.
pub fn delete(pair: Pair, words: &mut [u64], nodes: &mut [u64], range: Range) -> Changed {
    let step = look(&pair, words, nodes).and_then(|lands| lands.delete(range));
    changed(leave(pair, words, nodes, step))
}

/// The lower of what the two lands find first.
pub fn find_first(pair: Pair, words: &mut [u64], nodes: &mut [u64], size: u64, mode: u64) -> Found {
    find(pair, words, nodes, Find::First, size, mode)
}

/// The higher of what the two lands find last.
pub fn find_last(pair: Pair, words: &mut [u64], nodes: &mut [u64], size: u64, mode: u64) -> Found {
    find(pair, words, nodes, Find::Last, size, mode)
}

/// The longer of the two lands' largest, the lower base among equals.
pub fn find_largest(pair: Pair, words: &mut [u64], nodes: &mut [u64], size: u64, mode: u64) -> Found {
    find(pair, words, nodes, Find::Largest, size, mode)
}

/// A find; only the land taken changes.
fn find(pair: Pair, words: &mut [u64], nodes: &mut [u64], find: Find, size: u64, mode: u64) -> Found {
    let step = look(&pair, words, nodes).and_then(|lands| lands.find(find, size, mode));
    leave(pair, words, nodes, step)
}

/// The sets of the two lands, or the number of the refusal. 5 and 6 are checked as in a flush; overlapping lands are 6,
/// after each land's own 6.
fn look(pair: &Pair, words: &[u64], nodes: &[u64]) -> Result<Lands, u64> {
    let (arena, list, block) = flush::look(&pair.list, words, &pair.block, nodes)?;
    let lands = Lands { arena, capacity: block::capacity(nodes), list, block };
    if lands.overlap() {
        return Err(DAMAGED);
    }
    Ok(lands)
}

/// Writes the words of an accepted call and returns its ranges. A refusal changes nothing.
fn leave(pair: Pair, words: &mut [u64], nodes: &mut [u64], step: Result<Step, u64>) -> Found {
    match step {
        Err(answer) => Found { pair, answer, range: Range::NOTHING, old: Range::NOTHING },
        Ok(Step { after, range, old }) => {
            list::write(&after.arena, &after.list, words);
            block::write(&after.block, nodes);
            Found { pair: pair.after(&after), answer: ACCEPTED, range, old }
        }
    }
}

/// An insert or a delete has no old range.
fn changed(found: Found) -> Changed {
    Changed { pair: found.pair, answer: found.answer, range: found.range }
}
