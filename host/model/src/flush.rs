//! The flush from a list land into a block land.

use crate::answer::{ACCEPTED, DAMAGED, SET_UP};
use crate::arena::{Arena, Range};
use crate::block::{self, BlockHandle};
use crate::call::Call;
use crate::list::{self, ListHandle};
use crate::set;

/// What a flush returns.
#[derive(Clone, Copy, Debug, PartialEq, Eq)]
pub struct Flushed {
    /// The next list handle.
    pub list: ListHandle,
    /// The next block handle.
    pub block: BlockHandle,
    /// The answer number.
    pub answer: u64,
    /// The number of ranges moved.
    pub moved: u64,
    /// The refusal that stopped it, or 0.
    pub stop: u64,
}

/// The arena of both lands and their isolated ranges, or the number of the refusal. A flush checks 5 for the list, 5
/// for the block land, their difference, then 6 for each in that order.
pub(crate) fn look(
    list: &ListHandle,
    words: &[u64],
    block: &BlockHandle,
    nodes: &[u64],
) -> Result<(Arena, Vec<Range>, Vec<Range>), u64> {
    let from = list::arena(list.base, list.limit, list.align, words).ok_or(SET_UP)?;
    let to = block::arena(block.base, block.limit, block.align, nodes).ok_or(SET_UP)?;
    if from != to {
        return Err(SET_UP);
    }
    let listed = list::read(&from, list, words).ok_or(DAMAGED)?;
    let tabled = block::read(&to, block, nodes).ok_or(DAMAGED)?;
    Ok((from, listed, tabled))
}

/// A flush on the sets of the two lands.
pub(crate) struct Moved {
    /// The number of ranges moved.
    pub number: usize,
    /// The isolated ranges of the block land afterwards.
    pub tabled: Vec<Range>,
    /// The refusal that stopped it, or 0.
    pub stop: u64,
}

/// Takes the list's ranges in address order, each out of the list and into the block land, until the list is empty or
/// an insert is refused; that range stays in the list.
pub(crate) fn moved(arena: &Arena, capacity: u64, listed: &[Range], tabled: &[Range]) -> Moved {
    let mut moved = Moved { number: 0, tabled: tabled.to_vec(), stop: ACCEPTED };
    for range in listed {
        match set::step(arena, Some(capacity), &moved.tabled, &Call::Insert(*range)) {
            Ok(step) => moved.tabled = step.after,
            Err(refusal) => {
                moved.stop = refusal;
                break;
            }
        }
        moved.number += 1;
    }
    moved
}

/// Moves the list's ranges into the block land. Returns the number moved and the refusal that stopped it, or 0. The
/// flush itself is then answered 0, and counts as one accepted call on each land.
pub fn flush(list: ListHandle, words: &mut [u64], block: BlockHandle, nodes: &mut [u64]) -> Flushed {
    let (arena, listed, tabled) = match look(&list, words, &block, nodes) {
        Ok(looked) => looked,
        Err(answer) => return Flushed { list, block, answer, moved: 0, stop: 0 },
    };
    let Moved { number, tabled, stop } = moved(&arena, block::capacity(nodes), &listed, &tabled);
    let left = &listed[number..];
    list::write(&arena, left, words);
    block::write(&tabled, nodes);
    Flushed {
        list: list.after(&arena, left),
        block: block.after(&arena, &tabled),
        answer: ACCEPTED,
        moved: number as u64,
        stop,
    }
}
