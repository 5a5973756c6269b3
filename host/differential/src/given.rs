//! A pair as it was given to a call, and the sets of its lands.

use limbegoru_model::{block, list, set, Arena, BlockHandle, ListHandle, Pair, Range};

/// The handles and both memories.
pub struct Given<'a> {
    /// The handles.
    pub pair: Pair,
    /// The arena's words.
    pub words: &'a [u64],
    /// Node space.
    pub nodes: &'a [u64],
}

/// The sets of two sound lands of one arena, which may overlap.
pub struct Lands {
    /// The arena.
    pub arena: Arena,
    /// The ranges of the list.
    pub list: Vec<Range>,
    /// The ranges of the block land.
    pub block: Vec<Range>,
}

impl Given<'_> {
    /// The arenas of the list and of the block land, each if it keeps the rules.
    pub fn arenas(&self) -> [Option<Arena>; 2] {
        let Pair { list, block } = self.pair;
        let from = list::arena(list.base, list.limit, list.align, self.words);
        [from, block::arena(block.base, block.limit, block.align, self.nodes)]
    }

    /// The ranges of the list and of the block land, each if its arena keeps the rules and it is sound.
    pub fn ranges(&self) -> [Option<Vec<Range>>; 2] {
        let [from, to] = self.arenas();
        let listed = from.and_then(|arena| list::read(&arena, &self.pair.list, self.words));
        [listed, to.and_then(|arena| block::read(&arena, &self.pair.block, self.nodes))]
    }

    /// The same with set marks and low water 0, which are sound beside any number of free bytes.
    pub fn with_sound_low_water(&self) -> Given<'_> {
        let list = ListHandle { filled: 1, low: 0, ..self.pair.list };
        let block = BlockHandle { filled: 1, low: 0, ..self.pair.block };
        Given { pair: Pair { list, block }, ..*self }
    }

    /// The sets, if both lands are sound and of one arena.
    pub fn lands(&self) -> Option<Lands> {
        match (self.arenas(), self.ranges()) {
            ([Some(arena), to], [Some(list), Some(block)]) if to == Some(arena) => Some(Lands { arena, list, block }),
            _ => None,
        }
    }
}

impl Lands {
    /// The number of bytes of a range that are free in the list and in the block land.
    pub fn free(&self, range: Range) -> [u64; 2] {
        [&self.list, &self.block].map(|set| set.iter().map(|free| free.common(range).length()).sum())
    }

    /// The runs of bytes that are free in either land.
    pub fn runs(&self) -> Vec<Range> {
        set::isolated([self.list.as_slice(), &self.block].concat())
    }

    /// Is a byte free in both lands?
    pub fn overlap(&self) -> bool {
        self.list.iter().any(|range| self.free(*range)[1] > 0)
    }
}

/// The longest length of a set, if it reaches the size.
pub fn longest(set: &[Range], size: u64) -> Option<u64> {
    set.iter().map(|range| range.length()).max().filter(|longest| *longest >= size)
}
