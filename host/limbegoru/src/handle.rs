//! Ranges and handles: plain numbers, laid out as the C interface has them.

/// A semi-open interval of byte addresses, [base, limit).
#[repr(C)]
#[derive(Clone, Copy, Debug, Default, PartialEq, Eq, PartialOrd, Ord, Hash)]
pub struct Range {
    /// The first byte.
    pub base: u64,
    /// The first byte behind it.
    pub limit: u64,
}

impl Range {
    /// [base, limit). Every pair of numbers is allowed; a call refuses one that breaks the rules.
    pub const fn new(base: u64, limit: u64) -> Range {
        Range { base, limit }
    }

    /// The number of its bytes; 0 if the limit is not above the base.
    pub const fn length(self) -> u64 {
        self.limit.saturating_sub(self.base)
    }
}

/// The handle of a list land.
#[repr(C)]
#[derive(Clone, Copy, Debug, Default, PartialEq, Eq, Hash)]
pub struct ListHandle {
    /// The arena's base.
    pub base: u64,
    /// The arena's limit.
    pub limit: u64,
    /// The alignment.
    pub align: u64,
    /// The base of the first range, or 0.
    pub head: u64,
    /// The number of ranges.
    pub ranges: u64,
    /// The number of free bytes.
    pub bytes: u64,
    /// The mark: 1 once an accepted call has left the land non-empty, 0 before.
    pub filled: u64,
    /// Low water: the least number of free bytes after any accepted call from that one on, 0 before.
    pub low: u64,
}

impl ListHandle {
    /// Low water; nothing before the mark is set.
    pub const fn low_water(self) -> Option<u64> {
        low_water(self.filled, self.low)
    }
}

/// The handle of a block land.
#[repr(C)]
#[derive(Clone, Copy, Debug, Default, PartialEq, Eq, Hash)]
pub struct BlockHandle {
    /// The arena's base.
    pub base: u64,
    /// The arena's limit.
    pub limit: u64,
    /// The alignment.
    pub align: u64,
    /// The number of ranges.
    pub ranges: u64,
    /// The number of free bytes.
    pub bytes: u64,
    /// The mark: 1 once an accepted call has left the land non-empty, 0 before.
    pub filled: u64,
    /// Low water: the least number of free bytes after any accepted call from that one on, 0 before.
    pub low: u64,
}

impl BlockHandle {
    /// Low water; nothing before the mark is set.
    pub const fn low_water(self) -> Option<u64> {
        low_water(self.filled, self.low)
    }
}

/// Low water by the two fields. A mark that is neither 0 nor 1 is not set: the next call refuses its handle.
const fn low_water(filled: u64, low: u64) -> Option<u64> {
    match filled {
        1 => Some(low),
        _ => None,
    }
}

/// The handle of a pair: those of its two lands.
#[repr(C)]
#[derive(Clone, Copy, Debug, Default, PartialEq, Eq, Hash)]
pub struct PairHandle {
    /// The list land's handle.
    pub list: ListHandle,
    /// The block land's handle.
    pub block: BlockHandle,
}

/// What a find takes out of the range that it finds. Of the largest range, low and high take all.
#[derive(Clone, Copy, Debug, PartialEq, Eq, Hash)]
pub enum Mode {
    /// Nothing: the range is only found.
    None = 0,
    /// Size bytes at its low end.
    Low = 1,
    /// Size bytes at its high end.
    High = 2,
    /// All of it.
    Entire = 3,
}

impl Mode {
    /// Its number in the C interface.
    pub const fn number(self) -> u64 {
        self as u64
    }
}
