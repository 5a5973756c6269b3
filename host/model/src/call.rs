//! The calls and what they return.

use crate::arena::Range;

/// The three finds.
#[derive(Clone, Copy, Debug, PartialEq, Eq)]
pub enum Find {
    /// The isolated range of at least the size with the lowest base.
    First,
    /// The isolated range of at least the size with the highest base.
    Last,
    /// The longest range, the lowest base among equals, if it reaches the size.
    Largest,
}

/// Mode *none*.
pub const MODE_NONE: u64 = 0;
/// Mode *low*.
pub const MODE_LOW: u64 = 1;
/// Mode *high*.
pub const MODE_HIGH: u64 = 2;
/// Mode *entire*. A number above it is no mode.
pub const MODE_ENTIRE: u64 = 3;

/// A call on a land, with its numbers as they come.
#[derive(Clone, Copy, Debug, PartialEq, Eq)]
pub enum Call {
    /// Insert a range.
    Insert(Range),
    /// Delete a range.
    Delete(Range),
    /// Find with a size and the number of a mode.
    Find(Find, u64, u64),
    /// Walk from a number.
    Walk(u64),
}

/// What an opening returns.
#[derive(Clone, Copy, Debug, PartialEq, Eq)]
pub struct Opened<H> {
    /// The handle of the new land. A handle that refuses to open has every field 0.
    pub land: H,
    /// The answer number.
    pub answer: u64,
}

/// What a call returns.
#[derive(Clone, Copy, Debug, PartialEq, Eq)]
pub struct Done<H> {
    /// The next handle.
    pub land: H,
    /// The answer number.
    pub answer: u64,
    /// The range of the call; of a find, the found range.
    pub range: Range,
    /// The old range of a find; (0, 0) of the other calls.
    pub old: Range,
}

impl<H> Done<H> {
    /// Every refusal returns ranges (0, 0) and the handle given.
    pub fn refused(land: H, answer: u64) -> Done<H> {
        Done { land, answer, range: Range::NOTHING, old: Range::NOTHING }
    }
}
