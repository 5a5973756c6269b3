//! Answer numbers, checked in the order 5, 6, 4, 1 or 2, 3; of a pair 5, 6, 4, 1 or 2, 7.

/// Accepted.
pub const ACCEPTED: u64 = 0;
/// Insert: some byte is already free. Delete: some byte is not free.
pub const OVERLAP: u64 = 1;
/// No range qualifies.
pub const NONE_FOUND: u64 = 2;
/// Insert, delete: the set would afterwards have more ranges than the capacity.
pub const FULL: u64 = 3;
/// The range or size (or the mode's number) breaks the rules.
pub const REQUEST: u64 = 4;
/// The fixed handle fields or lent lengths break the arena rules.
pub const SET_UP: u64 = 5;
/// List or table not sound.
pub const DAMAGED: u64 = 6;
/// Delete on a pair: every byte is free, but no land holds all of them.
pub const IN_BOTH: u64 = 7;
