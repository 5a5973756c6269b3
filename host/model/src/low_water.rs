//! Request K10: low water in the handle.
//!
//! Every handle has a mark whether any accepted call has yet left the land non-empty, and the least number of free
//! bytes after any accepted call from that one on; before it, 0. An opening is no such call. Both are read once for
//! each accepted call on a land, and once for each of the two lands after an accepted flush or call on a pair.

/// The mark and the low water of a land.
#[derive(Clone, Copy, Debug, Default, PartialEq, Eq, Hash)]
pub struct LowWater {
    /// The mark: 1 once an accepted call has left the land non-empty, 0 before.
    pub filled: u64,
    /// The least number of free bytes after an accepted call from that one on; before it, 0.
    pub low: u64,
}

impl LowWater {
    /// Of a new land.
    pub const NEW: LowWater = LowWater { filled: 0, low: 0 };

    /// Is it sound beside so many free bytes? The mark is 0 or 1. Low water does not exceed the bytes, and both are 0
    /// where the mark is unset.
    pub fn sound(self, bytes: u64) -> bool {
        match self.filled {
            0 => self.low == 0 && bytes == 0,
            1 => self.low <= bytes,
            _ => false,
        }
    }

    /// What follows after an accepted call that left so many free bytes.
    pub fn noted(self, bytes: u64) -> LowWater {
        match self.filled {
            0 if bytes == 0 => LowWater::NEW,
            0 => LowWater { filled: 1, low: bytes },
            _ => LowWater { filled: 1, low: self.low.min(bytes) },
        }
    }
}
