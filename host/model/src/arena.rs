//! Arena, addresses, sizes.

/// The highest limit of an arena.
pub const HIGHEST_LIMIT: u64 = 1 << 40;

/// [base, limit), a semi-open interval of byte addresses.
#[derive(Clone, Copy, Debug, Default, PartialEq, Eq, PartialOrd, Ord, Hash)]
pub struct Range {
    /// The first byte.
    pub base: u64,
    /// The first byte behind it.
    pub limit: u64,
}

impl Range {
    /// The range (0, 0) of a refusal.
    pub const NOTHING: Range = Range { base: 0, limit: 0 };

    /// [base, limit).
    pub const fn new(base: u64, limit: u64) -> Range {
        Range { base, limit }
    }

    /// The number of its bytes.
    pub fn length(self) -> u64 {
        self.limit.saturating_sub(self.base)
    }

    /// The bytes that it has in common with another.
    pub fn common(self, other: Range) -> Range {
        Range::new(self.base.max(other.base), self.limit.min(other.limit))
    }
}

/// An arena that keeps the rules.
#[derive(Clone, Copy, Debug, PartialEq, Eq)]
pub struct Arena {
    base: u64,
    limit: u64,
    align: u64,
}

impl Arena {
    /// Alignment is a power of two from 8 to 4,096. Base and limit are multiples of it; base is not 0;
    /// base <= limit <= 2^40. An arena of length 0 is allowed.
    pub fn new(base: u64, limit: u64, align: u64) -> Option<Arena> {
        let alignment = align.is_power_of_two() && (8..=4096).contains(&align);
        let multiples = alignment && base.is_multiple_of(align) && limit.is_multiple_of(align);
        let ends = base != 0 && base <= limit && limit <= HIGHEST_LIMIT;
        (multiples && ends).then_some(Arena { base, limit, align })
    }

    /// Its first byte.
    pub fn base(&self) -> u64 {
        self.base
    }

    /// The first byte behind it.
    pub fn limit(&self) -> u64 {
        self.limit
    }

    /// Its alignment.
    pub fn align(&self) -> u64 {
        self.align
    }

    /// The number of its bytes.
    pub fn length(&self) -> u64 {
        self.limit - self.base
    }

    /// The words that a list land is lent: exactly (limit - base) / 8.
    pub fn words(&self) -> u64 {
        self.length() / 8
    }

    /// The word at address a of the arena is number (a - base) / 8.
    pub fn word_at(&self, address: u64) -> usize {
        ((address - self.base) / 8) as usize
    }

    /// Is the number a multiple of the alignment?
    pub fn aligned(&self, number: u64) -> bool {
        number.is_multiple_of(self.align)
    }

    /// A range in a request must have base < limit, both multiples of the alignment, and lie in the arena. The stored
    /// ranges keep the same rule.
    pub fn allows_range(&self, range: Range) -> bool {
        let aligned = self.aligned(range.base) && self.aligned(range.limit);
        let inside = self.base <= range.base && range.limit <= self.limit;
        range.base < range.limit && aligned && inside
    }

    /// A find's size is a multiple of the alignment. Size 0 is allowed only for the largest. A size above the arena's
    /// length is not a fault.
    pub fn allows_size(&self, size: u64, largest: bool) -> bool {
        self.aligned(size) && (size != 0 || largest)
    }
}
