//! Limbegoru: sets of free address ranges, for a host in Rust. The calls are those of the proved component, linked from
//! its archive; this crate adds the borrowing of the words and turns answer numbers into results.
//!
//! A land keeps the free ranges of an arena [base, limit). A [`ListLand`] records them inside the free memory, a
//! [`BlockLand`] in separate node space, and [`flush`] moves them from the first to the second. A [`Pair`] of both
//! takes over in the list what has no room in node space. No call has a precondition: every handle, every memory and
//! every number is answered, and a refused call changes nothing. Nothing of `std` is used.
//!
//! A host gives out a piece of its memory and takes it back; the second release of the same piece is refused:
//!
//! ```
//! use limbegoru::{ListLand, Mode, Range, Refusal};
//!
//! let mut words = [0; 64];
//! let mut land = ListLand::open(4096, 4096 + 8 * 64, 8, &mut words)?;
//! land.insert(Range::new(4096, 4096 + 8 * 64))?; // everything is free
//!
//! let given = land.find_first(40, Mode::Low)?.range;
//! land.words_mut()[0] = u64::MAX; // the host's own bytes
//!
//! land.insert(given)?; // released
//! assert_eq!(land.insert(given), Err(Refusal::Overlap)); // released again
//! assert_eq!(land.handle().bytes, 8 * 64);
//! # Ok::<(), Refusal>(())
//! ```
//!
//! A pair records every release, however small its node space. What lies in both lands is not taken out by one delete:
//!
//! ```
//! use limbegoru::{BlockLand, ListLand, Pair, Range, Refusal};
//!
//! let (mut words, mut nodes) = ([0; 8], [0; 2]); // node space for one range
//! let list = ListLand::open(4096, 4160, 8, &mut words)?;
//! let block = BlockLand::open(4096, 4160, 8, &mut nodes)?;
//! let mut pair = Pair::new(list, block);
//!
//! pair.insert(Range::new(4096, 4112))?; // into the block land
//! pair.insert(Range::new(4120, 4136))?; // it is full: into the list
//! pair.insert(Range::new(4112, 4120))?; // it grows up to the list's range
//! assert_eq!(pair.delete(Range::new(4112, 4128)), Err(Refusal::InBoth));
//!
//! let (list, block) = pair.into_lands();
//! assert_eq!((list.handle().bytes, block.handle().bytes), (16, 24));
//! # Ok::<(), Refusal>(())
//! ```
//!
//! To size an arena, a host reads low water, the least number of free bytes after any accepted call, from the first that
//! left the land non-empty on. Where that first call made the whole arena free, it is what was to spare when most was in
//! use:
//!
//! ```
//! use limbegoru::{ListLand, Mode, Range, Refusal};
//!
//! let mut words = [0; 64];
//! let mut land = ListLand::open(4096, 4096 + 8 * 64, 8, &mut words)?;
//! assert_eq!(land.low_water(), None); // nothing was free yet
//! land.insert(Range::new(4096, 4096 + 8 * 64))?;
//! for _ in 0..10 {
//!     let given = land.find_first(40, Mode::Low)?.range;
//!     land.insert(given)?;
//! }
//! assert_eq!(land.low_water(), Some(8 * 64 - 40)); // no more than 40 bytes were given out at once
//! # Ok::<(), Refusal>(())
//! ```
//!
//! The archive `liblimbegoru.a` is made by `host/c/build`; `LIMBEGORU_ARCHIVE_DIR` names its folder if it is elsewhere.
#![no_std]
#![deny(missing_docs)]
#![deny(unsafe_op_in_unsafe_fn)]

mod block;
pub mod calls;
mod handle;
mod list;
mod pair;
mod ranges;
mod refusal;
pub mod sys;

pub use block::BlockLand;
pub use handle::{BlockHandle, ListHandle, Mode, PairHandle, Range};
pub use list::ListLand;
pub use pair::Pair;
pub use ranges::Ranges;
pub use refusal::Refusal;

/// The number of the interface for which this crate is written; [`calls::version`] returns the archive's. It is raised
/// by every change of a struct, a function or the meaning of an answer.
pub const VERSION: u64 = 2;
/// The highest limit of an arena, 2^40.
pub const LIMIT_MAX: u64 = 1 << 40;
/// The lowest alignment.
pub const ALIGN_MIN: u64 = 8;
/// The highest alignment.
pub const ALIGN_MAX: u64 = 4096;
/// The longest node space, in words.
pub const NODE_WORDS_MAX: usize = 2_097_152;

/// What a find found.
#[derive(Clone, Copy, Debug, PartialEq, Eq, Hash)]
pub struct Found {
    /// The found range, which is taken out in every mode but none.
    pub range: Range,
    /// The isolated range in which it was found.
    pub old: Range,
}

/// What a flush did.
#[derive(Clone, Copy, Debug, PartialEq, Eq, Hash)]
pub struct Flushed {
    /// The number of ranges moved.
    pub moved: u64,
    /// The refusal of the block land that stopped it; nothing if the list is empty now.
    pub stop: Option<Refusal>,
}

/// Moves the list's ranges, in address order, into the block land of the same arena, until none is left or one is
/// refused; that one stays in the list. No arena word changes. For low water it is one call on each of the two lands.
///
/// ```
/// use limbegoru::{flush, BlockLand, Flushed, ListLand, Range, Refusal};
///
/// let (mut words, mut nodes) = ([0; 8], [0; 2]);
/// let mut list = ListLand::open(4096, 4160, 8, &mut words)?;
/// list.insert(Range::new(4096, 4104))?;
/// list.insert(Range::new(4120, 4136))?;
/// let mut block = BlockLand::open(4096, 4160, 8, &mut nodes)?;
/// assert_eq!(flush(&mut list, &mut block), Ok(Flushed { moved: 1, stop: Some(Refusal::Full) }));
/// assert_eq!(list.walk(0), Ok(Range::new(4120, 4136)));
/// assert_eq!(block.walk(0), Ok(Range::new(4096, 4104)));
/// # Ok::<(), Refusal>(())
/// ```
pub fn flush(list: &mut ListLand<'_>, block: &mut BlockLand<'_>) -> Result<Flushed, Refusal> {
    let flushed = calls::flush(list.handle(), list.words(), block.handle(), block.words_mut());
    Refusal::check(flushed.answer)?;
    list.follow(flushed.list);
    block.follow(flushed.block);
    Ok(Flushed { moved: flushed.moved, stop: Refusal::check(flushed.stop).err() })
}
