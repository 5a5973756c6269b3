//! The C calls by value, on slices. No call has a precondition on its numbers: every handle, every memory and every
//! number is answered, so all of them are safe. A refused call returns ranges (0, 0) and the handle that it was given
//! (all zeros from an opening), and changes no word.
//!
//! ```
//! use limbegoru::{calls, Range};
//!
//! let mut words = [0; 8];
//! let opened = calls::list_open(4096, 4160, 8, &words);
//! let changed = calls::list_insert(opened.land, &mut words, Range::new(4096, 4112));
//! assert_eq!((changed.answer, changed.land.bytes), (0, 16));
//! let found = calls::list_find_first(changed.land, &mut words, 8, 9);
//! assert_eq!(found.answer, 4); // no mode has the number 9
//! ```

use crate::handle::{BlockHandle, ListHandle, PairHandle, Range};
use crate::sys;

/// The number of the archive's interface, [`crate::VERSION`] if this crate fits it.
#[inline]
pub fn version() -> u64 {
    // SAFETY: the call has no arguments.
    unsafe { sys::lg_version() }
}

/// Opens a list land. No word is written.
#[inline]
pub fn list_open(base: u64, limit: u64, align: u64, words: &[u64]) -> sys::lg_list_opened {
    // SAFETY: the pointer and length are those of a slice, and the call only reads.
    unsafe { sys::lg_list_open(base, limit, align, words.as_ptr(), words.len()) }
}

/// Makes a range free that has no free byte.
#[inline]
pub fn list_insert(land: ListHandle, words: &mut [u64], range: Range) -> sys::lg_list_changed {
    // SAFETY: the pointer and length are those of a slice lent mutably.
    unsafe { sys::lg_list_insert(land, words.as_mut_ptr(), words.len(), range) }
}

/// Takes out a range that is all free.
#[inline]
pub fn list_delete(land: ListHandle, words: &mut [u64], range: Range) -> sys::lg_list_changed {
    // SAFETY: the pointer and length are those of a slice lent mutably.
    unsafe { sys::lg_list_delete(land, words.as_mut_ptr(), words.len(), range) }
}

/// The isolated range of at least the size with the lowest base.
#[inline]
pub fn list_find_first(land: ListHandle, words: &mut [u64], size: u64, mode: u64) -> sys::lg_list_found {
    // SAFETY: the pointer and length are those of a slice lent mutably.
    unsafe { sys::lg_list_find_first(land, words.as_mut_ptr(), words.len(), size, mode) }
}

/// The isolated range of at least the size with the highest base.
#[inline]
pub fn list_find_last(land: ListHandle, words: &mut [u64], size: u64, mode: u64) -> sys::lg_list_found {
    // SAFETY: the pointer and length are those of a slice lent mutably.
    unsafe { sys::lg_list_find_last(land, words.as_mut_ptr(), words.len(), size, mode) }
}

/// The longest isolated range, if it reaches the size.
#[inline]
pub fn list_find_largest(land: ListHandle, words: &mut [u64], size: u64, mode: u64) -> sys::lg_list_found {
    // SAFETY: the pointer and length are those of a slice lent mutably.
    unsafe { sys::lg_list_find_largest(land, words.as_mut_ptr(), words.len(), size, mode) }
}

/// The isolated range of lowest base at or above a number.
#[inline]
pub fn list_walk(land: ListHandle, words: &[u64], from: u64) -> sys::lg_list_changed {
    // SAFETY: the pointer and length are those of a slice, and the call only reads.
    unsafe { sys::lg_list_walk(land, words.as_ptr(), words.len(), from) }
}

/// [`list_insert`] at the handle that stands behind the reference: the next one is stored there.
#[inline]
pub fn list_insert_at(land: &mut ListHandle, words: &mut [u64], range: Range) -> sys::lg_list_changed {
    // SAFETY: the handle and the slice are lent mutably, so they do not overlap.
    unsafe { sys::lg_list_insert_at(land, words.as_mut_ptr(), words.len(), range) }
}

/// [`list_delete`] at the handle that stands behind the reference: the next one is stored there.
#[inline]
pub fn list_delete_at(land: &mut ListHandle, words: &mut [u64], range: Range) -> sys::lg_list_changed {
    // SAFETY: the handle and the slice are lent mutably, so they do not overlap.
    unsafe { sys::lg_list_delete_at(land, words.as_mut_ptr(), words.len(), range) }
}

/// [`list_walk`] at the handle that stands behind the reference: the same one is stored there.
#[inline]
pub fn list_walk_at(land: &mut ListHandle, words: &[u64], from: u64) -> sys::lg_list_changed {
    // SAFETY: the handle is lent mutably, so it does not overlap the slice, which the call only reads.
    unsafe { sys::lg_list_walk_at(land, words.as_ptr(), words.len(), from) }
}

/// Opens a block land. All pair words are set to 0.
#[inline]
pub fn block_open(base: u64, limit: u64, align: u64, nodes: &mut [u64]) -> sys::lg_block_opened {
    // SAFETY: the pointer and length are those of a slice lent mutably.
    unsafe { sys::lg_block_open(base, limit, align, nodes.as_mut_ptr(), nodes.len()) }
}

/// Makes a range free that has no free byte.
#[inline]
pub fn block_insert(land: BlockHandle, nodes: &mut [u64], range: Range) -> sys::lg_block_changed {
    // SAFETY: the pointer and length are those of a slice lent mutably.
    unsafe { sys::lg_block_insert(land, nodes.as_mut_ptr(), nodes.len(), range) }
}

/// Takes out a range that is all free.
#[inline]
pub fn block_delete(land: BlockHandle, nodes: &mut [u64], range: Range) -> sys::lg_block_changed {
    // SAFETY: the pointer and length are those of a slice lent mutably.
    unsafe { sys::lg_block_delete(land, nodes.as_mut_ptr(), nodes.len(), range) }
}

/// The isolated range of at least the size with the lowest base.
#[inline]
pub fn block_find_first(land: BlockHandle, nodes: &mut [u64], size: u64, mode: u64) -> sys::lg_block_found {
    // SAFETY: the pointer and length are those of a slice lent mutably.
    unsafe { sys::lg_block_find_first(land, nodes.as_mut_ptr(), nodes.len(), size, mode) }
}

/// The isolated range of at least the size with the highest base.
#[inline]
pub fn block_find_last(land: BlockHandle, nodes: &mut [u64], size: u64, mode: u64) -> sys::lg_block_found {
    // SAFETY: the pointer and length are those of a slice lent mutably.
    unsafe { sys::lg_block_find_last(land, nodes.as_mut_ptr(), nodes.len(), size, mode) }
}

/// The longest isolated range, if it reaches the size.
#[inline]
pub fn block_find_largest(land: BlockHandle, nodes: &mut [u64], size: u64, mode: u64) -> sys::lg_block_found {
    // SAFETY: the pointer and length are those of a slice lent mutably.
    unsafe { sys::lg_block_find_largest(land, nodes.as_mut_ptr(), nodes.len(), size, mode) }
}

/// The isolated range of lowest base at or above a number.
#[inline]
pub fn block_walk(land: BlockHandle, nodes: &[u64], from: u64) -> sys::lg_block_changed {
    // SAFETY: the pointer and length are those of a slice, and the call only reads.
    unsafe { sys::lg_block_walk(land, nodes.as_ptr(), nodes.len(), from) }
}

/// Moves the list's ranges, in address order, into the block land of the same arena. No arena word changes.
#[inline]
pub fn flush(list: ListHandle, words: &[u64], block: BlockHandle, nodes: &mut [u64]) -> sys::lg_flushed {
    // SAFETY: the pointers and lengths are those of slices; node space is lent mutably, so the two do not overlap.
    unsafe { sys::lg_flush(list, words.as_ptr(), words.len(), block, nodes.as_mut_ptr(), nodes.len()) }
}

/// Makes a range free that has no free byte in either land.
#[inline]
pub fn pair_insert(pair: PairHandle, words: &mut [u64], nodes: &mut [u64], range: Range) -> sys::lg_pair_changed {
    // SAFETY: the pointers and lengths are those of slices lent mutably, so the two do not overlap.
    unsafe { sys::lg_pair_insert(pair, words.as_mut_ptr(), words.len(), nodes.as_mut_ptr(), nodes.len(), range) }
}

/// Takes a range out of the land that holds all of it.
#[inline]
pub fn pair_delete(pair: PairHandle, words: &mut [u64], nodes: &mut [u64], range: Range) -> sys::lg_pair_changed {
    // SAFETY: the pointers and lengths are those of slices lent mutably, so the two do not overlap.
    unsafe { sys::lg_pair_delete(pair, words.as_mut_ptr(), words.len(), nodes.as_mut_ptr(), nodes.len(), range) }
}

/// The lower of what the two lands find first.
#[inline]
pub fn pair_find_first(
    pair: PairHandle,
    words: &mut [u64],
    nodes: &mut [u64],
    size: u64,
    mode: u64,
) -> sys::lg_pair_found {
    let (n, m) = (words.len(), nodes.len());
    // SAFETY: the pointers and lengths are those of slices lent mutably, so the two do not overlap.
    unsafe { sys::lg_pair_find_first(pair, words.as_mut_ptr(), n, nodes.as_mut_ptr(), m, size, mode) }
}

/// The higher of what the two lands find last.
#[inline]
pub fn pair_find_last(
    pair: PairHandle,
    words: &mut [u64],
    nodes: &mut [u64],
    size: u64,
    mode: u64,
) -> sys::lg_pair_found {
    let (n, m) = (words.len(), nodes.len());
    // SAFETY: the pointers and lengths are those of slices lent mutably, so the two do not overlap.
    unsafe { sys::lg_pair_find_last(pair, words.as_mut_ptr(), n, nodes.as_mut_ptr(), m, size, mode) }
}

/// The longer of the two lands' largest, the lower base among equals.
#[inline]
pub fn pair_find_largest(
    pair: PairHandle,
    words: &mut [u64],
    nodes: &mut [u64],
    size: u64,
    mode: u64,
) -> sys::lg_pair_found {
    let (n, m) = (words.len(), nodes.len());
    // SAFETY: the pointers and lengths are those of slices lent mutably, so the two do not overlap.
    unsafe { sys::lg_pair_find_largest(pair, words.as_mut_ptr(), n, nodes.as_mut_ptr(), m, size, mode) }
}
