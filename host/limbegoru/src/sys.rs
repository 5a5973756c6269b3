//! The C interface as `include/limbegoru.h` declares it. The functions of [`crate::calls`] call it safely.
#![allow(non_camel_case_types)]

use crate::handle::{BlockHandle, ListHandle, PairHandle, Range};

/// A range: `base`, `limit`.
pub type lg_range = Range;
/// A list handle: `base`, `limit`, `align`, `head`, `ranges`, `bytes`, `filled`, `low`.
pub type lg_list_land = ListHandle;
/// A block handle: `base`, `limit`, `align`, `ranges`, `bytes`, `filled`, `low`.
pub type lg_block_land = BlockHandle;
/// A pair's handle: `list`, `block`.
pub type lg_pair = PairHandle;

/// What the opening of a list land returns.
#[repr(C)]
#[derive(Clone, Copy, Debug, PartialEq, Eq)]
#[must_use = "the next handle and the answer are in it"]
pub struct lg_list_opened {
    /// The new handle.
    pub land: lg_list_land,
    /// The answer number.
    pub answer: u64,
}

/// What an insert, a delete or a walk on a list land returns.
#[repr(C)]
#[derive(Clone, Copy, Debug, PartialEq, Eq)]
#[must_use = "the next handle and the answer are in it"]
pub struct lg_list_changed {
    /// The next handle.
    pub land: lg_list_land,
    /// The answer number.
    pub answer: u64,
    /// The range of the call.
    pub range: lg_range,
}

/// What a find on a list land returns.
#[repr(C)]
#[derive(Clone, Copy, Debug, PartialEq, Eq)]
#[must_use = "the next handle and the answer are in it"]
pub struct lg_list_found {
    /// The next handle.
    pub land: lg_list_land,
    /// The answer number.
    pub answer: u64,
    /// What was found.
    pub range: lg_range,
    /// The isolated range in which it was found.
    pub old: lg_range,
}

/// What the opening of a block land returns.
#[repr(C)]
#[derive(Clone, Copy, Debug, PartialEq, Eq)]
#[must_use = "the next handle and the answer are in it"]
pub struct lg_block_opened {
    /// The new handle.
    pub land: lg_block_land,
    /// The answer number.
    pub answer: u64,
}

/// What an insert, a delete or a walk on a block land returns.
#[repr(C)]
#[derive(Clone, Copy, Debug, PartialEq, Eq)]
#[must_use = "the next handle and the answer are in it"]
pub struct lg_block_changed {
    /// The next handle.
    pub land: lg_block_land,
    /// The answer number.
    pub answer: u64,
    /// The range of the call.
    pub range: lg_range,
}

/// What a find on a block land returns.
#[repr(C)]
#[derive(Clone, Copy, Debug, PartialEq, Eq)]
#[must_use = "the next handle and the answer are in it"]
pub struct lg_block_found {
    /// The next handle.
    pub land: lg_block_land,
    /// The answer number.
    pub answer: u64,
    /// What was found.
    pub range: lg_range,
    /// The isolated range in which it was found.
    pub old: lg_range,
}

/// What a flush returns.
#[repr(C)]
#[derive(Clone, Copy, Debug, PartialEq, Eq)]
#[must_use = "the next handle and the answer are in it"]
pub struct lg_flushed {
    /// The next list handle.
    pub list: lg_list_land,
    /// The next block handle.
    pub block: lg_block_land,
    /// The answer number.
    pub answer: u64,
    /// The number of ranges moved.
    pub moved: u64,
    /// The refusal that stopped it, or 0.
    pub stop: u64,
}

/// What an insert or a delete on a pair returns.
#[repr(C)]
#[derive(Clone, Copy, Debug, PartialEq, Eq)]
#[must_use = "the next handle and the answer are in it"]
pub struct lg_pair_changed {
    /// The next handle.
    pub pair: lg_pair,
    /// The answer number.
    pub answer: u64,
    /// The range of the call, of the land concerned.
    pub range: lg_range,
}

/// What a find on a pair returns.
#[repr(C)]
#[derive(Clone, Copy, Debug, PartialEq, Eq)]
#[must_use = "the next handle and the answer are in it"]
pub struct lg_pair_found {
    /// The next handle.
    pub pair: lg_pair,
    /// The answer number.
    pub answer: u64,
    /// What was found.
    pub range: lg_range,
    /// The isolated range, of the land that has it, in which it was found.
    pub old: lg_range,
}

#[rustfmt::skip]
#[allow(missing_docs)]
extern "C" {
    pub fn lg_version() -> u64;

    pub fn lg_list_open(base: u64, limit: u64, align: u64, words: *const u64, n: usize) -> lg_list_opened;
    pub fn lg_list_insert(land: lg_list_land, words: *mut u64, n: usize, range: lg_range) -> lg_list_changed;
    pub fn lg_list_delete(land: lg_list_land, words: *mut u64, n: usize, range: lg_range) -> lg_list_changed;
    pub fn lg_list_find_first(land: lg_list_land, words: *mut u64, n: usize, size: u64, mode: u64) -> lg_list_found;
    pub fn lg_list_find_last(land: lg_list_land, words: *mut u64, n: usize, size: u64, mode: u64) -> lg_list_found;
    pub fn lg_list_find_largest(land: lg_list_land, words: *mut u64, n: usize, size: u64, mode: u64) -> lg_list_found;
    pub fn lg_list_walk(land: lg_list_land, words: *const u64, n: usize, from: u64) -> lg_list_changed;

    pub fn lg_list_insert_at(land: *mut lg_list_land, words: *mut u64, n: usize, range: lg_range) -> lg_list_changed;
    pub fn lg_list_delete_at(land: *mut lg_list_land, words: *mut u64, n: usize, range: lg_range) -> lg_list_changed;
    pub fn lg_list_walk_at(land: *mut lg_list_land, words: *const u64, n: usize, from: u64) -> lg_list_changed;

    pub fn lg_block_open(base: u64, limit: u64, align: u64, nodes: *mut u64, m: usize) -> lg_block_opened;
    pub fn lg_block_insert(land: lg_block_land, nodes: *mut u64, m: usize, range: lg_range) -> lg_block_changed;
    pub fn lg_block_delete(land: lg_block_land, nodes: *mut u64, m: usize, range: lg_range) -> lg_block_changed;
    pub fn lg_block_find_first(land: lg_block_land, nodes: *mut u64, m: usize, size: u64, mode: u64) -> lg_block_found;
    pub fn lg_block_find_last(land: lg_block_land, nodes: *mut u64, m: usize, size: u64, mode: u64) -> lg_block_found;
    pub fn lg_block_find_largest(land: lg_block_land, nodes: *mut u64, m: usize, size: u64, mode: u64)
        -> lg_block_found;
    pub fn lg_block_walk(land: lg_block_land, nodes: *const u64, m: usize, from: u64) -> lg_block_changed;

    pub fn lg_flush(list: lg_list_land, words: *const u64, n: usize, block: lg_block_land, nodes: *mut u64, m: usize)
        -> lg_flushed;

    pub fn lg_pair_insert(pair: lg_pair, words: *mut u64, n: usize, nodes: *mut u64, m: usize, range: lg_range)
        -> lg_pair_changed;
    pub fn lg_pair_delete(pair: lg_pair, words: *mut u64, n: usize, nodes: *mut u64, m: usize, range: lg_range)
        -> lg_pair_changed;
    pub fn lg_pair_find_first(pair: lg_pair, words: *mut u64, n: usize, nodes: *mut u64, m: usize, size: u64,
        mode: u64) -> lg_pair_found;
    pub fn lg_pair_find_last(pair: lg_pair, words: *mut u64, n: usize, nodes: *mut u64, m: usize, size: u64,
        mode: u64) -> lg_pair_found;
    pub fn lg_pair_find_largest(pair: lg_pair, words: *mut u64, n: usize, nodes: *mut u64, m: usize, size: u64,
        mode: u64) -> lg_pair_found;
}
