//! The results of include/limbegoru.h over a land or a pair, and the calls of the four implementations in traits.

pub use limbegoru::{BlockHandle as BlockLand, ListHandle as ListLand, PairHandle as Pair, Range};

use std::fmt::Debug;

use crate::baseline;

#[repr(C)]
#[derive(Clone, Copy, Debug, PartialEq, Eq)]
pub struct Changed<L> {
    pub land: L,
    pub answer: u64,
    pub range: Range,
}

#[repr(C)]
#[derive(Clone, Copy, Debug, PartialEq, Eq)]
pub struct Found<L> {
    pub land: L,
    pub answer: u64,
    pub range: Range,
    pub old: Range,
}

#[repr(C)]
#[derive(Clone, Copy, Debug, PartialEq, Eq)]
pub struct Flushed {
    pub land: Pair,
    pub answer: u64,
    pub moved: u64,
    pub stop: u64,
}

pub const ANSWER_OK: u64 = 0;
pub const ANSWER_OVERLAP: u64 = 1;
pub const ANSWER_NONE: u64 = 2;
pub const ANSWER_FULL: u64 = 3;
pub const ANSWER_REQUEST: u64 = 4;
pub const ANSWER_SET_UP: u64 = 5;
pub const ANSWER_DAMAGED: u64 = 6;
pub const ANSWER_IN_BOTH: u64 = 7;

pub const MODE_NONE: u64 = 0;
pub const MODE_LOW: u64 = 1;
pub const MODE_HIGH: u64 = 2;
pub const MODE_ENTIRE: u64 = 3;

/// A handle, and what the host lends with it at every call.
pub trait Handle: Sized {
    /// The arena's words, node space, or both of them in this order.
    type Memory: AsMut<[Vec<u64>]> + Clone + PartialEq + Debug;
}

impl Handle for ListLand {
    type Memory = [Vec<u64>; 1];
}

impl Handle for BlockLand {
    type Memory = [Vec<u64>; 1];
}

impl Handle for Pair {
    type Memory = [Vec<u64>; 2];
}

/// The calls that a land and a pair have, in one implementation.
pub trait Calls<Implementation>: Handle {
    fn insert(self, memory: &mut Self::Memory, range: Range) -> Changed<Self>;
    fn delete(self, memory: &mut Self::Memory, range: Range) -> Changed<Self>;
    fn find_first(self, memory: &mut Self::Memory, size: u64, mode: u64) -> Found<Self>;
    fn find_last(self, memory: &mut Self::Memory, size: u64, mode: u64) -> Found<Self>;
    fn find_largest(self, memory: &mut Self::Memory, size: u64, mode: u64) -> Found<Self>;
}

/// The walk of a land.
pub trait Walks<Implementation>: Handle {
    fn walk(self, memory: &mut Self::Memory, from: u64) -> Changed<Self>;
}

/// The calls on a pointer to the handle of a list land.
pub trait Pointed<Implementation>: Handle {
    fn insert_at(&mut self, memory: &mut Self::Memory, range: Range) -> Changed<Self>;
    fn delete_at(&mut self, memory: &mut Self::Memory, range: Range) -> Changed<Self>;
    fn walk_at(&mut self, memory: &mut Self::Memory, from: u64) -> Changed<Self>;
}

/// The flush of a list land into a block land, here two of one handle.
pub trait Flushes<Implementation>: Handle {
    fn flush(self, memory: &mut Self::Memory) -> Flushed;
}

/// The archive.
pub struct Proved;
/// baseline.c.
pub struct ExitC;
/// best.c.
pub struct BestC;
/// baseline.rs.
pub struct HandRust;

/// Declares the C functions of a land, to which these memories are lent, and makes them its calls in an implementation.
macro_rules! c_calls {
    ($implementation:ty, $land:ty, [$($lent:ident),+], $insert:ident, $delete:ident, $first:ident, $last:ident,
     $largest:ident) => {
        extern "C" {
            fn $insert(land: $land, $($lent: *mut u64, _: usize,)+ range: Range) -> Changed<$land>;
            fn $delete(land: $land, $($lent: *mut u64, _: usize,)+ range: Range) -> Changed<$land>;
            fn $first(land: $land, $($lent: *mut u64, _: usize,)+ size: u64, mode: u64) -> Found<$land>;
            fn $last(land: $land, $($lent: *mut u64, _: usize,)+ size: u64, mode: u64) -> Found<$land>;
            fn $largest(land: $land, $($lent: *mut u64, _: usize,)+ size: u64, mode: u64) -> Found<$land>;
        }

        // Each pointer and its length are those of one vector, borrowed for the call alone.
        impl Calls<$implementation> for $land {
            #[inline(always)]
            fn insert(self, [$($lent),+]: &mut Self::Memory, range: Range) -> Changed<Self> {
                unsafe { $insert(self, $($lent.as_mut_ptr(), $lent.len(),)+ range) }
            }

            #[inline(always)]
            fn delete(self, [$($lent),+]: &mut Self::Memory, range: Range) -> Changed<Self> {
                unsafe { $delete(self, $($lent.as_mut_ptr(), $lent.len(),)+ range) }
            }

            #[inline(always)]
            fn find_first(self, [$($lent),+]: &mut Self::Memory, size: u64, mode: u64) -> Found<Self> {
                unsafe { $first(self, $($lent.as_mut_ptr(), $lent.len(),)+ size, mode) }
            }

            #[inline(always)]
            fn find_last(self, [$($lent),+]: &mut Self::Memory, size: u64, mode: u64) -> Found<Self> {
                unsafe { $last(self, $($lent.as_mut_ptr(), $lent.len(),)+ size, mode) }
            }

            #[inline(always)]
            fn find_largest(self, [$($lent),+]: &mut Self::Memory, size: u64, mode: u64) -> Found<Self> {
                unsafe { $largest(self, $($lent.as_mut_ptr(), $lent.len(),)+ size, mode) }
            }
        }
    };
}

/// The same for a walk.
macro_rules! c_walk {
    ($implementation:ty, $land:ty, $walk:ident) => {
        extern "C" {
            fn $walk(land: $land, lent: *const u64, _: usize, from: u64) -> Changed<$land>;
        }

        impl Walks<$implementation> for $land {
            #[inline(always)]
            fn walk(self, [lent]: &mut Self::Memory, from: u64) -> Changed<Self> {
                unsafe { $walk(self, lent.as_ptr(), lent.len(), from) }
            }
        }
    };
}

/// The same for the calls on a pointer, which points to a handle that is borrowed for the call, and for the flush.
macro_rules! c_others {
    ($implementation:ty, $insert:ident, $delete:ident, $walk:ident, $flush:ident) => {
        extern "C" {
            fn $insert(land: *mut ListLand, words: *mut u64, n: usize, range: Range) -> Changed<ListLand>;
            fn $delete(land: *mut ListLand, words: *mut u64, n: usize, range: Range) -> Changed<ListLand>;
            fn $walk(land: *mut ListLand, words: *const u64, n: usize, from: u64) -> Changed<ListLand>;
            fn $flush(
                list: ListLand,
                words: *const u64,
                n: usize,
                block: BlockLand,
                nodes: *mut u64,
                m: usize,
            ) -> Flushed;
        }

        impl Pointed<$implementation> for ListLand {
            #[inline(always)]
            fn insert_at(&mut self, [words]: &mut Self::Memory, range: Range) -> Changed<Self> {
                unsafe { $insert(self, words.as_mut_ptr(), words.len(), range) }
            }

            #[inline(always)]
            fn delete_at(&mut self, [words]: &mut Self::Memory, range: Range) -> Changed<Self> {
                unsafe { $delete(self, words.as_mut_ptr(), words.len(), range) }
            }

            #[inline(always)]
            fn walk_at(&mut self, [words]: &mut Self::Memory, from: u64) -> Changed<Self> {
                unsafe { $walk(self, words.as_ptr(), words.len(), from) }
            }
        }

        impl Flushes<$implementation> for Pair {
            #[inline(always)]
            fn flush(self, [words, nodes]: &mut Self::Memory) -> Flushed {
                let (n, m) = (words.len(), nodes.len());
                unsafe { $flush(self.list, words.as_ptr(), n, self.block, nodes.as_mut_ptr(), m) }
            }
        }
    };
}

c_calls!(
    Proved,
    ListLand,
    [words],
    lg_list_insert,
    lg_list_delete,
    lg_list_find_first,
    lg_list_find_last,
    lg_list_find_largest
);
c_calls!(
    Proved,
    BlockLand,
    [nodes],
    lg_block_insert,
    lg_block_delete,
    lg_block_find_first,
    lg_block_find_last,
    lg_block_find_largest
);
c_calls!(
    Proved,
    Pair,
    [words, nodes],
    lg_pair_insert,
    lg_pair_delete,
    lg_pair_find_first,
    lg_pair_find_last,
    lg_pair_find_largest
);
c_walk!(Proved, ListLand, lg_list_walk);
c_walk!(Proved, BlockLand, lg_block_walk);
c_others!(Proved, lg_list_insert_at, lg_list_delete_at, lg_list_walk_at, lg_flush);

c_calls!(
    ExitC,
    ListLand,
    [words],
    c_list_insert,
    c_list_delete,
    c_list_find_first,
    c_list_find_last,
    c_list_find_largest
);
c_calls!(
    ExitC,
    BlockLand,
    [nodes],
    c_block_insert,
    c_block_delete,
    c_block_find_first,
    c_block_find_last,
    c_block_find_largest
);
c_calls!(
    ExitC,
    Pair,
    [words, nodes],
    c_pair_insert,
    c_pair_delete,
    c_pair_find_first,
    c_pair_find_last,
    c_pair_find_largest
);
c_walk!(ExitC, ListLand, c_list_walk);
c_walk!(ExitC, BlockLand, c_block_walk);
c_others!(ExitC, c_list_insert_at, c_list_delete_at, c_list_walk_at, c_flush);

c_calls!(
    BestC,
    ListLand,
    [words],
    b_list_insert,
    b_list_delete,
    b_list_find_first,
    b_list_find_last,
    b_list_find_largest
);
c_calls!(
    BestC,
    BlockLand,
    [nodes],
    b_block_insert,
    b_block_delete,
    b_block_find_first,
    b_block_find_last,
    b_block_find_largest
);
c_calls!(
    BestC,
    Pair,
    [words, nodes],
    b_pair_insert,
    b_pair_delete,
    b_pair_find_first,
    b_pair_find_last,
    b_pair_find_largest
);
c_walk!(BestC, ListLand, b_list_walk);
c_walk!(BestC, BlockLand, b_block_walk);
c_others!(BestC, b_list_insert_at, b_list_delete_at, b_list_walk_at, b_flush);

/// Makes functions of baseline.rs, to which these memories are lent, the calls of a land.
macro_rules! rust_calls {
    ($land:ty, [$($lent:ident),+], $insert:ident, $delete:ident, $first:ident, $last:ident, $largest:ident) => {
        impl Calls<HandRust> for $land {
            #[inline(always)]
            fn insert(self, [$($lent),+]: &mut Self::Memory, range: Range) -> Changed<Self> {
                baseline::$insert(self, $($lent,)+ range)
            }

            #[inline(always)]
            fn delete(self, [$($lent),+]: &mut Self::Memory, range: Range) -> Changed<Self> {
                baseline::$delete(self, $($lent,)+ range)
            }

            #[inline(always)]
            fn find_first(self, [$($lent),+]: &mut Self::Memory, size: u64, mode: u64) -> Found<Self> {
                baseline::$first(self, $($lent,)+ size, mode)
            }

            #[inline(always)]
            fn find_last(self, [$($lent),+]: &mut Self::Memory, size: u64, mode: u64) -> Found<Self> {
                baseline::$last(self, $($lent,)+ size, mode)
            }

            #[inline(always)]
            fn find_largest(self, [$($lent),+]: &mut Self::Memory, size: u64, mode: u64) -> Found<Self> {
                baseline::$largest(self, $($lent,)+ size, mode)
            }
        }
    };
}

rust_calls!(ListLand, [words], list_insert, list_delete, list_find_first, list_find_last, list_find_largest);
rust_calls!(BlockLand, [nodes], block_insert, block_delete, block_find_first, block_find_last, block_find_largest);
rust_calls!(Pair, [words, nodes], pair_insert, pair_delete, pair_find_first, pair_find_last, pair_find_largest);

impl Walks<HandRust> for ListLand {
    #[inline(always)]
    fn walk(self, [words]: &mut Self::Memory, from: u64) -> Changed<Self> {
        baseline::list_walk(self, words, from)
    }
}

impl Walks<HandRust> for BlockLand {
    #[inline(always)]
    fn walk(self, [nodes]: &mut Self::Memory, from: u64) -> Changed<Self> {
        baseline::block_walk(self, nodes, from)
    }
}

impl Pointed<HandRust> for ListLand {
    #[inline(always)]
    fn insert_at(&mut self, [words]: &mut Self::Memory, range: Range) -> Changed<Self> {
        baseline::stored(self, |land| baseline::list_insert(land, words, range))
    }

    #[inline(always)]
    fn delete_at(&mut self, [words]: &mut Self::Memory, range: Range) -> Changed<Self> {
        baseline::stored(self, |land| baseline::list_delete(land, words, range))
    }

    #[inline(always)]
    fn walk_at(&mut self, [words]: &mut Self::Memory, from: u64) -> Changed<Self> {
        baseline::stored(self, |land| baseline::list_walk(land, words, from))
    }
}

impl Flushes<HandRust> for Pair {
    #[inline(always)]
    fn flush(self, [words, nodes]: &mut Self::Memory) -> Flushed {
        baseline::flush(self, words, nodes)
    }
}
