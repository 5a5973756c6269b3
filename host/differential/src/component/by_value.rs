//! The component by the calls that take the handle by value.

use limbegoru::{calls, sys};
use limbegoru_model::{BlockHandle, Call, Done, Find, Flushed, ListHandle, Opened, Pair, Range};

use super::{block_in, block_out, list_in, list_out, pair_in, pair_out, range_in, range_out, Component};

/// What an insert, a delete or a walk on a list land returned.
pub(super) fn list_changed(changed: sys::lg_list_changed) -> Done<ListHandle> {
    let range = range_out(changed.range);
    Done { land: list_out(changed.land), answer: changed.answer, range, old: Range::NOTHING }
}

/// What an insert, a delete or a walk on a block land returned.
fn block_changed(changed: sys::lg_block_changed) -> Done<BlockHandle> {
    let range = range_out(changed.range);
    Done { land: block_out(changed.land), answer: changed.answer, range, old: Range::NOTHING }
}

/// What an insert or a delete on a pair returned.
fn pair_changed(changed: sys::lg_pair_changed) -> Done<Pair> {
    let range = range_out(changed.range);
    Done { land: pair_out(changed.pair), answer: changed.answer, range, old: Range::NOTHING }
}

/// The calls by value.
pub struct ByValue;

impl Component for ByValue {
    fn name(&self) -> String {
        "by value".to_string()
    }

    fn list_open(&self, base: u64, limit: u64, align: u64, words: &mut [u64]) -> Opened<ListHandle> {
        let opened = calls::list_open(base, limit, align, words);
        Opened { land: list_out(opened.land), answer: opened.answer }
    }

    fn list_call(&self, land: ListHandle, words: &mut [u64], call: &Call) -> Done<ListHandle> {
        let land = list_in(land);
        let found = match *call {
            Call::Insert(range) => return list_changed(calls::list_insert(land, words, range_in(range))),
            Call::Delete(range) => return list_changed(calls::list_delete(land, words, range_in(range))),
            Call::Walk(from) => return list_changed(calls::list_walk(land, words, from)),
            Call::Find(Find::First, size, mode) => calls::list_find_first(land, words, size, mode),
            Call::Find(Find::Last, size, mode) => calls::list_find_last(land, words, size, mode),
            Call::Find(Find::Largest, size, mode) => calls::list_find_largest(land, words, size, mode),
        };
        let (range, old) = (range_out(found.range), range_out(found.old));
        Done { land: list_out(found.land), answer: found.answer, range, old }
    }

    fn block_open(&self, base: u64, limit: u64, align: u64, nodes: &mut [u64]) -> Opened<BlockHandle> {
        let opened = calls::block_open(base, limit, align, nodes);
        Opened { land: block_out(opened.land), answer: opened.answer }
    }

    fn block_call(&self, land: BlockHandle, nodes: &mut [u64], call: &Call) -> Done<BlockHandle> {
        let land = block_in(land);
        let found = match *call {
            Call::Insert(range) => return block_changed(calls::block_insert(land, nodes, range_in(range))),
            Call::Delete(range) => return block_changed(calls::block_delete(land, nodes, range_in(range))),
            Call::Walk(from) => return block_changed(calls::block_walk(land, nodes, from)),
            Call::Find(Find::First, size, mode) => calls::block_find_first(land, nodes, size, mode),
            Call::Find(Find::Last, size, mode) => calls::block_find_last(land, nodes, size, mode),
            Call::Find(Find::Largest, size, mode) => calls::block_find_largest(land, nodes, size, mode),
        };
        let (range, old) = (range_out(found.range), range_out(found.old));
        Done { land: block_out(found.land), answer: found.answer, range, old }
    }

    fn flush(&self, list: ListHandle, words: &mut [u64], block: BlockHandle, nodes: &mut [u64]) -> Flushed {
        let flushed = calls::flush(list_in(list), words, block_in(block), nodes);
        let (answer, moved, stop) = (flushed.answer, flushed.moved, flushed.stop);
        Flushed { list: list_out(flushed.list), block: block_out(flushed.block), answer, moved, stop }
    }

    fn pair_call(&self, pair: Pair, words: &mut [u64], nodes: &mut [u64], call: &Call) -> Done<Pair> {
        let pair = pair_in(pair);
        let found = match *call {
            Call::Insert(range) => return pair_changed(calls::pair_insert(pair, words, nodes, range_in(range))),
            Call::Delete(range) => return pair_changed(calls::pair_delete(pair, words, nodes, range_in(range))),
            Call::Walk(_) => panic!("a pair has no walk"),
            Call::Find(Find::First, size, mode) => calls::pair_find_first(pair, words, nodes, size, mode),
            Call::Find(Find::Last, size, mode) => calls::pair_find_last(pair, words, nodes, size, mode),
            Call::Find(Find::Largest, size, mode) => calls::pair_find_largest(pair, words, nodes, size, mode),
        };
        let (range, old) = (range_out(found.range), range_out(found.old));
        Done { land: pair_out(found.pair), answer: found.answer, range, old }
    }
}
