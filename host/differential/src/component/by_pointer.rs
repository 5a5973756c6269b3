//! The component by the calls that take the handle by pointer.

use limbegoru::calls;
use limbegoru_model::{BlockHandle, Call, Done, Flushed, ListHandle, Opened, Pair};

use super::by_value::list_changed;
use super::{list_in, range_in, ByValue, Component};

/// Insert, delete and walk on a list land by the calls that take the handle by pointer, the others by value.
pub struct ByPointer;

impl Component for ByPointer {
    fn name(&self) -> String {
        "by pointer".to_string()
    }

    fn list_open(&self, base: u64, limit: u64, align: u64, words: &mut [u64]) -> Opened<ListHandle> {
        ByValue.list_open(base, limit, align, words)
    }

    fn list_call(&self, land: ListHandle, words: &mut [u64], call: &Call) -> Done<ListHandle> {
        let before = words.to_vec();
        let mut stored = list_in(land);
        let changed = match *call {
            Call::Insert(range) => calls::list_insert_at(&mut stored, words, range_in(range)),
            Call::Delete(range) => calls::list_delete_at(&mut stored, words, range_in(range)),
            Call::Walk(from) => calls::list_walk_at(&mut stored, words, from),
            Call::Find(..) => return ByValue.list_call(land, words, call),
        };
        let mut words_by_value = before.clone();
        let by_value = ByValue.list_call(land, &mut words_by_value, call);
        let same = stored == changed.land && list_changed(changed) == by_value && words == words_by_value;
        assert!(same, "{land:?} {before:?} {call:?}: stored {stored:?}, returned {changed:?}, by value {by_value:?}");
        by_value
    }

    fn block_open(&self, base: u64, limit: u64, align: u64, nodes: &mut [u64]) -> Opened<BlockHandle> {
        ByValue.block_open(base, limit, align, nodes)
    }

    fn block_call(&self, land: BlockHandle, nodes: &mut [u64], call: &Call) -> Done<BlockHandle> {
        ByValue.block_call(land, nodes, call)
    }

    fn flush(&self, list: ListHandle, words: &mut [u64], block: BlockHandle, nodes: &mut [u64]) -> Flushed {
        ByValue.flush(list, words, block, nodes)
    }

    fn pair_call(&self, pair: Pair, words: &mut [u64], nodes: &mut [u64], call: &Call) -> Done<Pair> {
        ByValue.pair_call(pair, words, nodes, call)
    }
}
