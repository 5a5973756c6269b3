//! Slips in a pair's insert and delete.

use differential::given::Lands;
use limbegoru_model::{Call, Done, Range};

use super::holding;
use crate::{pair_noticed, PairCall};

/// A slip in the inserts that are accepted is noticed.
fn insert_noticed(name: &str, slip: impl Fn(&mut PairCall, Lands, Range) + 'static) {
    pair_noticed(name, move |mut it: PairCall| {
        if let (Some(lands), Call::Insert(range)) = (it.accepted(), it.call) {
            slip(&mut it, lands, range);
        }
    });
}

/// A slip in the deletes that are accepted is noticed.
fn delete_noticed(name: &str, slip: impl Fn(&mut PairCall, Lands, Range) + 'static) {
    pair_noticed(name, move |mut it: PairCall| {
        if let (Some(lands), Call::Delete(range)) = (it.accepted(), it.call) {
            slip(&mut it, lands, range);
        }
    });
}

/// A slip in the deletes that hand a fragment over is noticed. The slip is given the range that held the one deleted.
fn hand_over_noticed(name: &str, slip: impl Fn(&mut PairCall, Range, Range) + 'static) {
    delete_noticed(name, move |it, lands, range| {
        if it.done.land.list.bytes > it.pair.list.bytes {
            slip(it, holding(&lands.block, range.base), range);
        }
    });
}

/// Inserts into the block land, and where it has no room into the list.
fn insert(it: &mut PairCall) {
    it.by_block(it.call);
    if it.done.answer == 3 {
        it.by_list(it.call);
    }
}

#[test]
fn order_of_an_insert() {
    insert_noticed("the list is tried before the block land", |it, _, _| {
        it.back();
        it.flush();
        it.by_list(it.call);
    });
    insert_noticed("an insert does not flush", |it, _, _| {
        it.back();
        insert(it);
    });
    insert_noticed("an insert flushes behind the insert", |it, _, _| {
        it.back();
        insert(it);
        it.flush();
    });
    insert_noticed("an insert flushes a second time", |it, _, _| it.flush());
    insert_noticed("a flush is left out when the block land is full", |it, lands, _| {
        if lands.block.len() == it.nodes.len() / 2 {
            it.back();
            insert(it);
        }
    });
}

#[test]
fn counts() {
    insert_noticed("a byte that a flush moves is counted twice", |it, _, _| {
        it.done.land.list.bytes = it.done.land.list.bytes.max(it.pair.list.bytes);
    });
    hand_over_noticed("a byte that is handed over is counted twice", |it, held, range| {
        it.done.land.block.bytes += held.limit - range.limit;
    });
    hand_over_noticed("the fragment is counted as a range of its own", |it, _, _| {
        it.done.land.list.ranges = it.pair.list.ranges + 1;
    });
}

#[test]
fn fragments() {
    hand_over_noticed("the fragments are exchanged", |it, held, range| {
        it.back();
        it.by_block(Call::Delete(Range::new(held.base, range.limit)));
        it.by_list(Call::Insert(Range::new(held.base, range.base)));
        it.done.range = held;
    });
    hand_over_noticed("both fragments go to the list", |it, held, range| {
        it.back();
        it.by_block(Call::Delete(held));
        it.by_list(Call::Insert(Range::new(held.base, range.base)));
        it.by_list(Call::Insert(Range::new(range.limit, held.limit)));
        it.done.range = held;
    });
    hand_over_noticed("the upper fragment is lost", |it, held, range| {
        it.back();
        it.by_block(Call::Delete(Range::new(range.base, held.limit)));
    });
    hand_over_noticed("a delete with no room is answered 3", |it, _, _| {
        it.back();
        *it.done = Done::refused(it.pair, 3);
    });
    delete_noticed("a fragment is handed over though there is room", |it, lands, range| {
        if it.done.land.block.ranges > it.pair.block.ranges {
            let held = holding(&lands.block, range.base);
            it.back();
            it.by_block(Call::Delete(Range::new(range.base, held.limit)));
            it.by_list(Call::Insert(Range::new(range.limit, held.limit)));
            it.done.range = held;
        }
    });
    delete_noticed("a delete flushes", |it, _, _| it.flush());
}

#[test]
fn returned_ranges() {
    hand_over_noticed("the list's range is returned", |it, held, range| {
        it.done.range = Range::new(range.limit, held.limit);
    });
    insert_noticed("an insert returns the run across both lands", |it, lands, range| {
        let mut runs = lands;
        runs.list.push(range);
        it.done.range = holding(&runs.runs(), range.base);
    });
    delete_noticed("a delete returns the run across both lands", |it, lands, range| {
        it.done.range = holding(&lands.runs(), range.base);
    });
    insert_noticed("an insert into the list returns the range alone", |it, _, range| {
        if it.done.land.list.bytes > it.pair.list.bytes {
            it.done.range = range;
        }
    });
}
