//! Slips in a pair's finds.

use differential::given::{longest, Lands};
use limbegoru_model::call::{MODE_ENTIRE, MODE_NONE};
use limbegoru_model::{Call, Done, Find};

use super::holding;
use crate::{pair_noticed, PairCall};

/// A slip in the finds that are accepted is noticed.
fn found_noticed(name: &str, slip: impl Fn(&mut PairCall, Lands, Find) + 'static) {
    pair_noticed(name, move |mut it: PairCall| {
        if let (Some(lands), Call::Find(find, ..)) = (it.accepted(), it.call) {
            slip(&mut it, lands, find);
        }
    });
}

/// Does the find again by the list, or else by the block land, if it has such a range.
fn again(it: &mut PairCall, lands: &Lands, by_list: bool) {
    let Call::Find(_, size, _) = it.call else {
        return;
    };
    if longest(if by_list { &lands.list } else { &lands.block }, size).is_none() {
        return;
    }
    it.back();
    match by_list {
        true => it.by_list(it.call),
        false => it.by_block(it.call),
    }
}

#[test]
fn the_other_land() {
    for (name, which) in [
        ("the higher of both is taken first", Find::First),
        ("the lower of both is taken last", Find::Last),
        ("the shorter of both is taken for the largest", Find::Largest),
    ] {
        found_noticed(name, move |it, lands, find| {
            if find == which {
                again(it, &lands, !lands.list.contains(&it.done.old));
            }
        });
    }
}

#[test]
fn by_land() {
    let finds = [Find::First, Find::Last, Find::Largest];
    for (which, by_list) in finds.into_iter().flat_map(|find| [(find, true), (find, false)]) {
        let name = format!("{which:?} is by land, the list first: {by_list}");
        found_noticed(&name, move |it, lands, find| {
            if find == which {
                again(it, &lands, by_list);
            }
        });
    }
    for by_list in [true, false] {
        let name = format!("a tie of the largest is by land, the list first: {by_list}");
        found_noticed(&name, move |it, lands, find| {
            if find == Find::Largest && longest(&lands.list, 0) == longest(&lands.block, 0) {
                again(it, &lands, by_list);
            }
        });
    }
}

#[test]
fn what_changes() {
    found_noticed("a find flushes", |it, _, _| it.flush());
    found_noticed("a find that takes nothing flushes", |it, _, _| {
        if matches!(it.call, Call::Find(_, _, MODE_NONE)) {
            it.flush();
        }
    });
    found_noticed("both lands give what they found", |it, lands, _| {
        let done = *it.done;
        match lands.list.contains(&done.old) {
            true => it.by_block(it.call),
            false => it.by_list(it.call),
        }
        *it.done = Done { land: it.done.land, ..done };
    });
    found_noticed("the run across both lands is returned", |it, lands, _| {
        it.done.old = holding(&lands.runs(), it.done.old.base);
    });
}

#[test]
fn what_is_found() {
    for which in [Find::First, Find::Last, Find::Largest] {
        let name = format!("{which:?}: a run across both lands is found");
        pair_noticed(&name, move |it: PairCall| match (it.lands(), it.call) {
            (Some(lands), Call::Find(find, size, _)) if find == which && it.done.answer == 2 => {
                it.done.answer *= u64::from(longest(&lands.runs(), size).is_none());
            }
            _ => {}
        });
    }
    found_noticed("what one land alone has is not found", |it, lands, _| {
        if lands.list.is_empty() || lands.block.is_empty() {
            it.back();
            it.done.answer = 2;
        }
    });
    pair_noticed("an unknown mode is taken", |it: PairCall| match it.call {
        Call::Find(Find::Largest, 0, mode) if it.done.answer == 4 && mode > MODE_ENTIRE => it.done.answer = 2,
        _ => {}
    });
}
