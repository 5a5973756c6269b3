//! Requests played on a land by one implementation; every one must be accepted.

use crate::abi::*;
use crate::workload::*;

pub type Player<L> = fn(L, &mut <L as Handle>::Memory, &Requests) -> L;

/// A player in each implementation.
macro_rules! four {
    ($play:ident, $land:ty) => {
        Some([$play::<Proved, $land>, $play::<ExitC, $land>, $play::<BestC, $land>, $play::<HandRust, $land>])
    };
}

/// A land and the workloads that it has.
pub trait Played: Land {
    /// The players of a workload; none if the land has no such call.
    fn players(workload: Workload) -> Option<[Player<Self>; 4]>;
}

impl Played for ListLand {
    fn players(workload: Workload) -> Option<[Player<Self>; 4]> {
        match workload {
            Workload::Walk => four!(walks, Self),
            Workload::ChangesAt => four!(changes_at, Self),
            Workload::WalkAt => four!(walks_at, Self),
            other => of_both(other),
        }
    }
}

impl Played for BlockLand {
    fn players(workload: Workload) -> Option<[Player<Self>; 4]> {
        match workload {
            Workload::Walk => four!(walks, Self),
            other => of_both(other),
        }
    }
}

impl Played for Pair {
    fn players(workload: Workload) -> Option<[Player<Self>; 4]> {
        match workload {
            Workload::Flush => four!(flushes, Self),
            other => of_both(other),
        }
    }
}

/// The players of what lands and pairs have.
fn of_both<L: Land>(workload: Workload) -> Option<[Player<L>; 4]> {
    match workload {
        Workload::Changes => four!(changes, L),
        Workload::Finds => four!(finds, L),
        Workload::Last => four!(lasts, L),
        Workload::Largest => four!(largests, L),
        _ => None,
    }
}

fn accepted<L>(land: L, answers: u64) -> L {
    assert_eq!(answers, ANSWER_OK, "a request was refused");
    land
}

fn changes<I, L: Calls<I>>(mut land: L, memory: &mut L::Memory, requests: &Requests) -> L {
    let Requests::Changes(changes) = requests else { panic!("no changes") };
    let mut answers = 0;
    for &change in changes {
        let changed = change_by::<I, L>(land, memory, change);
        land = changed.land;
        answers |= changed.answer;
    }
    accepted(land, answers)
}

fn changes_at<I, L: Pointed<I>>(mut land: L, memory: &mut L::Memory, requests: &Requests) -> L {
    let Requests::Changes(changes) = requests else { panic!("no changes") };
    let mut answers = 0;
    for change in changes {
        answers |= if change.insert {
            land.insert_at(memory, change.range).answer
        } else {
            land.delete_at(memory, change.range).answer
        };
    }
    accepted(land, answers)
}

fn finds<I, L: Calls<I>>(mut land: L, memory: &mut L::Memory, requests: &Requests) -> L {
    let Requests::Sizes(sizes) = requests else { panic!("no sizes") };
    let mut answers = 0;
    for &size in sizes {
        let found = land.find_first(memory, size, MODE_LOW);
        let changed = found.land.insert(memory, found.range);
        land = changed.land;
        answers |= found.answer | changed.answer;
    }
    accepted(land, answers)
}

fn lasts<I, L: Calls<I>>(mut land: L, memory: &mut L::Memory, requests: &Requests) -> L {
    let Requests::Sizes(sizes) = requests else { panic!("no sizes") };
    let mut answers = 0;
    for &size in sizes {
        let found = land.find_last(memory, size, MODE_NONE);
        land = found.land;
        answers |= found.answer;
    }
    accepted(land, answers)
}

fn largests<I, L: Calls<I>>(mut land: L, memory: &mut L::Memory, requests: &Requests) -> L {
    let Requests::Sizes(sizes) = requests else { panic!("no sizes") };
    let mut answers = 0;
    for &size in sizes {
        let found = land.find_largest(memory, size, MODE_NONE);
        land = found.land;
        answers |= found.answer;
    }
    accepted(land, answers)
}

fn walks<I, L: Walks<I>>(mut land: L, memory: &mut L::Memory, requests: &Requests) -> L {
    let Requests::Froms(froms) = requests else { panic!("no walks") };
    let mut answers = 0;
    for &from in froms {
        let walked = land.walk(memory, from);
        land = walked.land;
        answers |= walked.answer;
    }
    accepted(land, answers)
}

fn walks_at<I, L: Pointed<I>>(mut land: L, memory: &mut L::Memory, requests: &Requests) -> L {
    let Requests::Froms(froms) = requests else { panic!("no walks") };
    let mut answers = 0;
    for &from in froms {
        answers |= land.walk_at(memory, from).answer;
    }
    accepted(land, answers)
}

fn flushes<I, L: Flushes<I> + Copy>(land: L, memory: &mut L::Memory, requests: &Requests) -> L {
    let Requests::Flushes(calls, nodes) = requests else { panic!("no flushes") };
    let mut answers = 0;
    for _ in 0..*calls {
        if let Some(lent) = memory.as_mut().last_mut() {
            lent.copy_from_slice(nodes);
        }
        let flushed = land.flush(memory);
        answers |= flushed.answer | flushed.stop;
    }
    accepted(land, answers)
}
