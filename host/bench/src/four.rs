//! A land four times over, and every call made on all four: results, handles and all words must be the same.

use std::fmt::Debug;

use crate::abi::*;
use crate::agree::{any_from, any_range};
use crate::players::Played;
use crate::workload::*;

/// A land four times over, once for each implementation.
pub struct Four<L: Land> {
    pub land: L,
    pub memory: [L::Memory; 4],
}

/// What is called on each of the four.
type OnEach<'a, L, T> = [&'a dyn Fn(L, &mut <L as Handle>::Memory) -> T; 4];

/// A call by one implementation, named $by in the call.
macro_rules! by_one {
    ($implementation:ident, $by:ident, $land:ident: $of:ty, $memory:ident, $result:ty, $call:expr) => {
        &(|$land: $of, $memory: &mut <$of as Handle>::Memory| {
            type $by = $implementation;
            $call
        }) as &dyn Fn($of, &mut <$of as Handle>::Memory) -> $result
    };
}

/// A call by each implementation.
macro_rules! by_each {
    (|$by:ident, $land:ident: $of:ty, $memory:ident| -> $result:ty { $call:expr }) => {
        [
            by_one!(Proved, $by, $land: $of, $memory, $result, $call),
            by_one!(ExitC, $by, $land: $of, $memory, $result, $call),
            by_one!(BestC, $by, $land: $of, $memory, $result, $call),
            by_one!(HandRust, $by, $land: $of, $memory, $result, $call),
        ]
    };
}

impl<L: Land> Four<L> {
    pub fn new(land: L, memory: L::Memory) -> Self {
        let memory = [memory.clone(), memory.clone(), memory.clone(), memory];
        Self { land, memory }
    }

    /// What all four return and leave must be the same.
    fn same<T: PartialEq + Debug>(&mut self, what: &str, calls: OnEach<L, T>) -> T {
        let land = self.land;
        let mut played = calls.iter().zip(&mut self.memory).map(|(call, memory)| call(land, memory));
        let [proved, exit, best, rust] = [(); 4].map(|()| played.next().expect("one of four"));
        assert!(
            proved == exit && proved == best && proved == rust,
            "{what} differ\nproved: {proved:?}\nC: {exit:?}\nbest C: {best:?}\nRust: {rust:?}"
        );
        let [memory, others @ ..] = &self.memory;
        assert!(others.iter().all(|other| other == memory), "words after {what} differ");
        proved
    }

    pub fn change(&mut self, change: Change) -> Changed<L> {
        let what = if change.insert { "insert" } else { "delete" };
        let changes = by_each!(|By, land: L, memory| -> Changed<L> { change_by::<By, L>(land, memory, change) });
        let changed = self.same(what, changes);
        self.land = changed.land;
        changed
    }

    pub fn find_first(&mut self, size: u64, mode: u64) -> Found<L> {
        let finds = by_each!(|By, land: L, memory| -> Found<L> { Calls::<By>::find_first(land, memory, size, mode) });
        let found = self.same("find first", finds);
        self.land = found.land;
        found
    }

    pub fn find_last(&mut self, size: u64, mode: u64) -> Found<L> {
        let finds = by_each!(|By, land: L, memory| -> Found<L> { Calls::<By>::find_last(land, memory, size, mode) });
        let found = self.same("find last", finds);
        self.land = found.land;
        found
    }

    pub fn find_largest(&mut self, size: u64, mode: u64) -> Found<L> {
        let finds = by_each!(|By, land: L, memory| -> Found<L> { Calls::<By>::find_largest(land, memory, size, mode) });
        let found = self.same("find largest", finds);
        self.land = found.land;
        found
    }

    /// One call of each sort must give this answer and change nothing.
    pub fn must_be_refused(mut self, what: &str, answer: u64) {
        let (land, memory) = (self.land, self.memory[0].clone());
        let range = Range { base: BASE, limit: BASE + ALIGN };
        let answers = [
            self.change(Change { insert: true, range }).answer,
            self.change(Change { insert: false, range }).answer,
            self.find_first(ALIGN + 1, MODE_LOW).answer,
            self.find_last(ALIGN + 1, MODE_HIGH).answer,
            self.find_largest(ALIGN + 1, MODE_ENTIRE).answer,
        ];
        assert_eq!(answers, [answer; 5], "answers to {what}");
        assert!(self.land == land && self.memory[0] == memory, "{what}: changed");
    }
}

/// A call that lands and pairs do not share.
pub trait Further: Played {
    /// Such a call with a random number; its answer.
    fn further(four: &mut Four<Self>, arena: Range, random: &mut Random) -> u64;

    /// Plays requests of such calls, and compares after each.
    fn over_further(four: &mut Four<Self>, workload: Workload, requests: &Requests);
}

impl Four<ListLand> {
    fn walk(&mut self, from: u64) -> u64 {
        let walks =
            by_each!(|By, land: ListLand, memory| -> Changed<ListLand> { Walks::<By>::walk(land, memory, from) });
        let walked = self.same("walk", walks);
        self.land = walked.land;
        walked.answer
    }

    /// The result and the handle that is stored.
    fn change_at(&mut self, change: Change) -> u64 {
        let Change { insert, range } = change;
        let changes = by_each!(|By, land: ListLand, memory| -> (Changed<ListLand>, ListLand) {
            {
                let mut place = land;
                let changed = if insert {
                    Pointed::<By>::insert_at(&mut place, memory, range)
                } else {
                    Pointed::<By>::delete_at(&mut place, memory, range)
                };
                (changed, place)
            }
        });
        let (changed, place) = self.same("change on a pointer", changes);
        self.land = place;
        changed.answer
    }

    fn walk_at(&mut self, from: u64) -> u64 {
        let walks = by_each!(|By, land: ListLand, memory| -> (Changed<ListLand>, ListLand) {
            {
                let mut place = land;
                let walked = Pointed::<By>::walk_at(&mut place, memory, from);
                (walked, place)
            }
        });
        let (walked, place) = self.same("walk on a pointer", walks);
        self.land = place;
        walked.answer
    }
}

impl Further for ListLand {
    fn further(four: &mut Four<Self>, arena: Range, random: &mut Random) -> u64 {
        match random.below(3) {
            0 => four.walk(any_from(arena, random)),
            1 => four.walk_at(any_from(arena, random)),
            _ => four.change_at(Change { insert: random.below(2) == 1, range: any_range(arena, random) }),
        }
    }

    fn over_further(four: &mut Four<Self>, workload: Workload, requests: &Requests) {
        match requests {
            Requests::Changes(changes) => changes.iter().for_each(|&change| accepted(four.change_at(change))),
            Requests::Froms(froms) if workload == Workload::Walk => {
                froms.iter().for_each(|&from| accepted(four.walk(from)))
            }
            Requests::Froms(froms) => froms.iter().for_each(|&from| accepted(four.walk_at(from))),
            _ => panic!("no such requests"),
        }
    }
}

impl Four<BlockLand> {
    fn walk(&mut self, from: u64) -> u64 {
        let walks =
            by_each!(|By, land: BlockLand, memory| -> Changed<BlockLand> { Walks::<By>::walk(land, memory, from) });
        let walked = self.same("walk", walks);
        self.land = walked.land;
        walked.answer
    }
}

impl Further for BlockLand {
    fn further(four: &mut Four<Self>, arena: Range, random: &mut Random) -> u64 {
        four.walk(any_from(arena, random))
    }

    fn over_further(four: &mut Four<Self>, _: Workload, requests: &Requests) {
        let Requests::Froms(froms) = requests else { panic!("no such requests") };
        froms.iter().for_each(|&from| accepted(four.walk(from)));
    }
}

impl Four<Pair> {
    fn flush(&mut self) -> Flushed {
        let flushes = by_each!(|By, land: Pair, memory| -> Flushed { Flushes::<By>::flush(land, memory) });
        let flushed = self.same("flush", flushes);
        self.land = flushed.land;
        flushed
    }
}

impl Further for Pair {
    fn further(four: &mut Four<Self>, _: Range, _: &mut Random) -> u64 {
        four.flush().answer
    }

    /// One flush; the others begin with the same words.
    fn over_further(four: &mut Four<Self>, _: Workload, _: &Requests) {
        let before = four.land.list.ranges;
        let flushed = four.flush();
        assert_eq!((flushed.answer, flushed.moved, flushed.stop), (ANSWER_OK, before, 0), "a flush of all ranges");
    }
}

fn accepted(answer: u64) {
    assert_eq!(answer, ANSWER_OK, "answer to a request");
}

/// Plays the requests on all four and compares after every call.
pub fn over_requests<L: Further>(chequer: &Chequer, workload: Workload, requests: &Requests) {
    let (land, memory) = L::holding(chequer);
    let four = &mut Four::new(land, memory);
    match (workload, requests) {
        (Workload::Changes, Requests::Changes(changes)) => {
            changes.iter().for_each(|&change| accepted(four.change(change).answer));
        }
        (Workload::Finds, Requests::Sizes(sizes)) => {
            for &size in sizes {
                let found = four.find_first(size, MODE_LOW);
                accepted(found.answer);
                accepted(four.change(Change { insert: true, range: found.range }).answer);
            }
        }
        (Workload::Last, Requests::Sizes(sizes)) => {
            sizes.iter().for_each(|&size| accepted(four.find_last(size, MODE_NONE).answer));
        }
        (Workload::Largest, Requests::Sizes(sizes)) => {
            sizes.iter().for_each(|&size| accepted(four.find_largest(size, MODE_NONE).answer));
        }
        _ => L::over_further(four, workload, requests),
    }
}
