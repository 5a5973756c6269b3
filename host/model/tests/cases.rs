//! Document 01, "Sessions with known ends": the twelve cases, on the lands and on the ledger.

use limbegoru_model::call::{Call, Done, Find, MODE_LOW, MODE_NONE};
use limbegoru_model::{block, list, Arena, BlockHandle, Ledger, ListHandle, Range};

const BASE: u64 = 4096;
const LIMIT: u64 = 4160;
const NOTHING: Range = Range::NOTHING;

/// A list land of the arena of the cases, with the ledger beside it.
struct Session {
    land: ListHandle,
    words: [u64; 8],
    ledger: Ledger,
}

/// [base, limit).
fn range(base: u64, limit: u64) -> Range {
    Range::new(base, limit)
}

/// The arena of the cases.
fn arena() -> Arena {
    Arena::new(BASE, LIMIT, 8).unwrap()
}

/// Feeds a call to the ledger.
fn feed(ledger: &mut Ledger, call: &Call) -> (u64, Range, Range) {
    let entry = match *call {
        Call::Insert(range) => ledger.insert(range),
        Call::Delete(range) => ledger.delete(range),
        Call::Find(find, size, mode) => ledger.find(find, size, mode),
        Call::Walk(_) => panic!("the ledger is fed no walk"),
    };
    (entry.answer, entry.range, entry.old)
}

impl Session {
    /// All words 0.
    fn open() -> Session {
        let words = [0; 8];
        let opened = list::open(BASE, LIMIT, 8, &words);
        assert_eq!(opened.answer, 0);
        Session { land: opened.land, words, ledger: Ledger::new(arena(), None) }
    }

    /// A call, and that the ledger says the same.
    fn call(&mut self, call: Call) -> (u64, Range, Range) {
        let Done { land, answer, range, old } = list::call(self.land, &mut self.words, &call);
        assert_eq!(feed(&mut self.ledger, &call), (answer, range, old));
        let ranges = list::read(&arena(), &land, &self.words);
        assert_eq!(ranges, Some(self.ledger.isolated()));
        assert_eq!(land.low_water(), self.ledger.low_water());
        self.land = land;
        (answer, range, old)
    }
}

#[test]
fn cases_1_to_8() {
    let mut session = Session::open();
    let two_words = range(4096, 4112);
    assert_eq!(session.call(Call::Insert(two_words)), (0, two_words, NOTHING));
    assert_eq!(session.words, [0, 4112, 0, 0, 0, 0, 0, 0]);

    let grain = range(4120, 4128);
    assert_eq!(session.call(Call::Insert(grain)), (0, grain, NOTHING));
    assert_eq!(session.words, [4120, 4112, 0, 1, 0, 0, 0, 0]);

    let all = range(4096, 4128);
    assert_eq!(session.call(Call::Insert(range(4112, 4120))), (0, all, NOTHING));
    assert_eq!(session.words, [0, 4128, 0, 1, 0, 0, 0, 0]);

    assert_eq!(session.call(Call::Insert(range(4104, 4136))), (1, NOTHING, NOTHING));
    assert_eq!(session.words, [0, 4128, 0, 1, 0, 0, 0, 0]);

    assert_eq!(session.call(Call::Delete(range(4104, 4112))), (0, all, NOTHING));
    assert_eq!(session.words, [4113, 4128, 0, 4128, 0, 0, 0, 0]);

    let high = range(4112, 4128);
    assert_eq!(session.call(Call::Find(Find::First, 16, MODE_LOW)), (0, high, high));
    assert_eq!(session.words, [1, 4128, 0, 4128, 0, 0, 0, 0]);

    let left = range(4096, 4104);
    assert_eq!(session.call(Call::Find(Find::Largest, 0, MODE_NONE)), (0, left, left));
    assert_eq!(session.call(Call::Find(Find::First, 16, MODE_NONE)), (2, NOTHING, NOTHING));
    let land = ListHandle { base: BASE, limit: LIMIT, align: 8, head: 4096, ranges: 1, bytes: 8, filled: 1, low: 8 };
    assert_eq!(session.land, land);
}

/// A block land of capacity 1 that holds a range, and its ledger.
fn table(held: Range) -> (BlockHandle, [u64; 2], Ledger) {
    let mut nodes = [7, 7];
    let opened = block::open(BASE, LIMIT, 8, &mut nodes);
    assert_eq!((opened.answer, nodes), (0, [0, 0]));
    let done = block::call(opened.land, &mut nodes, &Call::Insert(held));
    assert_eq!((done.answer, done.range), (0, held));
    let mut ledger = Ledger::new(arena(), Some(1));
    assert_eq!(ledger.insert(held).answer, 0);
    (done.land, nodes, ledger)
}

#[test]
fn cases_9_and_10() {
    let (land, mut nodes, mut ledger) = table(range(4096, 4104));
    assert_eq!(nodes, [4096, 4104]);

    let apart = Call::Insert(range(4112, 4120));
    let refused = block::call(land, &mut nodes, &apart);
    assert_eq!(refused, Done::refused(land, 3));
    assert_eq!(feed(&mut ledger, &apart), (3, NOTHING, NOTHING));
    assert_eq!(nodes, [4096, 4104]);

    let touching = Call::Insert(range(4104, 4112));
    let merged = range(4096, 4112);
    let done = block::call(refused.land, &mut nodes, &touching);
    let next = BlockHandle { base: BASE, limit: LIMIT, align: 8, ranges: 1, bytes: 16, filled: 1, low: 8 };
    assert_eq!(done, Done { land: next, answer: 0, range: merged, old: NOTHING });
    assert_eq!(feed(&mut ledger, &touching), (0, merged, NOTHING));
    assert_eq!(nodes, [4096, 4112]);
}

#[test]
fn cases_11_and_12() {
    let held = range(4096, 4120);
    let (land, mut nodes, mut ledger) = table(held);

    let middle = Call::Delete(range(4104, 4112));
    assert_eq!(block::call(land, &mut nodes, &middle), Done::refused(land, 3));
    assert_eq!(feed(&mut ledger, &middle), (3, NOTHING, NOTHING));
    assert_eq!(nodes, [4096, 4120]);

    let low = Call::Delete(range(4096, 4104));
    let done = block::call(land, &mut nodes, &low);
    assert_eq!((done.answer, done.range), (0, held));
    assert_eq!(feed(&mut ledger, &low), (0, held, NOTHING));
    assert_eq!(nodes, [4104, 4120]);
    assert_eq!(ledger.isolated(), [range(4104, 4120)]);
}
