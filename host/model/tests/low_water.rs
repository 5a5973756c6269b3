//! Request K10: what a handle says of its mark and low water after each call, which marks and low waters are 6, and
//! histories of two lands with flushes between the calls.

use limbegoru_model::call::{Call, Find, MODE_ENTIRE, MODE_HIGH, MODE_LOW, MODE_NONE};
use limbegoru_model::{block, flush, list, pair};
use limbegoru_model::{Arena, BlockHandle, Flushed, Ledger, ListHandle, LowWater, Pair, Range};

/// A mark of 1 with this low water.
fn set(low: u64) -> LowWater {
    LowWater { filled: 1, low }
}

/// [base, limit).
fn range(base: u64, limit: u64) -> Range {
    Range::new(base, limit)
}

/// The arena of the examples.
fn arena() -> Arena {
    Arena::new(4096, 4160, 8).unwrap()
}

/// A list land of these ranges with this mark and low water.
fn list_of(ranges: &[Range], LowWater { filled, low }: LowWater) -> (ListHandle, Vec<u64>) {
    let mut words = vec![u64::MAX; 8];
    list::write(&arena(), ranges, &mut words);
    (ListHandle { filled, low, ..ListHandle::of(&arena(), ranges) }, words)
}

/// A block land of these ranges and this capacity with this mark and low water.
fn block_of(ranges: &[Range], capacity: usize, LowWater { filled, low }: LowWater) -> (BlockHandle, Vec<u64>) {
    let mut nodes = vec![0; 2 * capacity];
    block::write(ranges, &mut nodes);
    (BlockHandle { filled, low, ..BlockHandle::of(&arena(), ranges) }, nodes)
}

/// A good call of each kind on [4096, 4112), and one of each kind that breaks the rules.
fn calls() -> Vec<Call> {
    let mut calls = vec![Call::Walk(0), Call::Insert(range(4144, 4152)), Call::Delete(range(4096, 4104))];
    calls.extend([Call::Insert(range(4096, 4100)), Call::Delete(range(4100, 4096))]);
    for find in [Find::First, Find::Last, Find::Largest] {
        calls.extend([Call::Find(find, 8, MODE_LOW), Call::Find(find, 12, MODE_NONE), Call::Find(find, 8, 4)]);
    }
    calls
}

/// The answers of all calls on a list land, a block land, a flush into an empty land and out of one, and a pair of the
/// land and an empty one. What is refused comes back.
fn answers(ranges: &[Range], water: LowWater) -> Vec<u64> {
    let mut answers = Vec::new();
    for call in calls() {
        let (land, mut words) = list_of(ranges, water);
        let done = list::call(land, &mut words, &call);
        let (table, mut nodes) = block_of(ranges, 3, water);
        let tabled = block::call(table, &mut nodes, &call);
        assert!(done.answer == 0 || done.land == land);
        assert!(tabled.answer == 0 || tabled.land == table);
        answers.extend([done.answer, tabled.answer]);
    }
    let none: &[Range] = &[];
    for [of_list, of_block] in [[ranges, none], [none, ranges]] {
        let waters = [of_list, of_block].map(|held| if held.is_empty() { set(0) } else { water });
        let (land, mut words) = list_of(of_list, waters[0]);
        let (table, mut nodes) = block_of(of_block, 3, waters[1]);
        let found = pair::find_last(Pair { list: land, block: table }, &mut words, &mut nodes, 8, MODE_NONE);
        assert_eq!(found.pair, Pair { list: land, block: table });
        let flushed = flush::flush(land, &mut words, table, &mut nodes);
        assert!(flushed.answer == 0 || (flushed.list, flushed.block) == (land, table));
        answers.extend([found.answer, flushed.answer]);
    }
    answers
}

#[test]
fn sound_and_not() {
    let held = [range(4096, 4112)];
    for water in [set(16), set(15), set(8), set(0)] {
        assert!(!answers(&held, water).contains(&6), "{water:?}");
    }
    let bad_marks = [2, 3, 256, 1 << 32, (1 << 32) + 1, 1 << 63, u64::MAX];
    let mut bad: Vec<LowWater> = bad_marks.into_iter().map(|filled| LowWater { filled, low: 16 }).collect();
    bad.extend(bad_marks.map(|filled| LowWater { filled, low: 0 }));
    bad.extend([17, 24, 1 << 63, u64::MAX].map(set));
    bad.extend([0, 8, 16, 24, u64::MAX].map(|low| LowWater { filled: 0, low }));
    for water in bad {
        assert!(answers(&held, water).iter().all(|answer| *answer == 6), "{water:?}");
    }
}

#[test]
fn sound_and_not_without_ranges() {
    let walk = Call::Walk(0);
    for water in [LowWater::NEW, set(0)] {
        let ((land, mut words), (table, mut nodes)) = (list_of(&[], water), block_of(&[], 1, water));
        assert_eq!(list::call(land, &mut words, &walk).answer, 2);
        assert_eq!(block::call(table, &mut nodes, &walk).answer, 2);
        assert_eq!(flush::flush(land, &mut words, table, &mut nodes).answer, 0);
    }
    for water in [set(1), set(8), LowWater { filled: 0, low: 8 }, LowWater { filled: 2, low: 0 }] {
        let ((land, mut words), (table, mut nodes)) = (list_of(&[], water), block_of(&[], 1, water));
        assert_eq!(list::call(land, &mut words, &walk).answer, 6);
        assert_eq!(block::call(table, &mut nodes, &walk).answer, 6);
        let (empty, mut none) = (list_of(&[], set(0)), block_of(&[], 1, set(0)));
        assert_eq!(flush::flush(land, &mut words, none.0, &mut none.1).answer, 6);
        assert_eq!(flush::flush(empty.0, &mut words, table, &mut nodes).answer, 6);
    }
}

#[test]
fn order_of_checks() {
    let call = Call::Find(Find::First, 12, MODE_NONE);
    let (land, mut words) = list_of(&[range(4096, 4112)], set(17));
    assert_eq!(list::call(ListHandle { align: 4, ..land }, &mut words, &call).answer, 5);
    assert_eq!(list::call(land, &mut words, &call).answer, 6);
    assert_eq!(list::call(ListHandle { low: 16, ..land }, &mut words, &call).answer, 4);
    // 5 of the block land comes before the list's 6.
    let (table, mut nodes) = block_of(&[], 1, LowWater::NEW);
    let differing = BlockHandle { limit: 4152, ..table };
    assert_eq!(flush::flush(land, &mut words, differing, &mut nodes).answer, 5);
    assert_eq!(flush::flush(land, &mut words, table, &mut nodes).answer, 6);
}

#[test]
fn openings() {
    let opened = list::open(4096, 4160, 8, &[1; 8]);
    assert_eq!((opened.answer, opened.land.low_water()), (0, LowWater::NEW));
    assert_eq!(list::open(4096, 4160, 8, &[1; 7]).land, ListHandle::default());
    let opened = block::open(4096, 4160, 8, &mut [1; 2]);
    assert_eq!((opened.answer, opened.land.low_water()), (0, LowWater::NEW));
    assert_eq!(block::open(4096, 4160, 4, &mut [1; 2]).land, BlockHandle::default());
}

#[test]
fn call_by_call() {
    let expected = [
        (Call::Walk(0), 2, LowWater::NEW),
        (Call::Delete(range(4096, 4104)), 1, LowWater::NEW),
        (Call::Insert(range(4112, 4136)), 0, set(24)),
        (Call::Insert(range(4096, 4104)), 0, set(24)),
        (Call::Find(Find::Last, 16, MODE_NONE), 0, set(24)),
        (Call::Find(Find::First, 8, MODE_ENTIRE), 0, set(24)),
        (Call::Find(Find::First, 8, MODE_LOW), 0, set(16)),
        (Call::Walk(4096), 0, set(16)),
        (Call::Insert(range(4096, 4112)), 0, set(16)),
        (Call::Insert(range(4096, 4104)), 1, set(16)),
        (Call::Find(Find::Last, 24, MODE_HIGH), 2, set(16)),
        (Call::Find(Find::Last, 8, MODE_HIGH), 0, set(16)),
        (Call::Delete(range(4120, 4128)), 0, set(16)),
        (Call::Find(Find::Largest, 0, MODE_NONE), 0, set(16)),
        (Call::Find(Find::Largest, 16, MODE_LOW), 0, set(0)),
        (Call::Insert(range(4096, 4160)), 0, set(0)),
        (Call::Delete(range(4096, 4160)), 0, set(0)),
        (Call::Walk(0), 2, set(0)),
    ];
    let (mut land, mut words) = list_of(&[], LowWater::NEW);
    let (mut table, mut nodes) = block_of(&[], 2, LowWater::NEW);
    for (call, answer, water) in expected {
        let done = list::call(land, &mut words, &call);
        assert_eq!((done.answer, done.land.low_water()), (answer, water), "{call:?}");
        land = done.land;
        let done = block::call(table, &mut nodes, &call);
        assert_eq!((done.answer, done.land.low_water()), (answer, water), "{call:?}");
        table = done.land;
    }
    // A refusal by 3 is no accepted call, on a land without a mark and on one with it.
    let (empty, mut none) = block_of(&[], 0, LowWater::NEW);
    let done = block::call(empty, &mut none, &Call::Insert(range(4096, 4104)));
    assert_eq!((done.answer, done.land), (3, empty));
    let (full, mut one) = block_of(&[range(4096, 4120)], 1, set(24));
    let done = block::call(full, &mut one, &Call::Delete(range(4104, 4112)));
    assert_eq!((done.answer, done.land), (3, full));
}

#[test]
fn what_leaves_the_set_leaves_the_handle() {
    let held = [range(4096, 4104), range(4120, 4136)];
    let mut calls = vec![Call::Walk(0), Call::Walk(4120)];
    calls.extend([Find::First, Find::Last, Find::Largest].map(|find| Call::Find(find, 8, MODE_NONE)));
    for water in [set(0), set(8), set(24)] {
        let ((land, mut words), (table, mut nodes)) = (list_of(&held, water), block_of(&held, 2, water));
        for call in &calls {
            let done = list::call(land, &mut words, call);
            assert_eq!((done.answer, done.land), (0, land), "{call:?}");
            let done = block::call(table, &mut nodes, call);
            assert_eq!((done.answer, done.land), (0, table), "{call:?}");
        }
        // A flush that moves none: nothing to move, no room, and a byte that is free in both.
        let (empty, mut none) = list_of(&[], LowWater::NEW);
        let flushed = flush::flush(empty, &mut none, table, &mut nodes);
        assert_eq!(flushed, Flushed { list: empty, block: table, answer: 0, moved: 0, stop: 0 });
        let (small, mut no_room) = block_of(&[], 0, LowWater::NEW);
        let flushed = flush::flush(land, &mut words, small, &mut no_room);
        assert_eq!(flushed, Flushed { list: land, block: small, answer: 0, moved: 0, stop: 3 });
        let flushed = flush::flush(land, &mut words, table, &mut nodes);
        assert_eq!(flushed, Flushed { list: land, block: table, answer: 0, moved: 0, stop: 1 });
    }
}

#[test]
fn k10_4_a_flush_counts_once_for_each_land() {
    let held = [range(4096, 4104), range(4112, 4128), range(4144, 4152)];
    let of_flush = |capacity: usize, of_list: LowWater, tabled: &[Range], of_block: LowWater| {
        let ((land, mut words), (table, mut nodes)) = (list_of(&held, of_list), block_of(tabled, capacity, of_block));
        let Flushed { list, block, answer, moved, .. } = flush::flush(land, &mut words, table, &mut nodes);
        assert_eq!(answer, 0);
        (moved, list.low_water(), block.low_water())
    };
    // Into a land without a mark: the sum, not the first range. A flush that empties the list leaves its mark.
    assert_eq!(of_flush(3, set(32), &[], LowWater::NEW), (3, set(0), set(32)));
    assert_eq!(of_flush(2, set(32), &[], LowWater::NEW), (2, set(8), set(24)));
    assert_eq!(of_flush(1, set(32), &[], LowWater::NEW), (1, set(24), set(8)));
    assert_eq!(of_flush(1, set(16), &[], LowWater::NEW), (1, set(16), set(8)));
    // Into a land with a mark: it has never fewer bytes than before.
    assert_eq!(of_flush(3, set(0), &[], set(0)), (3, set(0), set(0)));
    assert_eq!(of_flush(3, set(32), &[range(4104, 4112)], set(8)), (3, set(0), set(8)));
    assert_eq!(of_flush(3, set(32), &[range(4104, 4112)], set(0)), (3, set(0), set(0)));
}

/// Drawn numbers.
struct Random(u64);

impl Random {
    /// A number below a bound.
    fn below(&mut self, bound: u64) -> u64 {
        self.0 ^= self.0 << 13;
        self.0 ^= self.0 >> 7;
        self.0 ^= self.0 << 17;
        (self.0 >> 20) % bound
    }

    /// A call on a land of the arena.
    fn call(&mut self) -> Call {
        let base = 4096 + 8 * self.below(8);
        let asked = range(base, base + 8 * (1 + self.below(3)));
        let find = [Find::First, Find::Last, Find::Largest][self.below(3) as usize];
        match self.below(8) {
            0..=3 => Call::Insert(asked),
            4 | 5 => Call::Delete(asked),
            _ => Call::Find(find, 8 * (1 + self.below(3)), self.below(4)),
        }
    }
}

/// What a ledger answers to a call.
fn feed(ledger: &mut Ledger, call: &Call) -> u64 {
    let entry = match *call {
        Call::Insert(range) => ledger.insert(range),
        Call::Delete(range) => ledger.delete(range),
        Call::Find(find, size, mode) => ledger.find(find, size, mode),
        Call::Walk(_) => panic!("the ledger is fed no walk"),
    };
    entry.answer
}

/// One history of two lands, with flushes between the calls. How often low water fell, and after how many flushes that
/// moved more than one range the block land had its first bytes.
fn history(random: &mut Random) -> (u64, u64) {
    let capacity = random.below(5) as usize;
    let (mut land, mut words) = list_of(&[], LowWater::NEW);
    let (mut table, mut nodes) = block_of(&[], capacity, LowWater::NEW);
    let mut listed = Ledger::new(arena(), None);
    let mut tabled = Ledger::new(arena(), Some(capacity as u64));
    let (mut fell, mut first) = (0, 0);
    for _ in 0..60 {
        let (call, before) = (random.call(), (land, table));
        match random.below(8) {
            0..=3 => {
                let done = list::call(land, &mut words, &call);
                assert_eq!(done.answer, feed(&mut listed, &call));
                land = done.land;
            }
            4 | 5 => {
                let done = block::call(table, &mut nodes, &call);
                assert_eq!(done.answer, feed(&mut tabled, &call));
                table = done.land;
            }
            _ => {
                let flushed = flush::flush(land, &mut words, table, &mut nodes);
                assert_eq!((flushed.moved, flushed.stop), listed.flush(&mut tabled));
                (land, table) = (flushed.list, flushed.block);
                first += u64::from(before.1.filled == 0 && flushed.moved > 1);
            }
        }
        assert_eq!((land.low_water(), table.low_water()), (listed.low_water(), tabled.low_water()));
        assert!(land.low <= land.bytes && table.low <= table.bytes);
        fell += u64::from(land.low < before.0.low) + u64::from(table.low < before.1.low);
    }
    (fell, first)
}

#[test]
fn histories_with_flushes() {
    let mut random = Random(0x9e37_79b9_7f4a_7c15);
    let (mut fell, mut first) = (0, 0);
    for _ in 0..4000 {
        let (more, firsts) = history(&mut random);
        fell += more;
        first += firsts;
    }
    println!("low water fell {fell} times, {first} flushes of several ranges were the block land's first");
    assert!(fell > 4000 && first > 100);
}
