//! Request K4: its worked examples with every handle, word and range, each answer number, and the order of the checks.
//! The example of request K10 for a pair.

use limbegoru_model::call::{Call, Find, MODE_ENTIRE, MODE_HIGH, MODE_LOW, MODE_NONE};
use limbegoru_model::pair::{self, Changed, Found};
use limbegoru_model::{block, list, Arena, BlockHandle, ListHandle, Pair, PairLedger, Range};

const BASE: u64 = 4096;
const LIMIT: u64 = 4160;
const NOTHING: Range = Range::NOTHING;

/// The words that are no descriptor, and an odd last node word.
const F: u64 = 0x7777_7777_7777_7777;

/// [base, limit).
fn range(base: u64, limit: u64) -> Range {
    Range::new(base, limit)
}

/// The arena of the examples.
fn arena() -> Arena {
    Arena::new(BASE, LIMIT, 8).unwrap()
}

/// The handles with this head, these counts, marks and low waters.
fn handles(list: [u64; 5], block: [u64; 4]) -> Pair {
    let (base, limit, align) = (BASE, LIMIT, 8);
    let [head, ranges, bytes, filled, low] = list;
    let list = ListHandle { base, limit, align, head, ranges, bytes, filled, low };
    let [ranges, bytes, filled, low] = block;
    Pair { list, block: BlockHandle { base, limit, align, ranges, bytes, filled, low } }
}

/// A pair with its two memories, and its ledger, if both lands are sound and do not overlap.
#[derive(Clone, Debug, PartialEq)]
struct State {
    pair: Pair,
    words: Vec<u64>,
    nodes: Vec<u64>,
    ledger: Option<PairLedger>,
}

impl State {
    /// The lands of these ranges, put in by one call, with so many node words.
    fn of(list: &[Range], block: &[Range], node_words: usize) -> State {
        let mut words = vec![F; 8];
        list::write(&arena(), list, &mut words);
        let mut nodes = vec![F; node_words];
        block::write(block, &mut nodes);
        let pair = Pair { list: ListHandle::of(&arena(), list), block: BlockHandle::of(&arena(), block) };
        let ledger = PairLedger::holding(arena(), node_words as u64 / 2, list, block);
        State { pair, words, nodes, ledger }
    }

    /// The ledger of a sound pair.
    fn ledger(&mut self) -> &mut PairLedger {
        self.ledger.as_mut().expect("both lands are sound and do not overlap")
    }

    /// An insert, and that the ledger says the same.
    fn insert(&mut self, range: Range) -> Changed {
        let entry = self.ledger().insert(range);
        let changed = pair::insert(self.pair, &mut self.words, &mut self.nodes, range);
        assert_eq!((changed.answer, changed.range, NOTHING), (entry.answer, entry.range, entry.old));
        self.leave(changed.pair);
        changed
    }

    /// A delete, and that the ledger says the same.
    fn delete(&mut self, range: Range) -> Changed {
        let entry = self.ledger().delete(range);
        let changed = pair::delete(self.pair, &mut self.words, &mut self.nodes, range);
        assert_eq!((changed.answer, changed.range, NOTHING), (entry.answer, entry.range, entry.old));
        self.leave(changed.pair);
        changed
    }

    /// A find, and that the ledger says the same.
    fn find(&mut self, find: Find, size: u64, mode: u64) -> Found {
        let entry = self.ledger().find(find, size, mode);
        let found = self.found(find, size, mode);
        assert_eq!((found.answer, found.range, found.old), (entry.answer, entry.range, entry.old));
        self.leave(found.pair);
        found
    }

    /// A find of the model alone.
    fn found(&mut self, find: Find, size: u64, mode: u64) -> Found {
        let (words, nodes) = (&mut self.words, &mut self.nodes);
        match find {
            Find::First => pair::find_first(self.pair, words, nodes, size, mode),
            Find::Last => pair::find_last(self.pair, words, nodes, size, mode),
            Find::Largest => pair::find_largest(self.pair, words, nodes, size, mode),
        }
    }

    /// Keeps the next handles, which give the ledger's ranges, marks and low waters.
    fn leave(&mut self, next: Pair) {
        self.pair = next;
        let list = list::read(&arena(), &next.list, &self.words);
        let block = block::read(&arena(), &next.block, &self.nodes);
        let ledger = self.ledger();
        assert_eq!((list, block), (Some(ledger.list().isolated()), Some(ledger.block().isolated())));
        assert_eq!(next.list.low_water(), ledger.list().low_water());
        assert_eq!(next.block.low_water(), ledger.block().low_water());
    }

    /// The answer of a call; a refusal gives the pair back with ranges (0, 0) and changes nothing.
    fn answer(&self, call: Call) -> u64 {
        let mut after = self.clone();
        let (words, nodes) = (&mut after.words, &mut after.nodes);
        let (next, answer, range, old) = match call {
            Call::Insert(range) => {
                let changed = pair::insert(self.pair, words, nodes, range);
                (changed.pair, changed.answer, changed.range, NOTHING)
            }
            Call::Delete(range) => {
                let changed = pair::delete(self.pair, words, nodes, range);
                (changed.pair, changed.answer, changed.range, NOTHING)
            }
            Call::Find(find, size, mode) => {
                let found = after.found(find, size, mode);
                (found.pair, found.answer, found.range, found.old)
            }
            Call::Walk(_) => panic!("a pair has no walk"),
        };
        assert!(answer == 0 || (next == self.pair && (range, old) == (NOTHING, NOTHING) && after == *self));
        answer
    }
}

#[test]
fn k4_3_the_flush_may_use_up_the_room() {
    let mut state = State::of(&[range(4096, 4104)], &[], 2);
    assert_eq!(state.pair, handles([4096, 1, 8, 1, 8], [0, 0, 0, 0]));
    assert_eq!((&state.words[..], &state.nodes[..]), (&[1, F, F, F, F, F, F, F][..], &[0, 0][..]));

    let pair = handles([4112, 1, 16, 1, 8], [1, 8, 1, 8]);
    let range = range(4112, 4128);
    assert_eq!(state.insert(range), Changed { pair, answer: 0, range });
    assert_eq!(state.words, [1, F, 0, 4128, F, F, F, F]);
    assert_eq!(state.nodes, [4096, 4104]);
}

#[test]
fn k4_3_no_second_flush() {
    let mut state = State::of(&[range(4136, 4144)], &[range(4096, 4104), range(4112, 4120)], 5);
    let pair = handles([4136, 1, 8, 1, 8], [1, 24, 1, 16]);
    assert_eq!(state.insert(range(4104, 4112)), Changed { pair, answer: 0, range: range(4096, 4120) });
    assert_eq!(state.words, [F, F, F, F, F, 1, F, F]);
    assert_eq!(state.nodes, [4096, 4120, 0, 0, F]);

    // The next insert flushes, which uses up the room again.
    let pair = handles([4152, 1, 8, 1, 8], [2, 32, 1, 16]);
    assert_eq!(state.insert(range(4152, 4160)), Changed { pair, answer: 0, range: range(4152, 4160) });
    assert_eq!(state.words, [F, F, F, F, F, 1, F, 1]);
    assert_eq!(state.nodes, [4096, 4120, 4136, 4144, F]);
}

#[test]
fn the_flush_stops_at_the_first_refusal() {
    // The second list range would merge with the block land's, but the first is refused.
    let mut state = State::of(&[range(4096, 4104), range(4128, 4136)], &[range(4136, 4144)], 2);
    let pair = handles([4096, 2, 24, 1, 16], [1, 8, 1, 8]);
    assert_eq!(state.insert(range(4104, 4112)), Changed { pair, answer: 0, range: range(4096, 4112) });
    assert_eq!(state.words, [4128, 4112, F, F, 1, F, F, F]);
    assert_eq!(state.nodes, [4136, 4144]);
}

#[test]
fn capacity_0() {
    let mut state = State::of(&[range(4112, 4120)], &[], 1);
    let pair = handles([4096, 1, 24, 1, 8], [0, 0, 0, 0]);
    assert_eq!(state.insert(range(4096, 4112)), Changed { pair, answer: 0, range: range(4096, 4120) });
    assert_eq!(state.words, [0, 4120, 1, F, F, F, F, F]);
    assert_eq!(state.nodes, [F]);
}

#[test]
fn k4_5_the_upper_fragment_goes_to_the_list() {
    let mut state = State::of(&[range(4120, 4128)], &[range(4096, 4120)], 2);
    assert_eq!(state.pair, handles([4120, 1, 8, 1, 8], [1, 24, 1, 24]));
    assert_eq!((&state.words[..], &state.nodes[..]), (&[F, F, F, 1, F, F, F, F][..], &[4096, 4120][..]));

    let pair = handles([4112, 1, 16, 1, 8], [1, 8, 1, 8]);
    assert_eq!(state.delete(range(4104, 4112)), Changed { pair, answer: 0, range: range(4096, 4120) });
    assert_eq!(state.words, [F, F, 0, 4128, F, F, F, F]);
    assert_eq!(state.nodes, [4096, 4104]);
}

#[test]
fn k4_5_with_nothing_to_merge_and_with_room() {
    let listed = [range(4096, 4104), range(4152, 4160)];
    let tabled = [range(4104, 4136)];
    let mut full = State::of(&listed, &tabled, 3);
    let pair = handles([4096, 3, 32, 1, 16], [1, 8, 1, 8]);
    assert_eq!(full.delete(range(4112, 4120)), Changed { pair, answer: 0, range: tabled[0] });
    assert_eq!(full.words, [4121, F, F, 4152, 4136, F, F, 1]);
    assert_eq!(full.nodes, [4104, 4112, F]);

    let mut room = State::of(&listed, &tabled, 4);
    let words = room.words.clone();
    let pair = handles([4096, 2, 16, 1, 16], [2, 24, 1, 24]);
    assert_eq!(room.delete(range(4112, 4120)), Changed { pair, answer: 0, range: tabled[0] });
    assert_eq!(room.words, words);
    assert_eq!(room.nodes, [4104, 4112, 4120, 4136]);
}

#[test]
fn a_delete_from_the_list_touches_no_node() {
    let mut state = State::of(&[range(4120, 4144)], &[range(4096, 4120)], 2);
    let pair = handles([4120, 2, 16, 1, 16], [1, 24, 1, 24]);
    assert_eq!(state.delete(range(4128, 4136)), Changed { pair, answer: 0, range: range(4120, 4144) });
    assert_eq!(state.words, [F, F, F, 4137, 4144, 1, F, F]);
    assert_eq!(state.nodes, [4096, 4120]);
}

#[test]
fn k4_6_first_and_last() {
    let listed = [range(4096, 4104), range(4128, 4144)];
    let tabled = [range(4112, 4128), range(4152, 4160)];
    let before = State::of(&listed, &tabled, 4);

    let mut state = before.clone();
    let found = state.find(Find::First, 8, MODE_ENTIRE);
    let pair = handles([4128, 1, 16, 1, 16], [2, 24, 1, 24]);
    assert_eq!(found, Found { pair, answer: 0, range: listed[0], old: listed[0] });
    assert_eq!((&state.words, &state.nodes), (&before.words, &before.nodes));

    let mut state = before.clone();
    let found = state.find(Find::First, 16, MODE_HIGH);
    let pair = handles([4096, 2, 24, 1, 24], [1, 8, 1, 8]);
    assert_eq!(found, Found { pair, answer: 0, range: tabled[0], old: tabled[0] });
    assert_eq!((&state.words, &state.nodes[..]), (&before.words, &[4152, 4160, 0, 0][..]));

    let mut state = before.clone();
    let found = state.find(Find::Last, 8, MODE_LOW);
    let pair = handles([4096, 2, 24, 1, 24], [1, 16, 1, 16]);
    assert_eq!(found, Found { pair, answer: 0, range: tabled[1], old: tabled[1] });
    assert_eq!((&state.words, &state.nodes[..]), (&before.words, &[4112, 4128, 0, 0][..]));

    let mut state = State::of(&listed, &tabled[..1], 2);
    let found = state.find(Find::Last, 8, MODE_LOW);
    let pair = handles([4096, 2, 16, 1, 16], [1, 16, 1, 16]);
    assert_eq!(found, Found { pair, answer: 0, range: range(4128, 4136), old: listed[1] });
    assert_eq!((&state.words[..], &state.nodes[..]), (&[4137, F, F, F, 0, 1, F, F][..], &[4112, 4128][..]));
}

#[test]
fn k4_6_one_land_has_none() {
    let only = range(4112, 4136);
    for find in [Find::First, Find::Last, Find::Largest] {
        let mut of_list = State::of(&[only], &[range(4096, 4104)], 2);
        let found = of_list.find(find, 16, MODE_NONE);
        assert_eq!(
            found,
            Found { pair: handles([4112, 1, 24, 1, 24], [1, 8, 1, 8]), answer: 0, range: only, old: only }
        );
        let mut of_block = State::of(&[range(4144, 4152)], &[only], 2);
        let found = of_block.find(find, 16, MODE_NONE);
        assert_eq!(
            found,
            Found { pair: handles([4144, 1, 8, 1, 8], [1, 24, 1, 24]), answer: 0, range: only, old: only }
        );
    }
}

#[test]
fn k4_7_largest() {
    let (low, high, longer) = (range(4096, 4112), range(4120, 4136), range(4120, 4144));
    for (listed, tabled, largest) in [(low, high, low), (high, low, low), (low, longer, longer), (longer, low, longer)]
    {
        for mode in [MODE_NONE, MODE_LOW, MODE_HIGH, MODE_ENTIRE] {
            let mut state = State::of(&[listed], &[tabled], 2);
            let before = state.pair;
            let found = state.find(Find::Largest, 8, mode);
            assert_eq!((found.answer, found.range, found.old), (0, largest, largest));
            let list = ListHandle { head: 0, ranges: 0, bytes: 0, low: 0, ..before.list };
            let block = BlockHandle { ranges: 0, bytes: 0, low: 0, ..before.block };
            let next = match mode {
                MODE_NONE => before,
                _ if largest == listed => Pair { list, ..before },
                _ => Pair { block, ..before },
            };
            assert_eq!(found.pair, next);
        }
    }
}

#[test]
fn k4_8_touching_ranges_are_not_joined() {
    let mut state = State::of(&[range(4112, 4120)], &[range(4096, 4104)], 2);
    let pair = handles([4112, 1, 8, 1, 8], [1, 16, 1, 8]);
    assert_eq!(state.insert(range(4104, 4112)), Changed { pair, answer: 0, range: range(4096, 4112) });
    assert_eq!((&state.words[..4], &state.nodes[..]), (&[F, F, 1, F][..], &[4096, 4112][..]));
}

#[test]
fn k4_9_no_flush() {
    let state = State::of(&[range(4120, 4128)], &[range(4096, 4112)], 8);
    assert_eq!(state.answer(Call::Insert(range(4112, 4116))), 4);
    assert_eq!(state.answer(Call::Insert(range(4112, 4128))), 1);
    let mut deleted = state.clone();
    let pair = handles([4120, 1, 8, 1, 8], [1, 8, 1, 8]);
    assert_eq!(deleted.delete(range(4096, 4104)), Changed { pair, answer: 0, range: range(4096, 4112) });
    let mut found = state.clone();
    let pair = handles([0, 0, 0, 1, 0], [1, 16, 1, 16]);
    let old = range(4120, 4128);
    assert_eq!(found.find(Find::Last, 8, MODE_ENTIRE), Found { pair, answer: 0, range: old, old });
    assert_eq!((&found.words, &found.nodes), (&state.words, &state.nodes));
}

#[test]
fn k4_11_and_16_a_run_across_both_lands() {
    for node_words in [2, 3, 6] {
        let mut state = State::of(&[range(4112, 4120)], &[range(4096, 4112)], node_words);
        let before = state.clone();
        let pair = handles([4112, 1, 8, 1, 8], [1, 16, 1, 16]);
        assert_eq!(state.pair, pair);
        assert_eq!((&state.words[..], &state.nodes[..2]), (&[F, F, 1, F, F, F, F, F][..], &[4096, 4112][..]));

        let refused = |answer| Found { pair, answer, range: NOTHING, old: NOTHING };
        assert_eq!(state.find(Find::First, 24, MODE_NONE), refused(2));
        assert_eq!(state.find(Find::Last, 24, MODE_LOW), refused(2));
        assert_eq!(state.find(Find::Largest, 24, MODE_ENTIRE), refused(2));
        assert_eq!(state.delete(range(4104, 4120)), Changed { pair, answer: 7, range: NOTHING });
        assert_eq!(state.delete(range(4096, 4120)), Changed { pair, answer: 7, range: NOTHING });
        assert_eq!(state.delete(range(4104, 4128)), Changed { pair, answer: 1, range: NOTHING });
        assert_eq!(state, before);

        let largest = range(4096, 4112);
        let found = state.find(Find::Largest, 16, MODE_NONE);
        assert_eq!(found, Found { pair, answer: 0, range: largest, old: largest });
    }
}

#[test]
fn each_answer_number() {
    let state = State::of(&[range(4120, 4128)], &[range(4096, 4120)], 2);
    assert_eq!(state.answer(Call::Delete(range(4104, 4112))), 0);
    assert_eq!(state.answer(Call::Insert(range(4144, 4160))), 0);
    assert_eq!(state.answer(Call::Insert(range(4096, 4160))), 1);
    assert_eq!(state.answer(Call::Insert(range(4120, 4136))), 1);
    assert_eq!(state.answer(Call::Delete(range(4128, 4136))), 1);
    assert_eq!(state.answer(Call::Find(Find::First, u64::MAX - 7, MODE_LOW)), 2);
    assert_eq!(State::of(&[], &[], 2).answer(Call::Find(Find::Largest, 0, MODE_NONE)), 2);
    for wrong in [range(4096, 4096), range(4104, 4096), range(4152, 4168), range(4088, 4104), range(0, u64::MAX)] {
        assert_eq!(state.answer(Call::Insert(wrong)), 4);
        assert_eq!(state.answer(Call::Delete(wrong)), 4);
    }
    for (find, size, mode) in [
        (Find::First, 0, MODE_NONE),
        (Find::Last, 0, MODE_ENTIRE),
        (Find::First, 12, MODE_NONE),
        (Find::Largest, 4, MODE_NONE),
        (Find::First, 8, 4),
        (Find::Last, 8, u64::MAX),
        (Find::Largest, 0, 4),
    ] {
        assert_eq!(state.answer(Call::Find(find, size, mode)), 4, "{find:?} {size} {mode}");
    }
    assert_eq!(state.answer(Call::Delete(range(4112, 4128))), 7);
    let differing = Pair { block: BlockHandle { limit: 4152, ..state.pair.block }, ..state.pair };
    assert_eq!(State { pair: differing, ..state.clone() }.answer(Call::Delete(range(4096, 4104))), 5);
    let miscounted = Pair { list: ListHandle { bytes: 16, ..state.pair.list }, ..state.pair };
    assert_eq!(State { pair: miscounted, ..state }.answer(Call::Delete(range(4096, 4104))), 6);
}

#[test]
fn set_up() {
    let state = State::of(&[], &[], 2);
    let call = Call::Find(Find::Largest, 0, MODE_NONE);
    assert_eq!(state.answer(call), 2);
    let Pair { list, block } = state.pair;
    let with = |list, block| State { pair: Pair { list, block }, ..state.clone() };
    assert_eq!(with(ListHandle::default(), block).answer(call), 5);
    assert_eq!(with(list, BlockHandle::default()).answer(call), 5);
    assert_eq!(with(list, BlockHandle { base: 4088, ..block }).answer(call), 5);
    assert_eq!(with(list, BlockHandle { base: 4104, ..block }).answer(call), 5);
    assert_eq!(with(list, BlockHandle { limit: 4168, ..block }).answer(call), 5);
    assert_eq!(with(list, BlockHandle { align: 16, ..block }).answer(call), 5);
    assert_eq!(with(ListHandle { align: 16, ..list }, block).answer(call), 5);
    assert_eq!(with(ListHandle { align: 16, ..list }, BlockHandle { align: 16, ..block }).answer(call), 2);
    assert_eq!(State { words: vec![F; 7], ..state.clone() }.answer(call), 5);
    assert_eq!(State { words: vec![F; 9], ..state.clone() }.answer(call), 5);
    assert_eq!(State { nodes: vec![0; block::MOST_WORDS], ..state.clone() }.answer(call), 2);
    assert_eq!(State { nodes: vec![0; block::MOST_WORDS + 1], ..state.clone() }.answer(call), 5);
}

#[test]
fn k4_13_and_15_order_of_checks() {
    let bad = [
        Call::Insert(range(4100, 4104)),
        Call::Delete(range(4100, 4104)),
        Call::Find(Find::First, 12, 9),
        Call::Find(Find::Last, 0, 0),
        Call::Find(Find::Largest, 0, 4),
    ];
    let answers = |state: &State, expected: u64| bad.iter().all(|call| state.answer(*call) == expected);
    // Every fault at once, and one after the other repaired.
    let mut state = State::of(&[range(4096, 4120)], &[range(4112, 4128)], 2);
    state.pair.list.align = 4;
    state.pair.list.ranges = 2;
    state.pair.block.base = 0;
    state.pair.block.ranges = 2;
    assert!(answers(&state, 5));
    state.pair.list.align = 8;
    assert!(answers(&state, 5));
    state.pair.block.base = 4088;
    assert!(answers(&state, 5));
    state.pair.block.base = 4096;
    assert!(answers(&state, 6));
    state.pair.list.ranges = 1;
    assert!(answers(&state, 6));
    state.pair.block.ranges = 1;
    assert!(answers(&state, 6));
    assert_eq!(state.answer(Call::Insert(range(4152, 4160))), 6);
    let mut apart = State::of(&[range(4096, 4112)], &[range(4112, 4128)], 2);
    assert!(answers(&apart, 4));
    // An insert or a delete of bytes that are partly free, and of bytes in both lands.
    assert_eq!(apart.answer(Call::Insert(range(4096, 4168))), 4);
    assert_eq!(apart.answer(Call::Insert(range(4120, 4160))), 1);
    assert_eq!(apart.answer(Call::Delete(range(4104, 4168))), 4);
    assert_eq!(apart.answer(Call::Delete(range(4104, 4136))), 1);
    assert_eq!(apart.answer(Call::Delete(range(4104, 4120))), 7);
    // Damage comes before 7 too.
    apart.nodes[0] = 4104;
    assert_eq!(apart.answer(Call::Delete(range(4104, 4120))), 6);
    apart.pair.list.limit = 4152;
    assert_eq!(apart.answer(Call::Delete(range(4104, 4120))), 5);
}

#[test]
fn k4_15_overlapping_lands() {
    let held = range(4112, 4136);
    for tabled in [held, range(4096, 4120), range(4128, 4144), range(4120, 4128), range(4096, 4160), range(4104, 4136)]
    {
        for call in [Call::Insert(range(4096, 4104)), Call::Delete(held), Call::Find(Find::Largest, 0, MODE_NONE)] {
            assert_eq!(State::of(&[held], &[tabled], 2).answer(call), 6);
            assert_eq!(State::of(&[tabled], &[held], 2).answer(call), 6);
        }
    }
    let touching = State::of(&[range(4104, 4112), range(4136, 4144)], &[held], 2);
    assert_eq!(touching.answer(Call::Delete(held)), 0);
    assert_eq!(touching.answer(Call::Find(Find::Largest, 24, MODE_NONE)), 0);
}

#[test]
fn k10_3_low_water_of_a_pair() {
    // From openings, at capacity 1.
    let mut state = State::of(&[], &[], 2);
    let list = list::open(BASE, LIMIT, 8, &state.words).land;
    let block = block::open(BASE, LIMIT, 8, &mut state.nodes).land;
    assert_eq!((state.pair, Pair { list, block }), (handles([0; 5], [0; 4]), state.pair));
    state.insert(range(4096, 4104));
    assert_eq!(state.pair, handles([0; 5], [1, 8, 1, 8]));
    state.insert(range(4112, 4128));
    assert_eq!(state.pair, handles([4112, 1, 16, 1, 16], [1, 8, 1, 8]));
    state.delete(range(4096, 4104));
    assert_eq!(state.pair, handles([4112, 1, 16, 1, 16], [0, 0, 1, 0]));

    // The inner flush empties the list for a moment, then 16 bytes go into it.
    let pair = handles([4136, 1, 16, 1, 16], [1, 16, 1, 0]);
    assert_eq!(state.insert(range(4136, 4152)), Changed { pair, answer: 0, range: range(4136, 4152) });

    // The next inner flush moves none; the block land does not change.
    assert_eq!(state.insert(range(4096, 4104)).pair, handles([4096, 2, 24, 1, 16], [1, 16, 1, 0]));
    assert_eq!(state.delete(range(4136, 4144)).pair, handles([4096, 2, 16, 1, 16], [1, 16, 1, 0]));
    assert_eq!(state.delete(range(4096, 4104)).pair, handles([4144, 1, 8, 1, 8], [1, 16, 1, 0]));
}

#[test]
fn a_ledger_of_lands_that_hold_ranges() {
    let holding = |list: &[Range], block: &[Range]| PairLedger::holding(arena(), 1, list, block);
    let some = holding(&[range(4096, 4104)], &[range(4104, 4112)]).unwrap();
    assert_eq!(some.list().isolated(), [range(4096, 4104)]);
    assert_eq!(some.block().isolated(), [range(4104, 4112)]);
    assert!(some.marked(4096) && some.marked(4111) && !some.marked(4112) && !some.marked(4095));
    assert!(holding(&[range(4096, 4112)], &[range(4104, 4120)]).is_none());
    assert!(holding(&[], &[range(4096, 4104), range(4112, 4120)]).is_none());
    assert!(holding(&[range(4096, 4168)], &[]).is_none());
    assert!(holding(&[], &[range(0, u64::MAX)]).is_none());
}
