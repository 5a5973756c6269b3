//! Requests K4 and K10: all calls on all small pairs, drawn histories, and damaged pairs.

use limbegoru_model::call::{Call, Find, MODE_ENTIRE, MODE_NONE};
use limbegoru_model::ledger::Entry;
use limbegoru_model::pair::{self, Found};
use limbegoru_model::{
    block, flush, list, set, Arena, BlockHandle, Done, ListHandle, LowWater, Pair, PairLedger, Range,
};

/// The words that are no descriptor, and an odd last node word.
const FILL: u64 = 0x7777_7777_7777_7777;

/// A pair with its two memories.
#[derive(Clone, Debug, PartialEq)]
struct State {
    pair: Pair,
    words: Vec<u64>,
    nodes: Vec<u64>,
}

/// What was met.
#[derive(Default)]
struct Tally {
    /// How many calls gave each answer.
    answers: [u64; 8],
    /// The inserts that went to the list.
    listed: u64,
    /// The inserts whose flush moved a range.
    flushed: u64,
    /// The deletes that handed a fragment over.
    handed_over: u64,
}

impl Tally {
    /// Counts a call.
    fn count(&mut self, before: &State, after: &State, call: &Call, entry: &Entry) {
        self.answers[entry.answer as usize] += 1;
        match *call {
            Call::Insert(_) if entry.answer == 0 => {
                let State { pair, mut words, mut nodes } = before.clone();
                let flushed = flush::flush(pair.list, &mut words, pair.block, &mut nodes);
                self.flushed += u64::from(flushed.moved > 0);
                self.listed += u64::from(flushed.block == after.pair.block);
            }
            Call::Delete(_) => self.handed_over += u64::from(after.pair.list.bytes > before.pair.list.bytes),
            _ => {}
        }
    }

    /// Prints the counts; 3 is never answered.
    fn print(&self, name: &str) {
        let calls: u64 = self.answers.iter().sum();
        let [listed, flushed, handed_over] = [self.listed, self.flushed, self.handed_over];
        println!("{name}: {calls} calls, answers 0 to 7: {:?}", self.answers);
        println!("  {listed} inserts into the list, {flushed} with a flush, {handed_over} deletes with a fragment");
        assert_eq!(self.answers[3], 0);
    }
}

impl State {
    /// The lands of these ranges, put in by one call, with so many node words.
    fn of(arena: &Arena, list: &[Range], block: &[Range], node_words: usize) -> State {
        let mut words = vec![FILL; arena.words() as usize];
        list::write(arena, list, &mut words);
        let mut nodes = vec![FILL; node_words];
        block::write(block, &mut nodes);
        let pair = Pair { list: ListHandle::of(arena, list), block: BlockHandle::of(arena, block) };
        State { pair, words, nodes }
    }

    /// The isolated ranges of both lands, if they are sound.
    fn read(&self, arena: &Arena) -> Option<(Vec<Range>, Vec<Range>)> {
        let list = list::read(arena, &self.pair.list, &self.words)?;
        let block = block::read(arena, &self.pair.block, &self.nodes)?;
        Some((list, block))
    }

    /// A call of the model; what it leaves is kept.
    fn call(&mut self, call: &Call) -> Entry {
        let (pair, words, nodes) = (self.pair, &mut self.words, &mut self.nodes);
        let found = match *call {
            Call::Insert(range) => done(pair::insert(pair, words, nodes, range)),
            Call::Delete(range) => done(pair::delete(pair, words, nodes, range)),
            Call::Find(Find::First, size, mode) => pair::find_first(pair, words, nodes, size, mode),
            Call::Find(Find::Last, size, mode) => pair::find_last(pair, words, nodes, size, mode),
            Call::Find(Find::Largest, size, mode) => pair::find_largest(pair, words, nodes, size, mode),
            Call::Walk(_) => panic!("a pair has no walk"),
        };
        self.pair = found.pair;
        Entry { answer: found.answer, range: found.range, old: found.old }
    }

    /// A call of the list land alone.
    fn list_call(&mut self, call: &Call) -> Entry {
        let Done { land, answer, range, old } = list::call(self.pair.list, &mut self.words, call);
        self.pair.list = land;
        Entry { answer, range, old }
    }

    /// A call of the block land alone.
    fn block_call(&mut self, call: &Call) -> Entry {
        let Done { land, answer, range, old } = block::call(self.pair.block, &mut self.nodes, call);
        self.pair.block = land;
        Entry { answer, range, old }
    }

    /// Low water as an accepted call on that pair leaves it, whatever was read inside the call.
    fn read_once_after(&mut self, before: &Pair) {
        let Pair { list, block } = &mut self.pair;
        let LowWater { filled, low } = before.list.low_water().noted(list.bytes);
        *list = ListHandle { filled, low, ..*list };
        let LowWater { filled, low } = before.block.low_water().noted(block.bytes);
        *block = BlockHandle { filled, low, ..*block };
    }

    /// An accepted call of the pair, put together from calls of the lands on their words.
    fn by_lands(&mut self, call: &Call) -> Entry {
        match *call {
            Call::Insert(_) => {
                let flushed = flush::flush(self.pair.list, &mut self.words, self.pair.block, &mut self.nodes);
                assert!(flushed.answer == 0 && [0, 3].contains(&flushed.stop));
                self.pair = Pair { list: flushed.list, block: flushed.block };
                let entry = self.block_call(call);
                if entry.answer == 3 {
                    return self.list_call(call);
                }
                entry
            }
            Call::Delete(range) => {
                let entry = self.list_call(call);
                if entry.answer == 0 {
                    return entry;
                }
                let entry = self.block_call(call);
                if entry.answer != 3 {
                    return entry;
                }
                let held = self.nodes.chunks(2).find(|pair| pair[0] < range.base && range.limit < pair[1]);
                let top = held.expect("a range that splits in two")[1];
                assert_eq!(self.list_call(&Call::Insert(Range::new(range.limit, top))).answer, 0);
                self.block_call(&Call::Delete(Range::new(range.base, top)))
            }
            Call::Find(find, ..) => {
                let (mut of_list, mut of_block) = (self.clone(), self.clone());
                let mut both = [(of_list.list_call(call), of_list), (of_block.block_call(call), of_block)];
                both.sort_by_key(|(Entry { answer, old, .. }, _)| match find {
                    Find::First => (*answer, 0, old.base),
                    Find::Last => (*answer, 0, u64::MAX - old.base),
                    Find::Largest => (*answer, u64::MAX - old.length(), old.base),
                });
                let [(entry, taken), _] = both;
                *self = taken;
                entry
            }
            Call::Walk(_) => panic!("a pair has no walk"),
        }
    }
}

/// An insert or a delete as a find's result.
fn done(changed: pair::Changed) -> Found {
    Found { pair: changed.pair, answer: changed.answer, range: changed.range, old: Range::NOTHING }
}

/// Feeds a call to the ledger.
fn feed(ledger: &mut PairLedger, call: &Call) -> Entry {
    match *call {
        Call::Insert(range) => ledger.insert(range),
        Call::Delete(range) => ledger.delete(range),
        Call::Find(find, size, mode) => ledger.find(find, size, mode),
        Call::Walk(_) => panic!("a pair has no walk"),
    }
}

/// The bytes that an accepted call puts in and takes out.
fn traffic(call: &Call, entry: &Entry) -> (u64, u64) {
    match *call {
        _ if entry.answer != 0 => (0, 0),
        Call::Insert(range) => (range.length(), 0),
        Call::Delete(range) => (0, range.length()),
        Call::Find(_, _, MODE_NONE) => (0, 0),
        _ => (0, entry.range.length()),
    }
}

/// A call on a sound pair, with all that holds of it: the ledger says the same, of low water too, a refusal changes
/// nothing, free bytes are those before, plus in, less out, the lands do not overlap, and the words are those that the
/// lands' own calls leave.
fn check(arena: &Arena, state: &mut State, ledger: &mut PairLedger, call: &Call) -> Entry {
    let before = state.clone();
    let entry = state.call(call);
    assert_eq!(entry, feed(ledger, call), "{before:?} {call:?}");
    let (list, block) = state.read(arena).expect("both lands are sound");
    assert_eq!((&list, &block), (&ledger.list().isolated(), &ledger.block().isolated()), "{before:?} {call:?}");
    let low_waters = (state.pair.list.low_water(), state.pair.block.low_water());
    assert_eq!(low_waters, (ledger.list().low_water(), ledger.block().low_water()), "{before:?} {call:?}");
    assert_ne!(entry.answer, 3);
    if entry.answer != 0 {
        assert_eq!((&*state, entry.range, entry.old), (&before, Range::NOTHING, Range::NOTHING), "{call:?}");
        return entry;
    }
    let free = |state: &State| state.pair.list.bytes + state.pair.block.bytes;
    let (bytes_in, bytes_out) = traffic(call, &entry);
    assert_eq!(free(state) + bytes_out, free(&before) + bytes_in, "{before:?} {call:?}");
    let apart = list.iter().all(|one| block.iter().all(|other| one.common(*other).length() == 0));
    assert!(apart, "{before:?} {call:?}");
    let mut by_lands = before.clone();
    let composed = by_lands.by_lands(call);
    by_lands.read_once_after(&before.pair);
    assert_eq!((composed, &by_lands), (entry, &*state), "{before:?} {call:?}");
    entry
}

/// A small arena whose units belong to no land, to the list, to the block land, or to both.
struct Units {
    arena: Arena,
    number: u64,
    list: u64,
    block: u64,
}

impl Units {
    /// The owners of the units are the digits of a number.
    fn of(arena: Arena, owners: u64, digits: u64) -> Units {
        let number = arena.length() / arena.align();
        let owner = |unit: u64| owners / digits.pow(unit as u32) % digits;
        let bits = |bit: u64| (0..number).map(|unit| (owner(unit) >> bit & 1) << unit).sum();
        Units { arena, number, list: bits(0), block: bits(1) }
    }

    /// The isolated ranges of the units whose bits are set.
    fn ranges(&self, bits: u64) -> Vec<Range> {
        let address = |unit: u64| self.arena.base() + unit * self.arena.align();
        let set = (0..self.number).filter(|unit| bits >> unit & 1 == 1);
        set::isolated(set.map(|unit| Range::new(address(unit), address(unit + 1))).collect())
    }

    /// The number of units of the longest run of set bits.
    fn longest(&self, bits: u64) -> u64 {
        let run = |from: u64| (from..=self.number).find(|unit| bits >> unit & 1 == 0).unwrap_or(from) - from;
        (0..self.number).map(run).max().unwrap_or(0)
    }

    /// The bits of a range that keeps the rules.
    fn bits(&self, range: Range) -> Option<u64> {
        let aligned = [range.base, range.limit].iter().all(|end| end.is_multiple_of(self.arena.align()));
        let inside = self.arena.base() <= range.base && range.base < range.limit && range.limit <= self.arena.limit();
        let unit = |address: u64| (address - self.arena.base()) / self.arena.align();
        (aligned && inside).then(|| (1 << unit(range.limit)) - (1 << unit(range.base)))
    }

    /// The answer that K4's text gives for sound lands that do not overlap.
    fn answer(&self, call: &Call) -> u64 {
        let free = self.list | self.block;
        match *call {
            Call::Insert(range) => match self.bits(range) {
                None => 4,
                Some(bits) if bits & free != 0 => 1,
                Some(_) => 0,
            },
            Call::Delete(range) => match self.bits(range) {
                None => 4,
                Some(bits) if bits & !free != 0 => 1,
                Some(bits) if bits & !self.list != 0 && bits & !self.block != 0 => 7,
                Some(_) => 0,
            },
            Call::Find(find, size, mode) => {
                let align = self.arena.align();
                let longest = align * self.longest(self.list).max(self.longest(self.block));
                match (size % align != 0, size == 0) {
                    (true, _) => 4,
                    (_, true) if find != Find::Largest => 4,
                    _ if mode > MODE_ENTIRE => 4,
                    _ if longest == 0 || longest < size => 2,
                    _ => 0,
                }
            }
            Call::Walk(_) => panic!("a pair has no walk"),
        }
    }
}

/// An arena of so many units.
fn arena_of(units: u64, align: u64) -> Arena {
    Arena::new(5 * align, (5 + units) * align, align).expect("it keeps the rules")
}

/// All inserts and deletes with ends from one unit before the arena to one unit behind it and two unaligned ones, and
/// all finds with sizes from 0 to one unit more than the arena and two unaligned ones, all modes and one that is none.
fn calls(arena: &Arena) -> Vec<Call> {
    let (align, units) = (arena.align(), arena.length() / arena.align());
    let mut ends: Vec<u64> = (0..units + 3).map(|unit| arena.base() - align + unit * align).collect();
    ends.extend([arena.base() + 4, arena.limit() - 1]);
    let mut calls = Vec::new();
    for base in &ends {
        for limit in &ends {
            calls.push(Call::Insert(Range::new(*base, *limit)));
            calls.push(Call::Delete(Range::new(*base, *limit)));
        }
    }
    let sizes: Vec<u64> = (0..units + 2).map(|unit| unit * align).chain([4, align + 4]).collect();
    for find in [Find::First, Find::Last, Find::Largest] {
        for mode in 0..=MODE_ENTIRE + 1 {
            calls.extend(sizes.iter().map(|size| Call::Find(find, *size, mode)));
        }
    }
    calls
}

/// All calls on a pair of these units with so many node words. More ranges than the capacity are 6.
fn all_calls(units: &Units, node_words: usize, calls: &[Call], tally: &mut Tally) {
    let (list, block) = (units.ranges(units.list), units.ranges(units.block));
    let capacity = node_words as u64 / 2;
    let overlap = units.list & units.block != 0;
    let ledger = PairLedger::holding(units.arena, capacity, &list, &block);
    let held = block.len().min(capacity as usize);
    let mut state = State::of(&units.arena, &list, &block[..held], node_words);
    state.pair.block = BlockHandle::of(&units.arena, &block);
    assert_eq!(ledger.is_none(), overlap || held < block.len());
    for call in calls {
        let mut after = state.clone();
        let (entry, expected) = match &ledger {
            None => (after.call(call), 6),
            Some(ledger) => (check(&units.arena, &mut after, &mut ledger.clone(), call), units.answer(call)),
        };
        assert_eq!(entry.answer, expected, "{state:?} {call:?}");
        assert!(entry.answer == 0 || after == state, "{state:?} {call:?}");
        tally.count(&state, &after, call, &entry);
    }
}

/// All pairs of sets of an arena, with the capacities 0 to 3, with an odd last node word and without.
fn all_pairs(arena: Arena, digits: u64, tally: &mut Tally) {
    let calls = calls(&arena);
    let number = arena.length() / arena.align();
    for owners in 0..digits.pow(number as u32) {
        let units = Units::of(arena, owners, digits);
        for node_words in 0..8 {
            all_calls(&units, node_words, &calls, tally);
        }
    }
}

#[test]
fn all_disjoint_sets() {
    for units in 4..=6 {
        let mut tally = Tally::default();
        all_pairs(arena_of(units, 8), 3, &mut tally);
        tally.print(&format!("all disjoint sets of {units} grains"));
    }
}

#[test]
fn all_disjoint_sets_without_grains() {
    let mut tally = Tally::default();
    all_pairs(arena_of(4, 16), 3, &mut tally);
    tally.print("all disjoint sets of 4 units of 16 bytes");
}

#[test]
fn all_sets_that_may_overlap() {
    let mut tally = Tally::default();
    for units in 0..=4 {
        all_pairs(arena_of(units, 8), 4, &mut tally);
    }
    tally.print("all sets of 0 to 4 grains, overlapping ones too");
}

/// Drawn numbers.
struct Random(u64);

impl Random {
    /// A number below a bound.
    fn below(&mut self, bound: u64) -> u64 {
        self.0 ^= self.0 << 13;
        self.0 ^= self.0 >> 7;
        self.0 ^= self.0 << 17;
        (self.0 >> 20) % bound
    }

    /// A call that often begins at the end of a held range, inserts there or deletes around it.
    fn call(&mut self, arena: &Arena, held: &[Range]) -> Call {
        let (align, units) = (arena.align(), arena.length() / arena.align());
        let anywhere = arena.base() + align * self.below(units + 1);
        let place = self.below(2 * held.len() as u64 + 1) as usize;
        let base = held.get(place).map_or(anywhere, |range| range.limit);
        let length = align * (1 + self.below(3));
        let unaligned = if self.below(30) == 0 { 4 } else { 0 };
        let find = [Find::First, Find::Last, Find::Largest][self.below(3) as usize];
        match self.below(20) {
            0..=9 => Call::Insert(Range::new(base, base + length + unaligned)),
            10..=17 => Call::Delete(Range::new(base - align, base - align + length + unaligned)),
            _ => Call::Find(find, align * self.below(6) + unaligned, self.below(5)),
        }
    }
}

/// One history from the openings on. The host writes all words before the first call, then words that are free in
/// neither land.
fn history(random: &mut Random, tally: &mut Tally) {
    let align = 8 << random.below(3);
    let arena = arena_of(4 + random.below(40), align);
    let (base, limit) = (arena.base(), arena.limit());
    let mut words: Vec<u64> = (0..arena.words()).map(|_| random.below(1 << 40)).collect();
    let mut nodes = vec![FILL; random.below(14) as usize];
    let list = list::open(base, limit, align, &words).land;
    let block = block::open(base, limit, align, &mut nodes).land;
    let mut ledger = PairLedger::new(arena, block::capacity(&nodes));
    words.fill_with(|| random.below(limit));
    let mut state = State { pair: Pair { list, block }, words, nodes };
    let (mut bytes_in, mut bytes_out) = (0, 0);
    for _ in 0..300 {
        let number = random.below(arena.words());
        if !ledger.marked(base + 8 * number) {
            state.words[number as usize] = random.below(limit);
        }
        let held = [ledger.list().isolated(), ledger.block().isolated()].concat();
        let call = random.call(&arena, &held);
        let before = state.clone();
        let entry = check(&arena, &mut state, &mut ledger, &call);
        let (put_in, taken_out) = traffic(&call, &entry);
        bytes_in += put_in;
        bytes_out += taken_out;
        assert_eq!(state.pair.list.bytes + state.pair.block.bytes, bytes_in - bytes_out);
        tally.count(&before, &state, &call, &entry);
    }
}

#[test]
fn histories() {
    let mut random = Random(0x9e37_79b9_7f4a_7c15);
    let mut tally = Tally::default();
    for _ in 0..1000 {
        history(&mut random, &mut tally);
    }
    tally.print("histories");
    assert!([0, 1, 2, 4, 7].iter().all(|answer| tally.answers[*answer] > 500));
    assert!([tally.listed, tally.flushed, tally.handed_over].iter().all(|count| *count > 1000));
}

/// A number that may stand in a handle or a word.
fn any_number(random: &mut Random, arena: &Arena) -> u64 {
    let near = arena.base() - 8 + random.below(arena.length() + 16);
    [near / 8 * 8, near / 8 * 8 + 1, near, 0, 1, 2, 3, 8, 16, u64::MAX, 1 << 40][random.below(11) as usize]
}

/// Changes a field of a handle, a word, or the length of a memory.
fn damage(random: &mut Random, arena: &Arena, state: &mut State) {
    let number = any_number(random, arena);
    let ListHandle { base, limit, align, head, ranges, bytes, filled, low } = &mut state.pair.list;
    let mut fields = vec![base, limit, align, head, ranges, bytes, filled, low];
    let BlockHandle { base, limit, align, ranges, bytes, filled, low } = &mut state.pair.block;
    fields.extend([base, limit, align, ranges, bytes, filled, low]);
    let place = random.below(fields.len() as u64) as usize;
    match random.below(8) {
        0..=2 => *fields[place] = number,
        3 | 4 => state.words[place % arena.words() as usize] = number,
        5 | 6 if !state.nodes.is_empty() => {
            let place = place % state.nodes.len();
            state.nodes[place] = number;
        }
        _ if place == 0 => state.words.push(number),
        _ => state.nodes.push(0),
    }
}

/// 5 or 6 of a pair that may be damaged, if it is one of them.
fn fault(state: &State) -> Option<u64> {
    let Pair { list, block } = state.pair;
    let from = list::arena(list.base, list.limit, list.align, &state.words);
    let to = block::arena(block.base, block.limit, block.align, &state.nodes);
    if from.is_none() || to.is_none() || from != to {
        return Some(5);
    }
    let Some((list, block)) = state.read(&from?) else {
        return Some(6);
    };
    let overlap = list.iter().any(|one| block.iter().any(|other| one.base < other.limit && other.base < one.limit));
    overlap.then_some(6)
}

#[test]
fn damaged_pairs() {
    let mut random = Random(0x1234_5678_9abc_def1);
    let mut tally = Tally::default();
    for _ in 0..300_000 {
        let arena = arena_of(6, 8);
        let units = Units::of(arena, random.below(729), 3);
        let (list, block) = (units.ranges(units.list), units.ranges(units.block));
        let node_words = 2 * block.len() + random.below(3) as usize;
        let mut state = State::of(&arena, &list, &block, node_words);
        for _ in 0..1 + random.below(2) {
            if state.words.len() as u64 == arena.words() {
                damage(&mut random, &arena, &mut state);
            }
        }
        let call = random.call(&arena, &list);
        let mut after = state.clone();
        let entry = after.call(&call);
        match fault(&state) {
            Some(answer) => assert_eq!((entry.answer, &after), (answer, &state), "{call:?}"),
            None => assert!(![3, 5, 6].contains(&entry.answer) && fault(&after).is_none(), "{state:?} {call:?}"),
        }
        tally.count(&state, &after, &call, &entry);
    }
    tally.print("damaged pairs");
    assert!([0, 1, 2, 4, 5, 6, 7].iter().all(|answer| tally.answers[*answer] > 1000));
}
