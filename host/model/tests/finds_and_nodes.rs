//! Request K11: no find in a block land, in any mode, leaves more ranges than it met, so that a find needs no room in
//! node space. All finds on all sets of small arenas, in tables that are full and in tables with room; and all inserts
//! and deletes, of which some are answered 3.

use limbegoru_model::call::{Call, Find, MODE_ENTIRE};
use limbegoru_model::ledger::Entry;
use limbegoru_model::{block, set, Arena, BlockHandle, Done, Ledger, Range};

/// The node words before the opening, and an odd last one.
const FILL: u64 = 0x7777_7777_7777_7777;

/// The number of units and the alignment of each arena.
const ARENAS: [(u64, u64); 11] =
    [(0, 8), (1, 8), (2, 8), (3, 8), (4, 8), (5, 8), (6, 8), (7, 8), (8, 8), (4, 16), (3, 4096)];

/// An arena of so many units.
fn arena_of((units, align): (u64, u64)) -> Arena {
    Arena::new(5 * align, (5 + units) * align, align).expect("it keeps the rules")
}

/// The addresses of the units of an arena, and its limit.
fn ends(arena: &Arena) -> Vec<u64> {
    (arena.base()..=arena.limit()).step_by(arena.align() as usize).collect()
}

/// All sets of units of an arena, each as its isolated ranges.
fn all_sets(arena: &Arena) -> Vec<Vec<Range>> {
    let ends = ends(arena);
    let units: Vec<Range> = ends.windows(2).map(|two| Range::new(two[0], two[1])).collect();
    let chosen = |bits: u32| (0..units.len()).filter(move |unit| bits >> unit & 1 == 1);
    (0..1 << units.len()).map(|bits| set::isolated(chosen(bits).map(|unit| units[unit]).collect())).collect()
}

/// All ranges of units of an arena.
fn all_ranges(arena: &Arena) -> Vec<Range> {
    let ends = ends(arena);
    let from = |base: u64| ends.iter().filter(move |end| base < **end).map(move |end| Range::new(base, *end));
    ends.iter().flat_map(|base| from(*base)).collect()
}

/// All finds with sizes from 0 to one unit more than the arena, two unaligned ones and the highest aligned one, all
/// modes and one that is none.
fn all_finds(arena: &Arena) -> Vec<Call> {
    let align = arena.align();
    let aligned = (0..=arena.length() + align).step_by(align as usize);
    let sizes: Vec<u64> = aligned.chain([4, align + 4, u64::MAX - (align - 1)]).collect();
    let in_all_modes = |find, size| (0..=MODE_ENTIRE + 1).map(move |mode| Call::Find(find, size, mode));
    let of_all_sizes = |find| sizes.iter().flat_map(move |size| in_all_modes(find, *size));
    [Find::First, Find::Last, Find::Largest].into_iter().flat_map(of_all_sizes).collect()
}

/// Feeds a call to a ledger.
fn feed(ledger: &mut Ledger, call: &Call) -> Entry {
    match *call {
        Call::Insert(range) => ledger.insert(range),
        Call::Delete(range) => ledger.delete(range),
        Call::Find(find, size, mode) => ledger.find(find, size, mode),
        Call::Walk(_) => panic!("the ledger is fed no walk"),
    }
}

/// Feeds a call to a ledger that has no capacity of its own, by document 01's sentence, which speaks of the finds too:
/// "a step that would leave more isolated ranges than the capacity answers 3 instead". Such a step returns ranges
/// (0, 0) and leaves the ledger as it was.
fn feed_by_01(ledger: &mut Ledger, capacity: u64, call: &Call) -> Entry {
    let mut next = ledger.clone();
    let entry = feed(&mut next, call);
    if next.isolated().len() as u64 > capacity {
        return Entry { answer: 3, ..Entry::default() };
    }
    *ledger = next;
    entry
}

/// A block land with its node words, its ledger, and a ledger that is fed by document 01's sentence.
#[derive(Clone, Debug, PartialEq)]
struct Table {
    arena: Arena,
    land: BlockHandle,
    nodes: Vec<u64>,
    ledger: Ledger,
    by_01: Ledger,
}

impl Table {
    /// A new land with so many node words, into which these ranges were inserted.
    fn holding(arena: &Arena, ranges: &[Range], node_words: usize) -> Table {
        let mut nodes = vec![FILL; node_words];
        let land = block::open(arena.base(), arena.limit(), arena.align(), &mut nodes).land;
        let ledger = Ledger::new(*arena, Some(block::capacity(&nodes)));
        let new = Table { arena: *arena, land, nodes, ledger, by_01: Ledger::new(*arena, None) };
        let held = ranges.iter().fold(new, |table, range| table.call(&Call::Insert(*range)).1);
        assert_eq!(held.ranges(), ranges);
        held
    }

    /// Its isolated ranges.
    fn ranges(&self) -> Vec<Range> {
        block::read(&self.arena, &self.land, &self.nodes).expect("the table is sound")
    }

    /// A call and the table that it leaves. Both ledgers give the same, of the ranges and of low water too, and a
    /// refusal changes nothing.
    fn call(&self, call: &Call) -> (Entry, Table) {
        let mut next = self.clone();
        let Done { land, answer, range, old } = block::call(self.land, &mut next.nodes, call);
        next.land = land;
        let entry = Entry { answer, range, old };
        let capacity = block::capacity(&self.nodes);
        assert_eq!(feed(&mut next.ledger, call), entry, "{self:?} {call:?}");
        assert_eq!(feed_by_01(&mut next.by_01, capacity, call), entry, "{self:?} {call:?}");
        let left = (next.ranges(), land.low_water());
        assert_eq!((next.ledger.isolated(), next.ledger.low_water()), left, "{self:?} {call:?}");
        assert_eq!((next.by_01.isolated(), next.by_01.low_water()), left, "{self:?} {call:?}");
        let refused = Entry { answer, ..Entry::default() };
        assert!(answer == 0 || (entry == refused && next == *self), "{self:?} {call:?}");
        (entry, next)
    }
}

/// The tables of a set: two that are full, and two with room for one range more. The second of each two has an odd last
/// word.
fn tables(arena: &Arena, ranges: &[Range]) -> [Table; 4] {
    [0, 1, 2, 3].map(|more| Table::holding(arena, ranges, 2 * ranges.len() + more))
}

/// The tables of all sets of the arenas.
fn all_tables() -> impl Iterator<Item = [Table; 4]> {
    let of_all_sets = |arena| all_sets(&arena).into_iter().map(move |ranges| tables(&arena, &ranges));
    ARENAS.into_iter().map(arena_of).flat_map(of_all_sets)
}

/// The finds that were made.
#[derive(Default)]
struct Finds {
    /// How many gave each answer.
    answers: [u64; 8],
    /// How many took bytes and left as many ranges as they met.
    as_many: u64,
    /// How many took bytes and left fewer ranges.
    fewer: u64,
}

impl Finds {
    /// Makes a find: it is not answered 3, and leaves no more ranges than it met.
    fn make(&mut self, table: &Table, find: &Call) -> Entry {
        let (entry, next) = table.call(find);
        let (met, left) = (table.ranges().len(), next.ranges().len());
        assert_ne!(entry.answer, 3, "{table:?} {find:?}");
        assert!(left <= met, "{table:?} {find:?}");
        let took = next.land.bytes < table.land.bytes;
        self.answers[entry.answer as usize] += 1;
        self.as_many += u64::from(took && left == met);
        self.fewer += u64::from(took && left < met);
        entry
    }

    /// Makes all finds on a set: room in node space makes no difference.
    fn make_all(&mut self, tables: &[Table; 4]) {
        for find in all_finds(&tables[0].arena) {
            let [full, others @ ..] = tables.each_ref().map(|table| self.make(table, &find));
            assert_eq!(others, [full; 3], "{tables:?} {find:?}");
        }
    }
}

#[test]
fn no_find_needs_room() {
    let mut finds = Finds::default();
    for tables in all_tables() {
        finds.make_all(&tables);
    }
    let Finds { answers, as_many, fewer } = finds;
    println!("finds by answer: {answers:?}; {as_many} left as many ranges, {fewer} left fewer");
    assert_eq!(answers.iter().sum::<u64>(), 380_940);
    assert_eq!(answers, [67_136, 0, 169_136, 0, 144_668, 0, 0, 0]);
    assert_eq!(as_many + fewer, 67_136 / 4 * 3);
    assert!(as_many > 0 && fewer > 0);
}

/// The answers to an insert or a delete on the tables of a set. An insert that touches no range, and a delete that
/// leaves bytes below and above it, need room for one range more.
fn expected(held: &[Range], call: &Call) -> [u64; 4] {
    let any = |is: &dyn Fn(&Range) -> bool| held.iter().any(is);
    match *call {
        Call::Insert(range) if any(&|free| free.base < range.limit && range.base < free.limit) => [1; 4],
        Call::Insert(range) if any(&|free| free.base == range.limit || range.base == free.limit) => [0; 4],
        Call::Delete(range) if !any(&|free| free.base <= range.base && range.limit <= free.limit) => [1; 4],
        Call::Delete(range) if any(&|free| free.base == range.base || range.limit == free.limit) => [0; 4],
        _ => [3, 3, 0, 0],
    }
}

/// The inserts and deletes that were made: how many gave each answer.
#[derive(Default)]
struct Changes {
    inserts: [u64; 8],
    deletes: [u64; 8],
}

impl Changes {
    /// Makes all inserts and deletes of units on a set.
    fn make_all(&mut self, tables: &[Table; 4]) {
        let held = tables[0].ranges();
        let answers = |call: Call| {
            let answers = tables.each_ref().map(|table| table.call(&call).0.answer);
            assert_eq!(answers, expected(&held, &call), "{held:?} {call:?}");
            answers
        };
        for range in all_ranges(&tables[0].arena) {
            answers(Call::Insert(range)).iter().for_each(|answer| self.inserts[*answer as usize] += 1);
            answers(Call::Delete(range)).iter().for_each(|answer| self.deletes[*answer as usize] += 1);
        }
    }
}

#[test]
fn inserts_and_deletes_need_room() {
    let mut changes = Changes::default();
    for tables in all_tables() {
        changes.make_all(&tables);
    }
    let Changes { inserts, deletes } = changes;
    println!("by answer: inserts {inserts:?}, deletes {deletes:?}");
    assert_eq!(inserts, [10_496, 47_616, 0, 2_104, 0, 0, 0, 0]);
    assert_eq!(deletes, [11_544, 47_616, 0, 1_056, 0, 0, 0, 0]);
}
