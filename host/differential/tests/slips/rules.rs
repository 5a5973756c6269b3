//! Components that do not test one of the rules: the drawn lands break each rule alone.

use differential::parts;
use differential::run::Run;
use limbegoru_model::arena::HIGHEST_LIMIT;
use limbegoru_model::{Arena, BlockHandle, ListHandle, LowWater, Range};

use crate::{block_noticed, list_noticed, no_slip, BlockCall, ListCall, Opening, Slip};

/// Rules by name, and whether each is kept.
pub type Rules = Vec<(&'static str, bool)>;

/// Are all rules kept but this one?
fn all_but(rule: &str, rules: &Rules) -> bool {
    rules.iter().all(|(name, kept)| *kept || *name == rule)
}

/// The rules that a range keeps after the one before it.
fn range_rules(arena: &Arena, last: Option<&Range>, range: Range) -> Rules {
    vec![
        ("ascending", last.is_none_or(|last| range.base >= last.limit)),
        ("apart", last.is_none_or(|last| range.base != last.limit)),
        ("base inside", range.base >= arena.base()),
        ("limit inside", range.limit <= arena.limit()),
        ("base aligned", arena.aligned(range.base)),
        ("limit aligned", arena.aligned(range.limit)),
        ("not empty", range.base < range.limit),
    ]
}

/// The rules of a mark and a low water beside so many free bytes. An unset mark with a low water that is not 0 breaks
/// one of the last two.
pub fn low_water_rules(LowWater { filled, low }: LowWater, bytes: u64) -> Rules {
    vec![
        ("mark 0 or 1", filled <= 1),
        ("low water at most the bytes", low <= bytes),
        ("mark set with bytes", filled != 0 || bytes == 0),
    ]
}

/// The sum of the lengths, without a stop at an overflow.
fn bytes(ranges: &[Range]) -> u64 {
    ranges.iter().fold(0, |sum, range| sum.wrapping_add(range.limit.wrapping_sub(range.base)))
}

/// The descriptor at a base whose words can be read.
fn described(rule: &str, arena: &Arena, words: &[u64], base: u64) -> Option<(Range, u64)> {
    let number = (base.checked_sub(arena.base())? / 8) as usize;
    let first = *words.get(number)?;
    if first & 1 == 1 {
        return Some((Range::new(base, base + 8), first - 1));
    }
    let limit = *words.get(number + 1)?;
    let as_block = limit != base + 8 || rule == "block of 8 bytes";
    as_block.then_some((Range::new(base, limit), first))
}

/// Is the list sound but for one rule?
fn list_but(rule: &str, arena: &Arena, land: &ListHandle, words: &[u64]) -> bool {
    let mut met: Vec<Range> = Vec::new();
    let mut base = land.head;
    while base != 0 && met.len() <= words.len() {
        let Some((range, next)) = described(rule, arena, words, base) else {
            return false;
        };
        if !all_but(rule, &range_rules(arena, met.last(), range)) {
            return false;
        }
        met.push(range);
        base = next;
    }
    let counts = vec![("ranges", land.ranges == met.len() as u64), ("bytes", land.bytes == bytes(&met))];
    base == 0 && all_but(rule, &counts) && all_but(rule, &low_water_rules(land.low_water(), land.bytes))
}

/// Is the table sound but for one rule?
fn table_but(rule: &str, arena: &Arena, land: &BlockHandle, nodes: &[u64]) -> bool {
    let pairs: Vec<Range> = nodes.chunks_exact(2).map(|pair| Range::new(pair[0], pair[1])).collect();
    if land.ranges > pairs.len() as u64 {
        return false;
    }
    let (ranges, rest) = pairs.split_at(land.ranges as usize);
    let last = |i: usize| i.checked_sub(1).map(|before| &ranges[before]);
    let each = ranges.iter().enumerate().all(|(i, range)| all_but(rule, &range_rules(arena, last(i), *range)));
    let whole = vec![
        ("zero bases", rest.iter().all(|pair| pair.base == 0)),
        ("zero limits", rest.iter().all(|pair| pair.limit == 0)),
        ("bytes", land.bytes == bytes(ranges)),
    ];
    each && all_but(rule, &whole) && all_but(rule, &low_water_rules(land.low_water(), land.bytes))
}

/// The names of the rules of a mark and a low water.
pub const LOW_WATER_RULES: [&str; 3] = ["mark 0 or 1", "low water at most the bytes", "mark set with bytes"];

#[test]
fn of_a_sound_list() {
    let rules = ["ascending", "apart", "limit inside", "base aligned", "limit aligned", "not empty"];
    for rule in rules.into_iter().chain(["block of 8 bytes", "ranges", "bytes"]).chain(LOW_WATER_RULES) {
        list_noticed(rule, move |it: ListCall| {
            let arena = Arena::new(it.land.base, it.land.limit, it.land.align);
            if it.done.answer == 6 && arena.is_some_and(|arena| list_but(rule, &arena, &it.land, it.words)) {
                it.done.answer = 2;
            }
        });
    }
}

#[test]
fn of_a_sound_table() {
    let rules = ["ascending", "apart", "base inside", "limit inside", "base aligned", "limit aligned", "not empty"];
    for rule in rules.into_iter().chain(["zero bases", "zero limits", "bytes"]).chain(LOW_WATER_RULES) {
        block_noticed(rule, move |it: BlockCall| {
            let arena = Arena::new(it.land.base, it.land.limit, it.land.align);
            if it.done.answer == 6 && arena.is_some_and(|arena| table_but(rule, &arena, &it.land, it.nodes)) {
                it.done.answer = 2;
            }
        });
    }
}

/// The rules of an arena.
fn arena_rules([base, limit, align]: [u64; 3]) -> Rules {
    let unit = align.max(1);
    vec![
        ("power of two", align.is_power_of_two()),
        ("at least 8", align >= 8),
        ("at most 4,096", align <= 4096),
        ("base a multiple", base.is_multiple_of(unit)),
        ("limit a multiple", limit.is_multiple_of(unit)),
        ("base not 0", base != 0),
        ("base at most limit", base <= limit),
        ("limit at most 2^40", limit <= HIGHEST_LIMIT),
    ]
}

/// The rules of a list land's arena.
fn list_rules(ends: [u64; 3], words: usize) -> Rules {
    let mut rules = arena_rules(ends);
    let whole = ends[1].saturating_sub(ends[0]) / 8;
    rules.push(("words enough", words as u64 >= whole));
    rules.push(("words not more", words as u64 <= whole));
    rules
}

const RULES: [&str; 8] = [
    "power of two",
    "at least 8",
    "at most 4,096",
    "base a multiple",
    "limit a multiple",
    "base not 0",
    "base at most limit",
    "limit at most 2^40",
];

#[test]
fn of_a_list_land() {
    for rule in RULES.into_iter().chain(["words enough", "words not more"]) {
        list_noticed(rule, move |it: ListCall| {
            let ends = [it.land.base, it.land.limit, it.land.align];
            if it.done.answer == 5 && all_but(rule, &list_rules(ends, it.words.len())) {
                it.done.answer = 6;
            }
        });
        let list_open = move |it: Opening| {
            if *it.answer == 5 && all_but(rule, &list_rules(it.ends, it.lent)) {
                *it.answer = 0;
            }
        };
        crate::noticed(rule, Slip { list_open: Box::new(list_open), ..no_slip() });
    }
}

#[test]
fn of_a_block_land() {
    for rule in RULES {
        block_noticed(rule, move |it: BlockCall| {
            let ends = [it.land.base, it.land.limit, it.land.align];
            if it.done.answer == 5 && all_but(rule, &arena_rules(ends)) {
                it.done.answer = 6;
            }
        });
        let block_open = move |it: Opening| {
            if *it.answer == 5 && all_but(rule, &arena_rules(it.ends)) {
                *it.answer = 0;
            }
        };
        crate::noticed(rule, Slip { block_open: Box::new(block_open), ..no_slip() });
    }
}

/// The openings of one land with this slip do not pass the part on alignments.
fn alignments_noticed(name: &str, slip: Slip) {
    let mut run = Run::new(&slip, "alignments", 1);
    assert!(parts::alignments::openings(&mut run).is_err(), "nobody notices: {name}");
}

#[test]
fn of_an_alignment() {
    let answers = [(4, 0), (24, 0), (8192, 0), (1 << 40, 0)].into_iter().chain((3..=12).map(|k| (1 << k, 5)));
    for (align, answer) in answers {
        let slip = move |it: Opening| {
            if it.ends[2] == align {
                *it.answer = answer;
            }
        };
        let name = format!("alignment {align}: {answer}");
        alignments_noticed(&name, Slip { list_open: Box::new(slip), ..no_slip() });
        alignments_noticed(&name, Slip { block_open: Box::new(slip), ..no_slip() });
    }
}

#[test]
fn of_node_space() {
    let block_open = |it: Opening| {
        if all_but("", &arena_rules(it.ends)) {
            *it.answer = 0;
        }
    };
    let slip = Slip { block_open: Box::new(block_open), ..no_slip() };
    assert!(parts::drawn(&slip, 1, 10_000).is_ok());
    assert!(parts::large(&slip, 1).is_err());
}
