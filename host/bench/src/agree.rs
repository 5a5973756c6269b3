//! The four implementations compared on set-ups, damaged lands, overlapping lands and random requests.

use crate::abi::*;
use crate::four::{Four, Further};
use crate::workload::*;

/// A name, and what is done to a sound land.
type Damage<L> = (&'static str, fn(&mut L, &mut Vec<u64>));

const LIST_DAMAGES: [Damage<ListLand>; 15] = [
    ("a range counted too many", |land, _| land.ranges += 1),
    ("a range counted too few", |land, _| land.ranges -= 1),
    ("eight bytes too many", |land, _| land.bytes += 8),
    ("eight bytes too few", |land, _| (land.bytes, land.low) = (land.bytes - 8, land.low - 8)),
    ("a mark of 2", |land, _| land.filled = 2),
    ("a mark unset", |land, _| land.filled = 0),
    ("a mark and low water unset", |land, _| (land.filled, land.low) = (0, 0)),
    ("low water above the free bytes", |land, _| land.low = land.bytes + 1),
    ("a head outside the arena", |land, _| land.head = land.limit),
    ("a ragged head", |land, _| land.head += 4),
    ("a flipped tag", |land, words| words[word_at(land.head)] ^= 1),
    ("a link to itself", |land, words| words[word_at(land.head)] = land.head),
    ("a link cut", |land, words| words[word_at(land.head)] = 0),
    ("a block of eight bytes", |land, words| words[word_at(land.head) + 1] = land.head + 8),
    ("a ragged limit", |land, words| words[word_at(land.head) + 1] -= 4),
];

const BLOCK_DAMAGES: [Damage<BlockLand>; 16] = [
    ("a range counted too many", |land, _| land.ranges += 1),
    ("a range counted too few", |land, _| land.ranges -= 1),
    ("more ranges than the capacity", |land, words| land.ranges = words.len() as u64 / 2 + 1),
    ("eight bytes too many", |land, _| land.bytes += 8),
    ("eight bytes too few", |land, _| (land.bytes, land.low) = (land.bytes - 8, land.low - 8)),
    ("a mark of 2", |land, _| land.filled = 2),
    ("a mark unset", |land, _| land.filled = 0),
    ("a mark and low water unset", |land, _| (land.filled, land.low) = (0, 0)),
    ("low water above the free bytes", |land, _| land.low = land.bytes + 1),
    ("a word behind the ranges", |land, words| words[2 * land.ranges as usize] = 1),
    ("the last word", |_, words| *words.last_mut().expect("not empty") = 1),
    ("an empty pair", |_, words| words[5] = words[4]),
    ("two pairs that touch", |land, words| {
        land.bytes += words[4] - words[3];
        words[3] = words[4];
    }),
    ("a ragged pair", |_, words| {
        words[4] += 4;
        words[5] += 4;
    }),
    ("a base below the arena", |land, words| {
        land.bytes += words[0];
        words[0] = 0;
    }),
    ("words that go round 2^64 once, each step below 2^63", |land, words| {
        words[2] += 1 << 62;
        words[3] += 2 << 62;
        words[4] += 3 << 62;
        land.bytes = land.bytes.wrapping_add(1 << 63);
    }),
];

fn word_at(base: u64) -> usize {
    ((base - BASE) / 8) as usize
}

/// A pair with room in its table, the lands by turns.
fn chequered_pair(chequer: &Chequer) -> (Pair, [Vec<u64>; 2]) {
    let tabled: Vec<bool> = (0..chequer.ranges.len()).map(|i| i % 2 == 1).collect();
    divided(chequer, &tabled)
}

/// Links a grain in the arena's last word, which touches the last range, to the end of the list, with counts that fit.
fn touch_at_the_end(land: &mut ListLand, words: &mut [u64]) {
    let mut last = word_at(land.head);
    while words[last] & !1 != 0 {
        last = word_at(words[last] & !1);
    }
    words[last] |= land.limit - 8;
    words[word_at(land.limit - 8)] = 1;
    land.ranges += 1;
    land.bytes += 8;
}

/// Damaged lands of both kinds answer 6, alone and in a pair.
pub fn on_damage() {
    let chequer = &Chequer::new(16, Filling::Roomy, &mut Random::new(1));
    let (mut land, [mut words]) = ListLand::holding(chequer);
    touch_at_the_end(&mut land, &mut words);
    Four::new(land, [words]).must_be_refused("a last grain that touches", ANSWER_DAMAGED);
    for (what, damage) in LIST_DAMAGES {
        let (mut land, [mut words]) = ListLand::holding(chequer);
        damage(&mut land, &mut words);
        Four::new(land, [words]).must_be_refused(what, ANSWER_DAMAGED);
        let (mut pair, [mut words, nodes]) = chequered_pair(chequer);
        damage(&mut pair.list, &mut words);
        Four::new(pair, [words, nodes]).must_be_refused(what, ANSWER_DAMAGED);
    }
    for (what, damage) in BLOCK_DAMAGES {
        let (mut land, [mut nodes]) = BlockLand::holding(chequer);
        damage(&mut land, &mut nodes);
        Four::new(land, [nodes]).must_be_refused(what, ANSWER_DAMAGED);
        let (mut pair, [words, mut nodes]) = chequered_pair(chequer);
        damage(&mut pair.block, &mut nodes);
        Four::new(pair, [words, nodes]).must_be_refused(what, ANSWER_DAMAGED);
    }
}

/// Sound lands of which each range of the one in turn has a byte in the other: 6. Lands that touch do not overlap.
pub fn on_overlaps() {
    let chequer = &Chequer::new(16, Filling::Roomy, &mut Random::new(1));
    let (pair, memory) = chequered_pair(chequer);
    for range in &chequer.ranges {
        let (base, limit) = (range.base, range.limit);
        for (base, limit) in [(base, limit), (base - 8, base + 8), (limit - 8, limit + 8), (base - 8, limit + 8)] {
            let overlap = Change { insert: true, range: Range { base, limit } };
            let (pair, memory) = in_one_land(pair, memory.clone(), overlap);
            Four::new(pair, memory).must_be_refused("overlapping lands", ANSWER_DAMAGED);
        }
        for (base, limit) in [(base - 8, base), (limit, limit + 8)] {
            let touch = Change { insert: true, range: Range { base, limit } };
            let (pair, memory) = in_one_land(pair, memory.clone(), touch);
            let found = Four::new(pair, memory).find_first(8, MODE_NONE);
            assert_eq!(found.answer, ANSWER_OK, "answer to lands that touch");
        }
    }
}

/// A change of the one land alone that accepts it, by no call of the pair.
fn in_one_land(mut pair: Pair, memory: [Vec<u64>; 2], change: Change) -> (Pair, [Vec<u64>; 2]) {
    let [words, nodes] = memory;
    let (mut words, mut nodes) = ([words], [nodes]);
    let listed = change_by::<HandRust, _>(pair.list, &mut words, change);
    pair.list = listed.land;
    if listed.answer != ANSWER_OK {
        pair.block = change_by::<HandRust, _>(pair.block, &mut nodes, change).land;
    }
    let ([words], [nodes]) = (words, nodes);
    (pair, [words, nodes])
}

/// Arenas of length 0 in both lands and in a pair. No request fits one, so that 4 is as far as a good set-up comes.
fn empty_answers(base: u64, limit: u64, align: u64, answer: u64) {
    let (list, block) = empty_lands(base, limit, align);
    Four::new(list, [vec![]]).must_be_refused("an arena", answer);
    Four::new(block, [vec![]]).must_be_refused("an arena", answer);
    Four::new(Pair { list, block }, [vec![], vec![]]).must_be_refused("an arena", answer);
}

/// The handles as they are opened.
fn empty_lands(base: u64, limit: u64, align: u64) -> (ListLand, BlockLand) {
    let list = ListLand { base, limit, align, ..ListLand::default() };
    let block = BlockLand { base, limit, align, ..BlockLand::default() };
    (list, block)
}

/// Lands with no ranges. With low water 0 both marks are sound: after an insert low water is its bytes where the mark was 0,
/// and still 0 where it was 1. Whatever else the two fields are: 6.
pub fn on_marks() {
    let (words, nodes) = (vec![0; 8], vec![0; 4]);
    let insert = Change { insert: true, range: Range { base: BASE, limit: BASE + 16 } };
    let (list, block) = empty_lands(BASE, BASE + 64, ALIGN);
    for (filled, after) in [(0, (1, 16)), (1, (1, 0))] {
        let (list, block) = (ListLand { filled, ..list }, BlockLand { filled, ..block });
        let listed = Four::new(list, [words.clone()]).change(insert).land;
        let tabled = Four::new(block, [nodes.clone()]).change(insert).land;
        let pair = Four::new(Pair { list, block }, [words.clone(), nodes.clone()]).change(insert).land;
        let noted = [(listed.filled, listed.low), (tabled.filled, tabled.low), (pair.block.filled, pair.block.low)];
        assert_eq!((noted, pair.list), ([after; 3], list), "marks after a first insert");
    }
    for (filled, low) in [(0, 8), (0, u64::MAX), (1, 8), (2, 0), (u64::MAX, 0)] {
        let (bad_list, bad_block) = (ListLand { filled, low, ..list }, BlockLand { filled, low, ..block });
        Four::new(bad_list, [words.clone()]).must_be_refused("a mark", ANSWER_DAMAGED);
        Four::new(bad_block, [nodes.clone()]).must_be_refused("a mark", ANSWER_DAMAGED);
        for pair in [Pair { list: bad_list, block }, Pair { list, block: bad_block }] {
            Four::new(pair, [words.clone(), nodes.clone()]).must_be_refused("a mark", ANSWER_DAMAGED);
        }
    }
}

/// Each arena rule and each lent length that a set-up can break: 5.
pub fn on_set_ups() {
    const AT: u64 = 3 * 8192;
    const END: u64 = 1 << 40;
    for align in (0..=64_u64).chain([127, 128, 256, 512, 1024, 2048, 4095, 4096, 8192]) {
        let good = align.is_power_of_two() && (8..=4096).contains(&align);
        empty_answers(AT, AT, align, if good { ANSWER_REQUEST } else { ANSWER_SET_UP });
    }
    empty_answers(END, END, 8, ANSWER_REQUEST);
    for (base, limit) in [(0, 0), (AT, AT - 8), (AT + 4, AT + 4), (END + 8, END + 8)] {
        empty_answers(base, limit, 8, ANSWER_SET_UP);
    }
    let (list, block) = empty_lands(AT, AT + 64, 8);
    for n in [0, 7, 9] {
        Four::new(list, [vec![0; n]]).must_be_refused("a lent length", ANSWER_SET_UP);
        Four::new(Pair { list, block }, [vec![0; n], vec![0; 4]]).must_be_refused("a lent length", ANSWER_SET_UP);
    }
    for (base, limit, align) in [(AT + 8, AT + 64, 8), (AT, AT + 72, 8), (AT, AT + 64, 16)] {
        let (other_list, other_block) = empty_lands(base, limit, align);
        let [words, other_words] = [64, limit - base].map(|length| vec![0; length as usize / 8]);
        let nodes = vec![0; 4];
        let pair = Pair { list, block: other_block };
        Four::new(pair, [words, nodes.clone()]).must_be_refused("two arenas", ANSWER_SET_UP);
        let pair = Pair { list: other_list, block };
        Four::new(pair, [other_words, nodes]).must_be_refused("two arenas", ANSWER_SET_UP);
    }
    let (list, block) = empty_lands(AT, AT, 8);
    for (m, answer) in [(2_097_152, ANSWER_REQUEST), (2_097_153, ANSWER_SET_UP)] {
        Four::new(block, [vec![0; m]]).must_be_refused("long node space", answer);
        Four::new(Pair { list, block }, [vec![], vec![0; m]]).must_be_refused("long node space", answer);
    }
}

/// Random requests, good and bad, on small arenas; beside each a call on a land of which a word or a field is damaged.
pub fn on_random(calls: usize) {
    let random = &mut Random::new(7);
    let mut chequer = Chequer::new(8, Filling::Roomy, random);
    let (land, memory) = ListLand::holding(&chequer);
    let seen = random_on(land, memory, chequer.arena, calls, spoil_list);
    assert_eq!(seen, [true, true, true, false, true, true, true, false], "answers seen from a list land");

    // Room for one range more, and an odd word.
    chequer.capacity = chequer.ranges.len() + 1;
    let (land, [mut nodes]) = BlockLand::holding(&chequer);
    nodes.push(0);
    let seen = random_on(land, [nodes], chequer.arena, calls, spoil_block);
    assert_eq!(seen, [true, true, true, true, true, true, true, false], "answers seen from a block land");

    assert_eq!(random_pairs(calls), [true, true, true, false, true, true, true, true], "answers seen from a pair");
}

/// Which answers were seen from pairs on an arena so small that ranges of the two lands often touch; an odd word.
fn random_pairs(calls: usize) -> [bool; 8] {
    const CAPACITIES: usize = 6;
    let arena = Range { base: BASE, limit: BASE + 8 * 24 };
    let mut seen = [false; 8];
    for capacity in 0..CAPACITIES {
        let (pair, [words, mut nodes]) = Pair::holding(&Chequer { arena, ranges: vec![], capacity, tabled: 0 });
        nodes.push(0);
        let now = random_on(pair, [words, nodes], arena, calls / CAPACITIES, spoil_pair);
        (0..8).for_each(|answer| seen[answer] |= now[answer]);
    }
    seen
}

fn list_field(land: &mut ListLand, random: &mut Random) {
    match random.below(8) {
        0 => land.base = land.base.wrapping_add(any_step(random)),
        1 => land.limit = land.limit.wrapping_add(any_step(random)),
        2 => land.align = any_align(random),
        3 => land.head = land.head.wrapping_add(any_step(random)),
        4 => land.ranges = land.ranges.wrapping_add(any_step(random)),
        5 => land.bytes = land.bytes.wrapping_add(any_step(random)),
        6 => land.filled = land.filled.wrapping_add(any_step(random)),
        _ => land.low = land.low.wrapping_add(any_step(random)),
    }
}

fn block_field(land: &mut BlockLand, random: &mut Random) {
    match random.below(7) {
        0 => land.base = land.base.wrapping_add(any_step(random)),
        1 => land.limit = land.limit.wrapping_add(any_step(random)),
        2 => land.align = any_align(random),
        3 => land.ranges = land.ranges.wrapping_add(any_step(random)),
        4 => land.bytes = land.bytes.wrapping_add(any_step(random)),
        5 => land.filled = land.filled.wrapping_add(any_step(random)),
        _ => land.low = land.low.wrapping_add(any_step(random)),
    }
}

/// Damages a field, or makes the land one that was just opened.
fn spoil_list(land: &mut ListLand, _: &mut [Vec<u64>; 1], random: &mut Random) {
    match random.below(4) {
        0 => (*land, _) = empty_lands(land.base, land.limit, land.align),
        _ => list_field(land, random),
    }
}

/// The same of a block land.
fn spoil_block(land: &mut BlockLand, [nodes]: &mut [Vec<u64>; 1], random: &mut Random) {
    match random.below(4) {
        0 => {
            (_, *land) = empty_lands(land.base, land.limit, land.align);
            nodes.fill(0);
        }
        _ => block_field(land, random),
    }
}

/// Damages a field of either land, makes the block land one that was just opened, or changes one land alone, so that the
/// lands may overlap or touch.
fn spoil_pair(pair: &mut Pair, memory: &mut [Vec<u64>; 2], random: &mut Random) {
    match random.below(5) {
        0 => list_field(&mut pair.list, random),
        1 => block_field(&mut pair.block, random),
        2 => {
            (_, pair.block) = empty_lands(pair.block.base, pair.block.limit, pair.block.align);
            memory[1].fill(0);
        }
        _ => {
            let arena = Range { base: pair.list.base, limit: pair.list.limit };
            let change = Change { insert: random.below(2) == 1, range: any_range(arena, random) };
            (*pair, *memory) = in_one_land(*pair, memory.clone(), change);
        }
    }
}

fn any_step(random: &mut Random) -> u64 {
    [1, 4, 8, 16, u64::MAX, u64::MAX - 7, 1 << 41, 1 << 63][random.below(8) as usize]
}

fn any_align(random: &mut Random) -> u64 {
    [0, 1, 4, 8, 12, 16, 4096, 8192][random.below(8) as usize]
}

pub fn any_range(arena: Range, random: &mut Random) -> Range {
    let words = (arena.limit - arena.base) / 8;
    let base = arena.base + 8 * random.below(words) - 8 * (random.below(32) / 31);
    let limit = base + 8 * random.below(6) + 4 * (random.below(32) / 31);
    Range { base, limit }
}

/// Where a walk begins: in the arena, or anywhere.
pub fn any_from(arena: Range, random: &mut Random) -> u64 {
    match random.below(8) {
        0 => any_step(random),
        _ => arena.base + random.below(arena.limit - arena.base + 8),
    }
}

fn random_call<L: Further>(four: &mut Four<L>, arena: Range, random: &mut Random) -> u64 {
    let size = 8 * random.below(8) + random.below(32) / 31;
    match random.below(16) {
        0 | 1 => four.find_first(size, random.below(5)).answer,
        2 => four.find_last(size, random.below(5)).answer,
        3 => four.find_largest(size, random.below(5)).answer,
        4 | 5 => L::further(four, arena, random),
        _ => four.change(Change { insert: random.below(2) == 1, range: any_range(arena, random) }).answer,
    }
}

/// Damages a land, or its memory, in a way of its own.
type Spoil<L> = fn(&mut L, &mut <L as Handle>::Memory, &mut Random);

/// Adds to a random word, or spoils the land; then the counts may be made to fit.
fn damaged<L: Land>(four: &Four<L>, random: &mut Random, spoil: Spoil<L>) -> Four<L> {
    let (mut land, mut memory) = (four.land, four.memory[0].clone());
    if random.below(4) == 0 {
        spoil(&mut land, &mut memory, random);
    } else {
        let lent = memory.as_mut();
        let words = &mut lent[random.below(lent.len() as u64) as usize];
        let at = random.below(words.len() as u64) as usize;
        words[at] = words[at].wrapping_add(any_step(random));
    }
    if random.below(2) == 0 {
        land.recount(&memory);
    }
    Four::new(land, memory)
}

/// Which answers were seen.
fn random_on<L: Further>(land: L, memory: L::Memory, arena: Range, calls: usize, spoil: Spoil<L>) -> [bool; 8] {
    let random = &mut Random::new(11);
    let mut seen = [false; 8];
    let mut four = Four::new(land, memory);
    for _ in 0..calls / 2 {
        seen[random_call(&mut four, arena, random) as usize] = true;
        let mut damaged = damaged(&four, random, spoil);
        seen[random_call(&mut damaged, arena, random) as usize] = true;
    }
    seen
}
