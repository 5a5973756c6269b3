//! All calls of a kind: all sets of a 6-unit arena with all requests and marks and low waters of all kinds, all small
//! memories, all flushes of small sets.

use limbegoru_model::{block, list, set, Arena, BlockHandle, Call, Find, ListHandle, LowWater, Pair, Range};

use crate::compare::Report;
use crate::lent::Lent;
use crate::run::Run;

/// The units of the arena.
const UNITS: u64 = 6;

/// The values of the words that are no descriptor, and of the guards.
pub(super) const FILL: u64 = 0x7777_7777_7777_7777;

/// An arena of so many units.
pub(super) fn arena(units: u64, align: u64) -> Arena {
    Arena::new(5 * align, (5 + units) * align, align).expect("it keeps the rules")
}

/// The isolated ranges of the units whose bits are set.
pub(super) fn ranges_of(arena: &Arena, bits: u64) -> Vec<Range> {
    let marked = (0..arena.length() / arena.align()).filter(|unit| bits >> unit & 1 == 1);
    let unit_at = |unit| arena.base() + unit * arena.align();
    set::isolated(marked.map(|unit| Range::new(unit_at(unit), unit_at(unit + 1))).collect())
}

/// All inserts and deletes with ends from one unit before the arena to one unit behind it, all finds with sizes from 0
/// to one unit more than the arena and between, all modes and one that is none, and all walks.
pub(super) fn calls(arena: &Arena) -> Vec<Call> {
    let (align, units) = (arena.align(), arena.length() / arena.align());
    let ends: Vec<u64> = (0..units + 3).map(|unit| arena.base() - align + unit * align).collect();
    let mut calls = Vec::new();
    for base in &ends {
        for limit in &ends {
            calls.push(Call::Insert(Range::new(*base, *limit)));
            calls.push(Call::Delete(Range::new(*base, *limit)));
        }
        calls.extend([*base - 1, *base, *base + 1].map(Call::Walk));
    }
    let sizes: Vec<u64> = (0..units + 2).map(|unit| unit * align).chain([4, align + 4]).collect();
    for find in [Find::First, Find::Last, Find::Largest] {
        for mode in 0..5 {
            calls.extend(sizes.iter().map(|size| Call::Find(find, *size, mode)));
        }
    }
    calls
}

/// How many kinds of marks and low waters are tried, and how many of them, the first ones, are sound.
const KINDS: usize = 9;
pub(super) const SOUND: usize = 4;

/// Marks and low waters beside so many free bytes: sound ones, then low water above the bytes, an unset mark with bytes
/// or low water, and bad marks. An unset mark with low water 0 is sound only where there are no bytes.
fn low_waters(bytes: u64) -> [LowWater; KINDS] {
    let (sound, unsound) = if bytes == 0 { ((0, 0), (0, 8)) } else { ((1, 1), (0, 0)) };
    let [half, above] = [bytes / 2, bytes + 8];
    let all = [(1, bytes), (1, 0), (1, half), sound, unsound, (1, above), (0, above), (2, bytes), (u64::MAX, 0)];
    all.map(|(filled, low)| LowWater { filled, low })
}

/// The list handle of these ranges with each mark and low water.
pub(super) fn list_handles(arena: &Arena, ranges: &[Range]) -> [ListHandle; KINDS] {
    let land = ListHandle::of(arena, ranges);
    low_waters(land.bytes).map(|LowWater { filled, low }| ListHandle { filled, low, ..land })
}

/// The block handle of these ranges with each mark and low water.
pub(super) fn block_handles(arena: &Arena, ranges: &[Range]) -> [BlockHandle; KINDS] {
    let land = BlockHandle::of(arena, ranges);
    low_waters(land.bytes).map(|LowWater { filled, low }| BlockHandle { filled, low, ..land })
}

/// Each list handle with each block handle.
pub(super) fn pairs_of(lists: &[ListHandle], blocks: &[BlockHandle]) -> Vec<Pair> {
    lists.iter().flat_map(|list| blocks.iter().map(|block| Pair { list: *list, block: *block })).collect()
}

/// All sets of a list land with all calls, with grains and without.
pub fn list_sets(run: &mut Run) -> Result<(), Report> {
    for align in [8, 16] {
        let arena = arena(UNITS, align);
        let calls = calls(&arena);
        for bits in 0..1 << UNITS {
            let ranges = ranges_of(&arena, bits);
            let mut words = vec![FILL; arena.words() as usize];
            list::write(&arena, &ranges, &mut words);
            for land in list_handles(&arena, &ranges) {
                list_calls(run, land, &words, &calls)?;
            }
        }
    }
    Ok(())
}

/// All these calls on a list land.
fn list_calls(run: &mut Run, land: ListHandle, words: &[u64], calls: &[Call]) -> Result<(), Report> {
    for call in calls {
        let mut lent = Lent::new(words, &[FILL], &[FILL]);
        run.list_call(land, &mut lent, call)?;
    }
    Ok(())
}

/// All sets of a block land with all calls and the capacities 0 to 3, with an odd last word and without.
pub fn block_sets(run: &mut Run) -> Result<(), Report> {
    let arena = arena(UNITS, 8);
    let calls = calls(&arena);
    for bits in 0..1 << UNITS {
        let ranges = ranges_of(&arena, bits);
        for length in 2 * ranges.len()..8 {
            let mut nodes = vec![FILL; length];
            block::write(&ranges, &mut nodes);
            for land in block_handles(&arena, &ranges) {
                block_calls(run, land, &nodes, &calls)?;
            }
        }
    }
    Ok(())
}

/// All these calls on a block land.
fn block_calls(run: &mut Run, land: BlockHandle, nodes: &[u64], calls: &[Call]) -> Result<(), Report> {
    for call in calls {
        let mut lent = Lent::new(nodes, &[FILL], &[FILL]);
        run.block_call(land, &mut lent, call)?;
    }
    Ok(())
}

/// The digits of a number.
fn digits(mut number: usize, alphabet: &[u64], length: usize) -> Vec<u64> {
    let mut digits = Vec::with_capacity(length);
    for _ in 0..length {
        digits.push(alphabet[number % alphabet.len()]);
        number /= alphabet.len();
    }
    digits
}

/// A walk on all list lands of 3 words whose words, head and counts are of a few values.
pub fn list_words(run: &mut Run) -> Result<(), Report> {
    let alphabet = [0, 1, 2, 8, 9, 16, 17, 24, 25, 32, 33];
    let mut lent = Lent::new(&[0; 3], &[16], &[32]);
    for number in 0..alphabet.len().pow(3) {
        lent.words_mut().copy_from_slice(&digits(number, &alphabet, 3));
        for head in [0, 8, 12, 16, 24, 32] {
            for counts in 0..16 {
                let (ranges, bytes) = (counts % 4, counts / 4 * 8);
                let LowWater { filled, low } = LowWater::NEW.noted(bytes);
                let land = ListHandle { base: 8, limit: 32, align: 8, head, ranges, bytes, filled, low };
                run.list_call(land, &mut lent, &Call::Walk(0))?;
            }
        }
    }
    Ok(())
}

/// A walk on all block lands of 4 and 5 words whose words and counts are of a few values.
pub fn block_words(run: &mut Run) -> Result<(), Report> {
    let alphabet = [0, 8, 12, 16, 24, 32, 40];
    for odd in [0, 1] {
        let mut lent = Lent::new(&[7; 5][..4 + odd], &[16], &[32]);
        for number in 0..alphabet.len().pow(4) {
            lent.words_mut()[..4].copy_from_slice(&digits(number, &alphabet, 4));
            for counts in 0..16 {
                let (ranges, bytes) = (counts % 4, counts / 4 * 8);
                let LowWater { filled, low } = LowWater::NEW.noted(bytes);
                let land = BlockHandle { base: 8, limit: 32, align: 8, ranges, bytes, filled, low };
                run.block_call(land, &mut lent, &Call::Walk(0))?;
            }
        }
    }
    Ok(())
}

/// The flushes of all sets into all sets, with the capacities up to 3.
pub fn flushes(run: &mut Run) -> Result<(), Report> {
    let arena = arena(UNITS, 8);
    for bits in 0..1 << UNITS {
        let listed = ranges_of(&arena, bits);
        let mut words = vec![FILL; arena.words() as usize];
        list::write(&arena, &listed, &mut words);
        for other in 0..1 << UNITS {
            let tabled = ranges_of(&arena, other);
            flushes_of(run, &arena, (&listed, &words), &tabled)?;
        }
    }
    Ok(())
}

/// The flushes of one set into another, with the capacities up to 3, and all marks and low waters of both.
fn flushes_of(
    run: &mut Run,
    arena: &Arena,
    (listed, words): (&[Range], &[u64]),
    tabled: &[Range],
) -> Result<(), Report> {
    for capacity in tabled.len()..4 {
        let mut nodes = vec![FILL; 2 * capacity + 1];
        block::write(tabled, &mut nodes);
        for Pair { list, block } in pairs_of(&list_handles(arena, listed), &block_handles(arena, tabled)) {
            let mut words = Lent::new(words, &[FILL], &[FILL]);
            let mut nodes = Lent::new(&nodes, &[FILL], &[FILL]);
            run.flush((list, &mut words), (block, &mut nodes))?;
        }
    }
    Ok(())
}
