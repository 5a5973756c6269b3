//! All calls on all small pairs: every unit of the arena is free in no land, in the list, in the block land, or in both.

use limbegoru_model::{block, list, Arena, Call};

use super::super::exhaustive::{arena, block_handles, calls, list_handles, pairs_of, ranges_of, FILL, SOUND};
use crate::compare::Report;
use crate::lent::Lent;
use crate::run::Run;

/// All pairs that may overlap of 0 to 4 grains, and of 3 units of 16 bytes.
pub fn overlapping(run: &mut Run) -> Result<(), Report> {
    for (units, align) in [(0, 8), (1, 8), (2, 8), (3, 8), (4, 8), (3, 16)] {
        all_pairs(run, arena(units, align), 4)?;
    }
    Ok(())
}

/// All pairs that do not overlap of 6 grains, and of 5 units of 16 bytes.
pub fn apart(run: &mut Run) -> Result<(), Report> {
    for (units, align) in [(6, 8), (5, 16)] {
        all_pairs(run, arena(units, align), 3)?;
    }
    Ok(())
}

/// All pairs of an arena with all calls. The digits of a number say where each unit is free; 3 is in both.
fn all_pairs(run: &mut Run, arena: Arena, digits: u64) -> Result<(), Report> {
    let units = (arena.length() / arena.align()) as u32;
    let mut calls = calls(&arena);
    calls.retain(|call| !matches!(call, Call::Walk(_)));
    for number in 0..digits.pow(units) {
        let owner = |unit: u32| number / digits.pow(unit) % digits;
        let free = |land: u64| (0..units).map(|unit| (owner(unit) >> land & 1) << unit).sum();
        all_calls(run, &arena, [free(0), free(1)], &calls)?;
    }
    Ok(())
}

/// All calls on a pair of these units, with the capacities up to 3, with an odd last word and without. The calls meet
/// the sound marks and low waters of both lands in turn; then some of them meet all, sound or not.
fn all_calls(run: &mut Run, arena: &Arena, free: [u64; 2], calls: &[Call]) -> Result<(), Report> {
    let [listed, tabled] = free.map(|bits| ranges_of(arena, bits));
    let (lists, blocks) = (list_handles(arena, &listed), block_handles(arena, &tabled));
    let (sound, any) = (pairs_of(&lists[..SOUND], &blocks[..SOUND]), pairs_of(&lists, &blocks));
    let mut words = vec![FILL; arena.words() as usize];
    list::write(arena, &listed, &mut words);
    for length in 2 * tabled.len()..8 {
        let mut nodes = vec![FILL; length];
        block::write(&tabled, &mut nodes);
        let turn = free[0] as usize + 3 * free[1] as usize + length;
        let each_call = calls.iter().zip(sound.iter().cycle().skip(turn % sound.len()));
        let some_calls = calls.iter().cycle().skip(turn % calls.len()).zip(&any);
        for (call, pair) in each_call.chain(some_calls) {
            let mut words = Lent::new(&words, &[FILL], &[FILL]);
            let mut nodes = Lent::new(&nodes, &[FILL], &[FILL]);
            run.pair_call(*pair, [&mut words, &mut nodes], call)?;
        }
    }
    Ok(())
}
