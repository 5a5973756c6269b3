//! Single calls on lands that may be damaged, and openings with any numbers.

use limbegoru_model::arena::HIGHEST_LIMIT;
use limbegoru_model::{block, list, BlockHandle, ListHandle};

use crate::compare::Report;
use crate::damage::{BlockState, ListState};
use crate::generate::{self, Mix};
use crate::random::Random;
use crate::run::Run;

/// Single calls on list lands.
pub fn list(run: &mut Run, calls: u64) -> Result<(), Report> {
    while run.tally.calls() < calls {
        match run.random.below(16) {
            0 => list_opening(run)?,
            1 => list_of_any_numbers(run)?,
            _ => list_state(run)?,
        }
    }
    Ok(())
}

/// Single calls on block lands.
pub fn block(run: &mut Run, calls: u64) -> Result<(), Report> {
    while run.tally.calls() < calls {
        match run.random.below(16) {
            0 => block_opening(run)?,
            1 => block_of_any_numbers(run)?,
            _ => block_state(run)?,
        }
    }
    Ok(())
}

/// Some calls on a list land that may be damaged. An accepted call is followed by the next on what it left.
fn list_state(run: &mut Run) -> Result<(), Report> {
    let random = &mut run.random;
    let arena = generate::small_arena(random);
    let mut state = ListState::sound(random, arena);
    state.worsen(random);
    let mut lent = generate::lend(random, &arena, &state.words);
    let mix = Mix::any(random);
    for _ in 0..random.pick(&[1, 1, 2, 4, 9]) {
        let call = mix.call(&mut run.random, &arena, &state.ranges);
        state.land = run.list_call(state.land, &mut lent, &call)?.land;
        state.ranges = list::read(&arena, &state.land, lent.words()).unwrap_or(state.ranges);
    }
    Ok(())
}

/// Some calls on a block land that may be damaged. An accepted call is followed by the next on what it left.
fn block_state(run: &mut Run) -> Result<(), Report> {
    let random = &mut run.random;
    let arena = generate::any_arena(random);
    let room = random.pick(&[0, 0, 0, 1, 1, 2, 5]);
    let mut state = BlockState::sound(random, arena, room);
    state.worsen(random);
    let mut lent = generate::lend(random, &arena, &state.nodes);
    let mix = Mix::any(random);
    for _ in 0..random.pick(&[1, 1, 2, 4, 9]) {
        let call = mix.call(&mut run.random, &arena, &state.ranges);
        state.land = run.block_call(state.land, &mut lent, &call)?.land;
        state.ranges = block::read(&arena, &state.land, lent.words()).unwrap_or(state.ranges);
    }
    Ok(())
}

/// The ends and the alignment of an arena that often breaks a rule: moved to 0 or above 2^40, of another alignment, or
/// with up to two of its numbers changed.
fn ends(random: &mut Random) -> [u64; 3] {
    let arena = generate::any_arena(random);
    let (length, align) = (arena.length(), arena.align());
    let mut ends = [arena.base(), arena.limit(), align];
    match random.below(12) {
        0 => return [0, length, align],
        1 => return [HIGHEST_LIMIT + align - length, HIGHEST_LIMIT + align, align],
        2 | 3 => return strange_align(random),
        _ => {}
    }
    for _ in 0..random.below(3) {
        let place = random.place(3);
        ends[place] = match random.below(4) {
            0 => generate::number(random, &arena, &[]),
            1 => random.pick(&[0, 1, 4, 8, 12, 4096, 8192, HIGHEST_LIMIT, HIGHEST_LIMIT + 8, HIGHEST_LIMIT + 4096]),
            _ => generate::near(random, &arena, ends[place]),
        };
    }
    ends
}

/// An arena that keeps all rules but the alignment's.
fn strange_align(random: &mut Random) -> [u64; 3] {
    let align = random.pick(&[1, 2, 4, 12, 24, 40, 96, 4088, 4104, 8192, 12288, 16384]);
    let base = align * random.between(1, 50);
    [base, base + align * random.below(12_000 / align + 2), align]
}

/// As many words as a list land of these ends is lent, or a few more or less; never more than 2,100.
fn words_for(random: &mut Random, [base, limit, _]: [u64; 3]) -> usize {
    let words = (limit.wrapping_sub(base) / 8).min(2100);
    let near = [words, words, words, words + 1, words.saturating_sub(1), 0];
    random.pick(&near) as usize
}

/// The opening of a list land.
fn list_opening(run: &mut Run) -> Result<(), Report> {
    let random = &mut run.random;
    let arena = generate::small_arena(random);
    let ends = if random.once_in(3) { [arena.base(), arena.limit(), arena.align()] } else { ends(random) };
    let length = words_for(random, ends);
    let words = generate::words(random, &arena, length);
    let mut lent = generate::lend(random, &arena, &words);
    run.list_open(ends, &mut lent).map(|_| ())
}

/// The opening of a block land.
fn block_opening(run: &mut Run) -> Result<(), Report> {
    let random = &mut run.random;
    let arena = generate::any_arena(random);
    let length = random.place(20);
    let nodes = generate::words(random, &arena, length);
    let mut lent = generate::lend(random, &arena, &nodes);
    let ends = ends(random);
    run.block_open(ends, &mut lent).map(|_| ())
}

/// A call on a list land of numbers that have little to do with each other.
fn list_of_any_numbers(run: &mut Run) -> Result<(), Report> {
    let random = &mut run.random;
    let arena = generate::small_arena(random);
    let [base, limit, align] = ends(random);
    let length = words_for(random, [base, limit, align]);
    let mut any = || generate::number(random, &arena, &[]);
    let (head, ranges, bytes, filled, low) = (any(), any() % 4, any(), any() % 3, any());
    let land = ListHandle { base, limit, align, head, ranges, bytes, filled, low };
    let words = generate::words(random, &arena, length);
    let mut lent = generate::lend(random, &arena, &words);
    let call = Mix::any(random).call(random, &arena, &[]);
    run.list_call(land, &mut lent, &call).map(|_| ())
}

/// A call on a block land of numbers that have little to do with each other.
fn block_of_any_numbers(run: &mut Run) -> Result<(), Report> {
    let random = &mut run.random;
    let arena = generate::any_arena(random);
    let [base, limit, align] = ends(random);
    let mut any = || generate::number(random, &arena, &[]);
    let (ranges, bytes, filled, low) = (any() % 4, any(), any() % 3, any());
    let land = BlockHandle { base, limit, align, ranges, bytes, filled, low };
    let length = random.place(9);
    let nodes = generate::words(random, &arena, length);
    let mut lent = generate::lend(random, &arena, &nodes);
    let call = Mix::any(random).call(random, &arena, &[]);
    run.block_call(land, &mut lent, &call).map(|_| ())
}
