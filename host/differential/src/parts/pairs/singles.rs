//! Single calls on pairs whose lands may be damaged, overlap, or be of two arenas.

use limbegoru_model::answer::FULL;
use limbegoru_model::Pair;

use crate::branches::{BETWEEN, FAULTS};
use crate::compare::Report;
use crate::generate::{self, Mix};
use crate::run::Run;
use crate::two;

/// Single calls on pairs. Every fault is met often, so are low waters that are not read inside a call, and every answer
/// but 3, which only a block land gives.
pub fn drawn(run: &mut Run, calls: u64) -> Result<(), Report> {
    while run.tally.calls() < calls {
        state(run)?;
    }
    super::each_often(run, &[FAULTS.as_slice(), &BETWEEN, &["the lands touch"]].concat());
    for (answer, count) in run.tally.answers.iter().enumerate() {
        let good = if answer as u64 == FULL { *count == 0 } else { *count >= run.tally.calls() / 1000 };
        assert!(good, "{answer}: {count} times in {:?}", run.tally);
    }
    Ok(())
}

/// Some calls on a pair. An accepted call is followed by the next on what it left.
fn state(run: &mut Run) -> Result<(), Report> {
    let random = &mut run.random;
    let arena = if random.once_in(3) { generate::small_arena(random) } else { generate::tiny_arena(random) };
    let (list, block) = two::lands(random, arena);
    let mut words = generate::lend(random, &arena, &list.words);
    let mut nodes = generate::lend(random, &arena, &block.nodes);
    let mix = Mix::of_a_pair(random);
    let mut pair = Pair { list: list.land, block: block.land };
    for _ in 0..random.pick(&[1, 1, 2, 4]) {
        let near = super::near(&mut run.random, &list.ranges, &block.ranges);
        let call = mix.call(&mut run.random, &arena, &near);
        pair = run.pair_call(pair, [&mut words, &mut nodes], &call)?.land;
    }
    Ok(())
}
