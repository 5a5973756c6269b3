//! Long histories from an opening on, with host writes between the calls, compared with the model and with the ledger.

use limbegoru_model::{Call, Ledger};

use super::ledger::{self, Given};
use crate::compare::Report;
use crate::generate::{self, Mix};
use crate::random::Random;
use crate::run::Run;

/// The length of a history.
pub(super) fn length(random: &mut Random) -> u64 {
    random.pick(&[20, 100, 300, 1000])
}

/// Histories of list lands.
pub fn list(run: &mut Run, calls: u64) -> Result<(), Report> {
    while run.tally.calls() < calls {
        list_history(run)?;
    }
    Ok(())
}

/// One history of a list land. It starts from arena words of any value.
fn list_history(run: &mut Run) -> Result<(), Report> {
    let random = &mut run.random;
    let arena = generate::small_arena(random);
    let words = generate::words(random, &arena, arena.words() as usize);
    let mut lent = generate::lend(random, &arena, &words);
    let (mix, length) = (Mix::any(random), length(random));
    let mut ledger = Ledger::new(arena, None);
    let mut land = run.list_open([arena.base(), arena.limit(), arena.align()], &mut lent)?.land;
    for _ in 0..length {
        let isolated = ledger.isolated();
        ledger::host_writes(&mut run.random, &arena, |byte| ledger.marked(byte), &mut lent, &isolated);
        let call = mix.call(&mut run.random, &arena, &isolated);
        let done = run.list_call(land, &mut lent, &call)?;
        land = done.land;
        let entry = ledger::feed(&mut ledger, &call);
        ledger::compare(run, &call, entry, &done, &[(&ledger, Given::list(&arena, &land, &lent))])?;
    }
    let mut from = 0;
    for range in ledger.isolated() {
        let met = run.list_call(land, &mut lent, &Call::Walk(from))?.range;
        from = if met == range { range.limit } else { u64::MAX };
    }
    run.list_call(land, &mut lent, &Call::Walk(from)).map(|_| ())
}

/// Histories of block lands.
pub fn block(run: &mut Run, calls: u64) -> Result<(), Report> {
    while run.tally.calls() < calls {
        block_history(run)?;
    }
    Ok(())
}

/// One history of a block land. The host writes an odd last word.
fn block_history(run: &mut Run) -> Result<(), Report> {
    let random = &mut run.random;
    let arena = generate::small_arena(random);
    let capacity = random.pick(&[0, 1, 1, 2, 2, 3, 4, 5, 8, 12, 20, 40]);
    let odd = random.below(2);
    let nodes = generate::words(random, &arena, (2 * capacity + odd) as usize);
    let mut lent = generate::lend(random, &arena, &nodes);
    let (mix, length) = (Mix::any(random), length(random));
    let mut ledger = Ledger::new(arena, Some(capacity));
    let mut land = run.block_open([arena.base(), arena.limit(), arena.align()], &mut lent)?.land;
    for _ in 0..length {
        ledger::host_writes_last(&mut run.random, &mut lent);
        let call = mix.call(&mut run.random, &arena, &ledger.isolated());
        let done = run.block_call(land, &mut lent, &call)?;
        land = done.land;
        let entry = ledger::feed(&mut ledger, &call);
        ledger::compare(run, &call, entry, &done, &[(&ledger, Given::block(&arena, &land, &lent))])?;
    }
    Ok(())
}
