//! Flushes: lands of one arena or of two, apart and overlapping, sound and damaged, with too little room, with calls on
//! both lands between them; and histories of two lands from their openings on.

use limbegoru_model::{Arena, BlockHandle, Ledger, ListHandle};

use super::ledger::{self, Given};
use crate::compare::Report;
use crate::generate::{self, Mix};
use crate::lent::Lent;
use crate::run::Run;
use crate::two;

/// Flushes with drawn lands, with calls between them.
pub fn drawn(run: &mut Run, calls: u64) -> Result<(), Report> {
    while run.tally.calls() < calls {
        match run.random.once_in(12) {
            true => history(run)?,
            false => one(run)?,
        }
    }
    Ok(())
}

/// Flushes from one drawn list land into one drawn block land, and a call on each after a flush.
fn one(run: &mut Run) -> Result<(), Report> {
    let random = &mut run.random;
    let arena = generate::small_arena(random);
    let (list, block) = two::lands(random, arena);
    let ranges = list.ranges;
    let mut words = generate::lend(random, &arena, &list.words);
    let mut nodes = generate::lend(random, &arena, &block.nodes);
    let mix = Mix::any(random);
    let (mut list, mut block) = (list.land, block.land);
    for _ in 0..random.pick(&[1, 1, 2, 5]) {
        let flushed = run.flush((list, &mut words), (block, &mut nodes))?;
        let call = mix.call(&mut run.random, &arena, &ranges);
        list = run.list_call(flushed.list, &mut words, &call)?.land;
        let call = mix.call(&mut run.random, &arena, &ranges);
        block = run.block_call(flushed.block, &mut nodes, &call)?.land;
    }
    Ok(())
}

/// A list land and a block land of one arena, each with its memory and its ledger.
struct Lands {
    arena: Arena,
    list: (ListHandle, Lent, Ledger),
    block: (BlockHandle, Lent, Ledger),
}

/// One history of two lands, with flushes between the calls, compared with the model and with the ledgers.
fn history(run: &mut Run) -> Result<(), Report> {
    let mut lands = Lands::open(run)?;
    let mix = Mix::any(&mut run.random);
    for _ in 0..run.random.pick(&[10, 40, 100]) {
        match run.random.below(8) {
            0..=3 => lands.list_call(run, &mix)?,
            4 | 5 => lands.block_call(run, &mix)?,
            _ => lands.flush(run)?,
        }
    }
    Ok(())
}

impl Lands {
    /// Two openings.
    fn open(run: &mut Run) -> Result<Lands, Report> {
        let random = &mut run.random;
        let arena = generate::tiny_arena(random);
        let (capacity, odd) = (random.pick(&[0, 1, 2, 3, 4, 8, 40]), random.below(2));
        let words = generate::words(random, &arena, arena.words() as usize);
        let nodes = generate::words(random, &arena, (2 * capacity + odd) as usize);
        let mut words = generate::lend(random, &arena, &words);
        let mut nodes = generate::lend(random, &arena, &nodes);
        let ends = [arena.base(), arena.limit(), arena.align()];
        let list = run.list_open(ends, &mut words)?.land;
        let block = run.block_open(ends, &mut nodes)?.land;
        let (listed, tabled) = (Ledger::new(arena, None), Ledger::new(arena, Some(capacity)));
        Ok(Lands { arena, list: (list, words, listed), block: (block, nodes, tabled) })
    }

    /// What both lands give, each with its ledger.
    fn given(&self) -> [(&Ledger, Given); 2] {
        let ((list, words, listed), (block, nodes, tabled)) = (&self.list, &self.block);
        [(listed, Given::list(&self.arena, list, words)), (tabled, Given::block(&self.arena, block, nodes))]
    }

    /// A call on the list land.
    fn list_call(&mut self, run: &mut Run, mix: &Mix) -> Result<(), Report> {
        let (land, words, ledger) = &mut self.list;
        let call = mix.call(&mut run.random, &self.arena, &ledger.isolated());
        let done = run.list_call(*land, words, &call)?;
        *land = done.land;
        let entry = ledger::feed(ledger, &call);
        ledger::compare(run, &call, entry, &done, &self.given())
    }

    /// A call on the block land.
    fn block_call(&mut self, run: &mut Run, mix: &Mix) -> Result<(), Report> {
        let (land, nodes, ledger) = &mut self.block;
        let call = mix.call(&mut run.random, &self.arena, &ledger.isolated());
        let done = run.block_call(*land, nodes, &call)?;
        *land = done.land;
        let entry = ledger::feed(ledger, &call);
        ledger::compare(run, &call, entry, &done, &self.given())
    }

    /// A flush.
    fn flush(&mut self, run: &mut Run) -> Result<(), Report> {
        let ((list, words, listed), (block, nodes, tabled)) = (&mut self.list, &mut self.block);
        let flushed = run.flush((*list, words), (*block, nodes))?;
        (*list, *block) = (flushed.list, flushed.block);
        let moved = listed.flush(tabled);
        ledger::compare_flush(run, moved, &flushed, &self.given())
    }
}
