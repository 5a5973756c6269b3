//! Long histories from the openings of two lands on, with host writes between the calls, compared with the model and
//! with the ledger of a pair.

use limbegoru_model::call::MODE_NONE;
use limbegoru_model::{Arena, Call, Done, Pair, PairLedger};

use super::super::histories::length;
use super::super::ledger::{self, Given};
use crate::branches::{FINDS, SOUND, TIES};
use crate::compare::Report;
use crate::generate::{self, Mix};
use crate::lent::Lent;
use crate::run::Run;

/// Histories of pairs. Every branch of a call on sound lands is taken often.
pub fn drawn(run: &mut Run, calls: u64) -> Result<(), Report> {
    while run.tally.calls() < calls {
        history(run)?;
    }
    super::each_often(run, &[SOUND.as_slice(), FINDS.as_flattened(), &TIES].concat());
    Ok(())
}

/// A pair, its memories and its ledger, and the bytes put in less those taken out.
struct History {
    arena: Arena,
    pair: Pair,
    words: Lent,
    nodes: Lent,
    ledger: PairLedger,
    bytes: u64,
}

/// One history of a pair.
fn history(run: &mut Run) -> Result<(), Report> {
    let random = &mut run.random;
    let arena = generate::tiny_arena(random);
    let (capacity, odd) = (random.pick(&[0, 1, 1, 1, 2, 2, 3, 4]), random.below(2));
    let words = generate::words(random, &arena, arena.words() as usize);
    let nodes = generate::words(random, &arena, (2 * capacity + odd) as usize);
    let mut words = generate::lend(random, &arena, &words);
    let mut nodes = generate::lend(random, &arena, &nodes);
    let (mix, length) = (Mix::of_a_pair(random), length(random));
    let ends = [arena.base(), arena.limit(), arena.align()];
    let list = run.list_open(ends, &mut words)?.land;
    let block = run.block_open(ends, &mut nodes)?.land;
    let ledger = PairLedger::new(arena, capacity);
    let mut history = History { arena, pair: Pair { list, block }, words, nodes, ledger, bytes: 0 };
    for _ in 0..length {
        history.step(run, &mix)?;
    }
    Ok(())
}

impl History {
    /// Host writes, then a call.
    fn step(&mut self, run: &mut Run, mix: &Mix) -> Result<(), Report> {
        let [list, block] = [self.ledger.list(), self.ledger.block()].map(|land| land.isolated());
        let near = super::near(&mut run.random, &list, &block);
        let free = |byte| self.ledger.marked(byte);
        ledger::host_writes(&mut run.random, &self.arena, free, &mut self.words, &near);
        ledger::host_writes_last(&mut run.random, &mut self.nodes);
        let call = mix.call(&mut run.random, &self.arena, &near);
        let done = run.pair_call(self.pair, [&mut self.words, &mut self.nodes], &call)?;
        self.pair = done.land;
        let entry = ledger::feed_pair(&mut self.ledger, &call);
        let list = Given::list(&self.arena, &self.pair.list, &self.words);
        let block = Given::block(&self.arena, &self.pair.block, &self.nodes);
        let lands = [(self.ledger.list(), list), (self.ledger.block(), block)];
        ledger::compare(run, &call, entry, &done, &lands)?;
        self.sum(run, &call, &done)
    }

    /// Free bytes of the pair equal bytes inserted less bytes taken out.
    fn sum(&mut self, run: &Run, call: &Call, done: &Done<Pair>) -> Result<(), Report> {
        match *call {
            _ if done.answer != 0 => {}
            Call::Insert(range) => self.bytes += range.length(),
            Call::Delete(range) => self.bytes -= range.length(),
            Call::Find(_, _, MODE_NONE) => {}
            _ => self.bytes -= done.range.length(),
        }
        if self.pair.list.bytes + self.pair.block.bytes == self.bytes {
            return Ok(());
        }
        Err(run.report(call, &[&self.pair], &format!("{} bytes were put in and not taken out", self.bytes)))
    }
}

#[cfg(test)]
mod tests {
    use limbegoru_model::{Arena, BlockHandle, Call, Done, ListHandle, Pair, PairLedger, Range};

    use super::History;
    use crate::component::ByValue;
    use crate::lent::Lent;
    use crate::run::Run;

    #[test]
    fn the_sum_notices() {
        let arena = Arena::new(4096, 4160, 8).expect("it keeps the rules");
        let run = Run::new(&ByValue, "sum", 1);
        let range = Range::new(4096, 4112);
        let check = |listed: &[Range], tabled: &[Range], call: Call, answer: u64| {
            let pair = Pair { list: ListHandle::of(&arena, listed), block: BlockHandle::of(&arena, tabled) };
            let (words, nodes) = (Lent::new(&[], &[], &[]), Lent::new(&[], &[], &[]));
            let ledger = PairLedger::new(arena, 0);
            let mut history = History { arena, pair, words, nodes, ledger, bytes: 16 };
            history.sum(&run, &call, &Done { land: pair, answer, range, old: range }).is_ok()
        };
        let higher = Range::new(4120, 4136);
        assert!(check(&[range], &[higher], Call::Insert(higher), 0));
        assert!(!check(&[range], &[], Call::Insert(higher), 0));
        assert!(check(&[range], &[], Call::Insert(higher), 1));
        assert!(check(&[], &[], Call::Delete(range), 0));
        assert!(!check(&[range], &[], Call::Delete(range), 0));
    }
}
