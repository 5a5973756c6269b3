//! The comparison of a history with the ledger of demand 3, which sees no answer, no handle and no word.

use std::fmt::Debug;

use limbegoru_model::ledger::Entry;
use limbegoru_model::{
    block, list, Arena, BlockHandle, Call, Done, Flushed, Ledger, ListHandle, LowWater, PairLedger, Range,
};

use crate::compare::Report;
use crate::generate;
use crate::lent::Lent;
use crate::random::Random;
use crate::run::Run;

/// What a ledger says to a call, with what it says to a walk.
macro_rules! feed {
    ($ledger:expr, $call:expr, $from:ident => $walk:expr) => {
        match *$call {
            Call::Insert(range) => $ledger.insert(range),
            Call::Delete(range) => $ledger.delete(range),
            Call::Find(find, size, mode) => $ledger.find(find, size, mode),
            Call::Walk($from) => $walk,
        }
    };
}

/// What the ledger of a land says to a call. A walk is not fed to it: its isolated ranges say what is met.
pub fn feed(ledger: &mut Ledger, call: &Call) -> Entry {
    feed!(ledger, call, from => match ledger.isolated().into_iter().find(|range| range.base >= from) {
        Some(range) => Entry { answer: 0, range, old: Range::NOTHING },
        None => Entry { answer: 2, range: Range::NOTHING, old: Range::NOTHING },
    })
}

/// What the ledger of a pair says to a call.
pub fn feed_pair(ledger: &mut PairLedger, call: &Call) -> Entry {
    feed!(ledger, call, _from => panic!("a pair has no walk"))
}

/// What a land's handle and words give: its ranges, if they are sound, the handle's two counts, and its mark and low
/// water.
#[derive(Clone, Debug, PartialEq, Eq)]
pub struct Given {
    ranges: Option<Vec<Range>>,
    counts: (u64, u64),
    low_water: LowWater,
}

impl Given {
    /// What a list land gives.
    pub fn list(arena: &Arena, land: &ListHandle, lent: &Lent) -> Given {
        let (counts, low_water) = ((land.ranges, land.bytes), land.low_water());
        Given { ranges: list::read(arena, land, lent.words()), counts, low_water }
    }

    /// What a block land gives.
    pub fn block(arena: &Arena, land: &BlockHandle, lent: &Lent) -> Given {
        let (counts, low_water) = ((land.ranges, land.bytes), land.low_water());
        Given { ranges: block::read(arena, land, lent.words()), counts, low_water }
    }

    /// What a land of these marks and this history must give.
    fn marked(ledger: &Ledger) -> Given {
        let isolated = ledger.isolated();
        let counts = (isolated.len() as u64, isolated.iter().map(|range| range.length()).sum());
        Given { ranges: Some(isolated), counts, low_water: ledger.low_water() }
    }
}

/// Compares a call with the ledger's entry: the answer and the ranges, and what each land then gives.
pub fn compare<H: Copy>(
    run: &Run,
    call: &Call,
    entry: Entry,
    done: &Done<H>,
    lands: &[(&Ledger, Given)],
) -> Result<(), Report> {
    compare_lands(run, call, entry, Entry { answer: done.answer, range: done.range, old: done.old }, lands)
}

/// Compares a flush with the number of ranges that the ledgers moved and the refusal that stopped them, and what each
/// land then gives.
pub fn compare_flush(
    run: &Run,
    (moved, stop): (u64, u64),
    flushed: &Flushed,
    lands: &[(&Ledger, Given)],
) -> Result<(), Report> {
    compare_lands(run, &"flush", [0, moved, stop], [flushed.answer, flushed.moved, flushed.stop], lands)
}

/// Compares what a call returned with what the ledgers say to it, and what each land then gives with its marks and its
/// history.
fn compare_lands<E: PartialEq + Debug>(
    run: &Run,
    call: &dyn Debug,
    entry: E,
    got: E,
    lands: &[(&Ledger, Given)],
) -> Result<(), Report> {
    let marked: Vec<Given> = lands.iter().map(|(ledger, _)| Given::marked(ledger)).collect();
    let given: Vec<&Given> = lands.iter().map(|(_, given)| given).collect();
    if entry == got && given.iter().copied().eq(&marked) {
        return Ok(());
    }
    let difference = format!("ledger\n  {entry:?} {marked:?}\nland\n  {got:?} {given:?}");
    Err(run.report(call, &[], &difference))
}

/// The host writes some words that are not free.
pub fn host_writes(random: &mut Random, arena: &Arena, free: impl Fn(u64) -> bool, lent: &mut Lent, near: &[Range]) {
    let words = lent.words().len();
    for _ in 0..random.below(4).min(words as u64) {
        let number = random.place(words);
        if !free(arena.base() + 8 * number as u64) {
            lent.words_mut()[number] = generate::number(random, arena, near);
        }
    }
}

/// The host writes an odd last word of node space.
pub fn host_writes_last(random: &mut Random, lent: &mut Lent) {
    let odd = lent.words().len() % 2 == 1;
    if let ([.., last], true) = (lent.words_mut(), odd) {
        *last = random.word();
    }
}

#[cfg(test)]
mod tests {
    use limbegoru_model::{Arena, Call, Done, Ledger, ListHandle, LowWater, Range};

    use super::{compare, feed, Given};
    use crate::component::ByValue;
    use crate::run::Run;

    #[test]
    fn the_ledger_notices() {
        let arena = Arena::new(4096, 4160, 8).expect("it keeps the rules");
        let run = Run::new(&ByValue, "ledger", 1);
        let range = Range::new(4096, 4112);
        let done = Done { land: ListHandle::default(), answer: 0, range, old: Range::NOTHING };
        let sound = Given { ranges: Some(vec![range]), counts: (1, 16), low_water: LowWater { filled: 1, low: 16 } };
        let check = |done: Done<ListHandle>, tried: Given| {
            let mut ledger = Ledger::new(arena, None);
            let call = Call::Insert(range);
            let entry = feed(&mut ledger, &call);
            compare(&run, &call, entry, &done, &[(&ledger, sound.clone()), (&ledger, tried)]).is_ok()
        };
        assert!(check(done, sound.clone()));
        assert!(!check(done, Given { ranges: None, ..sound.clone() }));
        assert!(!check(done, Given { ranges: Some(vec![]), ..sound.clone() }));
        assert!(!check(done, Given { counts: (2, 16), ..sound.clone() }));
        assert!(!check(done, Given { counts: (1, 8), ..sound.clone() }));
        for (filled, low) in [(0, 16), (2, 16), (1, 8), (1, 0), (0, 0)] {
            assert!(!check(done, Given { low_water: LowWater { filled, low }, ..sound.clone() }));
        }
        assert!(!check(Done { answer: 1, ..done }, sound.clone()));
        assert!(!check(Done { range: Range::NOTHING, ..done }, sound.clone()));
        assert!(!check(Done { old: range, ..done }, sound.clone()));
    }
}
