//! Pairs: histories from two openings, single calls on lands that may be damaged, and all calls on small pairs.

pub mod exhaustive;
pub mod histories;
pub mod singles;

use limbegoru_model::{set, Range};

use crate::random::Random;
use crate::run::Run;

/// The least number of calls of a long run.
const LONG: u64 = 100_000;

/// The ranges near which a call is drawn: those of one land, or the runs of bytes that are free in either; often only
/// the runs that lie in both lands, if there are any.
fn near(random: &mut Random, list: &[Range], block: &[Range]) -> Vec<Range> {
    let runs = set::isolated([list, block].concat());
    let in_both = |run: &&Range| !list.contains(run) && !block.contains(run);
    let across: Vec<Range> = runs.iter().filter(in_both).copied().collect();
    match random.below(6) {
        0 => list.to_vec(),
        1 => block.to_vec(),
        2..=4 if !across.is_empty() => across,
        _ => runs,
    }
}

/// In a long run each of the branches was taken at least once in 5,000 calls.
fn each_often(run: &Run, names: &[&str]) {
    let calls = run.tally.calls();
    let (name, count) = run.tally.rarest(names);
    assert!(calls < LONG || count >= calls / 5000, "{name}: only {count} times in {:?}", run.tally);
}
