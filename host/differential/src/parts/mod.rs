//! The parts: the kinds of calls that are compared.

pub mod alignments;
pub mod exhaustive;
pub mod flushes;
pub mod histories;
pub mod large;
mod ledger;
pub mod pairs;
pub mod singles;

use crate::compare::Report;
use crate::component::{ByLand, ByPointer, ByValue, Component};
use crate::run::{Run, Tally};

/// A part whose calls are drawn: it makes about so many calls.
pub type Drawn = fn(&mut Run, u64) -> Result<(), Report>;

/// A part whose calls are all those of a kind, or whose number of calls is fixed.
pub type Whole = fn(&mut Run) -> Result<(), Report>;

/// The parts whose calls are drawn, each with its share of the calls in hundredths. The calls on pairs come on top of
/// those on lands, which make up the hundred.
pub const DRAWN: [(&str, u64, Drawn); 7] = [
    ("list histories", 30, histories::list),
    ("block histories", 25, histories::block),
    ("list single calls", 20, singles::list),
    ("block single calls", 15, singles::block),
    ("flushes", 10, flushes::drawn),
    ("pair histories", 35, pairs::histories::drawn),
    ("pair single calls", 25, pairs::singles::drawn),
];

/// The parts whose calls are all those of a kind, or whose number of calls is fixed.
pub const WHOLE: [(&str, Whole); 8] = [
    ("alignments of openings", alignments::openings),
    ("all sets, list", exhaustive::list_sets),
    ("all sets, block", exhaustive::block_sets),
    ("all small lists of words", exhaustive::list_words),
    ("all small tables of words", exhaustive::block_words),
    ("all flushes", exhaustive::flushes),
    ("all pairs that may overlap", pairs::exhaustive::overlapping),
    ("all pairs apart", pairs::exhaustive::apart),
];

/// Runs the drawn parts on a component with about so many calls on lands, and prints what was counted.
pub fn drawn(component: &dyn Component, seed: u64, calls: u64) -> Result<Tally, Report> {
    let mut sum = Tally::default();
    for (name, share, part) in DRAWN {
        let mut run = Run::new(component, name, seed);
        part(&mut run, calls * share / 100)?;
        print(&format!("{name}, {}", component.name()), &run.tally);
        sum.add(&run.tally);
    }
    Ok(sum)
}

/// Runs the parts whose calls are all those of a kind or fixed in number, and prints what was counted.
pub fn whole(component: &dyn Component, seed: u64) -> Result<Tally, Report> {
    let mut sum = Tally::default();
    for (name, part) in WHOLE {
        let mut run = Run::new(component, name, seed);
        part(&mut run)?;
        print(name, &run.tally);
        sum.add(&run.tally);
    }
    Ok(sum)
}

/// The drawn parts by value, by pointer and by land, which share the calls.
pub fn drawn_in_all_ways(seed: u64, calls: u64) -> Result<Tally, Report> {
    let mut sum = drawn(&ByValue, seed, calls / 2)?;
    sum.add(&drawn(&ByPointer, seed, calls / 4)?);
    sum.add(&drawn(&ByLand, seed, calls / 4)?);
    Ok(sum)
}

/// The few calls on large memories.
pub fn large(component: &dyn Component, seed: u64) -> Result<Tally, Report> {
    let mut run = Run::new(component, "large memories", seed);
    large::everything(&mut run)?;
    print(&format!("large memories, {}", component.name()), &run.tally);
    Ok(run.tally)
}

/// Prints how often each branch of a pair's calls was taken.
pub fn print_branches(tally: &Tally) {
    for (name, count) in &tally.branches {
        println!("{name:<48} {count:>8}");
    }
}

/// Prints a line of counts.
pub fn print(name: &str, tally: &Tally) {
    let answers: Vec<String> = tally.answers.iter().map(|count| format!("{count:>7}")).collect();
    println!("{name:<32} {:>8} calls, answers 0 to 7: {}", tally.calls(), answers.join(" "));
}
