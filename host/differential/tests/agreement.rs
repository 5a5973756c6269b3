//! The component and the model agree on every call of every part. `LIMBEGORU_CALLS` sets the number of drawn calls,
//! `LIMBEGORU_SEED` the seed.

use std::process::ExitCode;
use std::time::Instant;

use differential::compare::Report;
use differential::component::{ByLand, ByValue};
use differential::parts;
use differential::run::Tally;

/// The drawn calls, and the least number of all calls, if nothing else is said.
const DRAWN: u64 = 3_000_000;
const LEAST: u64 = 11_000_000;

/// A number that the environment sets.
fn set_by(name: &str) -> Option<u64> {
    let text = std::env::var(name).ok()?;
    Some(text.parse().unwrap_or_else(|_| panic!("{name} is {text}, which is no number")))
}

/// All parts.
fn everything(seed: u64, calls: u64) -> Result<Tally, Report> {
    let mut sum = parts::whole(&ByValue, seed)?;
    sum.add(&parts::large(&ByValue, seed)?);
    sum.add(&parts::large(&ByLand, seed)?);
    sum.add(&parts::drawn_in_all_ways(seed, calls)?);
    Ok(sum)
}

fn main() -> ExitCode {
    let began = Instant::now();
    let seed = set_by("LIMBEGORU_SEED").unwrap_or(1);
    let calls = set_by("LIMBEGORU_CALLS");
    let tally = match everything(seed, calls.unwrap_or(DRAWN)) {
        Ok(tally) => tally,
        Err(report) => {
            eprintln!("{report}");
            return ExitCode::FAILURE;
        }
    };
    parts::print_branches(&tally);
    parts::print("all", &tally);
    println!("seed {seed}, {:.1} seconds", began.elapsed().as_secs_f64());
    assert!(tally.calls() >= calls.unwrap_or(LEAST), "too few calls");
    assert!(tally.answers.iter().all(|count| *count > 0), "an answer was never given");
    ExitCode::SUCCESS
}
