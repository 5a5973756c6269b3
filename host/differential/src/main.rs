//! Compares the component with the model on drawn calls: `differential SEED CALLS`

use std::process::ExitCode;

use differential::parts;

/// The seed and the number of calls.
fn numbers() -> Option<(u64, u64)> {
    let mut arguments = std::env::args().skip(1).map(|argument| argument.parse().ok());
    let numbers = (arguments.next()??, arguments.next()??);
    arguments.next().is_none().then_some(numbers)
}

fn main() -> ExitCode {
    let Some((seed, calls)) = numbers() else {
        eprintln!("usage: differential SEED CALLS");
        return ExitCode::from(2);
    };
    match parts::drawn_in_all_ways(seed, calls) {
        Ok(tally) => {
            parts::print("all", &tally);
            ExitCode::SUCCESS
        }
        Err(report) => {
            eprintln!("{report}");
            ExitCode::FAILURE
        }
    }
}
