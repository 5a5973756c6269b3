//! Nanoseconds a call for the proved lands and for three hand-written baselines, as tables; or, with --instructions, the
//! instructions of the proved loops by valgrind, which fails above a limit.
//!
//! Usage: bench [--quick] [--only list|block|pair] [--filling roomy|short|halved|4|16|64] [--workload NAME] [--ranges N]
//!              [--calls N] [--impl proved|c|best|rust]
//!        bench --instructions
//!
//! With --impl that implementation alone plays the requests once, for a profiler.

mod abi;
mod agree;
mod baseline;
mod four;
mod instructions;
mod measure;
mod options;
mod players;
mod workload;

use std::process::ExitCode;

use abi::{BlockLand, ListLand, Pair};
use measure::{print_calls, print_head, print_tails, Case, Row};
use options::{Mode, Options};
use workload::{Filling, Workload};

const SIZES: [usize; 6] = [4, 16, 64, 256, 1024, 4096];
const LANDS: [(&str, Filling); 4] =
    [("list", Filling::Roomy), ("block", Filling::Roomy), ("pair", Filling::Roomy), ("pair", Filling::Short)];

/// The calls besides workloads 1 and 2.
const FURTHER: [(&str, Filling, Workload); 11] = [
    ("list", Filling::Roomy, Workload::Walk),
    ("list", Filling::Roomy, Workload::Last),
    ("list", Filling::Roomy, Workload::Largest),
    ("list", Filling::Roomy, Workload::ChangesAt),
    ("list", Filling::Roomy, Workload::WalkAt),
    ("block", Filling::Roomy, Workload::Walk),
    ("block", Filling::Roomy, Workload::Last),
    ("block", Filling::Roomy, Workload::Largest),
    ("pair", Filling::Short, Workload::Last),
    ("pair", Filling::Short, Workload::Largest),
    ("pair", Filling::Halved, Workload::Flush),
];
const FURTHER_SIZES: [usize; 3] = [16, 256, 1024];

/// Node space behind the ranges of a block land.
const TAILS: [Filling; 4] = [Filling::Roomy, Filling::Times(4), Filling::Times(16), Filling::Times(64)];
const TAIL_SIZES: [usize; 2] = [64, 256];

impl Options {
    /// A row, with so many calls that one implementation takes some milliseconds for them.
    fn case(&self, land: &'static str, filling: Filling, workload: Workload, ranges: usize) -> Case {
        let mut case = Case { land, filling, workload, ranges, calls: 0 };
        let work = if self.quick { 100_000 } else { 2_000_000 };
        let share = if workload == Workload::Flush { 8 } else { 1 };
        case.calls = self.calls.unwrap_or(work / share / (ranges + 20 + case.tail() / 8) + 2);
        case
    }

    fn sizes(&self, sizes: &[usize]) -> Vec<usize> {
        self.ranges.map_or(sizes.to_vec(), |ranges| vec![ranges])
    }

    /// Workloads 1 and 2.
    fn calls(&self) -> Vec<Case> {
        let both =
            LANDS.into_iter().flat_map(|land| [Workload::Changes, Workload::Finds].map(|workload| (land, workload)));
        let wanted = both.filter(|((land, filling), workload)| self.wants(land, *filling, *workload));
        let sized = |((land, filling), workload)| {
            self.sizes(&SIZES).into_iter().map(move |ranges| self.case(land, filling, workload, ranges))
        };
        wanted.flat_map(sized).collect()
    }

    fn further(&self) -> Vec<Case> {
        let wanted = FURTHER.into_iter().filter(|(land, filling, workload)| self.wants(land, *filling, *workload));
        let sized = |(land, filling, workload)| {
            self.sizes(&FURTHER_SIZES).into_iter().map(move |ranges| self.case(land, filling, workload, ranges))
        };
        wanted.flat_map(sized).collect()
    }

    fn tails(&self) -> Vec<Case> {
        let (land, workload) = ("block", Workload::Changes);
        let wanted = |filling: &Filling| self.wants(land, *filling, workload);
        let sized =
            |ranges| TAILS.into_iter().filter(wanted).map(move |filling| self.case(land, filling, workload, ranges));
        self.sizes(&TAIL_SIZES).into_iter().flat_map(sized).collect()
    }
}

fn row(case: &Case) -> Box<dyn Row> {
    match case.land {
        "list" => case.row::<ListLand>(),
        "block" => case.row::<BlockLand>(),
        _ => case.row::<Pair>(),
    }
}

fn play_once(case: &Case, implementation: usize) {
    match case.land {
        "list" => case.play_once::<ListLand>(implementation),
        "block" => case.play_once::<BlockLand>(implementation),
        _ => case.play_once::<Pair>(implementation),
    }
}

/// A pass times some rounds of every row, so that a slow second of the machine does not fall on one row alone.
fn times(options: &Options, passes: usize, rounds: usize) {
    let mut tables =
        [options.calls(), options.further(), options.tails()].map(|cases| cases.iter().map(row).collect::<Vec<_>>());
    for pass in 0..passes {
        for row in tables.iter_mut().flatten() {
            (0..rounds).for_each(|round| row.round(pass * rounds + round));
        }
    }
    let [calls, further, tails] = tables;
    print_head(passes * rounds);
    print_calls(&calls);
    print_calls(&further);
    print_tails(&tails);
}

fn main() -> ExitCode {
    let options = Options::from_arguments();
    match options.mode {
        Mode::Instructions => return instructions::judge(),
        Mode::Samples => instructions::samples(),
        Mode::Times => {
            if let Some(implementation) = options.implementation {
                let tails = options.tails().into_iter().filter(|case| case.filling != Filling::Roomy);
                let cases = options.calls().into_iter().chain(options.further()).chain(tails);
                cases.for_each(|case| play_once(&case, implementation));
                return ExitCode::SUCCESS;
            }
            agree::on_set_ups();
            agree::on_damage();
            agree::on_marks();
            agree::on_overlaps();
            agree::on_random(if options.quick { 20_000 } else { 200_000 });
            if options.quick {
                times(&options, 1, 3);
            } else {
                times(&options, 9, 5);
            }
        }
    }
    ExitCode::SUCCESS
}
