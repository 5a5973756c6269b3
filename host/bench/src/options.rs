//! The command line.

use std::env::Args;
use std::process::exit;

use crate::workload::{Filling, Workload, WORKLOADS, WORKLOAD_NAMES};

/// What the program does.
#[derive(Default, PartialEq)]
pub enum Mode {
    /// Compares the implementations, times them, and prints the tables.
    #[default]
    Times,
    /// Counts the instructions of the archive's loops, and compares them with their limits.
    Instructions,
    /// Makes the calls whose instructions are counted.
    Samples,
}

#[derive(Default)]
pub struct Options {
    pub mode: Mode,
    pub quick: bool,
    only: Option<String>,
    filling: Option<Filling>,
    workload: Option<Workload>,
    pub ranges: Option<usize>,
    pub calls: Option<usize>,
    pub implementation: Option<usize>,
}

const FILLINGS: [(&str, Filling); 6] = [
    ("roomy", Filling::Roomy),
    ("short", Filling::Short),
    ("halved", Filling::Halved),
    ("4", Filling::Times(4)),
    ("16", Filling::Times(16)),
    ("64", Filling::Times(64)),
];

fn usage() -> ! {
    eprintln!("bench [--quick] [--only list|block|pair] [--filling roomy|short|halved|4|16|64]");
    eprintln!("      [--workload {}] [--ranges N] [--calls N]", WORKLOAD_NAMES.join("|"));
    eprintln!("      [--impl {}]", crate::measure::NAMES.join("|"));
    eprintln!("bench --instructions");
    exit(2)
}

/// The next argument, one of the names; its place among them.
fn one_of(arguments: &mut Args, names: &[&str]) -> usize {
    let given = arguments.next().unwrap_or_else(|| usage());
    names.iter().position(|name| *name == given).unwrap_or_else(|| usage())
}

/// The next argument, a number from `least` on.
fn number(arguments: &mut Args, least: usize) -> usize {
    let given = arguments.next().and_then(|text| text.parse().ok());
    given.filter(|n| *n >= least).unwrap_or_else(|| usage())
}

impl Options {
    pub fn from_arguments() -> Self {
        let mut options = Self::default();
        let mut arguments = std::env::args();
        arguments.next();
        while let Some(name) = arguments.next() {
            let arguments = &mut arguments;
            match name.as_str() {
                "--quick" => options.quick = true,
                "--instructions" => options.mode = Mode::Instructions,
                "--samples" => options.mode = Mode::Samples,
                "--only" => {
                    let lands = ["list", "block", "pair"];
                    options.only = Some(lands[one_of(arguments, &lands)].to_string());
                }
                "--filling" => options.filling = Some(FILLINGS[one_of(arguments, &FILLINGS.map(|(name, _)| name))].1),
                "--workload" => options.workload = Some(WORKLOADS[one_of(arguments, &WORKLOAD_NAMES)]),
                "--ranges" => options.ranges = Some(number(arguments, 2)),
                "--calls" => options.calls = Some(number(arguments, 1)),
                "--impl" => options.implementation = Some(one_of(arguments, &crate::measure::NAMES)),
                _ => usage(),
            }
        }
        options
    }

    pub fn wants(&self, land: &str, filling: Filling, workload: Workload) -> bool {
        self.only.as_ref().is_none_or(|only| only == land)
            && self.filling.is_none_or(|only| only == filling)
            && self.workload.is_none_or(|only| only == workload)
    }
}
