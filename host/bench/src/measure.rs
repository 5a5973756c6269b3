//! One row of a table: the same requests played and timed on the four implementations.

use std::hint::black_box;
use std::time::Instant;

use crate::four::{over_requests, Further};
use crate::workload::*;

const SEED: u64 = 20_240_229;
pub const NAMES: [&str; 4] = ["proved", "c", "best", "rust"];

/// What a row measures.
#[derive(Clone)]
pub struct Case {
    pub land: &'static str,
    pub filling: Filling,
    pub workload: Workload,
    pub ranges: usize,
    pub calls: usize,
}

impl Case {
    fn requests<L: Land>(&self) -> (Chequer, Requests) {
        let random = &mut Random::new(SEED);
        let chequer = Chequer::new(self.ranges, self.filling, random);
        let requests = Requests::new::<L>(self.workload, &chequer, self.calls, random);
        (chequer, requests)
    }

    /// Plays the requests once, on one implementation.
    pub fn play_once<L: Further>(&self, implementation: usize) {
        let (chequer, requests) = self.requests::<L>();
        let (land, mut memory) = L::holding(&chequer);
        let players = L::players(self.workload).expect("a call that the land has");
        black_box(players[implementation](land, &mut memory, &requests));
        println!("{} calls played on {}", self.played(&requests), NAMES[implementation]);
    }

    /// Sees that the four agree over all requests, and makes ready to time them.
    pub fn row<L: Further + 'static>(&self) -> Box<dyn Row> {
        let (chequer, requests) = self.requests::<L>();
        over_requests::<L>(&chequer, self.workload, &requests);
        let (land, memory) = L::holding(&chequer);
        let memories = [(); 4].map(|()| memory.clone());
        Box::new(Series { case: self.clone(), requests, land, memory, memories, times: [const { Vec::new() }; 4] })
    }

    /// The number of calls that requests make.
    fn played(&self, requests: &Requests) -> usize {
        if self.workload == Workload::Finds {
            2 * requests.len()
        } else {
            requests.len()
        }
    }

    /// The words of node space behind the ranges.
    pub fn tail(&self) -> usize {
        2 * self.filling.capacity(self.ranges).saturating_sub(self.ranges)
    }

    pub fn name(&self) -> String {
        let filled = match self.filling {
            Filling::Short => ", short",
            Filling::Halved => ", half in each",
            Filling::Roomy | Filling::Times(_) => "",
        };
        format!("{}{filled}", self.land)
    }
}

pub trait Row {
    fn case(&self) -> &Case;

    /// Times one round, in which all four play; the order depends on the round's number.
    fn round(&mut self, number: usize);

    /// Medians of the nanoseconds a call.
    fn medians(&self) -> [f64; 4];
}

struct Series<L: Land> {
    case: Case,
    requests: Requests,
    /// What every round begins with.
    land: L,
    memory: L::Memory,
    memories: [L::Memory; 4],
    times: [Vec<f64>; 4],
}

fn median(times: &[f64]) -> f64 {
    let mut times = times.to_vec();
    times.sort_by(f64::total_cmp);
    times[times.len() / 2]
}

impl<L: Further> Row for Series<L> {
    fn case(&self) -> &Case {
        &self.case
    }

    fn round(&mut self, number: usize) {
        let players = L::players(self.case.workload).expect("a call that the land has");
        let calls = self.case.played(&self.requests) as f64;
        for turn in 0..4 {
            let k = (number + turn) % 4;
            let memory = &mut self.memories[k];
            memory.clone_from(&self.memory);
            let start = Instant::now();
            black_box(players[k](self.land, memory, black_box(&self.requests)));
            self.times[k].push(start.elapsed().as_nanos() as f64 / calls);
        }
    }

    fn medians(&self) -> [f64; 4] {
        self.times.each_ref().map(|times| median(times))
    }
}

pub fn print_head(rounds: usize) {
    println!("Nanoseconds a call, medians of {rounds} rounds in which the four implementations");
    println!("take turns, spread over the whole run; results and words agreed over all");
    println!("requests. Alignment 8; free ranges of 8 to 32 bytes (a quarter are grains) and");
    println!("eight longer ones of up to 160; granted gaps of 8 to 32 bytes. Capacity of node");
    println!("space: ranges + {SPARE_PAIRS}; short: ranges / 2, and the list of the pair holds the rest.");
    println!("Workload 1: random insert and delete; 2: find first low, and insert back; walk:");
    println!("from random numbers; last, largest: mode none; flush: of half of the ranges, with");
    println!("the copying back of node space; -at: on a pointer. Best C is built by {}.", env!("BEST_COMPILER"));
    println!("Seed {SEED}.");
}

/// The rows as a table, if there are any.
pub fn print_calls(rows: &[Box<dyn Row>]) {
    if rows.is_empty() {
        return;
    }
    println!();
    println!("| land | workload | ranges | proved | C | best C | Rust | proved/C | proved/best C | proved/Rust |");
    println!("|---|---|---|---|---|---|---|---|---|---|");
    for row in rows {
        let case = row.case();
        let [proved, exit, best, rust] = row.medians();
        println!(
            "| {} | {} | {} | {proved:.1} | {exit:.1} | {best:.1} | {rust:.1} | {:.2} | {:.2} | {:.2} |",
            case.name(),
            case.workload.name(),
            case.ranges,
            proved / exit,
            proved / best,
            proved / rust
        );
    }
}

/// The same for rows with more and more node space; those with the same number of ranges follow each other.
pub fn print_tails(rows: &[Box<dyn Row>]) {
    if rows.is_empty() {
        return;
    }
    println!();
    println!("Block land, workload 1. A word: what a call takes more than at the least node space");
    println!("for these ranges, by the words more.");
    println!();
    print!("| ranges | capacity | words behind | proved | C | best C | proved/C | proved/best C |");
    println!(" proved, a word | C, a word | best C, a word |");
    println!("|---|---|---|---|---|---|---|---|---|---|---|");
    for rows in rows.chunk_by(|a, b| a.case().ranges == b.case().ranges) {
        let (least, least_times) = (rows[0].case().tail(), rows[0].medians());
        for row in rows {
            let case = row.case();
            let [proved, exit, best, _] = row.medians();
            print!("| {} | {} | {} ", case.ranges, case.filling.capacity(case.ranges), case.tail());
            print!("| {proved:.1} | {exit:.1} | {best:.1} | {:.2} | {:.2} |", proved / exit, proved / best);
            for (time, least_time) in [proved, exit, best].iter().zip(least_times) {
                match case.tail() - least {
                    0 => print!(" - |"),
                    words => print!(" {:.3} |", (time - least_time) / words as f64),
                }
            }
            println!();
        }
    }
}
