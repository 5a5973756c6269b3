//! The instructions of the archive's loops, counted by valgrind: they do not vary from run to run.
//!
//! Inserts of what is already free are refused after everything was read, and change nothing. They are made on lands of two
//! sizes; the difference of the counts, divided by what the larger one has more, is what the loop takes for one of it.

use std::hint::black_box;
use std::process::{Command, ExitCode};
use std::{env, fs, io, process};

use crate::abi::*;
use crate::workload::*;

/// The most instructions for a pair of the table, a range of the list, and a word of node space behind the ranges.
const A_PAIR: f64 = 9.0;
const A_RANGE: f64 = 36.0;
const A_WORD: f64 = 2.0;

const CALLS: usize = 8;

/// Where the byte that is already free lies.
#[derive(Clone, Copy)]
enum Place {
    First,
    Last,
}

/// A loop, and the two functions below from which the call is made with so many.
struct Loop {
    name: &'static str,
    one: &'static str,
    limit: f64,
    call: &'static str,
    less: (&'static str, usize),
    more: (&'static str, usize),
}

const LOOPS: [Loop; 5] = [
    Loop {
        name: "table, place in the first pair",
        one: "pair",
        limit: A_PAIR,
        call: "lg_block_insert",
        less: ("sample_table_first_256", 256),
        more: ("sample_table_first_1024", 1024),
    },
    Loop {
        name: "table, place in the last pair",
        one: "pair",
        limit: A_PAIR,
        call: "lg_block_insert",
        less: ("sample_table_last_256", 256),
        more: ("sample_table_last_1024", 1024),
    },
    Loop {
        name: "list, place in the first range",
        one: "range",
        limit: A_RANGE,
        call: "lg_list_insert",
        less: ("sample_list_first_256", 256),
        more: ("sample_list_first_1024", 1024),
    },
    Loop {
        name: "list, place in the last range",
        one: "range",
        limit: A_RANGE,
        call: "lg_list_insert",
        less: ("sample_list_last_256", 256),
        more: ("sample_list_last_1024", 1024),
    },
    Loop {
        name: "node space behind the ranges",
        one: "word",
        limit: A_WORD,
        call: "lg_block_insert",
        less: ("sample_tail_4", 2 * 64 * 3),
        more: ("sample_tail_64", 2 * 64 * 63),
    },
];

#[inline(always)]
fn refused_inserts<L: Land>(ranges: usize, filling: Filling, place: Place) {
    let chequer = Chequer::new(ranges, filling, &mut Random::new(1));
    let (land, mut memory) = L::holding(&chequer);
    let base = match place {
        Place::First => chequer.ranges[0].base,
        Place::Last => chequer.ranges[ranges - 1].base,
    };
    let range = Range { base, limit: base + ALIGN };
    for _ in 0..CALLS {
        let changed = Calls::<Proved>::insert(black_box(land), &mut memory, range);
        assert_eq!(changed.answer, ANSWER_OVERLAP, "answer to an insert of what is already free");
    }
}

/// A function of its own for every land, since the counts are told apart by the name of the caller.
macro_rules! samples {
    ($($name:ident: $land:ty, $ranges:expr, $filling:expr, $place:expr;)+) => {
        $(
            #[no_mangle]
            #[inline(never)]
            extern "C" fn $name() {
                refused_inserts::<$land>($ranges, $filling, $place);
            }
        )+

        /// Makes all the calls.
        pub fn samples() {
            $($name();)+
        }
    };
}

samples! {
    sample_table_first_256: BlockLand, 256, Filling::Roomy, Place::First;
    sample_table_first_1024: BlockLand, 1024, Filling::Roomy, Place::First;
    sample_table_last_256: BlockLand, 256, Filling::Roomy, Place::Last;
    sample_table_last_1024: BlockLand, 1024, Filling::Roomy, Place::Last;
    sample_list_first_256: ListLand, 256, Filling::Roomy, Place::First;
    sample_list_first_1024: ListLand, 1024, Filling::Roomy, Place::First;
    sample_list_last_256: ListLand, 256, Filling::Roomy, Place::Last;
    sample_list_last_1024: ListLand, 1024, Filling::Roomy, Place::Last;
    sample_tail_4: BlockLand, 64, Filling::Times(4), Place::First;
    sample_tail_64: BlockLand, 64, Filling::Times(64), Place::First;
}

/// What valgrind writes down of a run that makes all the calls.
fn counted() -> io::Result<String> {
    let file = env::temp_dir().join(format!("limbegoru-bench-{}.callgrind", process::id()));
    let mut option = std::ffi::OsString::from("--callgrind-out-file=");
    option.push(&file);
    let run = Command::new("valgrind")
        .args(["--tool=callgrind", "--compress-strings=no", "--compress-pos=no"])
        .arg(option)
        .arg(env::current_exe()?)
        .arg("--samples")
        .output()
        .map_err(|error| io::Error::other(format!("valgrind: {error}")))?;
    let text = fs::read_to_string(&file);
    // The file may not be there.
    let _ = fs::remove_file(&file);
    if run.status.success() {
        text
    } else {
        Err(io::Error::other(format!("valgrind: {}\n{}", run.status, String::from_utf8_lossy(&run.stderr))))
    }
}

/// The instructions of a call that one function makes of another, from the lines
///
///     fn=CALLER
///     cfn=CALLED
///     calls=NUMBER ..
///     LINE INSTRUCTIONS
fn a_call(text: &str, caller: &str, called: &str) -> Option<f64> {
    let (mut calls, mut instructions) = (0, 0);
    let mut inside = false;
    let mut to_called = false;
    let mut lines = text.lines();
    while let Some(line) = lines.next() {
        if let Some(name) = line.strip_prefix("fn=") {
            inside = name == caller;
        } else if let Some(name) = line.strip_prefix("cfn=") {
            to_called = name == called;
        } else if let Some(numbers) = line.strip_prefix("calls=") {
            let cost = lines.next()?;
            if inside && to_called {
                calls += numbers.split(' ').next()?.parse::<u64>().ok()?;
                instructions += cost.split(' ').nth(1)?.parse::<u64>().ok()?;
            }
        }
    }
    (calls as usize == CALLS).then(|| instructions as f64 / calls as f64)
}

impl Loop {
    /// The instructions for one pair, range or word.
    fn for_one(&self, text: &str) -> Option<f64> {
        let less = a_call(text, self.less.0, self.call)?;
        let more = a_call(text, self.more.0, self.call)?;
        Some((more - less) / (self.more.1 - self.less.1) as f64)
    }
}

/// Counts, says what was counted, and fails above a limit.
pub fn judge() -> ExitCode {
    let text = match counted() {
        Ok(text) => text,
        Err(error) => {
            eprintln!("bench: {error}");
            return ExitCode::FAILURE;
        }
    };
    let mut above = 0;
    for counted in &LOOPS {
        let Loop { name, one, limit, .. } = counted;
        match counted.for_one(&text) {
            Some(number) if number <= *limit => println!("{name}: {number:.2} instructions a {one}, at most {limit}"),
            Some(number) => {
                println!("{name}: {number:.2} instructions a {one}, which is above {limit}");
                above += 1;
            }
            None => {
                println!("{name}: valgrind has no counts of its calls");
                above += 1;
            }
        }
    }
    println!("{} loops within their limits, {above} not", LOOPS.len() - above);
    if above == 0 {
        ExitCode::SUCCESS
    } else {
        ExitCode::FAILURE
    }
}
