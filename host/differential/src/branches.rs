//! The branches of a pair's calls, told from what was given and what came back.

use limbegoru_model::answer::{ACCEPTED, IN_BOTH, OVERLAP, REQUEST};
use limbegoru_model::call::MODE_ENTIRE;
use limbegoru_model::{flush, Arena, Call, Done, Find, Pair, Range};

use crate::given::{longest, Given, Lands};

/// The branches of calls on sound lands that do not overlap, but for the finds.
pub const SOUND: [&str; 19] = [
    "the lands touch",
    "4, range",
    "4, size",
    "4, mode alone",
    "insert, byte free in the list",
    "insert, byte free in the block land",
    "insert, nothing to flush",
    "insert, flush moves all",
    "insert, flush moves some",
    "insert, flush moves none",
    "insert into the block land",
    "insert into the list",
    "delete, byte not free",
    "delete, byte not free, both lands have others",
    "delete, in both",
    "delete from the list",
    "delete from the block land",
    "delete hands over",
    "delete hands over and merges",
];

/// The branches of the finds, by find: neither land has one, one alone has it, both have one and one is taken.
pub const FINDS: [[&str; 6]; 3] = [
    ["first, none", "first, run across both", "first, list alone", "first, block alone", "first, list", "first, block"],
    ["last, none", "last, run across both", "last, list alone", "last, block alone", "last, list", "last, block"],
    [
        "largest, none",
        "largest, run across both",
        "largest, list alone",
        "largest, block alone",
        "largest, list",
        "largest, block",
    ],
];

/// The finds of the largest among equals in different lands.
pub const TIES: [&str; 2] = ["largest, tie, list lower", "largest, tie, block lower"];

/// The inserts whose inner flush alone would leave a land a lower low water than the whole call: the list, which it
/// empties for a moment, and a block land that had no mark.
pub const BETWEEN: [&str; 2] =
    ["insert, flush alone lowers low water, list", "insert, flush alone lowers low water, block"];

/// The branches of calls on lands that are refused before the request is looked at.
pub const FAULTS: [&str; 14] = [
    "5, list",
    "5, number of arena words",
    "5, block land",
    "5, only the bases differ",
    "5, only the limits differ",
    "5, only the alignments differ",
    "5, list damaged too",
    "5, table damaged too",
    "6, list",
    "6, table",
    "6, both",
    "6, only low water of the list",
    "6, only low water of the table",
    "6, overlap",
];

/// The names of the branches that a call took.
pub fn taken(given: &Given, call: &Call, done: &Done<Pair>) -> Vec<&'static str> {
    let lands = match given.lands() {
        None => return faults(given),
        Some(lands) if lands.overlap() => return vec!["6, overlap"],
        Some(lands) => lands,
    };
    let mut names = match *call {
        _ if done.answer == REQUEST => request(&lands, call),
        Call::Insert(_) if done.answer == ACCEPTED => insert(given, done),
        Call::Insert(range) => refused_insert(&lands, range),
        Call::Delete(range) => delete(given, &lands, range, done),
        Call::Find(which, size, _) => find(&lands, which, size, done),
        Call::Walk(_) => panic!("a pair has no walk"),
    };
    if lands.runs().len() < lands.list.len() + lands.block.len() {
        names.push("the lands touch");
    }
    names
}

/// The faults of two lands that are not both sound and of one arena.
fn faults(given: &Given) -> Vec<&'static str> {
    let Pair { list, .. } = given.pair;
    let (arenas, ranges) = (given.arenas(), given.ranges());
    let mut faults = match arenas {
        [None, _] if Arena::new(list.base, list.limit, list.align).is_some() => vec!["5, number of arena words"],
        [None, _] => vec!["5, list"],
        [_, None] => vec!["5, block land"],
        [Some(one), Some(other)] if one != other => vec![difference(&one, &other)],
        _ => return unsound(given, ranges),
    };
    for (land, name) in ["5, list damaged too", "5, table damaged too"].into_iter().enumerate() {
        if arenas[land].is_some() && ranges[land].is_none() {
            faults.push(name);
        }
    }
    faults
}

/// Which of two lands of one arena are not sound, and whether only the mark or low water of one is at fault.
fn unsound(given: &Given, ranges: [Option<Vec<Range>>; 2]) -> Vec<&'static str> {
    let only_low_water = given.with_sound_low_water().lands().is_some();
    match ranges {
        [None, None] => vec!["6, both"],
        [None, _] if only_low_water => vec!["6, list", "6, only low water of the list"],
        [None, _] => vec!["6, list"],
        _ if only_low_water => vec!["6, table", "6, only low water of the table"],
        _ => vec!["6, table"],
    }
}

/// In what two arenas differ.
fn difference(one: &Arena, other: &Arena) -> &'static str {
    match (one.base() == other.base(), one.limit() == other.limit(), one.align() == other.align()) {
        (false, true, true) => "5, only the bases differ",
        (true, false, true) => "5, only the limits differ",
        (true, true, false) => "5, only the alignments differ",
        _ => "5, more than one differs",
    }
}

/// The rule that a request breaks.
fn request(lands: &Lands, call: &Call) -> Vec<&'static str> {
    match *call {
        Call::Find(find, size, _) if !lands.arena.allows_size(size, find == Find::Largest) => vec!["4, size"],
        Call::Find(_, _, mode) if mode > MODE_ENTIRE => vec!["4, mode alone"],
        _ => vec!["4, range"],
    }
}

/// The lands of which a byte is already free.
fn refused_insert(lands: &Lands, range: Range) -> Vec<&'static str> {
    let names = ["insert, byte free in the list", "insert, byte free in the block land"];
    names.into_iter().zip(lands.free(range)).filter(|(_, free)| *free > 0).map(|(name, _)| name).collect()
}

/// What the flush of an insert moved, the land that took the range, and the low waters that are not read between.
fn insert(given: &Given, done: &Done<Pair>) -> Vec<&'static str> {
    let (mut words, mut nodes) = (given.words.to_vec(), given.nodes.to_vec());
    let flushed = flush::flush(given.pair.list, &mut words, given.pair.block, &mut nodes);
    let moves = match (flushed.moved, flushed.list.ranges) {
        (0, 0) => "insert, nothing to flush",
        (_, 0) => "insert, flush moves all",
        (0, _) => "insert, flush moves none",
        _ => "insert, flush moves some",
    };
    let listed = done.land.list.bytes > flushed.list.bytes;
    let mut names = vec![moves, if listed { "insert into the list" } else { "insert into the block land" }];
    let lower = [flushed.list.low < done.land.list.low, flushed.block.low < done.land.block.low];
    names.extend(BETWEEN.into_iter().zip(lower).filter(|(_, lower)| *lower).map(|(name, _)| name));
    names
}

/// The land that a delete took the range from, or why it is refused.
fn delete(given: &Given, lands: &Lands, range: Range, done: &Done<Pair>) -> Vec<&'static str> {
    let (before, after) = (&given.pair.list, &done.land.list);
    vec![match done.answer {
        OVERLAP if !lands.free(range).contains(&0) => "delete, byte not free, both lands have others",
        OVERLAP => "delete, byte not free",
        IN_BOTH => "delete, in both",
        _ if after.bytes < before.bytes => "delete from the list",
        _ if after.bytes == before.bytes => "delete from the block land",
        _ if after.ranges == before.ranges => "delete hands over and merges",
        _ => "delete hands over",
    }]
}

/// The land that a find took, and from how many; a tie of the largest.
fn find(lands: &Lands, find: Find, size: u64, done: &Done<Pair>) -> Vec<&'static str> {
    let [none, across, list_alone, block_alone, list, block] = FINDS[find as usize];
    let [of_list, of_block] = [&lands.list, &lands.block].map(|set| longest(set, size));
    let taken = lands.list.contains(&done.old);
    let mut names = vec![match (of_list, of_block) {
        (None, None) if longest(&lands.runs(), size).is_some() => across,
        (None, None) => none,
        (Some(_), None) => list_alone,
        (None, Some(_)) => block_alone,
        _ if taken => list,
        _ => block,
    }];
    if find == Find::Largest && of_list.is_some() && of_list == of_block {
        names.push(TIES[usize::from(!taken)]);
    }
    names
}
