//! Slips in the mark and the low water of a handle.

use differential::given::Given;
use limbegoru_model::{flush, list, BlockHandle, Call, ListHandle, LowWater, Pair};

use crate::rules::{low_water_rules, Rules, LOW_WATER_RULES};
use crate::{block_noticed, flush_noticed, list_noticed, no_slip, noticed, pair_noticed};
use crate::{BlockCall, FlushCall, ListCall, Opening, PairCall, Slip};

/// One land after a call: its mark and low water before, and its free bytes, mark and low water after.
struct Land<'a> {
    before: LowWater,
    bytes: u64,
    filled: &'a mut u64,
    low: &'a mut u64,
}

/// A slip on one land, with its name.
type LandSlip = (&'static str, fn(Land));

impl Land<'_> {
    /// Leaves this mark and low water.
    fn leave(self, LowWater { filled, low }: LowWater) {
        (*self.filled, *self.low) = (filled, low);
    }
}

/// A list land after a call.
fn of_list<'a>(before: &ListHandle, after: &'a mut ListHandle) -> Land<'a> {
    let ListHandle { bytes, filled, low, .. } = after;
    Land { before: before.low_water(), bytes: *bytes, filled, low }
}

/// A block land after a call.
fn of_block<'a>(before: &BlockHandle, after: &'a mut BlockHandle) -> Land<'a> {
    let BlockHandle { bytes, filled, low, .. } = after;
    Land { before: before.low_water(), bytes: *bytes, filled, low }
}

/// A slip on a list land is noticed after its own calls and after those of a pair.
fn in_lists_noticed(name: &str, slip: fn(Land)) {
    list_noticed(name, move |it: ListCall| {
        if it.done.answer == 0 {
            slip(of_list(&it.land, &mut it.done.land));
        }
    });
    pair_noticed(&format!("{name}, list of a pair"), move |it: PairCall| {
        if it.done.answer == 0 {
            slip(of_list(&it.pair.list, &mut it.done.land.list));
        }
    });
}

/// A slip on a block land is noticed after its own calls, after those of a pair and after a flush.
fn in_blocks_noticed(name: &str, slip: fn(Land)) {
    block_noticed(name, move |it: BlockCall| {
        if it.done.answer == 0 {
            slip(of_block(&it.land, &mut it.done.land));
        }
    });
    pair_noticed(&format!("{name}, table of a pair"), move |it: PairCall| {
        if it.done.answer == 0 {
            slip(of_block(&it.pair.block, &mut it.done.land.block));
        }
    });
    flush_noticed(&format!("{name}, table of a flush"), move |it: FlushCall| {
        if it.flushed.answer == 0 {
            slip(of_block(&it.block, &mut it.flushed.block));
        }
    });
}

/// A slip on the list land of a flush is noticed.
fn in_flushed_lists_noticed(name: &str, slip: fn(Land)) {
    flush_noticed(&format!("{name}, list of a flush"), move |it: FlushCall| {
        if it.flushed.answer == 0 {
            slip(of_list(&it.list, &mut it.flushed.list));
        }
    });
}

#[test]
fn what_is_read() {
    let slips: [LandSlip; 3] = [
        ("the greatest is kept for the least", |land| *land.low = land.before.low.max(land.bytes)),
        ("the present bytes are taken for the least", |land| *land.low = land.bytes),
        ("a land that is emptied loses its mark", |land| *land.filled *= u64::from(land.bytes != 0)),
    ];
    for (name, slip) in slips {
        in_lists_noticed(name, slip);
        in_blocks_noticed(name, slip);
        in_flushed_lists_noticed(name, slip);
    }
    let first: [LandSlip; 2] = [
        ("the mark is never set", |land| {
            *land.low *= land.before.filled;
            *land.filled = land.before.filled;
        }),
        ("the first total is not counted", |land| *land.low *= land.before.filled),
    ];
    for (name, slip) in first {
        in_lists_noticed(name, slip);
        in_blocks_noticed(name, slip);
    }
    in_flushed_lists_noticed("a flush is not counted", |land| {
        let before = land.before;
        land.leave(before);
    });
}

/// Is it a call of the kind: an insert, a delete, or a find?
fn of_kind(call: &Call, kind: usize) -> bool {
    [matches!(call, Call::Insert(_)), matches!(call, Call::Delete(_)), matches!(call, Call::Find(..))][kind]
}

#[test]
fn what_is_counted() {
    for (kind, name) in
        ["an insert is not counted", "a delete is not counted", "a find is not counted"].iter().enumerate()
    {
        list_noticed(name, move |it: ListCall| {
            if of_kind(&it.call, kind) {
                of_list(&it.land, &mut it.done.land).leave(it.land.low_water());
            }
        });
        block_noticed(name, move |it: BlockCall| {
            if of_kind(&it.call, kind) {
                of_block(&it.land, &mut it.done.land).leave(it.land.low_water());
            }
        });
        pair_noticed(name, move |it: PairCall| {
            if of_kind(&it.call, kind) {
                of_list(&it.pair.list, &mut it.done.land.list).leave(it.pair.list.low_water());
                of_block(&it.pair.block, &mut it.done.land.block).leave(it.pair.block.low_water());
            }
        });
    }
}

#[test]
fn refused_calls() {
    list_noticed("a refused call is counted", |it: ListCall| {
        let counted = it.land.low_water().noted(it.land.bytes);
        if it.done.answer == 6 {
            of_list(&it.land, &mut it.done.land).leave(counted);
        }
    });
    block_noticed("a call refused by 3 is counted", |it: BlockCall| {
        let bytes = match it.call {
            Call::Insert(range) if it.done.answer == 3 => it.land.bytes + range.length(),
            Call::Delete(range) if it.done.answer == 3 => it.land.bytes - range.length(),
            _ => return,
        };
        of_block(&it.land, &mut it.done.land).leave(it.land.low_water().noted(bytes));
    });
    flush_noticed("a refused flush is counted", |it: FlushCall| {
        let counted = it.block.low_water().noted(it.block.bytes);
        if it.flushed.answer == 6 {
            of_block(&it.block, &mut it.flushed.block).leave(counted);
        }
    });
    pair_noticed("a call on a pair refused by 6 is counted", |it: PairCall| {
        let counted = it.pair.list.low_water().noted(it.pair.list.bytes);
        if it.done.answer == 6 {
            of_list(&it.pair.list, &mut it.done.land.list).leave(counted);
        }
    });
}

#[test]
fn inside_a_call() {
    pair_noticed("the list is read after the inner flush", |it: PairCall| {
        if let (0, Call::Insert(_), Some(flushed)) = (it.done.answer, it.call, inner_flush(&it)) {
            let land = of_list(&it.pair.list, &mut it.done.land.list);
            let read = land.before.noted(flushed.list.bytes).noted(land.bytes);
            land.leave(read);
        }
    });
    pair_noticed("the block land is read after the inner flush", |it: PairCall| {
        if let (0, Call::Insert(_), Some(flushed)) = (it.done.answer, it.call, inner_flush(&it)) {
            let land = of_block(&it.pair.block, &mut it.done.land.block);
            let read = land.before.noted(flushed.block.bytes).noted(land.bytes);
            land.leave(read);
        }
    });
    flush_noticed("the block land is read at each range of a flush", |it: FlushCall| {
        let arena = list::arena(it.list.base, it.list.limit, it.list.align, &it.words);
        let ranges = arena.and_then(|arena| list::read(&arena, &it.list, &it.words)).unwrap_or_default();
        let land = of_block(&it.block, &mut it.flushed.block);
        let (mut read, mut bytes) = (land.before, it.block.bytes);
        for range in &ranges[..it.flushed.moved as usize] {
            bytes += range.length();
            read = read.noted(bytes);
        }
        land.leave(read);
    });
}

/// What a flush alone would leave of the pair.
fn inner_flush(it: &PairCall) -> Option<Pair> {
    let [mut words, mut nodes] = it.before.clone();
    let flushed = flush::flush(it.pair.list, &mut words, it.pair.block, &mut nodes);
    (flushed.answer == 0).then_some(Pair { list: flushed.list, block: flushed.block })
}

/// The rules that the marks and low waters of two lands break, each with the land, if nothing else is at fault.
fn broken(given: &Given) -> Vec<(usize, &'static str)> {
    if given.with_sound_low_water().lands().is_none_or(|lands| lands.overlap()) {
        return Vec::new();
    }
    let Pair { list, block } = given.pair;
    let rules = [low_water_rules(list.low_water(), list.bytes), low_water_rules(block.low_water(), block.bytes)];
    let of_land = |(land, rules): (usize, Rules)| {
        let broken = rules.into_iter().filter(|(_, kept)| !kept);
        broken.map(move |(name, _)| (land, name))
    };
    rules.into_iter().enumerate().flat_map(of_land).collect()
}

#[test]
fn of_two_lands() {
    for (land, rule) in LOW_WATER_RULES.into_iter().flat_map(|rule| [(0, rule), (1, rule)]) {
        flush_noticed(&format!("{rule}, land {land} of a flush"), move |it: FlushCall| {
            let given = Given { pair: Pair { list: it.list, block: it.block }, words: &it.words, nodes: &it.nodes };
            if it.flushed.answer == 6 && broken(&given) == [(land, rule)] {
                it.flushed.answer = 0;
            }
        });
        pair_noticed(&format!("{rule}, land {land} of a pair"), move |it: PairCall| {
            let given = Given { pair: it.pair, words: &it.before[0], nodes: &it.before[1] };
            if it.done.answer == 6 && broken(&given) == [(land, rule)] {
                it.done.answer = 2;
            }
        });
    }
}

/// A slip in the openings of list lands is noticed, and the same in those of block lands.
fn opening_noticed(name: &str, slip: fn(Opening)) {
    noticed(name, Slip { list_open: Box::new(slip), ..no_slip() });
    noticed(name, Slip { block_open: Box::new(slip), ..no_slip() });
}

#[test]
fn openings() {
    opening_noticed("an opening sets the mark", |it: Opening| *it.filled |= u64::from(*it.answer == 0));
    opening_noticed("an opening leaves a low water", |it: Opening| *it.low += 8 * u64::from(*it.answer == 0));
    opening_noticed("a refused opening sets the mark", |it: Opening| *it.filled |= u64::from(*it.answer == 5));
}
