//! A few calls on large memories: node space at and above its greatest length, a full table, a long list.

use limbegoru_model::arena::HIGHEST_LIMIT;
use limbegoru_model::block::MOST_WORDS;
use limbegoru_model::{block, list, Arena, BlockHandle, Call, Find, ListHandle, Pair, Range};

use crate::compare::Report;
use crate::lent::Lent;
use crate::run::Run;

/// All calls on large memories.
pub fn everything(run: &mut Run) -> Result<(), Report> {
    for length in [MOST_WORDS - 1, MOST_WORDS, MOST_WORDS + 1] {
        node_space(run, length)?;
        pair_of_node_space(run, length)?;
    }
    full_table(run)?;
    long_list(run)?;
    long_pair(run)
}

/// An opening, an insert and a walk with node space of this length.
fn node_space(run: &mut Run, length: usize) -> Result<(), Report> {
    let mut lent = Lent::new(&vec![9; length], &[1], &[2]);
    let opened = run.block_open([8, HIGHEST_LIMIT, 8], &mut lent)?;
    let land = BlockHandle { base: 8, limit: HIGHEST_LIMIT, align: 8, ..opened.land };
    let all = Range::new(8, HIGHEST_LIMIT);
    let changed = run.block_call(land, &mut lent, &Call::Insert(all))?;
    run.block_call(changed.land, &mut lent, &Call::Walk(8)).map(|_| ())
}

/// An insert on a pair with node space of this length.
fn pair_of_node_space(run: &mut Run, length: usize) -> Result<(), Report> {
    let arena = Arena::new(4096, 4160, 8).expect("it keeps the rules");
    let mut words = Lent::new(&[5; 8], &[1], &[2]);
    let mut nodes = Lent::new(&vec![0; length], &[1], &[2]);
    let pair = Pair { list: ListHandle::of(&arena, &[]), block: BlockHandle::of(&arena, &[]) };
    run.pair_call(pair, [&mut words, &mut nodes], &Call::Insert(Range::new(4096, 4104))).map(|_| ())
}

/// So many ranges of 16 bytes, 32 bytes apart.
fn comb(first: u64, number: usize) -> Vec<Range> {
    (0..number as u64).map(|i| Range::new(first + 32 * i, first + 32 * i + 16)).collect()
}

/// A table with no room left: a further range, one that fills a gap, a split, a part, and the finds.
fn full_table(run: &mut Run) -> Result<(), Report> {
    let ranges = comb(64, MOST_WORDS / 2);
    let behind = 64 + 32 * ranges.len() as u64;
    let arena = Arena::new(8, behind + 64, 8).expect("it keeps the rules");
    let mut nodes = vec![0; MOST_WORDS];
    block::write(&ranges, &mut nodes);
    let mut lent = Lent::new(&nodes, &[1], &[2]);
    let mut land = BlockHandle::of(&arena, &ranges);
    let middle = ranges[ranges.len() / 2];
    for call in [
        Call::Insert(Range::new(behind, behind + 8)),
        Call::Insert(Range::new(8, 16)),
        Call::Delete(Range::new(middle.base, middle.base + 8)),
        Call::Insert(Range::new(middle.limit, middle.limit + 16)),
        Call::Delete(Range::new(middle.limit, middle.limit + 8)),
        Call::Find(Find::Largest, 40, 0),
        Call::Find(Find::Last, 16, 3),
        Call::Insert(Range::new(8, 16)),
        Call::Walk(middle.limit),
    ] {
        land = run.block_call(land, &mut lent, &call)?.land;
    }
    let further = BlockHandle { ranges: land.ranges + 1, ..land };
    run.block_call(further, &mut lent, &Call::Walk(0)).map(|_| ())
}

/// A list of many ranges, flushed into too small a table.
fn long_list(run: &mut Run) -> Result<(), Report> {
    let ranges = comb(4096, 4000);
    let arena = Arena::new(4096, 4096 + 32 * 4000, 16).expect("it keeps the rules");
    let mut words = vec![5; arena.words() as usize];
    list::write(&arena, &ranges, &mut words);
    let mut lent = Lent::new(&words, &[1], &[2]);
    let mut land = ListHandle::of(&arena, &ranges);
    let last = ranges[ranges.len() - 1];
    for call in [
        Call::Insert(Range::new(last.limit, last.limit + 16)),
        Call::Delete(last),
        Call::Insert(Range::new(ranges[2000].limit, ranges[2001].base)),
        Call::Find(Find::Largest, 48, 1),
        Call::Find(Find::Last, 32, 2),
        Call::Walk(last.base),
    ] {
        land = run.list_call(land, &mut lent, &call)?.land;
    }
    let mut nodes = Lent::new(&[0; 3001], &[1], &[2]);
    let block = BlockHandle::of(&arena, &[]);
    let flushed = run.flush((land, &mut lent), (block, &mut nodes))?;
    run.list_call(flushed.list, &mut lent, &Call::Walk(0)).map(|_| ())
}

/// A pair of many ranges, every second one in the list: a flush that stops, a fragment handed over, and the finds.
fn long_pair(run: &mut Run) -> Result<(), Report> {
    let ranges = comb(4096, 4000);
    let behind = 4096 + 32 * 4000;
    let arena = Arena::new(4096, behind + 64, 8).expect("it keeps the rules");
    let [listed, tabled] = [0, 1].map(|first| ranges.iter().skip(first).step_by(2).copied().collect::<Vec<Range>>());
    let mut words = vec![5; arena.words() as usize];
    list::write(&arena, &listed, &mut words);
    let mut nodes = vec![0; 2 * tabled.len() + 601];
    block::write(&tabled, &mut nodes);
    let (mut words, mut nodes) = (Lent::new(&words, &[1], &[2]), Lent::new(&nodes, &[1], &[2]));
    let mut pair = Pair { list: ListHandle::of(&arena, &listed), block: BlockHandle::of(&arena, &tabled) };
    for call in [
        Call::Find(Find::Largest, 0, 0),
        Call::Insert(Range::new(behind, behind + 24)),
        Call::Insert(Range::new(listed[1900].limit, tabled[1900].base)),
        Call::Delete(Range::new(listed[1900].base, tabled[1900].limit)),
        Call::Find(Find::First, 24, 1),
        Call::Delete(Range::new(tabled[1900].base, tabled[1900].base + 8)),
        Call::Delete(Range::new(behind + 8, behind + 16)),
        Call::Find(Find::Last, 16, 3),
        Call::Find(Find::Largest, 32, 2),
    ] {
        pair = run.pair_call(pair, [&mut words, &mut nodes], &call)?.land;
    }
    Ok(())
}
