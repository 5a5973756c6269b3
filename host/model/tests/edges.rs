//! Document 01: the edges that it lists, the rules of soundness one by one, and the order of the checks.

use limbegoru_model::call::{Call, Find, MODE_ENTIRE, MODE_HIGH, MODE_LOW, MODE_NONE};
use limbegoru_model::{block, flush, list, set, Arena, BlockHandle, ListHandle, Range};

const TOP: u64 = 1 << 40;

/// [base, limit).
fn range(base: u64, limit: u64) -> Range {
    Range::new(base, limit)
}

/// A list land of [4096, 4160), alignment 8, with these ranges on words of all ones.
fn list_of(ranges: &[Range]) -> (ListHandle, Vec<u64>) {
    let arena = Arena::new(4096, 4160, 8).unwrap();
    let mut words = vec![u64::MAX; 8];
    list::write(&arena, ranges, &mut words);
    (ListHandle::of(&arena, ranges), words)
}

/// A block land of [4096, 4160), alignment 8, with these ranges.
fn block_of(ranges: &[Range], words: usize) -> (BlockHandle, Vec<u64>) {
    let arena = Arena::new(4096, 4160, 8).unwrap();
    let mut nodes = vec![0; words];
    block::write(ranges, &mut nodes);
    (BlockHandle::of(&arena, ranges), nodes)
}

/// The answer of a list call; a refusal changes nothing.
fn list_answer(land: ListHandle, words: &[u64], call: Call) -> u64 {
    let mut after = words.to_vec();
    let done = list::call(land, &mut after, &call);
    assert!(done.answer == 0 || (done.land == land && after == words));
    done.answer
}

/// The answer of a block call; a refusal changes nothing.
fn block_answer(land: BlockHandle, nodes: &[u64], call: Call) -> u64 {
    let mut after = nodes.to_vec();
    let done = block::call(land, &mut after, &call);
    assert!(done.answer == 0 || (done.land == land && after == nodes));
    done.answer
}

#[test]
fn requests() {
    let (land, words) = list_of(&[]);
    assert_eq!(list_answer(land, &words, Call::Insert(range(4096, 4096))), 4);
    assert_eq!(list_answer(land, &words, Call::Insert(range(4096, 4168))), 4);
    assert_eq!(list_answer(land, &words, Call::Insert(range(4088, 4104))), 4);
    assert_eq!(list_answer(land, &words, Call::Insert(range(4100, 4104))), 4);
    assert_eq!(list_answer(land, &words, Call::Insert(range(4104, 4096))), 4);
    assert_eq!(list_answer(land, &words, Call::Delete(range(0, u64::MAX))), 4);
    for size in [0, 12, u64::MAX] {
        assert_eq!(list_answer(land, &words, Call::Find(Find::First, size, MODE_NONE)), 4);
    }
    for size in [8, 72, u64::MAX - 7] {
        assert_eq!(list_answer(land, &words, Call::Find(Find::Last, size, MODE_LOW)), 2);
    }
    assert_eq!(list_answer(land, &words, Call::Find(Find::Largest, 0, MODE_NONE)), 2);
    assert_eq!(list_answer(land, &words, Call::Find(Find::Largest, 4, MODE_NONE)), 4);
    assert_eq!(list_answer(land, &words, Call::Find(Find::Largest, 0, 4)), 4);
    assert_eq!(list_answer(land, &words, Call::Walk(0)), 2);
}

#[test]
fn arenas() {
    let open = |base, limit, align, words| list::open(base, limit, align, &vec![3; words]).answer;
    assert_eq!(open(4096, 4160, 4, 8), 5);
    assert_eq!(open(8192, 16384, 8192, 1024), 5);
    assert_eq!(open(4096, 4160, 24, 8), 5);
    assert_eq!(open(4096, 4160, 8, 8), 0);
    assert_eq!(open(4096, 8192, 4096, 512), 0);
    assert_eq!(open(4096, 4160, 4096, 8), 5);
    assert_eq!(open(0, 64, 8, 8), 5);
    assert_eq!(open(4160, 4096, 8, 8), 5);
    assert_eq!(open(4096, 4096, 8, 0), 0);
    assert_eq!(open(4096, 4160, 8, 7), 5);
    assert_eq!(open(4096, 4160, 8, 9), 5);
    assert_eq!(open(TOP - 8, TOP, 8, 1), 0);
    assert_eq!(open(TOP, TOP, 8, 0), 0);
    assert_eq!(open(TOP, TOP + 8, 8, 1), 5);
    assert_eq!(open(8, TOP, 8, 3), 5);
    assert_eq!(list::open(0, 0, 0, &[]).land, ListHandle::default());
}

#[test]
fn node_space() {
    let mut nodes = vec![9; block::MOST_WORDS + 1];
    assert_eq!(block::open(8, TOP, 8, &mut nodes).answer, 5);
    assert_eq!(nodes[0], 9);
    nodes.pop();
    let opened = block::open(8, TOP, 8, &mut nodes);
    assert_eq!((opened.answer, nodes.iter().max()), (0, Some(&0)));
    assert_eq!(block_answer(opened.land, &nodes, Call::Insert(range(8, TOP))), 0);

    let mut odd = [9, 9, 9];
    let opened = block::open(4096, 4160, 8, &mut odd);
    assert_eq!(odd, [0, 0, 9]);
    assert_eq!(block_answer(opened.land, &odd, Call::Insert(range(4096, 4104))), 0);
}

#[test]
fn capacity_0() {
    for words in [0, 1] {
        let (land, nodes) = block_of(&[], words);
        assert_eq!(block_answer(land, &nodes, Call::Insert(range(4096, 4104))), 3);
        assert_eq!(block_answer(land, &nodes, Call::Insert(range(4096, 4160))), 3);
        assert_eq!(block_answer(land, &nodes, Call::Insert(range(4096, 4168))), 4);
        assert_eq!(block_answer(land, &nodes, Call::Delete(range(4096, 4104))), 1);
        assert_eq!(block_answer(land, &nodes, Call::Find(Find::Largest, 0, MODE_NONE)), 2);
    }
}

#[test]
fn overlap_in_the_middle_and_a_gap() {
    let (land, words) = list_of(&[range(4104, 4112), range(4120, 4136)]);
    assert_eq!(list_answer(land, &words, Call::Insert(range(4096, 4120))), 1);
    assert_eq!(list_answer(land, &words, Call::Delete(range(4104, 4128))), 1);
    assert_eq!(list_answer(land, &words, Call::Delete(range(4128, 4144))), 1);
    assert_eq!(list_answer(land, &words, Call::Insert(range(4112, 4120))), 0);
}

#[test]
fn largest() {
    let equals = [range(4096, 4112), range(4120, 4136), range(4144, 4152)];
    let (land, mut words) = list_of(&equals);
    let done = list::call(land, &mut words, &Call::Find(Find::Largest, 8, MODE_HIGH));
    assert_eq!((done.answer, done.range, done.old), (0, equals[0], equals[0]));
    assert_eq!((done.land.head, done.land.ranges, done.land.bytes), (4120, 2, 24));
    assert_eq!(list_answer(done.land, &words, Call::Find(Find::Largest, 24, MODE_ENTIRE)), 2);
}

#[test]
fn unsound_lists() {
    let (land, words) = list_of(&[range(4096, 4112), range(4120, 4128)]);
    let land = ListHandle { low: 0, ..land };
    let with = |number: usize, value: u64| {
        let mut words = words.clone();
        words[number] = value;
        words
    };
    let walk = Call::Walk(0);
    assert_eq!(list_answer(land, &with(4, 17), walk), 0);
    assert_eq!(list_answer(land, &with(2, 17), walk), 0);
    for (number, value) in [(0, 4121), (0, 4112), (0, 4096), (0, 4160), (0, 4124), (0, 0), (3, 0), (3, 3), (3, 4097)] {
        assert_eq!(list_answer(land, &with(number, value), walk), 6, "word {number} is {value}");
    }
    for limit in [4104, 4096, 0, 4113, 4120, 4168, u64::MAX] {
        assert_eq!(list_answer(land, &with(1, limit), walk), 6, "limit {limit}");
    }
    for faulty in [
        ListHandle { head: 0, ..land },
        ListHandle { head: 4120, ..land },
        ListHandle { head: 4097, ..land },
        ListHandle { ranges: 3, ..land },
        ListHandle { bytes: 16, ..land },
        ListHandle { bytes: 24 + (1 << 63), ..land },
    ] {
        assert_eq!(list_answer(faulty, &words, walk), 6, "{faulty:?}");
    }
}

#[test]
fn unsound_tails() {
    let (land, mut words) = list_of(&[range(4152, 4160)]);
    assert_eq!((list_answer(land, &words, Call::Walk(0)), words[7]), (0, 1));
    words[7] = 0;
    assert_eq!(list_answer(land, &words, Call::Walk(0)), 6);
    let grain_of_16 = ListHandle { align: 16, head: 4144, ..land };
    words[6] = 1;
    assert_eq!(list_answer(grain_of_16, &words, Call::Walk(0)), 6);
}

#[test]
fn unsound_tables() {
    let (land, nodes) = block_of(&[range(4096, 4112), range(4120, 4128)], 7);
    let with = |number: usize, value: u64| {
        let mut nodes = nodes.clone();
        nodes[number] = value;
        nodes
    };
    let walk = Call::Walk(0);
    assert_eq!(block_answer(land, &with(6, 1), walk), 0);
    for (number, value) in [(0, 4104), (1, 4120), (1, 4096), (2, 4112), (3, 4132), (3, 4168), (4, 1), (5, 1)] {
        assert_eq!(block_answer(land, &with(number, value), walk), 6, "word {number} is {value}");
    }
    for ranges in [0, 1, 3, 4, u64::MAX, (1 << 63) + 2] {
        assert_eq!(block_answer(BlockHandle { ranges, ..land }, &nodes, walk), 6);
    }
    assert_eq!(block_answer(BlockHandle { bytes: 32, ..land }, &nodes, walk), 6);
}

#[test]
fn order_of_checks() {
    let (land, words) = list_of(&[range(4096, 4112)]);
    let bad = Call::Find(Find::First, 12, 9);
    assert_eq!(list_answer(ListHandle { align: 4, ranges: 2, ..land }, &words, bad), 5);
    assert_eq!(list_answer(ListHandle { ranges: 2, ..land }, &words, bad), 6);
    assert_eq!(list_answer(land, &words, bad), 4);
    assert_eq!(list_answer(land, &words, Call::Find(Find::First, 24, 9)), 4);
    assert_eq!(list_answer(land, &words, Call::Find(Find::First, 24, 3)), 2);
    let (full, nodes) = block_of(&[range(4096, 4112)], 2);
    assert_eq!(block_answer(full, &nodes, Call::Insert(range(4104, 4128))), 1);
    assert_eq!(block_answer(full, &nodes, Call::Insert(range(4120, 4128))), 3);
    assert_eq!(block_answer(full, &nodes, Call::Insert(range(4120, 4124))), 4);
}

#[test]
fn flushes() {
    let (list, mut words) = list_of(&[range(4096, 4104), range(4112, 4128), range(4144, 4152)]);
    let before = words.clone();
    let (block, mut nodes) = block_of(&[range(4104, 4112)], 2);
    let flushed = flush::flush(list, &mut words, block, &mut nodes);
    assert_eq!((flushed.answer, flushed.moved, flushed.stop), (0, 2, 3));
    assert_eq!((nodes, words), (vec![4096, 4128], before.clone()));
    assert_eq!(flushed.list, ListHandle { head: 4144, ranges: 1, bytes: 8, low: 8, ..list });
    assert_eq!(flushed.block, BlockHandle { ranges: 1, bytes: 32, ..block });

    let (block, mut nodes) = block_of(&[range(4112, 4120)], 6);
    let mut words = before;
    let flushed = flush::flush(list, &mut words, block, &mut nodes);
    assert_eq!((flushed.answer, flushed.moved, flushed.stop), (0, 1, 1));

    let differing = BlockHandle { limit: 4152, ranges: 9, ..block };
    let refused = flush::flush(list, &mut words, differing, &mut nodes);
    assert_eq!((refused.answer, refused.list, refused.block), (5, list, differing));
    let damaged = BlockHandle { ranges: 9, ..block };
    assert_eq!(flush::flush(list, &mut words, damaged, &mut nodes).answer, 6);
}

#[test]
fn isolated_ranges() {
    let apart = set::isolated(vec![range(40, 48), range(8, 16), range(24, 24), range(16, 24), range(44, 46)]);
    assert_eq!(apart, [range(8, 24), range(40, 48)]);
}
