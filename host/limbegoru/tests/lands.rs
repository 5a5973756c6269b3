//! The safe interface: borrowing, parts, refusals in words, limits, ranges by walks, low water.

use limbegoru::{
    flush, sys, BlockHandle, BlockLand, Flushed, Found, ListHandle, ListLand, Mode, Pair, PairHandle, Range, Ranges,
    Refusal, ALIGN_MAX, ALIGN_MIN, LIMIT_MAX, NODE_WORDS_MAX,
};

/// [base, limit).
fn range(base: u64, limit: u64) -> Range {
    Range::new(base, limit)
}

#[test]
fn a_list_land_by_its_calls() -> Result<(), Refusal> {
    let mut words = [0; 8];
    let mut land = ListLand::open(4096, 4160, 8, &mut words)?;
    assert_eq!(land.insert(range(4096, 4160))?, range(4096, 4160));
    assert_eq!(land.find_last(16, Mode::High)?, Found { range: range(4144, 4160), old: range(4096, 4160) });
    assert_eq!(land.find_first(8, Mode::None)?, Found { range: range(4096, 4144), old: range(4096, 4144) });
    assert_eq!(land.delete(range(4112, 4120))?, range(4096, 4144));
    assert_eq!(land.find_largest(0, Mode::Low)?.range, range(4120, 4144));
    assert_eq!(land.walk(0)?, range(4096, 4112));
    assert_eq!(land.walk(4097), Err(Refusal::NoneFound));
    let (handle, words) = land.into_parts();
    let counts = ListHandle { head: 4096, ranges: 1, bytes: 16, filled: 1, low: 16, ..ListHandle::default() };
    assert_eq!(handle, ListHandle { base: 4096, limit: 4160, align: 8, ..counts });
    let again = ListLand::from_parts(handle, words);
    assert_eq!(again.ranges().collect::<Result<Vec<_>, _>>(), Ok(vec![range(4096, 4112)]));
    Ok(())
}

#[test]
fn a_block_land_by_its_calls() -> Result<(), Refusal> {
    let mut nodes = [7; 5];
    let mut land = BlockLand::open(4096, 4160, 8, &mut nodes)?;
    assert_eq!(land.capacity(), 2);
    land.insert(range(4096, 4112))?;
    land.insert(range(4120, 4160))?;
    assert_eq!(land.delete(range(4128, 4136)), Err(Refusal::Full));
    assert_eq!(land.find_last(8, Mode::Low)?.range, range(4120, 4128));
    assert_eq!(land.find_first(24, Mode::High)?, Found { range: range(4136, 4160), old: range(4128, 4160) });
    assert_eq!(land.words(), [4096, 4112, 4128, 4136, 7]);
    let met: Result<Vec<Range>, Refusal> = land.ranges().collect();
    assert_eq!(met, Ok(vec![range(4096, 4112), range(4128, 4136)]));
    land.words_mut()[0] = 4097;
    assert_eq!(land.ranges().collect::<Vec<_>>(), [Err(Refusal::Damaged)]);
    Ok(())
}

/// A pair of newly opened lands on [4096, 4160).
fn pair<'w>(words: &'w mut [u64], nodes: &'w mut [u64]) -> Result<Pair<'w>, Refusal> {
    let list = ListLand::open(4096, 4160, 8, words)?;
    let block = BlockLand::open(4096, 4160, 8, nodes)?;
    Ok(Pair::new(list, block))
}

#[test]
fn a_pair_by_its_calls() -> Result<(), Refusal> {
    let (mut words, mut nodes) = ([7; 8], [7; 3]);
    let mut pair = pair(&mut words, &mut nodes)?;
    assert_eq!(pair.insert(range(4096, 4120))?, range(4096, 4120));
    assert_eq!(pair.insert(range(4128, 4160))?, range(4128, 4160));
    assert_eq!((pair.handle().block.bytes, pair.handle().list.bytes), (24, 32));
    assert_eq!(pair.delete(range(4104, 4112))?, range(4096, 4120));
    assert_eq!(pair.find_first(16, Mode::Low)?, Found { range: range(4128, 4144), old: range(4128, 4160) });
    assert_eq!(pair.find_last(8, Mode::High)?, Found { range: range(4152, 4160), old: range(4144, 4160) });
    assert_eq!(pair.find_largest(0, Mode::Entire)?.range, range(4096, 4104));
    pair.words_mut()[0] = 9;
    let (list, block) = pair.into_lands();
    assert_eq!(list.ranges().collect::<Result<Vec<_>, _>>()?, [range(4112, 4120), range(4144, 4152)]);
    assert_eq!((list.words()[0], block.handle().ranges), (9, 0));
    let mut again = Pair::new(list, block);
    assert_eq!(again.insert(range(4120, 4128))?, range(4112, 4128));
    assert_eq!(again.block().walk(0), Ok(range(4112, 4128)));
    let (handle, words, nodes) = again.into_parts();
    assert_eq!((handle.list.ranges, &*nodes), (1, [4112, 4128, 7].as_slice()));
    assert_eq!(Pair::from_parts(handle, words, nodes).list().walk(0), Ok(range(4144, 4152)));
    Ok(())
}

#[test]
fn what_lies_in_both_lands() -> Result<(), Refusal> {
    let (mut words, mut nodes) = ([0; 8], [0; 2]);
    let mut pair = pair(&mut words, &mut nodes)?;
    pair.insert(range(4096, 4104))?;
    pair.insert(range(4112, 4120))?;
    assert_eq!(pair.insert(range(4104, 4112))?, range(4096, 4112));
    assert_eq!(pair.find_first(24, Mode::None), Err(Refusal::NoneFound));
    assert_eq!(pair.delete(range(4104, 4120)), Err(Refusal::InBoth));
    assert_eq!(pair.delete(range(4104, 4128)), Err(Refusal::Overlap));
    assert_eq!(pair.delete(range(4104, 4112))?, range(4096, 4112));
    assert_eq!(pair.delete(range(4112, 4120))?, range(4112, 4120));
    Ok(())
}

#[test]
fn a_pair_is_never_full() -> Result<(), Refusal> {
    for room in 0..4 {
        let (mut words, mut nodes) = ([0; 8], [0; 6]);
        let mut pair = pair(&mut words, &mut nodes[..2 * room])?;
        for base in (4096..4160).step_by(16) {
            assert_eq!(pair.insert(range(base, base + 8)), Ok(range(base, base + 8)));
        }
        assert_eq!((pair.handle().block.ranges, pair.handle().list.ranges), (room as u64, 4 - room as u64));
        assert_eq!(pair.find_last(8, Mode::Entire)?.range, range(4144, 4152));
    }
    let (mut words, mut nodes) = ([0; 8], [0; 2]);
    let mut pair = pair(&mut words, &mut nodes)?;
    pair.insert(range(4096, 4160))?;
    for base in (4104..4152).step_by(16) {
        assert!(pair.delete(range(base, base + 8)).is_ok());
    }
    assert_eq!(pair.handle().list.bytes + pair.handle().block.bytes, 40);
    Ok(())
}

#[test]
fn bad_pairs_are_refused() -> Result<(), Refusal> {
    let (mut words, mut nodes, mut none) = ([0; 8], [0; 4], []);
    let mut pair = pair(&mut words, &mut nodes)?;
    pair.insert(range(4096, 4112))?;
    let (sound, words, nodes) = pair.into_parts();
    let mut refused = |handle: PairHandle, words: &mut [u64], refusal: Refusal| {
        let before = (words.to_vec(), nodes.to_vec());
        let mut pair = Pair::from_parts(handle, words, nodes);
        assert_eq!(pair.delete(range(4096, 4104)), Err(refusal));
        assert_eq!(pair.find_largest(0, Mode::Entire), Err(refusal));
        assert_eq!(pair.handle(), handle);
        assert_eq!((words.to_vec(), nodes.to_vec()), before);
    };
    refused(sound, &mut none, Refusal::SetUp);
    let other = BlockHandle { limit: 4168, ..sound.block };
    refused(PairHandle { block: other, ..sound }, words, Refusal::SetUp);
    let counted = BlockHandle { ranges: 2, ..sound.block };
    refused(PairHandle { block: counted, ..sound }, words, Refusal::Damaged);
    let headless = ListHandle { head: 4100, ..sound.list };
    refused(PairHandle { list: headless, ..sound }, words, Refusal::Damaged);
    words[1] = 1;
    let overlapping = ListHandle { head: 4104, ranges: 1, bytes: 8, filled: 1, low: 8, ..sound.list };
    refused(PairHandle { list: overlapping, ..sound }, words, Refusal::Damaged);
    Ok(())
}

#[test]
fn bad_parts_are_refused() {
    let arena = ListHandle { base: 4096, limit: 4160, align: 8, ..ListHandle::default() };
    let handle = ListHandle { head: 4096, ranges: u64::MAX, bytes: 1, filled: 1, ..arena };
    let mut words = [u64::MAX; 8];
    let mut land = ListLand::from_parts(handle, &mut words);
    assert_eq!(land.insert(range(4096, 4104)), Err(Refusal::Damaged));
    assert_eq!(land.handle(), handle);
    let mut none = [];
    assert_eq!(ListLand::from_parts(handle, &mut none).walk(0), Err(Refusal::SetUp));
    let table = BlockHandle { base: 4096, limit: 4160, align: 8, ranges: 1 << 63, ..BlockHandle::default() };
    let mut block = BlockLand::from_parts(table, &mut none);
    assert_eq!(block.find_largest(0, Mode::None), Err(Refusal::Damaged));
    assert_eq!(flush(&mut land, &mut block), Err(Refusal::Damaged));
    assert_eq!((land.handle(), block.handle()), (handle, table));
}

/// Free bytes and low water of both lands of a pair, the list's first.
fn levels(pair: &Pair<'_>) -> [(u64, Option<u64>); 2] {
    let PairHandle { list, block } = pair.handle();
    [(list.bytes, pair.list().low_water()), (block.bytes, pair.block().low_water())]
}

#[test]
fn low_water_of_a_list_land() -> Result<(), Refusal> {
    let mut words = [0; 8];
    let mut land = ListLand::open(4096, 4160, 8, &mut words)?;
    assert_eq!((land.walk(0), land.find_last(8, Mode::Low)), (Err(Refusal::NoneFound), Err(Refusal::NoneFound)));
    assert_eq!(land.low_water(), None);
    land.insert(range(4096, 4144))?;
    assert_eq!(land.low_water(), Some(48));
    land.insert(range(4144, 4160))?;
    assert_eq!(land.low_water(), Some(48));
    land.delete(range(4096, 4120))?;
    assert_eq!(land.low_water(), Some(40));
    land.find_first(16, Mode::High)?;
    assert_eq!(land.low_water(), Some(24));
    land.insert(range(4096, 4112))?;
    let before = land.handle();
    assert_eq!((before.bytes, before.low_water()), (40, Some(24)));
    land.find_largest(0, Mode::None)?;
    assert_eq!((land.delete(range(4096, 4160)), land.handle()), (Err(Refusal::Overlap), before));
    while land.find_last(8, Mode::Entire).is_ok() {}
    assert_eq!((land.handle().bytes, land.low_water()), (0, Some(0)));
    land.insert(range(4096, 4160))?;
    assert_eq!((land.handle().bytes, land.low_water()), (64, Some(0)));
    Ok(())
}

#[test]
fn low_water_of_a_block_land() -> Result<(), Refusal> {
    let mut nodes = [0; 4];
    let mut land = BlockLand::open(4096, 4160, 8, &mut nodes)?;
    assert_eq!((land.walk(0), land.low_water()), (Err(Refusal::NoneFound), None));
    land.insert(range(4096, 4144))?;
    land.insert(range(4152, 4160))?;
    assert_eq!((land.handle().bytes, land.low_water()), (56, Some(48)));
    land.delete(range(4096, 4120))?;
    assert_eq!(land.low_water(), Some(32));
    land.find_first(16, Mode::Low)?;
    assert_eq!(land.low_water(), Some(16));
    land.find_largest(0, Mode::High)?;
    assert_eq!(land.low_water(), Some(8));
    land.insert(range(4096, 4144))?;
    land.find_last(8, Mode::None)?;
    assert_eq!(land.insert(range(4096, 4104)), Err(Refusal::Overlap));
    assert_eq!((land.handle().bytes, land.low_water()), (56, Some(8)));
    Ok(())
}

/// A flush is one call on each land, and one that moves no range leaves both handles as they were.
#[test]
fn low_water_after_a_flush() -> Result<(), Refusal> {
    let (mut words, mut nodes) = ([0; 8], [0; 6]);
    let mut list = ListLand::open(4096, 4160, 8, &mut words)?;
    let mut block = BlockLand::open(4096, 4160, 8, &mut nodes)?;
    assert_eq!(flush(&mut list, &mut block)?.moved, 0);
    assert_eq!((list.low_water(), block.low_water()), (None, None));
    for base in [4096, 4112, 4128] {
        list.insert(range(base, base + 8))?;
    }
    assert_eq!(flush(&mut list, &mut block)?.moved, 3);
    assert_eq!((list.low_water(), block.low_water()), (Some(0), Some(24)));
    list.insert(range(4144, 4152))?;
    let before = (list.handle(), block.handle());
    assert_eq!(flush(&mut list, &mut block)?, Flushed { moved: 0, stop: Some(Refusal::Full) });
    assert_eq!((list.handle(), block.handle()), before);
    Ok(())
}

/// Each land is read once, after the whole call on the pair: the inner flush of the last one empties the list, unread.
#[test]
fn low_water_of_a_pair() -> Result<(), Refusal> {
    let (mut words, mut nodes) = ([0; 8], [0; 2]);
    let mut pair = pair(&mut words, &mut nodes)?;
    assert_eq!(levels(&pair), [(0, None), (0, None)]);
    pair.insert(range(4096, 4104))?;
    assert_eq!(levels(&pair), [(0, None), (8, Some(8))]);
    pair.insert(range(4112, 4128))?;
    assert_eq!(levels(&pair), [(16, Some(16)), (8, Some(8))]);
    pair.delete(range(4096, 4104))?;
    assert_eq!(levels(&pair), [(16, Some(16)), (0, Some(0))]);
    pair.insert(range(4136, 4152))?;
    assert_eq!(levels(&pair), [(16, Some(16)), (16, Some(0))]);
    Ok(())
}

/// The handles of a list and of a block land with no ranges but this mark and low water.
fn marked(filled: u64, low: u64) -> (ListHandle, BlockHandle) {
    let list = ListHandle { base: 4096, limit: 4160, align: 8, filled, low, ..ListHandle::default() };
    let block = BlockHandle { base: 4096, limit: 4160, align: 8, filled, low, ..BlockHandle::default() };
    (list, block)
}

#[test]
fn bad_marks_are_refused() {
    let (mut words, mut nodes) = ([0; 8], [0; 2]);
    for (filled, low, walked) in [
        (0, 0, Refusal::NoneFound),
        (1, 0, Refusal::NoneFound),
        (0, 8, Refusal::Damaged),
        (1, 8, Refusal::Damaged),
        (2, 0, Refusal::Damaged),
        (u64::MAX, 0, Refusal::Damaged),
    ] {
        let (list, block) = marked(filled, low);
        let list = ListLand::from_parts(list, &mut words);
        let block = BlockLand::from_parts(block, &mut nodes);
        assert_eq!((list.walk(0), block.walk(0)), (Err(walked), Err(walked)));
        assert_eq!(Pair::new(list, block).find_first(8, Mode::Low), Err(walked));
    }
}

/// A land that is not empty: its mark is set, and low water is at most its free bytes.
#[test]
fn marks_of_a_land_with_ranges() {
    let (mut words, mut nodes) = ([0, 4112, 0, 0, 0, 0, 0, 0], [4096, 4112]);
    for (filled, low, sound) in [(0, 0, false), (0, 16, false), (1, 0, true), (1, 16, true), (1, 17, false)] {
        let walked = if sound { Ok(range(4096, 4112)) } else { Err(Refusal::Damaged) };
        let (list, block) = marked(filled, low);
        let list = ListHandle { head: 4096, ranges: 1, bytes: 16, ..list };
        let block = BlockHandle { ranges: 1, bytes: 16, ..block };
        assert_eq!(ListLand::from_parts(list, &mut words).walk(0), walked);
        assert_eq!(BlockLand::from_parts(block, &mut nodes).walk(0), walked);
    }
}

/// Only a mark of 1 is set.
#[test]
fn low_water_in_a_handle() {
    for (filled, low_water) in [(0, None), (1, Some(24)), (2, None)] {
        let (list, block) = marked(filled, 24);
        assert_eq!((list.low_water(), block.low_water()), (low_water, low_water));
    }
}

#[test]
fn no_words() {
    let mut none = [];
    let mut land = ListLand::open(4096, 4096, 8, &mut none).expect("an arena of length 0 is allowed");
    assert_eq!(land.insert(range(4096, 4104)), Err(Refusal::Request));
    assert_eq!(land.ranges().next(), None);
    // SAFETY: a null pointer with length 0 is allowed.
    let opened = unsafe { sys::lg_list_open(4096, 4096, 8, std::ptr::null(), 0) };
    assert_eq!((opened.answer, opened.land), (0, land.handle()));
    // SAFETY: a null pointer with length 0 is allowed.
    let table = unsafe { sys::lg_block_open(4096, 4160, 8, std::ptr::null_mut(), 0) };
    assert_eq!((table.answer, table.land.limit), (0, 4160));
}

#[test]
fn refusals() {
    for (number, &refusal) in (1..).zip(Refusal::ALL) {
        assert_eq!(refusal.number(), number);
        assert_eq!(Refusal::from_number(number), Some(refusal));
        assert!(refusal.to_string().len() > 15);
    }
    assert_eq!(Refusal::ALL.len(), 7);
    assert_eq!(Refusal::from_number(0), None);
    assert_eq!(Refusal::from_number(8), None);
    assert_eq!(Refusal::NoneFound.to_string(), "no range qualifies");
}

#[test]
fn limits() {
    let mut nodes = vec![0; NODE_WORDS_MAX + 1];
    let mut open = |limit, align, words| BlockLand::open(ALIGN_MAX, limit, align, &mut nodes[..words]).err();
    assert_eq!(open(LIMIT_MAX, ALIGN_MIN, 2), None);
    assert_eq!(open(LIMIT_MAX + ALIGN_MIN, ALIGN_MIN, 2), Some(Refusal::SetUp));
    assert_eq!(open(LIMIT_MAX, ALIGN_MIN / 2, 2), Some(Refusal::SetUp));
    assert_eq!(open(LIMIT_MAX, ALIGN_MAX, 2), None);
    assert_eq!(open(LIMIT_MAX, 2 * ALIGN_MAX, 2), Some(Refusal::SetUp));
    assert_eq!(open(LIMIT_MAX, ALIGN_MIN, NODE_WORDS_MAX), None);
    assert_eq!(open(LIMIT_MAX, ALIGN_MIN, NODE_WORDS_MAX + 1), Some(Refusal::SetUp));
}

/// An iterator can be kept in a struct of the host, and walks either land.
struct Report<'a> {
    ranges: Ranges<'a>,
}

#[test]
fn ranges_have_a_name() -> Result<(), Refusal> {
    let (mut words, mut nodes) = ([0; 8], [0; 2]);
    let mut pair = pair(&mut words, &mut nodes)?;
    pair.insert(range(4096, 4104))?;
    pair.insert(range(4112, 4120))?;
    let reports = [Report { ranges: pair.list().ranges() }, Report { ranges: pair.block().ranges() }];
    let met = reports.map(|mut report| (report.ranges.next(), report.ranges.next(), report.ranges.next()));
    assert_eq!(met[0], (Some(Ok(range(4112, 4120))), None, None));
    assert_eq!(met[1], (Some(Ok(range(4096, 4104))), None, None));
    Ok(())
}
