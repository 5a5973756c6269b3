//! Slips in the calls, document 01's "slips that look right" among them.

use limbegoru_model::call::{MODE_ENTIRE, MODE_HIGH, MODE_LOW};
use limbegoru_model::{block, list, Arena, Call, Done, Find, ListHandle, Range};

use crate::{block_noticed, flush_noticed, list_noticed, BlockCall, FlushCall, ListCall};

/// Is the byte in one of the ranges?
fn free(ranges: &Option<Vec<Range>>, byte: u64) -> bool {
    ranges.iter().flatten().any(|range| range.base <= byte && byte < range.limit)
}

/// The number of the word at an address.
fn word_at(land: &ListHandle, address: u64) -> usize {
    ((address - land.base) / 8) as usize
}

#[test]
fn overlap() {
    list_noticed("only the two ends of a range are tested for overlap", |it: ListCall| match it.call {
        Call::Insert(range) if it.done.answer == 1 => {
            let overlap = free(&it.before, range.base) || free(&it.before, range.limit - 1);
            it.done.answer = u64::from(overlap);
        }
        _ => {}
    });
    list_noticed("a delete whose ends are both free is accepted with a gap between", |it: ListCall| match it.call {
        Call::Delete(range) if it.done.answer == 1 => {
            let both = free(&it.before, range.base) && free(&it.before, range.limit - 1);
            it.done.answer = u64::from(!both);
        }
        _ => {}
    });
}

#[test]
fn grains() {
    list_noticed("a second word of a grain is read", |it: ListCall| {
        for grain in it.before.iter().flatten().filter(|range| range.length() == 8) {
            if it.words.get(word_at(&it.land, grain.limit)) == Some(&0) {
                *it.done = Done::refused(it.land, 6);
            }
        }
    });
    list_noticed("a range that shrinks to 8 bytes keeps the block form", |it: ListCall| match it.call {
        Call::Delete(range) if it.done.answer == 0 && range.base == it.done.range.base + 8 => {
            it.words[word_at(&it.land, it.done.range.base)] &= !1;
        }
        _ => {}
    });
    list_noticed("a grain that grows keeps its form", |it: ListCall| {
        let base = it.done.range.base;
        let grew = it.before.iter().flatten().any(|range| range.base == base && range.length() == 8);
        if it.done.answer == 0 && matches!(it.call, Call::Insert(_)) && grew {
            it.words[word_at(&it.land, base)] |= 1;
        }
    });
}

#[test]
fn words() {
    list_noticed("a former descriptor is wiped", |it: ListCall| match it.call {
        Call::Delete(range) if it.done.answer == 0 && range.base == it.done.range.base => {
            it.words[word_at(&it.land, range.base)] = 0;
        }
        _ => {}
    });
    list_noticed("a refusal writes a word", |it: ListCall| {
        if let ([first, ..], 1) = (it.words, it.done.answer) {
            *first ^= 1 << 40;
        }
    });
    block_noticed("an odd last word is written", |it: BlockCall| {
        let odd = it.nodes.len() % 2 == 1;
        if let ([.., last], 0, true) = (it.nodes, it.done.answer, odd) {
            *last = 0;
        }
    });
}

/// Has the table as many ranges as its capacity?
fn is_full(it: &BlockCall) -> bool {
    it.before.as_ref().map_or(0, Vec::len) == it.nodes.len() / 2
}

#[test]
fn merging() {
    block_noticed("a full table refuses a range that merges", |it: BlockCall| {
        if is_full(&it) && it.done.answer == 0 && matches!(it.call, Call::Insert(_)) {
            it.done.answer = 3;
        }
    });
    block_noticed("a range that closes a gap merges below only", |it: BlockCall| match it.call {
        Call::Insert(range) if it.done.answer == 0 && it.done.range.base < range.base => {
            it.done.range.limit = range.limit;
        }
        _ => {}
    });
}

#[test]
fn node_space() {
    block_noticed("a find at a full table is answered 3", |it: BlockCall| {
        if is_full(&it) && it.done.answer == 0 && matches!(it.call, Call::Find(..)) {
            it.done.answer = 3;
        }
    });
    block_noticed("a delete that splits at a full table is answered 0", |it: BlockCall| match it.call {
        Call::Delete(_) if it.done.answer == 3 => it.done.answer = 0,
        _ => {}
    });
}

#[test]
fn finds() {
    list_noticed("the last of two equal largest ranges is taken", |it: ListCall| {
        if let (0, Call::Find(Find::Largest, ..)) = (it.done.answer, it.call) {
            let longest = it.done.old.length();
            let mut equals = it.before.iter().flatten().filter(|range| range.length() == longest);
            it.done.old = *equals.next_back().expect("one is the longest");
        }
    });
    block_noticed("low and high of the largest take only the size", |it: BlockCall| {
        if let (0, Call::Find(Find::Largest, size, MODE_LOW | MODE_HIGH)) = (it.done.answer, it.call) {
            it.done.range.limit = it.done.range.base + size;
        }
    });
    list_noticed("a walk meets only bases above the number", |it: ListCall| match it.call {
        Call::Walk(from) if it.done.answer == 0 && it.done.range.base == from => it.done.answer = 2,
        _ => {}
    });
}

#[test]
fn requests() {
    list_noticed("a size 0 is taken for the first", |it: ListCall| match it.call {
        Call::Find(Find::First, 0, 0..=MODE_ENTIRE) if it.done.answer == 4 => it.done.answer = 2,
        _ => {}
    });
    block_noticed("an unknown mode is taken", |it: BlockCall| match it.call {
        Call::Find(Find::Largest, 0, 4..) if it.done.answer == 4 => it.done.answer = 2,
        _ => {}
    });
    block_noticed("only the low half of a mode is read", |it: BlockCall| match it.call {
        Call::Find(Find::Largest, size, mode) if it.done.answer == 4 && mode as u32 <= 3 => {
            it.done.answer -= 2 * u64::from(size.is_multiple_of(it.land.align));
        }
        _ => {}
    });
    list_noticed("a request is checked before the list", |it: ListCall| match it.call {
        Call::Find(Find::First | Find::Last, 0, _) if it.done.answer == 6 => it.done.answer = 4,
        _ => {}
    });
}

/// The arenas of the two lands of a flush, if both keep the rules.
fn arenas(it: &FlushCall) -> Option<(Arena, Arena)> {
    let list = list::arena(it.list.base, it.list.limit, it.list.align, &it.words)?;
    let block = block::arena(it.block.base, it.block.limit, it.block.align, &it.nodes)?;
    Some((list, block))
}

#[test]
fn flushes() {
    flush_noticed("the range that stopped a flush is counted", |it: FlushCall| {
        it.flushed.moved += u64::from(it.flushed.stop == 1);
    });
    flush_noticed("a flush stopped by a full table is refused", |it: FlushCall| {
        it.flushed.answer += 3 * u64::from(it.flushed.stop == 3);
    });
    flush_noticed("a table that is not sound is taken for an empty list", |it: FlushCall| {
        let empty = it.list.head == 0 && it.list.ranges == 0 && it.list.bytes == 0;
        it.flushed.answer *= u64::from(it.flushed.answer != 6 || !empty);
    });
}

#[test]
fn differing_lands() {
    type OthersEqual = fn(&Arena, &Arena) -> bool;
    let equal: [(&str, OthersEqual); 3] = [
        ("bases", |one, other| one.limit() == other.limit() && one.align() == other.align()),
        ("limits", |one, other| one.base() == other.base() && one.align() == other.align()),
        ("alignments", |one, other| one.base() == other.base() && one.limit() == other.limit()),
    ];
    for (name, others_equal) in equal {
        flush_noticed(&format!("the {name} are not compared"), move |it: FlushCall| {
            let alone = arenas(&it).is_some_and(|(one, other)| others_equal(&one, &other));
            it.flushed.answer *= u64::from(it.flushed.answer != 5 || !alone);
        });
    }
}

#[test]
fn order_of_a_flush() {
    flush_noticed("the list is read before the block land's set-up is tested", |it: FlushCall| {
        let arena = list::arena(it.list.base, it.list.limit, it.list.align, &it.words);
        let unsound = arena.is_some_and(|arena| list::read(&arena, &it.list, &it.words).is_none());
        it.flushed.answer += u64::from(it.flushed.answer == 5 && unsound && arenas(&it).is_none());
    });
    flush_noticed("the list is read before the two arenas are compared", |it: FlushCall| {
        let unsound = |(one, _): (Arena, Arena)| list::read(&one, &it.list, &it.words).is_none();
        it.flushed.answer += u64::from(it.flushed.answer == 5 && arenas(&it).is_some_and(unsound));
    });
    flush_noticed("the table is read before the two arenas are compared", |it: FlushCall| {
        let unsound = |(_, other): (Arena, Arena)| block::read(&other, &it.block, &it.nodes).is_none();
        it.flushed.answer += u64::from(it.flushed.answer == 5 && arenas(&it).is_some_and(unsound));
    });
}
