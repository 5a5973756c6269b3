//! Find last, find largest, the walk, the flush, and the calls on a place where the handle stands.

use super::pair::{flush_apart, judge, node_at, note_pair, pairs_below, set_up_ok};
use super::*;

#[derive(Clone, Copy, PartialEq)]
enum Sort {
    Last,
    Largest,
}

impl Sort {
    fn ok(self, align: u64, size: u64, mode: u64) -> bool {
        find_ok(align, if self == Self::Largest && size == 0 { align } else { size }, mode)
    }

    /// What is taken out of the range in which the size was found.
    fn part(self, old: Range, size: u64, mode: u64) -> Range {
        match self {
            Self::Last => part(old, size, mode),
            Self::Largest => old,
        }
    }

    /// Is a range with this length to be kept instead of one met before?
    fn prefers(self, length: u64, size: u64, kept: u64) -> bool {
        length >= size && (self == Self::Last || length > kept)
    }

    /// Of two ranges, does the one in the list go before that in the table?
    fn in_list(self, listed: Range, tabled: Range) -> bool {
        let (length, other) = (listed.limit - listed.base, tabled.limit - tabled.base);
        match self {
            Self::Last => listed.base > tabled.base,
            Self::Largest => length > other || (length == other && listed.base < tabled.base),
        }
    }
}

fn range_of(node: Node) -> Range {
    Range { base: node.base, limit: node.limit }
}

/// The range of a sound list that a find is for, and the base of the one before it; none: all 0.
fn list_kept(land: &ListLand, words: &[u64], size: u64, sort: Sort) -> (u64, Node) {
    let (mut below, mut kept, mut before) = (0, Node::default(), 0);
    let mut met = node_at(land, words, land.head);
    while met.base != 0 {
        if sort.prefers(met.limit - met.base, size, kept.limit - kept.base) {
            (below, kept) = (before, met);
        }
        before = met.base;
        met = node_at(land, words, met.next);
    }
    (below, kept)
}

/// The pair of a sound table that a find is for.
fn table_kept(land: &BlockLand, nodes: &[u64], size: u64, sort: Sort) -> Option<usize> {
    let (pairs, _) = nodes[..2 * land.ranges as usize].as_chunks::<2>();
    if sort == Sort::Last {
        return pairs.iter().rposition(|pair| pair[1] - pair[0] >= size);
    }
    let (mut kept, mut longest) = (None, 0);
    for (i, pair) in pairs.iter().enumerate() {
        if sort.prefers(pair[1] - pair[0], size, longest) {
            (kept, longest) = (Some(i), pair[1] - pair[0]);
        }
    }
    kept
}

fn list_find(mut land: ListLand, words: &mut [u64], size: u64, mode: u64, sort: Sort) -> Found<ListLand> {
    if !list_set_up_ok(&land, words.len()) {
        return not_found(land, ANSWER_SET_UP);
    }
    if !list_handle_ok(&land) || !ListWalk::from_head(&land).rest_ok(words, &land) {
        return not_found(land, ANSWER_DAMAGED);
    }
    if !sort.ok(land.align, size, mode) {
        return not_found(land, ANSWER_REQUEST);
    }
    let (below, met) = list_kept(&land, words, size, sort);
    if met.base == 0 {
        return not_found(land, ANSWER_NONE);
    }
    let range = sort.part(range_of(met), size, mode);
    if mode != MODE_NONE {
        list_take(&mut land, words, below, met, range);
        note_list(&mut land);
    }
    Found { land, answer: ANSWER_OK, range, old: range_of(met) }
}

#[inline(never)]
pub fn list_find_last(land: ListLand, words: &mut [u64], size: u64, mode: u64) -> Found<ListLand> {
    list_find(land, words, size, mode, Sort::Last)
}

#[inline(never)]
pub fn list_find_largest(land: ListLand, words: &mut [u64], size: u64, mode: u64) -> Found<ListLand> {
    list_find(land, words, size, mode, Sort::Largest)
}

#[inline(never)]
pub fn list_walk(land: ListLand, words: &[u64], from: u64) -> Changed<ListLand> {
    if !list_set_up_ok(&land, words.len()) {
        return no_change(land, ANSWER_SET_UP);
    }
    if !list_handle_ok(&land) {
        return no_change(land, ANSWER_DAMAGED);
    }
    let mut walk = ListWalk::from_head(&land);
    let mut met = Node::default();
    while walk.at != 0 && met.base < from.max(1) {
        match walk.step(words) {
            Some(node) => met = node,
            None => return no_change(land, ANSWER_DAMAGED),
        }
    }
    if !walk.rest_ok(words, &land) {
        return no_change(land, ANSWER_DAMAGED);
    }
    if met.base < from.max(1) {
        return no_change(land, ANSWER_NONE);
    }
    changed(land, ANSWER_OK, range_of(met))
}

fn block_find(mut land: BlockLand, nodes: &mut [u64], size: u64, mode: u64, sort: Sort) -> Found<BlockLand> {
    if !block_set_up_ok(&land, nodes.len()) {
        return not_found(land, ANSWER_SET_UP);
    }
    if scan(&land, nodes, |_, _| true).is_none() {
        return not_found(land, ANSWER_DAMAGED);
    }
    if !sort.ok(land.align, size, mode) {
        return not_found(land, ANSWER_REQUEST);
    }
    let Some(i) = table_kept(&land, nodes, size, sort) else {
        return not_found(land, ANSWER_NONE);
    };
    let old = Range { base: nodes[2 * i], limit: nodes[2 * i + 1] };
    let range = sort.part(old, size, mode);
    if mode != MODE_NONE {
        block_take(&mut land, nodes, i, old, range);
        note_block(&mut land);
    }
    Found { land, answer: ANSWER_OK, range, old }
}

#[inline(never)]
pub fn block_find_last(land: BlockLand, nodes: &mut [u64], size: u64, mode: u64) -> Found<BlockLand> {
    block_find(land, nodes, size, mode, Sort::Last)
}

#[inline(never)]
pub fn block_find_largest(land: BlockLand, nodes: &mut [u64], size: u64, mode: u64) -> Found<BlockLand> {
    block_find(land, nodes, size, mode, Sort::Largest)
}

#[inline(never)]
pub fn block_walk(land: BlockLand, nodes: &[u64], from: u64) -> Changed<BlockLand> {
    if !block_set_up_ok(&land, nodes.len()) {
        return no_change(land, ANSWER_SET_UP);
    }
    let Some(i) = scan(&land, nodes, |base, _| base < from) else {
        return no_change(land, ANSWER_DAMAGED);
    };
    if i as u64 == land.ranges {
        return no_change(land, ANSWER_NONE);
    }
    changed(land, ANSWER_OK, Range { base: nodes[2 * i], limit: nodes[2 * i + 1] })
}

fn pair_find(mut pair: Pair, words: &mut [u64], nodes: &mut [u64], size: u64, mode: u64, sort: Sort) -> Found<Pair> {
    if !set_up_ok(&pair, words.len(), nodes.len()) {
        return not_found(pair, ANSWER_SET_UP);
    }
    if judge(&pair, words, nodes).is_none() {
        return not_found(pair, ANSWER_DAMAGED);
    }
    if !sort.ok(pair.list.align, size, mode) {
        return not_found(pair, ANSWER_REQUEST);
    }
    let (below, met) = list_kept(&pair.list, words, size, sort);
    let i = table_kept(&pair.block, nodes, size, sort);
    let tabled = i.map(|i| Range { base: nodes[2 * i], limit: nodes[2 * i + 1] });
    let old = match tabled {
        None if met.base == 0 => return not_found(pair, ANSWER_NONE),
        Some(tabled) if met.base == 0 || !sort.in_list(range_of(met), tabled) => tabled,
        _ => range_of(met),
    };
    let range = sort.part(old, size, mode);
    match i {
        _ if mode == MODE_NONE => {}
        Some(i) if tabled == Some(old) => {
            block_take(&mut pair.block, nodes, i, old, range);
            note_block(&mut pair.block);
        }
        _ => {
            list_take(&mut pair.list, words, below, met, range);
            note_list(&mut pair.list);
        }
    }
    Found { land: pair, answer: ANSWER_OK, range, old }
}

#[inline(never)]
pub fn pair_find_last(pair: Pair, words: &mut [u64], nodes: &mut [u64], size: u64, mode: u64) -> Found<Pair> {
    pair_find(pair, words, nodes, size, mode, Sort::Last)
}

#[inline(never)]
pub fn pair_find_largest(pair: Pair, words: &mut [u64], nodes: &mut [u64], size: u64, mode: u64) -> Found<Pair> {
    pair_find(pair, words, nodes, size, mode, Sort::Largest)
}

#[inline(never)]
pub fn flush(mut pair: Pair, words: &[u64], nodes: &mut [u64]) -> Flushed {
    let refused = |answer| Flushed { land: pair, answer, moved: 0, stop: 0 };
    if !set_up_ok(&pair, words.len(), nodes.len()) {
        return refused(ANSWER_SET_UP);
    }
    let list_ok = list_handle_ok(&pair.list) && ListWalk::from_head(&pair.list).rest_ok(words, &pair.list);
    if !list_ok || scan(&pair.block, nodes, |_, _| true).is_none() {
        return refused(ANSWER_DAMAGED);
    }
    let before = pair.list.ranges;
    let head = pairs_below(&pair.block, nodes, pair.list.head);
    let stop = flush_apart(&mut pair, words, nodes, head, false);
    note_pair(&mut pair);
    Flushed { land: pair, answer: ANSWER_OK, moved: before - pair.list.ranges, stop }
}

/// A call on the handle that stands at a place, where the next one is stored.
#[inline(always)]
pub fn stored(land: &mut ListLand, call: impl FnOnce(ListLand) -> Changed<ListLand>) -> Changed<ListLand> {
    let changed = call(*land);
    *land = changed.land;
    changed
}
