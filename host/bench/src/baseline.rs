//! The calls of baseline.c in safe Rust: same checks in the same order, same words. Insert, delete and find first make one
//! pass over the ranges.

#![forbid(unsafe_code)]

mod further;
mod pair;

pub use further::*;
pub use pair::{pair_delete, pair_find_first, pair_insert};

use crate::abi::*;

const ADDRESS_MAX: u64 = 1 << 40;
const NODE_WORDS_MAX: usize = 2_097_152;
const NO_RANGE: Range = Range { base: 0, limit: 0 };

fn arena_ok(base: u64, limit: u64, align: u64) -> bool {
    (8..=4096).contains(&align)
        && align.is_power_of_two()
        && base != 0
        && base <= limit
        && limit <= ADDRESS_MAX
        && (base | limit) & (align - 1) == 0
}

fn range_ok(base: u64, limit: u64, align: u64, r: Range) -> bool {
    base <= r.base && r.base < r.limit && r.limit <= limit && (r.base | r.limit) & (align - 1) == 0
}

fn find_ok(align: u64, size: u64, mode: u64) -> bool {
    size != 0 && size & (align - 1) == 0 && mode <= MODE_ENTIRE
}

/// Are a mark and low water sound beside so many free bytes?
fn low_water_ok(filled: u64, low: u64, bytes: u64) -> bool {
    (filled == 1 && low <= bytes) || filled | low | bytes == 0
}

/// Notes the free bytes that an accepted call leaves in a land that was sound: once, when all of the call is done. Bytes
/// that are the same as before change nothing.
fn note(filled: &mut u64, low: &mut u64, bytes: u64) {
    if *filled == 0 {
        *filled = u64::from(bytes != 0);
        *low = bytes;
    } else {
        *low = bytes.min(*low);
    }
}

/// What a find takes out of the range in which it found the size.
fn part(old: Range, size: u64, mode: u64) -> Range {
    match mode {
        MODE_LOW => Range { base: old.base, limit: old.base + size },
        MODE_HIGH => Range { base: old.limit - size, limit: old.limit },
        _ => old,
    }
}

fn changed<L>(land: L, answer: u64, range: Range) -> Changed<L> {
    Changed { land, answer, range }
}

fn no_change<L>(land: L, answer: u64) -> Changed<L> {
    changed(land, answer, NO_RANGE)
}

fn not_found<L>(land: L, answer: u64) -> Found<L> {
    Found { land, answer, range: NO_RANGE, old: NO_RANGE }
}

// List land.

/// A range of the list; all 0: none.
#[derive(Clone, Copy, Default)]
struct Node {
    base: u64,
    limit: u64,
    next: u64,
}

struct ListWalk {
    base: u64,
    limit: u64,
    mask: u64,
    /// The base to go on with, 0 at the end; it must be above `past`.
    at: u64,
    past: u64,
    ranges: u64,
    bytes: u64,
}

impl ListWalk {
    fn from_head(land: &ListLand) -> Self {
        Self {
            base: land.base,
            limit: land.limit,
            mask: land.align - 1,
            at: land.head,
            past: land.base - 1,
            ranges: 0,
            bytes: 0,
        }
    }

    /// Reads the range at `at`, not 0; none if it is not sound.
    fn step(&mut self, words: &[u64]) -> Option<Node> {
        let base = self.at;
        if base <= self.past || base >= self.limit || base & self.mask != 0 {
            return None;
        }
        let i = ((base - self.base) / 8) as usize;
        let first = words[i];
        let (limit, next) = if first & 1 == 1 {
            (base + 8, first - 1)
        } else {
            if self.limit - base < 16 {
                return None;
            }
            let limit = words[i + 1];
            if limit < base + 16 || limit > self.limit {
                return None;
            }
            (limit, first)
        };
        if limit & self.mask != 0 {
            return None;
        }
        self.at = next;
        self.past = limit;
        self.ranges += 1;
        self.bytes += limit - base;
        Some(Node { base, limit, next })
    }

    /// Walks to the end and compares the counts.
    fn rest_ok(&mut self, words: &[u64], land: &ListLand) -> bool {
        while self.at != 0 {
            if self.step(words).is_none() {
                return false;
            }
        }
        self.ranges == land.ranges && self.bytes == land.bytes
    }
}

fn list_set_up_ok(land: &ListLand, n: usize) -> bool {
    arena_ok(land.base, land.limit, land.align) && n as u64 == (land.limit - land.base) / 8
}

/// What is judged before the list is read.
fn list_handle_ok(land: &ListLand) -> bool {
    low_water_ok(land.filled, land.low, land.bytes)
}

fn note_list(land: &mut ListLand) {
    note(&mut land.filled, &mut land.low, land.bytes);
}

fn write_node(words: &mut [u64], arena: u64, base: u64, limit: u64, next: u64) {
    let i = ((base - arena) / 8) as usize;
    if limit - base == 8 {
        words[i] = next + 1;
    } else {
        words[i] = next;
        words[i + 1] = limit;
    }
}

/// Makes `next` follow the range at `below`, or the head if that is 0.
fn link_to(land: &mut ListLand, words: &mut [u64], below: u64, next: u64) {
    if below == 0 {
        land.head = next;
    } else {
        let i = ((below - land.base) / 8) as usize;
        words[i] = next | (words[i] & 1);
    }
}

/// Takes `r` out of `met`, which contains it and follows the range at `below`.
fn list_take(land: &mut ListLand, words: &mut [u64], below: u64, met: Node, r: Range) {
    let mut next = met.next;
    land.ranges -= 1;
    land.bytes -= r.limit - r.base;
    if r.limit < met.limit {
        write_node(words, land.base, r.limit, met.limit, next);
        next = r.limit;
        land.ranges += 1;
    }
    if met.base < r.base {
        write_node(words, land.base, met.base, r.base, next);
        land.ranges += 1;
    } else {
        link_to(land, words, below, next);
    }
}

#[inline(never)]
pub fn list_insert(mut land: ListLand, words: &mut [u64], r: Range) -> Changed<ListLand> {
    if !list_set_up_ok(&land, words.len()) {
        return no_change(land, ANSWER_SET_UP);
    }
    if !list_handle_ok(&land) {
        return no_change(land, ANSWER_DAMAGED);
    }
    let mut walk = ListWalk::from_head(&land);
    let mut below = Node::default();
    while walk.at != 0 && walk.at < r.base {
        match walk.step(words) {
            Some(node) => below = node,
            None => return no_change(land, ANSWER_DAMAGED),
        }
    }
    let mut above = Node::default();
    if walk.at != 0 {
        match walk.step(words) {
            Some(node) => above = node,
            None => return no_change(land, ANSWER_DAMAGED),
        }
    }
    if !walk.rest_ok(words, &land) {
        return no_change(land, ANSWER_DAMAGED);
    }
    if !range_ok(land.base, land.limit, land.align, r) {
        return no_change(land, ANSWER_REQUEST);
    }
    if list_overlaps(below, above, r) {
        return no_change(land, ANSWER_OVERLAP);
    }
    let all = list_put(&mut land, words, below, above, r);
    note_list(&mut land);
    changed(land, ANSWER_OK, all)
}

/// Does `r` overlap one of its two neighbours in the list?
fn list_overlaps(below: Node, above: Node, r: Range) -> bool {
    below.limit > r.base || (above.base != 0 && above.base < r.limit)
}

/// Puts `r` between two neighbours and joins it with those that it touches.
#[inline(always)]
fn list_put(land: &mut ListLand, words: &mut [u64], below: Node, above: Node, r: Range) -> Range {
    let mut next = above.base;
    let mut all = r;
    land.ranges += 1;
    land.bytes += r.limit - r.base;
    if above.base == r.limit {
        all.limit = above.limit;
        next = above.next;
        land.ranges -= 1;
    }
    if below.limit == r.base {
        all.base = below.base;
        land.ranges -= 1;
    } else {
        link_to(land, words, below.base, r.base);
    }
    write_node(words, land.base, all.base, all.limit, next);
    all
}

#[inline(never)]
pub fn list_delete(mut land: ListLand, words: &mut [u64], r: Range) -> Changed<ListLand> {
    if !list_set_up_ok(&land, words.len()) {
        return no_change(land, ANSWER_SET_UP);
    }
    if !list_handle_ok(&land) {
        return no_change(land, ANSWER_DAMAGED);
    }
    let mut walk = ListWalk::from_head(&land);
    let mut met = Node::default();
    let mut below = 0;
    while walk.at != 0 && walk.at <= r.base {
        below = met.base;
        match walk.step(words) {
            Some(node) => met = node,
            None => return no_change(land, ANSWER_DAMAGED),
        }
    }
    if !walk.rest_ok(words, &land) {
        return no_change(land, ANSWER_DAMAGED);
    }
    if !range_ok(land.base, land.limit, land.align, r) {
        return no_change(land, ANSWER_REQUEST);
    }
    if r.limit > met.limit {
        return no_change(land, ANSWER_OVERLAP);
    }
    list_take(&mut land, words, below, met, r);
    note_list(&mut land);
    changed(land, ANSWER_OK, Range { base: met.base, limit: met.limit })
}

#[inline(never)]
pub fn list_find_first(mut land: ListLand, words: &mut [u64], size: u64, mode: u64) -> Found<ListLand> {
    if !list_set_up_ok(&land, words.len()) {
        return not_found(land, ANSWER_SET_UP);
    }
    if !list_handle_ok(&land) {
        return not_found(land, ANSWER_DAMAGED);
    }
    let mut walk = ListWalk::from_head(&land);
    let mut met = Node::default();
    let mut below = 0;
    let mut found = false;
    while walk.at != 0 && !found {
        below = met.base;
        match walk.step(words) {
            Some(node) => met = node,
            None => return not_found(land, ANSWER_DAMAGED),
        }
        found = met.limit - met.base >= size;
    }
    if !walk.rest_ok(words, &land) {
        return not_found(land, ANSWER_DAMAGED);
    }
    if !find_ok(land.align, size, mode) {
        return not_found(land, ANSWER_REQUEST);
    }
    if !found {
        return not_found(land, ANSWER_NONE);
    }
    let old = Range { base: met.base, limit: met.limit };
    let range = part(old, size, mode);
    if mode != MODE_NONE {
        list_take(&mut land, words, below, met, range);
        note_list(&mut land);
    }
    Found { land, answer: ANSWER_OK, range, old }
}

// Block land.

struct TableScan {
    /// The limit of the pair before.
    past: u64,
    /// All addresses or-ed together, and the sum of the lengths.
    bits: u64,
    bytes: u64,
}

impl TableScan {
    fn from_first(land: &BlockLand) -> Self {
        Self { past: land.base - 1, bits: 0, bytes: 0 }
    }

    /// Takes one more pair; false if it is empty or does not stand apart from the pair before.
    fn pair(&mut self, base: u64, limit: u64) -> bool {
        if base <= self.past || limit <= base {
            return false;
        }
        self.bits |= base | limit;
        self.bytes += limit - base;
        self.past = limit;
        true
    }

    /// Scans pairs as long as they are `wanted`: the number of pairs scanned, or none if one is not sound.
    #[inline(always)]
    fn pairs_while(&mut self, pairs: &[u64], wanted: impl Fn(u64, u64) -> bool) -> Option<usize> {
        for (i, pair) in pairs.chunks_exact(2).enumerate() {
            if !wanted(pair[0], pair[1]) {
                return Some(i);
            }
            if !self.pair(pair[0], pair[1]) {
                return None;
            }
        }
        Some(pairs.len() / 2)
    }

    /// Limits ascend, so the last one alone is compared with the arena's.
    fn end_ok(&self, land: &BlockLand) -> bool {
        self.bits & (land.align - 1) == 0 && self.past <= land.limit && self.bytes == land.bytes
    }
}

fn block_set_up_ok(land: &BlockLand, m: usize) -> bool {
    arena_ok(land.base, land.limit, land.align) && m <= NODE_WORDS_MAX
}

/// What is judged before the table is read.
fn block_handle_ok(land: &BlockLand, m: usize) -> bool {
    land.ranges <= m as u64 / 2 && low_water_ok(land.filled, land.low, land.bytes)
}

fn note_block(land: &mut BlockLand) {
    note(&mut land.filled, &mut land.low, land.bytes);
}

/// Scans the whole table once. The number of pairs before the first that is not `wanted`, or none if the table is not
/// sound.
fn scan(land: &BlockLand, nodes: &[u64], wanted: impl Fn(u64, u64) -> bool) -> Option<usize> {
    if !block_handle_ok(land, nodes.len()) {
        return None;
    }
    let (pairs, tail) = nodes[..nodes.len() & !1].split_at(2 * land.ranges as usize);
    let mut scan = TableScan::from_first(land);
    let place = scan.pairs_while(pairs, wanted)?;
    scan.pairs_while(&pairs[2 * place..], |_, _| true)?;
    let zeros = tail.iter().fold(0, |all, word| all | word);
    (scan.end_ok(land) && zeros == 0).then_some(place)
}

fn set_pair(nodes: &mut [u64], i: usize, base: u64, limit: u64) {
    nodes[2 * i] = base;
    nodes[2 * i + 1] = limit;
}

/// Opens a place for pair i; the pairs from i on go one up.
fn open_pair(land: &mut BlockLand, nodes: &mut [u64], i: usize) {
    nodes.copy_within(2 * i..2 * land.ranges as usize, 2 * i + 2);
    land.ranges += 1;
}

/// Closes pair i; the pairs behind it go one down.
fn close_pair(land: &mut BlockLand, nodes: &mut [u64], i: usize) {
    nodes.copy_within(2 * i + 2..2 * land.ranges as usize, 2 * i);
    land.ranges -= 1;
    set_pair(nodes, land.ranges as usize, 0, 0);
}

/// Takes `r` out of pair i, which contains it; there is room for one pair more if it is needed.
fn block_take(land: &mut BlockLand, nodes: &mut [u64], i: usize, old: Range, r: Range) {
    land.bytes -= r.limit - r.base;
    if old == r {
        close_pair(land, nodes, i);
    } else if old.base == r.base {
        nodes[2 * i] = r.limit;
    } else {
        nodes[2 * i + 1] = r.base;
        if r.limit < old.limit {
            open_pair(land, nodes, i + 1);
            set_pair(nodes, i + 1, r.limit, old.limit);
        }
    }
}

/// Does `r`, whose place is i, overlap the pair below or above?
fn table_overlaps(land: &BlockLand, nodes: &[u64], i: usize, r: Range) -> bool {
    (i > 0 && nodes[2 * i - 1] > r.base) || ((i as u64) < land.ranges && nodes[2 * i] < r.limit)
}

/// Puts `r` at its place i and joins it with the pairs that it touches; none if there is no room.
#[inline(always)]
fn block_put(land: &mut BlockLand, nodes: &mut [u64], i: usize, r: Range) -> Option<Range> {
    let joins_below = i > 0 && nodes[2 * i - 1] == r.base;
    let joins_above = (i as u64) < land.ranges && nodes[2 * i] == r.limit;
    if !joins_below && !joins_above && land.ranges as usize == nodes.len() / 2 {
        return None;
    }
    let mut all = r;
    if joins_below {
        all.base = nodes[2 * i - 2];
    }
    if joins_above {
        all.limit = nodes[2 * i + 1];
    }
    land.bytes += r.limit - r.base;
    match (joins_below, joins_above) {
        (true, true) => close_pair(land, nodes, i),
        (false, false) => open_pair(land, nodes, i),
        _ => {}
    }
    set_pair(nodes, i - usize::from(joins_below), all.base, all.limit);
    Some(all)
}

#[inline(never)]
pub fn block_insert(mut land: BlockLand, nodes: &mut [u64], r: Range) -> Changed<BlockLand> {
    if !block_set_up_ok(&land, nodes.len()) {
        return no_change(land, ANSWER_SET_UP);
    }
    let Some(i) = scan(&land, nodes, |base, _| base < r.base) else {
        return no_change(land, ANSWER_DAMAGED);
    };
    if !range_ok(land.base, land.limit, land.align, r) {
        return no_change(land, ANSWER_REQUEST);
    }
    if table_overlaps(&land, nodes, i, r) {
        return no_change(land, ANSWER_OVERLAP);
    }
    let Some(all) = block_put(&mut land, nodes, i, r) else {
        return no_change(land, ANSWER_FULL);
    };
    note_block(&mut land);
    changed(land, ANSWER_OK, all)
}

#[inline(never)]
pub fn block_delete(mut land: BlockLand, nodes: &mut [u64], r: Range) -> Changed<BlockLand> {
    if !block_set_up_ok(&land, nodes.len()) {
        return no_change(land, ANSWER_SET_UP);
    }
    let Some(behind) = scan(&land, nodes, |base, _| base <= r.base) else {
        return no_change(land, ANSWER_DAMAGED);
    };
    if !range_ok(land.base, land.limit, land.align, r) {
        return no_change(land, ANSWER_REQUEST);
    }
    if behind == 0 || nodes[2 * behind - 1] < r.limit {
        return no_change(land, ANSWER_OVERLAP);
    }
    let old = Range { base: nodes[2 * behind - 2], limit: nodes[2 * behind - 1] };
    if old.base < r.base && r.limit < old.limit && land.ranges as usize == nodes.len() / 2 {
        return no_change(land, ANSWER_FULL);
    }
    block_take(&mut land, nodes, behind - 1, old, r);
    note_block(&mut land);
    changed(land, ANSWER_OK, old)
}

#[inline(never)]
pub fn block_find_first(mut land: BlockLand, nodes: &mut [u64], size: u64, mode: u64) -> Found<BlockLand> {
    if !block_set_up_ok(&land, nodes.len()) {
        return not_found(land, ANSWER_SET_UP);
    }
    let shorter = |base: u64, limit: u64| limit.wrapping_sub(base) < size;
    let Some(i) = scan(&land, nodes, shorter) else {
        return not_found(land, ANSWER_DAMAGED);
    };
    if !find_ok(land.align, size, mode) {
        return not_found(land, ANSWER_REQUEST);
    }
    if i as u64 == land.ranges {
        return not_found(land, ANSWER_NONE);
    }
    let old = Range { base: nodes[2 * i], limit: nodes[2 * i + 1] };
    let range = part(old, size, mode);
    if mode != MODE_NONE {
        block_take(&mut land, nodes, i, old, range);
        note_block(&mut land);
    }
    Found { land, answer: ANSWER_OK, range, old }
}
