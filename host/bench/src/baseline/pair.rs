//! The calls on a pair: both lands are read once, merged in address order.

use super::*;

pub(super) fn set_up_ok(pair: &Pair, n: usize, m: usize) -> bool {
    let Pair { list, block } = pair;
    list_set_up_ok(list, n)
        && block_set_up_ok(block, m)
        && (list.base, list.limit, list.align) == (block.base, block.limit, block.align)
}

pub(super) fn note_pair(pair: &mut Pair) {
    note_list(&mut pair.list);
    note_block(&mut pair.block);
}

/// Both lands, read once and merged in address order. Its steps are inlined, so that it stays in registers.
struct Merge<'m> {
    words: &'m [u64],
    walk: ListWalk,
    scan: TableScan,
    /// The pairs to go on with, and the words behind all pairs.
    pairs: &'m [u64],
    tail: &'m [u64],
    /// The pairs that were not below the list's first range.
    above_head: usize,
}

impl<'m> Merge<'m> {
    /// None if a handle is not sound.
    fn from_first(pair: &Pair, words: &'m [u64], nodes: &'m [u64]) -> Option<Self> {
        if !list_handle_ok(&pair.list) || !block_handle_ok(&pair.block, nodes.len()) {
            return None;
        }
        let (pairs, tail) = nodes[..nodes.len() & !1].split_at(2 * pair.block.ranges as usize);
        let (walk, scan) = (ListWalk::from_head(&pair.list), TableScan::from_first(&pair.block));
        Some(Self { words, walk, scan, pairs, tail, above_head: 0 })
    }

    /// The number of pairs to go on with.
    fn left(&self) -> usize {
        self.pairs.len() / 2
    }

    /// Scans pairs as long as they are `wanted`; none if one is not sound.
    #[inline(always)]
    fn pairs_while(&mut self, wanted: impl Fn(u64, u64) -> bool) -> Option<()> {
        let scanned = self.scan.pairs_while(self.pairs, wanted)?;
        self.pairs = &self.pairs[2 * scanned..];
        Some(())
    }

    /// Scans the pairs below a range of the list; none if one is not sound or a byte of the range is in the table too.
    #[inline(always)]
    fn catch_up(&mut self, met: Node) -> Option<()> {
        self.pairs_while(|base, _| base < met.base)?;
        let apart = self.scan.past <= met.base && self.pairs.first().is_none_or(|base| *base >= met.limit);
        apart.then_some(())
    }

    /// Reads the next range of the list, and the pairs below it.
    #[inline(always)]
    fn step(&mut self) -> Option<Node> {
        let met = self.walk.step(self.words)?;
        self.catch_up(met)?;
        if self.walk.ranges == 1 {
            self.above_head = self.left();
        }
        Some(met)
    }

    /// Reads both lands to the end and compares the counts.
    #[inline(always)]
    fn finish(&mut self, pair: &Pair) -> Option<()> {
        while self.walk.at != 0 {
            self.step()?;
        }
        self.pairs_while(|_, _| true)?;
        let zeros = self.tail.iter().fold(0, |all, word| all | word);
        let counted = self.walk.ranges == pair.list.ranges && self.walk.bytes == pair.list.bytes;
        (counted && self.scan.end_ok(&pair.block) && zeros == 0).then_some(())
    }
}

/// The range at an address of a sound list; none at 0.
pub(super) fn node_at(land: &ListLand, words: &[u64], at: u64) -> Node {
    if at == 0 {
        return Node::default();
    }
    let i = ((at - land.base) / 8) as usize;
    let first = words[i];
    if first & 1 == 1 {
        Node { base: at, limit: at + 8, next: first - 1 }
    } else {
        Node { base: at, limit: words[i + 1], next: first }
    }
}

/// The number of pairs of a sound table whose base is below an address.
pub(super) fn pairs_below(land: &BlockLand, nodes: &[u64], address: u64) -> usize {
    let (pairs, _) = nodes[..2 * land.ranges as usize].as_chunks::<2>();
    pairs.partition_point(|pair| pair[0] < address)
}

/// The part of a table that a flush has still to merge stands as far up as the free pairs allow: what is merged never
/// reaches it, and there is room for one pair more as long as the two do not meet.
struct Gap<'m> {
    nodes: &'m mut [u64],
    /// The number of pairs merged.
    to: usize,
    /// The pairs still to merge.
    from: usize,
    end: usize,
}

impl Gap<'_> {
    /// Merges a range of the list into the table and answers as an insert; `apart` says that no byte is in both lands.
    #[inline(always)]
    fn put(&mut self, met: Node, apart: bool) -> u64 {
        while self.from != self.end && self.nodes[2 * self.from] < met.base {
            set_pair(self.nodes, self.to, self.nodes[2 * self.from], self.nodes[2 * self.from + 1]);
            self.to += 1;
            self.from += 1;
        }
        if !apart && self.overlaps(met) {
            return ANSWER_OVERLAP;
        }
        let joins_below = self.to != 0 && self.nodes[2 * self.to - 1] == met.base;
        let joins_above = self.from != self.end && self.nodes[2 * self.from] == met.limit;
        if !joins_below && !joins_above && self.to == self.from {
            return ANSWER_FULL;
        }
        let mut limit = met.limit;
        if joins_above {
            limit = self.nodes[2 * self.from + 1];
            self.from += 1;
        }
        if !joins_below {
            self.nodes[2 * self.to] = met.base;
            self.to += 1;
        }
        self.nodes[2 * self.to - 1] = limit;
        ANSWER_OK
    }

    /// Does a range overlap the last pair merged or the next one?
    fn overlaps(&self, met: Node) -> bool {
        (self.to != 0 && self.nodes[2 * self.to - 1] > met.base)
            || (self.from != self.end && self.nodes[2 * self.from] < met.limit)
    }

    /// Closes the gap: the number of pairs.
    fn close(self) -> usize {
        let ranges = self.end - (self.from - self.to);
        if self.to != self.from {
            self.nodes.copy_within(2 * self.from..2 * self.end, 2 * self.to);
            self.nodes[2 * ranges..2 * self.end].fill(0);
        }
        ranges
    }
}

/// Moves the list's ranges into the table until one is refused. The head's place there is i. Answers the refusal, or 0.
#[inline(always)]
pub(super) fn flush_apart(pair: &mut Pair, words: &[u64], nodes: &mut [u64], i: usize, apart: bool) -> u64 {
    let ranges = pair.block.ranges as usize;
    let shift = (nodes.len() / 2 - ranges).min(pair.list.ranges as usize);
    if shift != 0 {
        nodes.copy_within(2 * i..2 * ranges, 2 * (i + shift));
    }
    let mut gap = Gap { nodes, to: i, from: i + shift, end: ranges + shift };
    let (mut stop, mut moved, mut bytes) = (ANSWER_OK, 0, 0);
    let mut met = node_at(&pair.list, words, pair.list.head);
    while met.base != 0 {
        stop = gap.put(met, apart);
        if stop != ANSWER_OK {
            break;
        }
        moved += 1;
        bytes += met.limit - met.base;
        met = node_at(&pair.list, words, met.next);
    }
    pair.list.head = met.base;
    pair.list.ranges -= moved;
    pair.list.bytes -= bytes;
    pair.block.bytes += bytes;
    pair.block.ranges = gap.close() as u64;
    stop
}

/// Where a request stands in both lands.
struct Place {
    below: Node,
    above: Node,
    /// Its place in the table, and the head's.
    i: usize,
    head: usize,
}

/// The place of an insert; none if a land is not sound or they overlap.
fn insert_place(pair: &Pair, words: &[u64], nodes: &[u64], r: Range) -> Option<Place> {
    let mut merge = Merge::from_first(pair, words, nodes)?;
    let ranges = pair.block.ranges as usize;
    let (mut below, mut above) = (Node::default(), Node::default());
    while merge.walk.at != 0 && merge.walk.at < r.base {
        below = merge.step()?;
    }
    merge.pairs_while(|base, _| base < r.base)?;
    let i = ranges - merge.left();
    if merge.walk.at != 0 {
        above = merge.step()?;
    }
    merge.finish(pair)?;
    Some(Place { below, above, i, head: ranges - merge.above_head })
}

#[inline(never)]
pub fn pair_insert(mut pair: Pair, words: &mut [u64], nodes: &mut [u64], r: Range) -> Changed<Pair> {
    if !set_up_ok(&pair, words.len(), nodes.len()) {
        return no_change(pair, ANSWER_SET_UP);
    }
    let Some(Place { mut below, mut above, mut i, head }) = insert_place(&pair, words, nodes, r) else {
        return no_change(pair, ANSWER_DAMAGED);
    };
    if !range_ok(pair.list.base, pair.list.limit, pair.list.align, r) {
        return no_change(pair, ANSWER_REQUEST);
    }
    if list_overlaps(below, above, r) || table_overlaps(&pair.block, nodes, i, r) {
        return no_change(pair, ANSWER_OVERLAP);
    }
    let before = pair.list.ranges;
    if before != 0 {
        flush_apart(&mut pair, words, nodes, head, true);
    }
    if pair.list.ranges != before {
        i = pairs_below(&pair.block, nodes, r.base);
        if pair.list.head == 0 || below.base < pair.list.head {
            below = Node::default();
            above = node_at(&pair.list, words, pair.list.head);
        }
    }
    let all = match block_put(&mut pair.block, nodes, i, r) {
        Some(all) => all,
        None => list_put(&mut pair.list, words, below, above, r),
    };
    note_pair(&mut pair);
    changed(pair, ANSWER_OK, all)
}

/// Are all bytes of `r` free? `met` of the list and pair i are the last that do not begin above its base, or the first.
fn all_free(pair: &Pair, words: &[u64], nodes: &[u64], mut met: Node, mut i: usize, r: Range) -> bool {
    let ranges = pair.block.ranges as usize;
    let mut at = r.base;
    loop {
        let before = at;
        while i < ranges && nodes[2 * i] <= at {
            at = at.max(nodes[2 * i + 1]);
            i += 1;
        }
        while met.base != 0 && met.base <= at {
            at = at.max(met.limit);
            met = node_at(&pair.list, words, met.next);
        }
        if before == at || at >= r.limit {
            return at >= r.limit;
        }
    }
}

/// Takes `r` out of the inside of pair i of a full table: the upper end that is left goes to the list, above `met`.
fn hand_over(pair: &mut Pair, words: &mut [u64], nodes: &mut [u64], i: usize, met: Node, r: Range) {
    let upper = Range { base: r.limit, limit: nodes[2 * i + 1] };
    let next = if met.base != 0 { met.next } else { pair.list.head };
    let above = node_at(&pair.list, words, next);
    nodes[2 * i + 1] = r.base;
    pair.block.bytes -= upper.limit - r.base;
    list_put(&mut pair.list, words, met, above, upper);
    note_list(&mut pair.list);
}

/// The last range of the list that does not begin above a request, the base of the one before it, and the number of
/// such pairs; none if a land is not sound or they overlap.
fn delete_place(pair: &Pair, words: &[u64], nodes: &[u64], r: Range) -> Option<(u64, Node, usize)> {
    let mut merge = Merge::from_first(pair, words, nodes)?;
    let (mut below, mut met) = (0, Node::default());
    while merge.walk.at != 0 && merge.walk.at <= r.base {
        below = met.base;
        met = merge.step()?;
    }
    merge.pairs_while(|base, _| base <= r.base)?;
    let behind = pair.block.ranges as usize - merge.left();
    merge.finish(pair)?;
    Some((below, met, behind))
}

#[inline(never)]
pub fn pair_delete(mut pair: Pair, words: &mut [u64], nodes: &mut [u64], r: Range) -> Changed<Pair> {
    if !set_up_ok(&pair, words.len(), nodes.len()) {
        return no_change(pair, ANSWER_SET_UP);
    }
    let Some((below, met, behind)) = delete_place(&pair, words, nodes, r) else {
        return no_change(pair, ANSWER_DAMAGED);
    };
    if !range_ok(pair.list.base, pair.list.limit, pair.list.align, r) {
        return no_change(pair, ANSWER_REQUEST);
    }
    if r.limit <= met.limit {
        list_take(&mut pair.list, words, below, met, r);
        note_list(&mut pair.list);
        return changed(pair, ANSWER_OK, Range { base: met.base, limit: met.limit });
    }
    if behind == 0 || nodes[2 * behind - 1] < r.limit {
        let from = if met.base != 0 { met } else { node_at(&pair.list, words, pair.list.head) };
        let free = all_free(&pair, words, nodes, from, behind.saturating_sub(1), r);
        return no_change(pair, if free { ANSWER_IN_BOTH } else { ANSWER_OVERLAP });
    }
    let old = Range { base: nodes[2 * behind - 2], limit: nodes[2 * behind - 1] };
    if old.base < r.base && r.limit < old.limit && pair.block.ranges as usize == nodes.len() / 2 {
        hand_over(&mut pair, words, nodes, behind - 1, met, r);
    } else {
        block_take(&mut pair.block, nodes, behind - 1, old, r);
    }
    note_block(&mut pair.block);
    changed(pair, ANSWER_OK, old)
}

/// Where a find came to rest.
enum Rest {
    /// In a range of the list, which follows the range at `below`.
    List {
        below: u64,
        met: Node,
    },
    /// At a pair.
    Table(usize),
    Nowhere,
}

impl Merge<'_> {
    /// Merges as far as the first range, in either land, that has the size; none if something is not sound.
    #[inline(always)]
    fn shorter(&mut self, pair: &Pair, size: u64) -> Option<Rest> {
        let ranges = pair.block.ranges as usize;
        let mut met = Node::default();
        while self.walk.at != 0 {
            let below = met.base;
            met = self.walk.step(self.words)?;
            self.pairs_while(|base, limit| base < met.base && limit.wrapping_sub(base) < size)?;
            let stopped = self.left();
            self.catch_up(met)?;
            if self.left() != stopped {
                return Some(Rest::Table(ranges - stopped));
            }
            if met.limit - met.base >= size {
                return Some(Rest::List { below, met });
            }
        }
        self.pairs_while(|base, limit| limit.wrapping_sub(base) < size)?;
        Some(if self.pairs.is_empty() { Rest::Nowhere } else { Rest::Table(ranges - self.left()) })
    }
}

/// Reads both lands of a pair; none if one is not sound or they overlap.
pub(super) fn judge(pair: &Pair, words: &[u64], nodes: &[u64]) -> Option<()> {
    Merge::from_first(pair, words, nodes)?.finish(pair)
}

/// Where a find of this size comes to rest; none if a land is not sound or they overlap.
fn find_place(pair: &Pair, words: &[u64], nodes: &[u64], size: u64) -> Option<Rest> {
    let mut merge = Merge::from_first(pair, words, nodes)?;
    let rest = merge.shorter(pair, size)?;
    merge.finish(pair)?;
    Some(rest)
}

#[inline(never)]
pub fn pair_find_first(mut pair: Pair, words: &mut [u64], nodes: &mut [u64], size: u64, mode: u64) -> Found<Pair> {
    if !set_up_ok(&pair, words.len(), nodes.len()) {
        return not_found(pair, ANSWER_SET_UP);
    }
    let Some(rest) = find_place(&pair, words, nodes, size) else {
        return not_found(pair, ANSWER_DAMAGED);
    };
    if !find_ok(pair.list.align, size, mode) {
        return not_found(pair, ANSWER_REQUEST);
    }
    let old = match rest {
        Rest::List { met, .. } => Range { base: met.base, limit: met.limit },
        Rest::Table(i) => Range { base: nodes[2 * i], limit: nodes[2 * i + 1] },
        Rest::Nowhere => return not_found(pair, ANSWER_NONE),
    };
    let range = part(old, size, mode);
    match rest {
        _ if mode == MODE_NONE => {}
        Rest::List { below, met } => {
            list_take(&mut pair.list, words, below, met, range);
            note_list(&mut pair.list);
        }
        Rest::Table(i) => {
            block_take(&mut pair.block, nodes, i, old, range);
            note_block(&mut pair.block);
        }
        Rest::Nowhere => {}
    }
    Found { land: pair, answer: ANSWER_OK, range, old }
}
