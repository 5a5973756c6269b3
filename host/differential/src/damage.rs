//! Lands whose handle or words are not sound, or only just.

use limbegoru_model::arena::HIGHEST_LIMIT;
use limbegoru_model::{Arena, BlockHandle, ListHandle, LowWater, Range};

use crate::generate;
use crate::random::Random;

/// A range as a descriptor says it. In a list land it may have the tag of a grain.
#[derive(Clone, Copy, Debug)]
struct Entry {
    range: Range,
    grain: bool,
}

/// A list land with its arena and the ranges that it had before it was damaged.
pub struct ListState {
    /// The arena.
    pub arena: Arena,
    /// The ranges.
    pub ranges: Vec<Range>,
    /// The handle.
    pub land: ListHandle,
    /// The arena's words.
    pub words: Vec<u64>,
}

/// A block land with its arena and the ranges that it had before it was damaged.
pub struct BlockState {
    /// The arena.
    pub arena: Arena,
    /// The ranges.
    pub ranges: Vec<Range>,
    /// The handle.
    pub land: BlockHandle,
    /// Node space.
    pub nodes: Vec<u64>,
}

/// The entries of sound ranges.
fn entries_of(ranges: &[Range]) -> Vec<Entry> {
    ranges.iter().map(|range| Entry { range: *range, grain: range.length() == 8 }).collect()
}

/// One entry breaks a rule, or all keep them. The counts and low water will follow the entries, so that nothing else is
/// at fault.
fn fault_in_one(random: &mut Random, arena: &Arena, entry: &mut Entry) {
    let range = &mut entry.range;
    match random.below(6) {
        0 => range.base = generate::near(random, arena, range.base),
        1 => range.limit = generate::near(random, arena, range.limit),
        2 => entry.grain = !entry.grain,
        3 => range.limit = range.base.wrapping_add(random.pick(&[0, 8, 16])),
        4 => range.limit = arena.limit() + random.pick(&[0, 8, arena.align()]),
        _ => range.base = arena.base().wrapping_sub(random.pick(&[0, 8, arena.align()])),
    }
}

/// Two neighbours touch, overlap or change places, or one is twice there or in two pieces.
fn fault_in_two(random: &mut Random, arena: &Arena, entries: &mut Vec<Entry>) {
    let place = random.place(entries.len());
    let other = random.place(entries.len());
    let next = entries.get(place + 1).map_or(arena.limit(), |next| next.range.base);
    let chosen = entries[place];
    match random.below(5) {
        0 => entries[place].range.limit = next,
        1 => entries[place].range.limit = next.wrapping_add(random.pick(&[8, arena.align()])),
        2 => entries.swap(place, other),
        3 => entries.insert(place, chosen),
        _ => {
            let middle = chosen.range.base.wrapping_add(random.pick(&[8, arena.align()]));
            let low = Range::new(chosen.range.base, middle);
            let high = Range::new(middle, chosen.range.limit);
            entries[place] = Entry { range: low, grain: low.length() == 8 };
            entries.insert(place + 1, Entry { range: high, grain: high.length() == 8 });
        }
    }
}

/// At times one or two faults among the entries.
fn faults(random: &mut Random, arena: &Arena, entries: &mut Vec<Entry>) {
    let number = random.pick(&[0, 0, 0, 1, 1, 2]);
    for _ in 0..number {
        if entries.is_empty() {
            return;
        }
        if random.once_in(2) {
            let place = random.place(entries.len());
            fault_in_one(random, arena, &mut entries[place]);
        } else {
            fault_in_two(random, arena, entries);
        }
    }
}

/// The words of the entries, as far as they lie in the arena: next and tag, and a block's limit.
fn lay_out(arena: &Arena, entries: &[Entry], words: &mut [u64]) {
    for (i, entry) in entries.iter().enumerate() {
        let next = entries.get(i + 1).map_or(0, |next| next.range.base);
        let first = entry.range.base.wrapping_sub(arena.base()) / 8;
        if first >= words.len() as u64 {
            continue;
        }
        let first = first as usize;
        words[first] = next.wrapping_add(u64::from(entry.grain));
        if !entry.grain && first + 1 < words.len() {
            words[first + 1] = entry.range.limit;
        }
    }
}

/// The bytes that a walk over the entries would count.
fn counted(entries: &[Entry], list: bool) -> u64 {
    let length = |entry: &Entry| match entry.grain && list {
        true => 8,
        false => entry.range.limit.wrapping_sub(entry.range.base),
    };
    entries.iter().map(length).fold(0, u64::wrapping_add)
}

/// A number in place of another one: a near one, or one with a meaning.
fn instead(random: &mut Random, arena: &Arena, ranges: &[Range], number: u64) -> u64 {
    match random.below(8) {
        0..=3 => generate::near(random, arena, number),
        4 => random.pick(&[0, 1, u64::MAX, 1 << 63, number ^ (1 << 63), number.wrapping_mul(2), number / 2]),
        5 => random.pick(&[HIGHEST_LIMIT, HIGHEST_LIMIT + 8, HIGHEST_LIMIT + arena.align(), 4, 8, 4096, 8192]),
        _ => generate::number(random, arena, ranges),
    }
}

/// Another mark or low water: a bad mark, an unset mark, or a low water near the free bytes or far above them.
fn other_low_water(random: &mut Random, LowWater { filled, low }: LowWater, bytes: u64) -> LowWater {
    let bad_mark = random.pick(&[2, 3, 256, 1 << 32, (1 << 32) + 1, 1 << 63, u64::MAX]);
    let near = bytes.wrapping_add(random.pick(&[0, 1, 8]));
    match random.below(5) {
        0 => LowWater { filled: bad_mark, low },
        1 => LowWater { filled, low: near },
        2 => LowWater { filled, low: random.pick(&[1 << 63, low ^ (1 << 63), u64::MAX]) },
        3 => LowWater { filled: 0, low },
        _ => LowWater { filled: 0, low: random.pick(&[0, 8, bytes]) },
    }
}

/// Makes the memory shorter or longer.
fn other_length(random: &mut Random, words: &mut Vec<u64>) {
    let length = words.len();
    let by = random.pick(&[1, 1, 1, 2, 3]);
    match random.below(5) {
        0 | 1 => words.truncate(length.saturating_sub(by)),
        2 | 3 => words.resize(length + by, random.pick(&[0, 1])),
        _ => words.clear(),
    }
}

impl ListState {
    /// A sound land of the arena.
    pub fn sound(random: &mut Random, arena: Arena) -> ListState {
        let ranges = generate::ranges(random, &arena, 40);
        ListState::of(random, arena, &ranges)
    }

    /// The sound land of these ranges.
    pub fn of(random: &mut Random, arena: Arena, ranges: &[Range]) -> ListState {
        let mut words = generate::words(random, &arena, arena.words() as usize);
        lay_out(&arena, &entries_of(ranges), &mut words);
        let mut state = ListState { arena, ranges: ranges.to_vec(), land: ListHandle::of(&arena, ranges), words };
        state.set_low_water(generate::low_water(random, state.land.bytes));
        state
    }

    /// Faults and damage, or none.
    pub fn worsen(&mut self, random: &mut Random) {
        let mut entries = entries_of(&self.ranges);
        faults(random, &self.arena, &mut entries);
        lay_out(&self.arena, &entries, &mut self.words);
        self.land.head = entries.first().map_or(0, |first| first.range.base);
        self.land.ranges = entries.len() as u64;
        self.land.bytes = counted(&entries, true);
        self.set_low_water(generate::low_water(random, self.land.bytes));
        for _ in 0..random.pick(&[0, 0, 1, 1, 2]) {
            self.damage(random);
        }
    }

    /// The land with this mark and low water.
    fn set_low_water(&mut self, LowWater { filled, low }: LowWater) {
        (self.land.filled, self.land.low) = (filled, low);
    }

    /// Changes one field, one word, the length, or the mark or low water.
    fn damage(&mut self, random: &mut Random) {
        match random.below(12) {
            0..=3 => self.damage_field(random),
            4 => other_length(random, &mut self.words),
            5 | 6 => self.set_low_water(other_low_water(random, self.land.low_water(), self.land.bytes)),
            _ => self.damage_word(random),
        }
    }

    /// Changes one field of the handle.
    fn damage_field(&mut self, random: &mut Random) {
        let ListHandle { base, limit, align, head, ranges, bytes, filled, low } = &mut self.land;
        let mut fields = [base, limit, align, head, ranges, bytes, filled, low];
        let field = &mut fields[random.place(8)];
        **field = instead(random, &self.arena, &self.ranges, **field);
    }

    /// Changes one word: the first or the second word of a range, or any.
    fn damage_word(&mut self, random: &mut Random) {
        if self.words.is_empty() {
            return;
        }
        let mut number = random.place(self.words.len());
        if !self.ranges.is_empty() && !random.once_in(4) {
            let first = self.arena.word_at(random.pick(&self.ranges).base);
            number = first + random.place(2);
        }
        if let Some(word) = self.words.get_mut(number) {
            *word = instead(random, &self.arena, &self.ranges, *word);
        }
    }
}

impl BlockState {
    /// A sound land of the arena, with so much room for further ranges.
    pub fn sound(random: &mut Random, arena: Arena, room: usize) -> BlockState {
        let ranges = generate::ranges(random, &arena, 40);
        BlockState::of(random, arena, &ranges, room)
    }

    /// The sound land of these ranges, with so much room for further ones and at times an odd last word.
    pub fn of(random: &mut Random, arena: Arena, ranges: &[Range], room: usize) -> BlockState {
        let mut nodes: Vec<u64> = ranges.iter().flat_map(|range| [range.base, range.limit]).collect();
        nodes.resize(2 * (ranges.len() + room), 0);
        if random.once_in(2) {
            nodes.push(generate::number(random, &arena, ranges));
        }
        let mut state = BlockState { arena, ranges: ranges.to_vec(), land: BlockHandle::of(&arena, ranges), nodes };
        state.set_low_water(generate::low_water(random, state.land.bytes));
        state
    }

    /// Faults and damage, or none.
    pub fn worsen(&mut self, random: &mut Random) {
        let mut entries = entries_of(&self.ranges);
        faults(random, &self.arena, &mut entries);
        let pairs = self.nodes.chunks_exact_mut(2);
        for (pair, entry) in pairs.zip(&entries) {
            pair.copy_from_slice(&[entry.range.base, entry.range.limit]);
        }
        self.land.ranges = entries.len() as u64;
        self.land.bytes = counted(&entries, false);
        self.set_low_water(generate::low_water(random, self.land.bytes));
        for _ in 0..random.pick(&[0, 0, 1, 1, 2]) {
            self.damage(random);
        }
    }

    /// The land with this mark and low water.
    fn set_low_water(&mut self, LowWater { filled, low }: LowWater) {
        (self.land.filled, self.land.low) = (filled, low);
    }

    /// Changes one field, one word, the length, or the mark or low water.
    fn damage(&mut self, random: &mut Random) {
        match random.below(12) {
            0..=3 => self.damage_field(random),
            4 => other_length(random, &mut self.nodes),
            5 | 6 => self.set_low_water(other_low_water(random, self.land.low_water(), self.land.bytes)),
            _ => self.damage_word(random),
        }
    }

    /// Changes one field of the handle.
    pub fn damage_field(&mut self, random: &mut Random) {
        let BlockHandle { base, limit, align, ranges, bytes, filled, low } = &mut self.land;
        let mut fields = [base, limit, align, ranges, bytes, filled, low];
        let field = &mut fields[random.place(7)];
        **field = instead(random, &self.arena, &self.ranges, **field);
    }

    /// Changes one word: a pair's base or limit, a word of the zero tail, or the last word.
    fn damage_word(&mut self, random: &mut Random) {
        let length = self.nodes.len();
        if length == 0 {
            return;
        }
        let held = (2 * self.ranges.len()).min(length);
        let number = match random.below(4) {
            0 | 1 if held > 0 => random.place(held),
            2 if held < length => held + random.place(length - held),
            3 => length - 1,
            _ => random.place(length),
        };
        self.nodes[number] = instead(random, &self.arena, &self.ranges, self.nodes[number]);
    }
}
