//! Two lands, for a flush or a pair: of one arena or of two, apart and overlapping, sound and damaged.

use limbegoru_model::{set, Arena, Range};

use crate::damage::{BlockState, ListState};
use crate::random::Random;

/// The units of the arena dealt out: to the list, to the block land, to none, and at times to both.
fn deal(random: &mut Random, arena: &Arena) -> (Vec<Range>, Vec<Range>) {
    let (mut listed, mut tabled) = (Vec::new(), Vec::new());
    let overlapping = random.once_in(3);
    let mut base = arena.base();
    while base < arena.limit() {
        let limit = (base + arena.align() * random.pick(&[1, 1, 1, 2, 5])).min(arena.limit());
        let range = Range::new(base, limit);
        match random.below(12) {
            0..=3 => listed.push(range),
            4..=7 => tabled.push(range),
            8 if overlapping => {
                listed.push(range);
                tabled.push(range);
            }
            _ => {}
        }
        base = limit;
    }
    (set::isolated(listed), set::isolated(tabled))
}

/// A list land and a block land, apart or overlapping, equal or differing, sound or damaged.
pub fn lands(random: &mut Random, arena: Arena) -> (ListState, BlockState) {
    let (listed, tabled) = deal(random, &arena);
    let mut list = ListState::of(random, arena, &listed);
    let room = random.pick(&[0, 0, 1, 2, 3, 40]);
    let mut block = BlockState::of(random, arena, &tabled, room);
    if random.once_in(4) {
        list.worsen(random);
    }
    if random.once_in(4) {
        block.worsen(random);
    }
    if random.once_in(6) {
        differ(random, &mut block);
    }
    (list, block)
}

/// Base, limit or alignment of the block land becomes another one, which often keeps the rules.
fn differ(random: &mut Random, block: &mut BlockState) {
    let align = block.arena.align();
    let land = &mut block.land;
    match random.below(5) {
        0 => land.base = land.base.wrapping_sub(align),
        1 => land.limit = land.limit.wrapping_add(align),
        2 => land.align = align / 2,
        3 => land.align = align * 2,
        _ => block.damage_field(random),
    }
}
