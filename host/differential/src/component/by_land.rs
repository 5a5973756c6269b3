//! The component by the lands and the pair of the safe interface.

use limbegoru::{BlockLand, ListLand, Mode, Refusal};
use limbegoru_model::{BlockHandle, Call, Done, Find, Flushed, ListHandle, Opened, Pair, Range};

use super::{block_in, block_out, list_in, list_out, range_in, range_out, ByValue, Component};

/// The lands and the pair of the safe interface. A mode that they cannot name goes by value.
pub struct ByLand;

/// The result of a land as numbers; nothing stands for the handle.
fn numbers(result: Result<limbegoru::Found, Refusal>) -> (u64, Range, Range) {
    match result {
        Ok(found) => (0, range_out(found.range), range_out(found.old)),
        Err(refusal) => (refusal.number(), Range::NOTHING, Range::NOTHING),
    }
}

/// A range as a find's result, with the old range (0, 0).
fn alone(result: Result<limbegoru::Range, Refusal>) -> Result<limbegoru::Found, Refusal> {
    result.map(|range| limbegoru::Found { range, old: limbegoru::Range::default() })
}

/// The mode of a number.
fn mode_of(number: u64) -> Option<Mode> {
    [Mode::None, Mode::Low, Mode::High, Mode::Entire].into_iter().find(|mode| mode.number() == number)
}

/// A call on a land of either kind or on a pair, with what a walk does; nothing if the mode has no name.
macro_rules! on_land {
    ($land:expr, $call:expr, $from:ident => $walk:expr) => {
        match *$call {
            Call::Insert(range) => Some(alone($land.insert(range_in(range)))),
            Call::Delete(range) => Some(alone($land.delete(range_in(range)))),
            Call::Walk($from) => $walk,
            Call::Find(Find::First, size, mode) => mode_of(mode).map(|mode| $land.find_first(size, mode)),
            Call::Find(Find::Last, size, mode) => mode_of(mode).map(|mode| $land.find_last(size, mode)),
            Call::Find(Find::Largest, size, mode) => mode_of(mode).map(|mode| $land.find_largest(size, mode)),
        }
    };
}

impl Component for ByLand {
    fn name(&self) -> String {
        "by land".to_string()
    }

    fn list_open(&self, base: u64, limit: u64, align: u64, words: &mut [u64]) -> Opened<ListHandle> {
        match ListLand::open(base, limit, align, words) {
            Ok(land) => Opened { land: list_out(land.handle()), answer: 0 },
            Err(refusal) => Opened { land: ListHandle::default(), answer: refusal.number() },
        }
    }

    fn list_call(&self, land: ListHandle, words: &mut [u64], call: &Call) -> Done<ListHandle> {
        let mut lent = ListLand::from_parts(list_in(land), words);
        let result = on_land!(lent, call, from => Some(alone(lent.walk(from))));
        let (next, words) = lent.into_parts();
        match result.map(numbers) {
            Some((answer, range, old)) => Done { land: list_out(next), answer, range, old },
            None => ByValue.list_call(land, words, call),
        }
    }

    fn block_open(&self, base: u64, limit: u64, align: u64, nodes: &mut [u64]) -> Opened<BlockHandle> {
        match BlockLand::open(base, limit, align, nodes) {
            Ok(land) => Opened { land: block_out(land.handle()), answer: 0 },
            Err(refusal) => Opened { land: BlockHandle::default(), answer: refusal.number() },
        }
    }

    fn block_call(&self, land: BlockHandle, nodes: &mut [u64], call: &Call) -> Done<BlockHandle> {
        let mut lent = BlockLand::from_parts(block_in(land), nodes);
        let result = on_land!(lent, call, from => Some(alone(lent.walk(from))));
        let (next, nodes) = lent.into_parts();
        match result.map(numbers) {
            Some((answer, range, old)) => Done { land: block_out(next), answer, range, old },
            None => ByValue.block_call(land, nodes, call),
        }
    }

    fn flush(&self, list: ListHandle, words: &mut [u64], block: BlockHandle, nodes: &mut [u64]) -> Flushed {
        let mut from = ListLand::from_parts(list_in(list), words);
        let mut to = BlockLand::from_parts(block_in(block), nodes);
        let (answer, moved, stop) = match limbegoru::flush(&mut from, &mut to) {
            Ok(flushed) => (0, flushed.moved, flushed.stop.map_or(0, Refusal::number)),
            Err(refusal) => (refusal.number(), 0, 0),
        };
        Flushed { list: list_out(from.handle()), block: block_out(to.handle()), answer, moved, stop }
    }

    fn pair_call(&self, pair: Pair, words: &mut [u64], nodes: &mut [u64], call: &Call) -> Done<Pair> {
        let list = ListLand::from_parts(list_in(pair.list), words);
        let block = BlockLand::from_parts(block_in(pair.block), nodes);
        let mut lent = limbegoru::Pair::new(list, block);
        let result = on_land!(lent, call, _from => panic!("a pair has no walk"));
        let (list, block) = lent.into_lands();
        let next = Pair { list: list_out(list.handle()), block: block_out(block.handle()) };
        match result.map(numbers) {
            Some((answer, range, old)) => Done { land: next, answer, range, old },
            None => ByValue.pair_call(pair, list.into_parts().1, block.into_parts().1, call),
        }
    }
}
