//! Slips in the pair's calls: what they need of the call as the model did it.

mod changes;
mod finds;
mod refusals;

use differential::given::{Given, Lands};
use limbegoru_model::{block, flush, list, BlockHandle, Call, Done, ListHandle, LowWater, Pair, Range};

use crate::PairCall;

/// The range of a set that holds the byte.
fn holding(set: &[Range], byte: u64) -> Range {
    *set.iter().find(|range| range.base <= byte && byte < range.limit).expect("the byte is free")
}

impl PairCall<'_> {
    /// What the call was given.
    fn given(&self) -> Given<'_> {
        Given { pair: self.pair, words: &self.before[0], nodes: &self.before[1] }
    }

    /// The sets before, if both lands are sound and of one arena.
    fn lands(&self) -> Option<Lands> {
        self.given().lands()
    }

    /// The sets before an accepted call.
    fn accepted(&self) -> Option<Lands> {
        self.lands().filter(|_| self.done.answer == 0)
    }

    /// Takes back what the call did.
    fn back(&mut self) {
        self.words.copy_from_slice(&self.before[0]);
        self.nodes.copy_from_slice(&self.before[1]);
        *self.done = Done::refused(self.pair, 0);
    }

    /// Flushes the list of what the call left.
    fn flush(&mut self) {
        let Pair { list, block } = self.done.land;
        let flushed = flush::flush(list, self.words, block, self.nodes);
        self.done.land = Pair { list: flushed.list, block: flushed.block };
        self.read_low_water_once();
    }

    /// A call of the list land on what the call left.
    fn by_list(&mut self, call: Call) {
        let Done { land, answer, range, old } = list::call(self.done.land.list, self.words, &call);
        *self.done = Done { land: Pair { list: land, ..self.done.land }, answer, range, old };
        self.read_low_water_once();
    }

    /// A call of the block land on what the call left.
    fn by_block(&mut self, call: Call) {
        let Done { land, answer, range, old } = block::call(self.done.land.block, self.nodes, &call);
        *self.done = Done { land: Pair { block: land, ..self.done.land }, answer, range, old };
        self.read_low_water_once();
    }

    /// Low water as one accepted call that leaves these bytes gives it, so that a slip differs in nothing else.
    fn read_low_water_once(&mut self) {
        let Pair { list, block } = &mut self.done.land;
        let LowWater { filled, low } = self.pair.list.low_water().noted(list.bytes);
        *list = ListHandle { filled, low, ..*list };
        let LowWater { filled, low } = self.pair.block.low_water().noted(block.bytes);
        *block = BlockHandle { filled, low, ..*block };
    }
}
