//! The ways to call the component.

mod by_land;
mod by_pointer;
mod by_value;

use limbegoru_model::{BlockHandle, Call, Done, Flushed, ListHandle, Opened, Pair, Range};

pub use by_land::ByLand;
pub use by_pointer::ByPointer;
pub use by_value::ByValue;

/// All calls of both lands and of a pair, with the model's types. Every memory can be written, so that a component that writes where
/// it must not can be tried too.
pub trait Component {
    /// The name in reports.
    fn name(&self) -> String;
    /// Opens a list land.
    fn list_open(&self, base: u64, limit: u64, align: u64, words: &mut [u64]) -> Opened<ListHandle>;
    /// A call on a list land.
    fn list_call(&self, land: ListHandle, words: &mut [u64], call: &Call) -> Done<ListHandle>;
    /// Opens a block land.
    fn block_open(&self, base: u64, limit: u64, align: u64, nodes: &mut [u64]) -> Opened<BlockHandle>;
    /// A call on a block land.
    fn block_call(&self, land: BlockHandle, nodes: &mut [u64], call: &Call) -> Done<BlockHandle>;
    /// A flush.
    fn flush(&self, list: ListHandle, words: &mut [u64], block: BlockHandle, nodes: &mut [u64]) -> Flushed;
    /// A call on a pair, which has no walk.
    fn pair_call(&self, pair: Pair, words: &mut [u64], nodes: &mut [u64], call: &Call) -> Done<Pair>;
}

/// The model's range for the component.
fn range_in(range: Range) -> limbegoru::Range {
    limbegoru::Range { base: range.base, limit: range.limit }
}

/// The component's range for the model.
fn range_out(range: limbegoru::Range) -> Range {
    Range { base: range.base, limit: range.limit }
}

/// The model's list handle for the component.
fn list_in(land: ListHandle) -> limbegoru::ListHandle {
    let ListHandle { base, limit, align, head, ranges, bytes, filled, low } = land;
    limbegoru::ListHandle { base, limit, align, head, ranges, bytes, filled, low }
}

/// The component's list handle for the model.
fn list_out(land: limbegoru::ListHandle) -> ListHandle {
    let limbegoru::ListHandle { base, limit, align, head, ranges, bytes, filled, low } = land;
    ListHandle { base, limit, align, head, ranges, bytes, filled, low }
}

/// The model's block handle for the component.
fn block_in(land: BlockHandle) -> limbegoru::BlockHandle {
    let BlockHandle { base, limit, align, ranges, bytes, filled, low } = land;
    limbegoru::BlockHandle { base, limit, align, ranges, bytes, filled, low }
}

/// The component's block handle for the model.
fn block_out(land: limbegoru::BlockHandle) -> BlockHandle {
    let limbegoru::BlockHandle { base, limit, align, ranges, bytes, filled, low } = land;
    BlockHandle { base, limit, align, ranges, bytes, filled, low }
}

/// The model's handle of a pair for the component.
fn pair_in(pair: Pair) -> limbegoru::PairHandle {
    limbegoru::PairHandle { list: list_in(pair.list), block: block_in(pair.block) }
}

/// The component's handle of a pair for the model.
fn pair_out(pair: limbegoru::PairHandle) -> Pair {
    Pair { list: list_out(pair.list), block: block_out(pair.block) }
}
