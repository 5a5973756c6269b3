//! The comparison can fail: components with a slip in them are noticed, each by a short run.

mod calls;
mod low_water;
mod pair;
mod rules;

use differential::component::Component;
use differential::parts;
use differential::run::pair_call;
use limbegoru_model::{block, flush, list, BlockHandle, Call, Done, Flushed, ListHandle, Opened, Pair, Range};

/// The opening of a land as the model did it: the ends and the alignment, the lent length, and what it returned.
struct Opening<'a> {
    ends: [u64; 3],
    lent: usize,
    answer: &'a mut u64,
    filled: &'a mut u64,
    low: &'a mut u64,
}

/// A call on a list land as the model did it.
struct ListCall<'a> {
    /// The land's handle before.
    land: ListHandle,
    /// Its ranges before, if the set-up is good and the list sound.
    before: Option<Vec<Range>>,
    call: Call,
    done: &'a mut Done<ListHandle>,
    words: &'a mut [u64],
}

/// A call on a block land as the model did it.
struct BlockCall<'a> {
    /// The land's handle before.
    land: BlockHandle,
    /// Its ranges before, if the set-up is good and the table sound.
    before: Option<Vec<Range>>,
    call: Call,
    done: &'a mut Done<BlockHandle>,
    nodes: &'a mut [u64],
}

/// A flush as the model did it: both lands before, and the result.
struct FlushCall<'a> {
    list: ListHandle,
    words: Vec<u64>,
    block: BlockHandle,
    nodes: Vec<u64>,
    flushed: &'a mut Flushed,
}

/// A call on a pair as the model did it: the pair before, and the result.
struct PairCall<'a> {
    pair: Pair,
    before: [Vec<u64>; 2],
    call: Call,
    done: &'a mut Done<Pair>,
    words: &'a mut [u64],
    nodes: &'a mut [u64],
}

/// The model with a slip in it.
struct Slip {
    list_open: Box<dyn Fn(Opening)>,
    list: Box<dyn Fn(ListCall)>,
    block_open: Box<dyn Fn(Opening)>,
    block: Box<dyn Fn(BlockCall)>,
    flush: Box<dyn Fn(FlushCall)>,
    pair: Box<dyn Fn(PairCall)>,
}

/// The model itself.
fn no_slip() -> Slip {
    Slip {
        list_open: Box::new(|_| {}),
        list: Box::new(|_| {}),
        block_open: Box::new(|_| {}),
        block: Box::new(|_| {}),
        flush: Box::new(|_| {}),
        pair: Box::new(|_| {}),
    }
}

impl Component for Slip {
    fn name(&self) -> String {
        "slip".to_string()
    }

    fn list_open(&self, base: u64, limit: u64, align: u64, words: &mut [u64]) -> Opened<ListHandle> {
        let mut opened = list::open(base, limit, align, words);
        let Opened { land: ListHandle { filled, low, .. }, answer } = &mut opened;
        (self.list_open)(Opening { ends: [base, limit, align], lent: words.len(), answer, filled, low });
        opened
    }

    fn list_call(&self, land: ListHandle, words: &mut [u64], call: &Call) -> Done<ListHandle> {
        let arena = list::arena(land.base, land.limit, land.align, words);
        let before = arena.and_then(|arena| list::read(&arena, &land, words));
        let mut done = list::call(land, words, call);
        (self.list)(ListCall { land, before, call: *call, done: &mut done, words });
        done
    }

    fn block_open(&self, base: u64, limit: u64, align: u64, nodes: &mut [u64]) -> Opened<BlockHandle> {
        let mut opened = block::open(base, limit, align, nodes);
        let Opened { land: BlockHandle { filled, low, .. }, answer } = &mut opened;
        (self.block_open)(Opening { ends: [base, limit, align], lent: nodes.len(), answer, filled, low });
        opened
    }

    fn block_call(&self, land: BlockHandle, nodes: &mut [u64], call: &Call) -> Done<BlockHandle> {
        let arena = block::arena(land.base, land.limit, land.align, nodes);
        let before = arena.and_then(|arena| block::read(&arena, &land, nodes));
        let mut done = block::call(land, nodes, call);
        (self.block)(BlockCall { land, before, call: *call, done: &mut done, nodes });
        done
    }

    fn flush(&self, list: ListHandle, words: &mut [u64], block: BlockHandle, nodes: &mut [u64]) -> Flushed {
        let (before, before_nodes) = (words.to_vec(), nodes.to_vec());
        let mut flushed = flush::flush(list, words, block, nodes);
        (self.flush)(FlushCall { list, words: before, block, nodes: before_nodes, flushed: &mut flushed });
        flushed
    }

    fn pair_call(&self, pair: Pair, words: &mut [u64], nodes: &mut [u64], call: &Call) -> Done<Pair> {
        let before = [words.to_vec(), nodes.to_vec()];
        let mut done = pair_call(pair, words, nodes, call);
        (self.pair)(PairCall { pair, before, call: *call, done: &mut done, words, nodes });
        done
    }
}

/// The slip is noticed, and the report says how to repeat the call.
fn noticed(name: &str, slip: Slip) {
    let short = parts::drawn(&slip, 1, 10_000);
    match short.and_then(|_| parts::drawn(&slip, 1, 300_000)) {
        Ok(_) => panic!("nobody notices: {name}"),
        Err(report) => assert!(report.0.contains("seed 1, call "), "{name}: {report}"),
    }
}

/// A slip on list lands is noticed.
fn list_noticed(name: &str, list: impl Fn(ListCall) + 'static) {
    noticed(name, Slip { list: Box::new(list), ..no_slip() });
}

/// A slip on block lands is noticed.
fn block_noticed(name: &str, block: impl Fn(BlockCall) + 'static) {
    noticed(name, Slip { block: Box::new(block), ..no_slip() });
}

/// A slip in the flush is noticed.
fn flush_noticed(name: &str, flush: impl Fn(FlushCall) + 'static) {
    noticed(name, Slip { flush: Box::new(flush), ..no_slip() });
}

/// A slip on pairs is noticed.
fn pair_noticed(name: &str, pair: impl Fn(PairCall) + 'static) {
    noticed(name, Slip { pair: Box::new(pair), ..no_slip() });
}

#[test]
fn the_model_agrees_with_itself() {
    assert!(parts::drawn(&no_slip(), 1, 50_000).is_ok());
}
