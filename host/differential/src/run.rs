//! One run of calls: each is made on the component and on the model, and compared.

use std::collections::BTreeMap;
use std::fmt::Debug;

use limbegoru_model::answer::{ACCEPTED, FULL};
use limbegoru_model::{
    block, flush, list, pair, BlockHandle, Call, Done, Find, Flushed, ListHandle, Opened, Pair, Range,
};

use crate::branches;
use crate::compare::{compare, Report};
use crate::component::Component;
use crate::given::Given;
use crate::lent::Lent;
use crate::random::Random;

/// Calls made, by answer number; those of pairs also by branch.
#[derive(Clone, Debug, Default, PartialEq, Eq)]
pub struct Tally {
    /// How often the answer with this number was given.
    pub answers: [u64; 8],
    /// How often a call on a pair took the branch of this name.
    pub branches: BTreeMap<&'static str, u64>,
}

impl Tally {
    /// The number of calls.
    pub fn calls(&self) -> u64 {
        self.answers.iter().sum()
    }

    /// Counts the calls of another run too.
    pub fn add(&mut self, other: &Tally) {
        for (mine, theirs) in self.answers.iter_mut().zip(other.answers) {
            *mine += theirs;
        }
        for (name, count) in &other.branches {
            *self.branches.entry(name).or_default() += count;
        }
    }

    /// How often the branch ran that was taken least often of these.
    pub fn rarest<'n>(&self, names: &[&'n str]) -> (&'n str, u64) {
        let counted = names.iter().map(|name| (*name, self.branches.get(name).copied().unwrap_or(0)));
        counted.min_by_key(|(_, count)| *count).expect("there are names")
    }
}

/// What the model does with a call on a pair, which has no walk.
pub fn pair_call(given: Pair, words: &mut [u64], nodes: &mut [u64], call: &Call) -> Done<Pair> {
    let changed = |pair::Changed { pair, answer, range }| Done { land: pair, answer, range, old: Range::NOTHING };
    let found = |pair::Found { pair, answer, range, old }| Done { land: pair, answer, range, old };
    match *call {
        Call::Insert(range) => changed(pair::insert(given, words, nodes, range)),
        Call::Delete(range) => changed(pair::delete(given, words, nodes, range)),
        Call::Find(Find::First, size, mode) => found(pair::find_first(given, words, nodes, size, mode)),
        Call::Find(Find::Last, size, mode) => found(pair::find_last(given, words, nodes, size, mode)),
        Call::Find(Find::Largest, size, mode) => found(pair::find_largest(given, words, nodes, size, mode)),
        Call::Walk(_) => panic!("a pair has no walk"),
    }
}

/// A run: a component, a generator and what was counted.
pub struct Run<'c> {
    component: &'c dyn Component,
    name: String,
    seed: u64,
    /// The generator of the run.
    pub random: Random,
    /// What was counted.
    pub tally: Tally,
}

impl<'c> Run<'c> {
    /// A run with a name of its own under the seed.
    pub fn new(component: &'c dyn Component, name: &str, seed: u64) -> Run<'c> {
        let name = format!("{name}, {}", component.name());
        let random = Random::new(seed, &name);
        Run { component, name, seed, random, tally: Tally::default() }
    }

    /// The report of a disagreement at the present call.
    pub fn report(&self, call: &dyn Debug, before: &[&dyn Debug], difference: &str) -> Report {
        let mut text = format!("{}, seed {}, call {}:\n  {call:?}\n", self.name, self.seed, self.tally.calls());
        for (number, part) in before.iter().enumerate() {
            text += &format!("  given {number} {part:?}\n");
        }
        Report(text + difference)
    }

    /// Counts an answer that was expected and given.
    fn count(&mut self, answer: u64) {
        self.tally.answers[answer as usize] += 1;
    }

    /// Opens a list land.
    pub fn list_open(&mut self, ends: [u64; 3], lent: &mut Lent) -> Result<Opened<ListHandle>, Report> {
        let [base, limit, align] = ends;
        let before = lent.words().to_vec();
        let expected = list::open(base, limit, align, &before);
        let got = self.component.list_open(base, limit, align, lent.words_mut());
        compare(&expected, &got, &[(&before, lent)])
            .map_err(|difference| self.report(&("open a list land", ends), &[&before], &difference))?;
        self.count(got.answer);
        Ok(got)
    }

    /// A call on a list land.
    pub fn list_call(&mut self, land: ListHandle, lent: &mut Lent, call: &Call) -> Result<Done<ListHandle>, Report> {
        let before = lent.words().to_vec();
        let mut words = before.clone();
        let expected = list::call(land, &mut words, call);
        let got = self.component.list_call(land, lent.words_mut(), call);
        compare(&expected, &got, &[(&words, lent)])
            .map_err(|difference| self.report(call, &[&land, &before], &difference))?;
        self.count(got.answer);
        Ok(got)
    }

    /// Opens a block land.
    pub fn block_open(&mut self, ends: [u64; 3], lent: &mut Lent) -> Result<Opened<BlockHandle>, Report> {
        let [base, limit, align] = ends;
        let before = lent.words().to_vec();
        let mut nodes = before.clone();
        let expected = block::open(base, limit, align, &mut nodes);
        let got = self.component.block_open(base, limit, align, lent.words_mut());
        compare(&expected, &got, &[(&nodes, lent)])
            .map_err(|difference| self.report(&("open a block land", ends), &[&before], &difference))?;
        self.count(got.answer);
        Ok(got)
    }

    /// A call on a block land.
    pub fn block_call(&mut self, land: BlockHandle, lent: &mut Lent, call: &Call) -> Result<Done<BlockHandle>, Report> {
        let before = lent.words().to_vec();
        let mut nodes = before.clone();
        let expected = block::call(land, &mut nodes, call);
        let got = self.component.block_call(land, lent.words_mut(), call);
        compare(&expected, &got, &[(&nodes, lent)])
            .map_err(|difference| self.report(call, &[&land, &before], &difference))?;
        self.count(got.answer);
        Ok(got)
    }

    /// A flush.
    pub fn flush(
        &mut self,
        (list, arena): (ListHandle, &mut Lent),
        (block, space): (BlockHandle, &mut Lent),
    ) -> Result<Flushed, Report> {
        let (before, before_nodes) = (arena.words().to_vec(), space.words().to_vec());
        let (mut words, mut nodes) = (before.clone(), before_nodes.clone());
        let expected = flush::flush(list, &mut words, block, &mut nodes);
        let got = self.component.flush(list, arena.words_mut(), block, space.words_mut());
        compare(&expected, &got, &[(&words, arena), (&nodes, space)])
            .map_err(|difference| self.report(&"flush", &[&list, &before, &block, &before_nodes], &difference))?;
        self.count(got.answer);
        Ok(got)
    }

    /// A call on a pair, with the arena and node space.
    pub fn pair_call(&mut self, given: Pair, memories: [&mut Lent; 2], call: &Call) -> Result<Done<Pair>, Report> {
        let [arena, space] = memories;
        let (before, before_nodes) = (arena.words().to_vec(), space.words().to_vec());
        let (mut words, mut nodes) = (before.clone(), before_nodes.clone());
        let expected = pair_call(given, &mut words, &mut nodes, call);
        let same = expected.land == given && words == before && nodes == before_nodes;
        assert!(expected.answer == ACCEPTED || (same && expected.answer != FULL), "{call:?} {expected:?}");
        let got = self.component.pair_call(given, arena.words_mut(), space.words_mut(), call);
        compare(&expected, &got, &[(&words, arena), (&nodes, space)])
            .map_err(|difference| self.report(call, &[&given, &before, &before_nodes], &difference))?;
        self.count(got.answer);
        let given = Given { pair: given, words: &before, nodes: &before_nodes };
        for name in branches::taken(&given, call, &got) {
            *self.tally.branches.entry(name).or_default() += 1;
        }
        Ok(got)
    }
}
