//! Lent memory with guard words around it.

/// Words that are lent, in the middle of an allocation of exactly the guards and the words. With no guards, a tool that
/// watches memory sees every access outside the words.
#[derive(Clone, Debug)]
pub struct Lent {
    memory: Box<[u64]>,
    front: Vec<u64>,
    back: Vec<u64>,
}

impl Lent {
    /// Lends a copy of the words between these guards.
    pub fn new(words: &[u64], front: &[u64], back: &[u64]) -> Lent {
        let memory = [front, words, back].concat();
        Lent { memory: memory.into_boxed_slice(), front: front.to_vec(), back: back.to_vec() }
    }

    /// The lent words.
    pub fn words(&self) -> &[u64] {
        &self.memory[self.front.len()..self.memory.len() - self.back.len()]
    }

    /// The lent words, to be lent or written by the host.
    pub fn words_mut(&mut self) -> &mut [u64] {
        let behind = self.memory.len() - self.back.len();
        &mut self.memory[self.front.len()..behind]
    }

    /// Do all guard words have their values?
    pub fn guards_hold(&self) -> bool {
        self.memory.starts_with(&self.front) && self.memory.ends_with(&self.back)
    }

    /// The whole allocation, guards included, to try the comparison.
    pub fn everything_mut(&mut self) -> &mut [u64] {
        &mut self.memory
    }
}
