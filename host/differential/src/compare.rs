//! The comparison of a call with what the model expects.

use std::fmt::{self, Debug};

use crate::lent::Lent;

/// A disagreement, in words, with all that is needed to repeat the call.
#[derive(Clone, Debug, PartialEq, Eq)]
pub struct Report(pub String);

impl fmt::Display for Report {
    fn fmt(&self, f: &mut fmt::Formatter<'_>) -> fmt::Result {
        f.write_str(&self.0)
    }
}

/// Compares the whole result, every word of each lent memory, and the guards. Each memory stands beside the words that
/// are expected in it.
pub fn compare<R: PartialEq + Debug>(expected: &R, got: &R, memories: &[(&[u64], &Lent)]) -> Result<(), String> {
    if expected != got {
        return Err(format!("result\n  expected {expected:?}\n  got      {got:?}"));
    }
    for (number, (words, lent)) in memories.iter().enumerate() {
        compare_words(words, lent.words()).map_err(|difference| format!("memory {number}, {difference}"))?;
        if !lent.guards_hold() {
            return Err(format!("memory {number}, a guard word is written\n  got      {lent:?}"));
        }
    }
    Ok(())
}

/// Compares words.
fn compare_words(expected: &[u64], got: &[u64]) -> Result<(), String> {
    if expected == got {
        return Ok(());
    }
    let first = expected.iter().zip(got).position(|(one, other)| one != other);
    Err(format!("from word {first:?} on\n  expected {expected:?}\n  got      {got:?}"))
}

#[cfg(test)]
mod tests {
    use super::compare;
    use crate::lent::Lent;
    use limbegoru_model::{BlockHandle, Done, Flushed, ListHandle, Opened, Pair, Range};

    const LIST: ListHandle =
        ListHandle { base: 1, limit: 2, align: 3, head: 4, ranges: 5, bytes: 6, filled: 7, low: 8 };
    const BLOCK: BlockHandle = BlockHandle { base: 1, limit: 2, align: 3, ranges: 5, bytes: 6, filled: 7, low: 8 };

    /// A list handle with one field changed.
    fn list_but(field: usize) -> ListHandle {
        let mut changed = LIST;
        let ListHandle { base, limit, align, head, ranges, bytes, filled, low } = &mut changed;
        *[base, limit, align, head, ranges, bytes, filled, low][field] ^= 1 << 63;
        changed
    }

    /// A block handle with one field changed.
    fn block_but(field: usize) -> BlockHandle {
        let mut changed = BLOCK;
        let BlockHandle { base, limit, align, ranges, bytes, filled, low } = &mut changed;
        *[base, limit, align, ranges, bytes, filled, low][field] ^= 1;
        changed
    }

    #[test]
    fn every_field_of_a_call() {
        let done = Done { land: LIST, answer: 0, range: Range::new(7, 8), old: Range::new(9, 10) };
        assert!(compare(&done, &done, &[]).is_ok());
        for field in 0..8 {
            assert!(compare(&done, &Done { land: list_but(field), ..done }, &[]).is_err());
        }
        assert!(compare(&done, &Done { answer: 1, ..done }, &[]).is_err());
        assert!(compare(&done, &Done { range: Range::new(6, 8), ..done }, &[]).is_err());
        assert!(compare(&done, &Done { range: Range::new(7, 9), ..done }, &[]).is_err());
        assert!(compare(&done, &Done { old: Range::new(8, 10), ..done }, &[]).is_err());
        assert!(compare(&done, &Done { old: Range::new(9, 11), ..done }, &[]).is_err());
        let block = Done { land: BLOCK, answer: 0, range: Range::NOTHING, old: Range::NOTHING };
        for field in 0..7 {
            assert!(compare(&block, &Done { land: block_but(field), ..block }, &[]).is_err());
        }
    }

    #[test]
    fn every_field_of_an_opening_and_of_a_flush() {
        let opened = Opened { land: LIST, answer: 0 };
        assert!(compare(&opened, &Opened { land: list_but(6), ..opened }, &[]).is_err());
        assert!(compare(&opened, &Opened { answer: 5, ..opened }, &[]).is_err());
        let flushed = Flushed { list: LIST, block: BLOCK, answer: 0, moved: 2, stop: 3 };
        assert!(compare(&flushed, &flushed, &[]).is_ok());
        assert!(compare(&flushed, &Flushed { list: list_but(7), ..flushed }, &[]).is_err());
        assert!(compare(&flushed, &Flushed { block: block_but(6), ..flushed }, &[]).is_err());
        assert!(compare(&flushed, &Flushed { answer: 5, ..flushed }, &[]).is_err());
        assert!(compare(&flushed, &Flushed { moved: 1, ..flushed }, &[]).is_err());
        assert!(compare(&flushed, &Flushed { stop: 0, ..flushed }, &[]).is_err());
    }

    #[test]
    fn every_handle_of_a_pair() {
        let pair = Pair { list: LIST, block: BLOCK };
        let done = Done { land: pair, answer: 7, range: Range::NOTHING, old: Range::NOTHING };
        assert!(compare(&done, &done, &[]).is_ok());
        for field in 0..8 {
            let land = Pair { list: list_but(field), ..pair };
            assert!(compare(&done, &Done { land, ..done }, &[]).is_err());
        }
        for field in 0..7 {
            let land = Pair { block: block_but(field), ..pair };
            assert!(compare(&done, &Done { land, ..done }, &[]).is_err());
        }
    }

    #[test]
    fn every_word_and_every_guard() {
        let words = [1, 2, 3, 4];
        let sound = Lent::new(&words, &[5, 6], &[7, 8]);
        assert!(compare(&0, &0, &[(&words, &sound), (&words, &sound)]).is_ok());
        for number in 0..8 {
            let mut changed = sound.clone();
            changed.everything_mut()[number] ^= 1 << (number * 9);
            assert!(compare(&0, &0, &[(&words, &changed)]).is_err(), "word {number}");
            assert!(compare(&0, &0, &[(&words, &sound), (&words, &changed)]).is_err(), "word {number}");
        }
        assert!(compare(&0, &0, &[(&words[..3], &sound)]).is_err());
    }
}
