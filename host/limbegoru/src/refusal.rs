//! Refusals, with their numbers and in words.

use core::error::Error;
use core::fmt;

/// Why a call was refused. Nothing has changed then. The reasons are checked in the order set-up, damaged, request,
/// overlap or none found, full; on a pair set-up, damaged, request, overlap or none found, in both. It prints itself in
/// the words of `lg_answer_text` in `limbegoru.h`.
#[derive(Clone, Copy, Debug, PartialEq, Eq, Hash)]
#[non_exhaustive]
pub enum Refusal {
    /// Insert: some byte is already free. Delete: some byte is not free.
    Overlap = 1,
    /// No range qualifies.
    NoneFound = 2,
    /// Insert, delete: the block land would have more ranges than its capacity. No find answers it.
    Full = 3,
    /// The range, the size or the mode breaks the rules.
    Request = 4,
    /// The handle's fixed fields or the lent lengths break the arena rules; in a flush and on a pair, also if the two
    /// lands differ in base, limit or alignment.
    SetUp = 5,
    /// The list or table, or the handle's mark or low water, is not sound, or the lands of a pair overlap.
    Damaged = 6,
    /// Delete on a pair: every byte is free, but neither land holds all of them.
    InBoth = 7,
}

impl Refusal {
    /// All refusals, in the order of their numbers, which are 1, 2 and so on.
    pub const ALL: &'static [Refusal] = &[
        Refusal::Overlap,
        Refusal::NoneFound,
        Refusal::Full,
        Refusal::Request,
        Refusal::SetUp,
        Refusal::Damaged,
        Refusal::InBoth,
    ];

    /// Its answer number.
    pub const fn number(self) -> u64 {
        self as u64
    }

    /// The refusal of an answer number; nothing for 0, which is accepted, and for a number that is no answer.
    pub fn from_number(number: u64) -> Option<Refusal> {
        Refusal::ALL.iter().copied().find(|refusal| refusal.number() == number)
    }

    /// The answer as a result.
    pub(crate) fn check(answer: u64) -> Result<(), Refusal> {
        match Refusal::from_number(answer) {
            Some(refusal) => Err(refusal),
            None => {
                assert_eq!(answer, 0, "the component answers 0 to 7");
                Ok(())
            }
        }
    }
}

impl fmt::Display for Refusal {
    fn fmt(&self, f: &mut fmt::Formatter<'_>) -> fmt::Result {
        f.write_str(match self {
            Refusal::Overlap => "insert: some byte is already free; delete: some byte is not free",
            Refusal::NoneFound => "no range qualifies",
            Refusal::Full => "insert, delete: the block land would have more ranges than its capacity",
            Refusal::Request => "the range, the size or the mode breaks the rules",
            Refusal::SetUp => {
                "the handle's fixed fields or the lent lengths break the arena rules, or two lands have two arenas"
            }
            Refusal::Damaged => {
                "the list or table, or the handle's mark or low water, is not sound, or the lands of a pair overlap"
            }
            Refusal::InBoth => "delete on a pair: every byte is free, but neither land holds all of them",
        })
    }
}

impl Error for Refusal {}
