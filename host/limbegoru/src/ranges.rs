//! The ranges of a land, one by one.

use core::iter::FusedIterator;

use crate::{BlockLand, ListLand, Range, Refusal};

/// The ranges of a land in address order, each met by a walk from the limit of the one before. A refusal other than
/// [`Refusal::NoneFound`] is the last item. `ranges` of a land makes it.
///
/// ```
/// use limbegoru::{BlockLand, ListLand, Range, Ranges, Refusal};
///
/// fn longest(ranges: Ranges<'_>) -> Result<u64, Refusal> {
///     ranges.map(|range| range.map(Range::length)).try_fold(0, |most, length| Ok(most.max(length?)))
/// }
///
/// let (mut words, mut nodes) = ([0; 8], [0; 4]);
/// let mut list = ListLand::open(4096, 4160, 8, &mut words)?;
/// list.insert(Range::new(4096, 4112))?;
/// list.insert(Range::new(4120, 4144))?;
/// assert_eq!(longest(list.ranges()), Ok(24));
/// let block = BlockLand::open(4096, 4160, 8, &mut nodes)?;
/// assert_eq!(longest(block.ranges()), Ok(0));
/// # Ok::<(), Refusal>(())
/// ```
#[derive(Clone, Debug)]
#[must_use = "a range is met when it is asked for"]
pub struct Ranges<'a> {
    land: Land<'a>,
    from: Option<u64>,
}

/// The land that is walked.
#[derive(Clone, Copy, Debug)]
pub(crate) enum Land<'a> {
    List(&'a ListLand<'a>),
    Block(&'a BlockLand<'a>),
}

impl<'a> Ranges<'a> {
    /// Walks from 0 on.
    pub(crate) fn new(land: Land<'a>) -> Ranges<'a> {
        Ranges { land, from: Some(0) }
    }
}

impl Iterator for Ranges<'_> {
    type Item = Result<Range, Refusal>;

    fn next(&mut self) -> Option<Result<Range, Refusal>> {
        let from = self.from.take()?;
        let met = match self.land {
            Land::List(land) => land.walk(from),
            Land::Block(land) => land.walk(from),
        };
        match met {
            Ok(range) => self.from = Some(range.limit),
            Err(Refusal::NoneFound) => return None,
            Err(_) => {}
        }
        Some(met)
    }
}

impl FusedIterator for Ranges<'_> {}
