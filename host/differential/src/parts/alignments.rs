//! The openings of [a, a) with alignment a and no words: both ends are multiples of the alignment whatever it is. 0 and
//! what lies above the highest limit are no alignments, and their ends are refused as well.

use crate::compare::Report;
use crate::lent::Lent;
use crate::run::Run;

/// How many numbers are drawn.
const DRAWN: u64 = 1_000_000;

/// Every power of two, with the numbers beside it.
fn beside_powers() -> impl Iterator<Item = u64> {
    (0..u64::BITS).flat_map(|k| [(1 << k) - 1, 1 << k, (1_u64 << k) + 1])
}

/// Both openings with every number below 2^16, every power of two and its neighbours, and drawn numbers, each length in
/// bits as often as another.
pub fn openings(run: &mut Run) -> Result<(), Report> {
    for align in (0..1 << 16).chain(beside_powers()) {
        opening(run, align)?;
    }
    for _ in 0..DRAWN {
        let shift = run.random.below(u64::BITS.into());
        let align = run.random.word() >> shift;
        opening(run, align)?;
    }
    Ok(())
}

/// Both openings with this alignment.
fn opening(run: &mut Run, align: u64) -> Result<(), Report> {
    let mut lent = Lent::new(&[], &[1], &[2]);
    run.list_open([align; 3], &mut lent)?;
    run.block_open([align; 3], &mut lent).map(|_| ())
}
