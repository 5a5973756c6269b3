//! A model of document 01 and of the requests K4, K10 and K11: what every call on a list land, a block land or a pair
//! of them answers, returns and leaves in the lent words.
//!
//! It is written from the papers alone and in their order, and it works the plain way: the words are read as a set
//! of ranges or found not sound, the call is done on the set, and the words of the set are written. Every function is
//! total: every handle, every memory and every number has a result.
//!
//! * [`arena`]: arena, addresses, sizes
//! * [`list`]: handle, words and calls of the list land
//! * [`block`]: handle, words and calls of the block land
//! * [`set`]: the calls on a set of isolated ranges, and their order of checks; request K11, no 3 of a find
//! * [`flush`]: the flush
//! * [`low_water`]: request K10, the mark and the low water of a handle
//! * [`ledger`]: the ledger of demand 3, with the history's totals that request K10 reads
//! * [`pair`]: request K4, the pair that takes over, and its ledger
//!
//! ```
//! use limbegoru_model::{list, Call, Range};
//!
//! let mut words = [0; 8];
//! let opened = list::open(4096, 4160, 8, &words);
//! let range = Range::new(4096, 4112);
//! let done = list::call(opened.land, &mut words, &Call::Insert(range));
//! assert_eq!((done.answer, done.range), (0, range));
//! assert_eq!(words[..2], [0, 4112]);
//! let again = list::call(done.land, &mut words, &Call::Insert(range));
//! assert_eq!((again.answer, again.land), (1, done.land));
//! assert_eq!((opened.land.filled, again.land.filled, again.land.low), (0, 1, 16));
//! ```
#![forbid(unsafe_code)]
#![deny(missing_docs)]

pub mod answer;
pub mod arena;
pub mod block;
pub mod call;
pub mod flush;
pub mod ledger;
pub mod list;
pub mod low_water;
pub mod pair;
pub mod set;

pub use arena::{Arena, Range};
pub use block::BlockHandle;
pub use call::{Call, Done, Find, Opened};
pub use flush::Flushed;
pub use ledger::Ledger;
pub use list::ListHandle;
pub use low_water::LowWater;
pub use pair::ledger::PairLedger;
pub use pair::Pair;
