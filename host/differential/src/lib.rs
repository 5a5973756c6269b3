//! The compiled component against the model of document 01 and of the requests K4 and K10.
//!
//! Every call is made on both. The whole result, every word of the lent memory and the guard words around it are
//! compared after every call. All calls follow from a seed, so a failure can be repeated; it is reported with the seed,
//! the number of the call, the handle, the words and the call.
//!
//! ```text
//! cargo test --release --offline                                            all parts
//! LIMBEGORU_SEED=7 LIMBEGORU_CALLS=50000000 cargo test --release --offline  other calls, and more
//! differential SEED CALLS                                                   the drawn parts only
//! valgrind differential 1 20000                                             a short run, every access watched
//! ```
//!
//! * [`parts`]: the kinds of calls that are compared, and the order in which they are run
//! * [`run`]: one run of calls, and the comparison
//! * [`component`]: the ways to call the component
//! * [`generate`], [`damage`], [`two`]: arenas, sets, requests; handles and words that are not sound; two lands
//! * [`given`], [`branches`]: a pair as a call was given it, and the branches of its calls, which are counted
#![forbid(unsafe_code)]
#![deny(missing_docs)]

pub mod branches;
pub mod compare;
pub mod component;
pub mod damage;
pub mod generate;
pub mod given;
pub mod lent;
pub mod parts;
pub mod random;
pub mod run;
pub mod two;
