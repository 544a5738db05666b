//! One owner's delay queue over a row of words.
//!
//! A [`DelayCore`] holds entries until their deadline. [`DelayCore::poll`] notes a tick of one millisecond and takes
//! out what is due, one entry a call, or says when to come again. The deadline in force of an entry stands in its
//! slot's word: over [`VecWords`] the owner alone changes it, by calls of the queue; over words that others share
//! (any [`Words`]) a caller may extend or cancel an entry while the owner is at work, and the queue learns of it when
//! it looks.
//!
//! [`PlainQueue`] is the slow twin: a plain list, which is short enough to be read and has the same answers.

mod callers;
mod entries;
mod errors;
mod fold;
mod free_slots;
mod front;
mod key_calls;
mod outcomes;
mod owner;
mod packed_row;
mod pieces;
#[cfg(feature = "all-parts")]
mod plain;
mod queue;
mod readers;
mod renew;
mod slots;
mod sweeps;
mod vec_words;
mod words;

pub use entries::{Entries, LiveEntry};
pub use errors::{BadNumber, CoreConfig, CoreError, ReapError};
pub use fold::Folded;
pub use outcomes::{Expired, Piece, Removed, Swept, Tally, Turn};
#[cfg(feature = "all-parts")]
pub use plain::{Pending, PlainQueue, PlainTurn};
pub use queue::DelayCore;
pub use renew::RenewError;
pub use slots::Held;
#[cfg(all(test, feature = "std", feature = "all-parts"))]
pub use slots::Slots;
pub use vec_words::VecWords;
pub(crate) use words::Steps;
pub use words::{shown, CallError, Look, Settled, SharedWords, Words};
