//! One owner's queue that grows and shrinks.
//!
//! A [`Cores`] has cores, each a [`DelayCore`](crate::parts::owner::DelayCore) under a number of its own. All inserts go into one of them, the
//! open core; the others drain: what is in them stays, and comes out there. A core that has drained can be taken out
//! and folded; its words stay, so its keys stay refused.

mod cores;
mod folds;
mod moving;
mod notes;
mod sizing;
mod store;
mod sweeping;
mod sweeps;

/// After each tick: where nothing has a wake.
pub(crate) const NEVER: u64 = u64::MAX;

pub use cores::{Cores, TakeError};
pub use folds::Folds;
pub use moving::{Moved, NextDeadline};
pub use sizing::{Sizing, CORES};
pub use store::{SizedStore, Store};
