//! The rule by which receivers sleep and are woken, over any number of places without a common lock.
//!
//! Each place has a *hint*: nothing is due there before it. Who holds the place's lock writes it, and then asks until
//! when the *leader* sleeps. The leader, of those that wait the one that sleeps until the next deadline, first says
//! until when, and then looks at each hint. So one of the two sees the other. Between any two steps, who sleeps sleeps
//! beyond no hint, unless it was rung, or somebody awake has yet to ask.
//!
//! Who lowered a hint gets a `Rung`, which says whether it has the leader to wake. That it does so stays by hand, and
//! so does what sleeps: a thread that is parked, or a task.

mod closer;
mod hint;
mod leader;
mod line;
mod roll;
mod sleepers;
mod turns;

pub use hint::{Hint, Hints, Rung};
pub use sleepers::Call;
pub use turns::{Seat, Turns};

// The words from one hint to the next. Two of them lie in no cache line, so places don't wait for each other's.
pub(crate) const APART: usize = 16;

/// The hint of a place where nothing waits, and the tick of a sleep without an end.
pub const NEVER: u64 = 18446744073709551615;
