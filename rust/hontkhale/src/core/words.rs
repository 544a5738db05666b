//! What the queue asks of its words: a row of packed words, one for each slot, and what their keeper knows of them.
//!
//! A word may be plain, and then only its keeper changes it, or shared, and then callers may extend or cancel a
//! live word at any moment. The keeper learns of such a step where it looks.

use crate::ticks::{Mark, Parts};
use core::fmt;

/// How a due entry was settled.
#[derive(Clone, Copy, Debug, PartialEq, Eq)]
pub enum Settled {
    /// The word was live at exactly the asked deadline, and is expired now.
    SettledExpired,
    /// The word is live at this later deadline.
    Later(u64),
    /// The word was cancelled.
    SettledCancelled,
}

/// What a word shows. Deadlines are ticks of one millisecond.
#[derive(Clone, Copy, Debug, PartialEq, Eq)]
pub enum Look {
    /// The entry is live, with this deadline in force.
    StillLive(u64),
    /// The entry was cancelled.
    LookCancelled,
    /// The entry expired at this deadline.
    LookExpired(u64),
    /// The entry was removed while this deadline was in force.
    LookRemoved(u64),
}

/// What a mark and a field show.
pub fn shown(mark: Mark, field: u64) -> Look {
    match mark {
        Mark::LiveMark => Look::StillLive(field),
        Mark::CancelledMark => Look::LookCancelled,
        Mark::ExpiredMark => Look::LookExpired(field),
        Mark::RemovedMark => Look::LookRemoved(field),
    }
}

impl fmt::Display for Look {
    fn fmt(&self, f: &mut fmt::Formatter<'_>) -> fmt::Result {
        match self {
            Look::StillLive(deadline) => write!(f, "the entry is live until {deadline}"),
            Look::LookCancelled => write!(f, "the entry was cancelled"),
            Look::LookExpired(deadline) => write!(f, "the entry expired at {deadline}"),
            Look::LookRemoved(deadline) => write!(f, "the entry was removed, its deadline was {deadline}"),
        }
    }
}

/// Why a call by key is refused.
#[derive(Clone, Copy, Debug, PartialEq, Eq)]
#[non_exhaustive]
pub enum CallError {
    /// The deadline is beyond the last tick, which is `limit`.
    TooFar {
        /// The last tick.
        limit: u64,
    },
    /// The key names no slot, or a stamp that its slot was not given.
    Unknown,
    /// The slot has the later stamp `seen`.
    Stale {
        /// The stamp that the slot has now.
        seen: u32,
    },
    /// The entry has ended, as `how` shows.
    Ended {
        /// How it ended.
        how: Look,
    },
}

impl fmt::Display for CallError {
    fn fmt(&self, f: &mut fmt::Formatter<'_>) -> fmt::Result {
        match self {
            CallError::TooFar { limit } => write!(f, "the deadline is beyond the last tick, {limit}"),
            CallError::Unknown => f.write_str("the key is unknown"),
            CallError::Stale { seen } => write!(f, "the key is stale, its slot has stamp {seen}"),
            CallError::Ended { how } => write!(f, "{how}"),
        }
    }
}

#[cfg(feature = "std")]
impl std::error::Error for CallError {}

/// A row of words, and what the keeper knows of them: the bound of whatever takes a queue over any words. No other crate's
/// types have it.
#[allow(private_bounds)]
pub trait Words: Steps {}

impl<W: Steps> Words for W {}

/// What the queue does with its words.
pub(crate) trait Steps {
    /// Whether a step of a word is a fence, behind which every later read waits: so it is where others may change the
    /// words.
    const FENCED: bool = true;

    /// The number of words.
    fn rows(&self) -> usize;

    /// The number itself, once the word was read, where its own step would wait for that behind a fence. Nothing is
    /// learned of the word. An index beyond the rows has none.
    fn once_read(&self, index: usize, number: u64) -> u64;

    /// Makes a word live at the next stamp, which is one more than its own, and at a deadline.
    fn begin(&mut self, index: usize, stamp: u32, when: u64);

    /// Looks at a word, by at most one step.
    fn look(&mut self, index: usize) -> Parts;

    /// Ends a word that is live at exactly `at` as expired, or tells the later deadline or the cancellation that it
    /// found, by at most one step.
    fn settle(&mut self, index: usize, stamp: u32, at: u64) -> Settled;

    /// Makes a live word live at the next stamp and at a deadline, and answers the deadline that was in force;
    /// None for a word that was cancelled, which stays.
    fn renew(&mut self, index: usize, stamp: u32, when: u64) -> Option<u64>;

    /// Makes a live word removed, and answers the deadline that was in force; None for a word that was cancelled,
    /// which stays.
    fn finish(&mut self, index: usize, stamp: u32) -> Option<u64>;

    /// Makes a live word removed if its deadline isn't after `tick`, and tells what the word shows then.
    fn finish_by(&mut self, index: usize, stamp: u32, tick: u64) -> Look;
}

/// Words whose callers are issued and given back.
pub trait SharedWords: Words {
    /// What may extend and cancel words without the keeper.
    type Caller;

    /// Why no caller is issued.
    type Fault;

    /// One caller more.
    fn issue(&mut self) -> Result<Self::Caller, Self::Fault>;

    /// The issued callers that are not given back.
    fn out(&mut self) -> u64;

    /// The accepted cancels of all callers, where none is out; else the number of callers that are out.
    fn returned(&mut self) -> Result<u64, u64>;
}
