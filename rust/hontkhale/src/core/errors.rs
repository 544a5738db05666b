//! Why a call of the queue is refused, and what a queue is made by.

use crate::memory::AllocError;
use crate::ticks::{CAPACITY_LIMIT, LAST_STAMP};
use core::fmt;

/// Why a call of a queue is refused.
#[derive(Clone, Copy, Debug, PartialEq, Eq)]
#[non_exhaustive]
pub enum CoreError {
    /// The deadline is beyond the last tick.
    TooFar {
        /// The last tick.
        limit: u64,
    },
    /// No slot is free.
    Full {
        /// The entries that are linked.
        linked: usize,
        /// The slots that hold nothing and have no stamp left.
        worn: usize,
    },
    /// No entry is linked with that shard, index and birth stamp.
    Missing,
    /// The entry is linked, but a caller cancelled it.
    WasCancelled,
    /// The entry's slot has no stamp left for another key.
    Worn,
    /// The tick is beyond the last tick.
    TickTooLarge {
        /// The last tick.
        limit: u64,
    },
    /// The capacity or the last stamp is out of its range, or the words are not as many as the slots.
    BadConfig,
    /// Memory was refused.
    NoMemory,
}

impl fmt::Display for CoreError {
    fn fmt(&self, f: &mut fmt::Formatter<'_>) -> fmt::Result {
        match self {
            CoreError::TooFar { limit } => write!(f, "the deadline is beyond the last tick, {limit}"),
            CoreError::Full { linked, worn } => write!(f, "the queue is full: {linked} entries are linked and {worn} slots are worn"),
            CoreError::Missing => f.write_str("no such entry is linked"),
            CoreError::WasCancelled => f.write_str("the entry was cancelled"),
            CoreError::Worn => f.write_str("the entry's slot has no stamp left"),
            CoreError::TickTooLarge { limit } => write!(f, "the tick is beyond the last tick, {limit}"),
            CoreError::BadConfig => f.write_str("a number of the configuration is out of its range, which its `check` names, or the words aren't one a slot"),
            CoreError::NoMemory => f.write_str("out of memory"),
        }
    }
}

#[cfg(feature = "std")]
impl std::error::Error for CoreError {}

/// Why no entry is reaped.
#[derive(Clone, Copy, Debug, PartialEq, Eq)]
#[non_exhaustive]
pub enum ReapError {
    /// No entry is linked with that shard, index and birth stamp.
    Missing,
    /// The entry is live, and stays.
    Live,
}

impl fmt::Display for ReapError {
    fn fmt(&self, f: &mut fmt::Formatter<'_>) -> fmt::Result {
        match self {
            ReapError::Missing => f.write_str("no such entry is linked"),
            ReapError::Live => f.write_str("the entry is live"),
        }
    }
}

#[cfg(feature = "std")]
impl std::error::Error for ReapError {}

/// Which number of a configuration is out of its range.
#[derive(Clone, Copy, Debug, PartialEq, Eq)]
#[non_exhaustive]
pub enum BadNumber {
    /// The capacity isn't 1 to [`CAPACITY_LIMIT`].
    BadCapacity(usize),
    /// The last stamp isn't 1 to [`LAST_STAMP`].
    BadLastStamp(u32),
}

impl fmt::Display for BadNumber {
    fn fmt(&self, f: &mut fmt::Formatter<'_>) -> fmt::Result {
        match self {
            BadNumber::BadCapacity(it) => write!(f, "the capacity is {it}, and not 1 to {CAPACITY_LIMIT}"),
            BadNumber::BadLastStamp(it) => write!(f, "the last stamp is {it}, and not 1 to {LAST_STAMP}"),
        }
    }
}

#[cfg(feature = "std")]
impl std::error::Error for BadNumber {}

impl From<AllocError> for CoreError {
    fn from(_e: AllocError) -> CoreError {
        CoreError::NoMemory
    }
}

/// What a queue of one owner is made by.
#[derive(Clone, Copy, Debug, PartialEq, Eq)]
pub struct CoreConfig {
    /// The shard's number, which its keys carry.
    pub shard: u32,
    /// The number of slots, from 1 to [`CAPACITY_LIMIT`].
    pub capacity: usize,
    /// The stamp after which a slot is worn, from 1 to [`LAST_STAMP`].
    pub last_stamp: u32,
}
