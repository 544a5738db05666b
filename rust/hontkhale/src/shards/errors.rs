//! Why a call of a queue of shards is refused, and what a queue is made by.

use crate::core::CoreError;
use crate::ticks::{CAPACITY_LIMIT, LAST_STAMP};
use core::fmt;

/// The most shards of a queue.
pub const SHARD_LIMIT: usize = 64;

/// The sizes of a queue of shards.
#[derive(Clone, Copy, Debug, PartialEq, Eq)]
pub struct QueueConfig {
    /// The number of shards, from 1 to [`SHARD_LIMIT`].
    pub shards: usize,
    /// The number of slots of each shard, from 1 to [`CAPACITY_LIMIT`](crate::parts::owner::CAPACITY_LIMIT).
    pub capacity: usize,
    /// The stamp after which a slot is worn, from 1 to [`LAST_STAMP`].
    pub last_stamp: u32,
}

impl QueueConfig {
    /// `shards` shards of `capacity` slots each, and the most stamps a slot, 1,048,575.
    pub const fn of(shards: usize, capacity: usize) -> QueueConfig {
        QueueConfig {
            shards,
            capacity,
            last_stamp: LAST_STAMP,
        }
    }

    /// Whether a queue can be made by these numbers. `BadConfig` doesn't tell which number is bad, so call this first
    /// if the numbers come from outside.
    ///
    /// # Errors
    /// The first number that is out of its range: the shards, the capacity, and then the last stamp.
    pub fn check(&self) -> Result<(), BadQueueNumber> {
        if self.shards == 0 || self.shards > SHARD_LIMIT {
            return Err(BadQueueNumber::BadShards(self.shards));
        }
        if self.capacity == 0 || self.capacity > CAPACITY_LIMIT {
            return Err(BadQueueNumber::BadCapacity(self.capacity));
        }
        if self.last_stamp == 0 || self.last_stamp > LAST_STAMP {
            return Err(BadQueueNumber::BadLastStamp(self.last_stamp));
        }
        Ok(())
    }
}

/// Which number of a configuration is out of its range.
#[derive(Clone, Copy, Debug, PartialEq, Eq)]
#[non_exhaustive]
pub enum BadQueueNumber {
    /// The number of shards isn't 1 to [`SHARD_LIMIT`].
    BadShards(usize),
    /// The capacity isn't 1 to [`CAPACITY_LIMIT`].
    BadCapacity(usize),
    /// The last stamp isn't 1 to [`LAST_STAMP`].
    BadLastStamp(u32),
}

impl fmt::Display for BadQueueNumber {
    fn fmt(&self, f: &mut fmt::Formatter<'_>) -> fmt::Result {
        match self {
            BadQueueNumber::BadShards(it) => write!(f, "the number of shards is {it}, and not 1 to {SHARD_LIMIT}"),
            BadQueueNumber::BadCapacity(it) => write!(f, "the capacity is {it}, and not 1 to {CAPACITY_LIMIT}"),
            BadQueueNumber::BadLastStamp(it) => write!(f, "the last stamp is {it}, and not 1 to {LAST_STAMP}"),
        }
    }
}

#[cfg(feature = "std")]
impl std::error::Error for BadQueueNumber {}

/// Why a call of a queue of shards is refused.
#[derive(Clone, Copy, Debug, PartialEq, Eq)]
#[non_exhaustive]
pub enum QueueError {
    /// The shard's queue refused it.
    Core(CoreError),
    /// The queue has no such shard.
    Unknown,
    /// A shard has issued as many callers as it may, given back or not.
    TooManyHandles {
        /// How many it may issue.
        limit: u64,
    },
}

impl fmt::Display for QueueError {
    fn fmt(&self, f: &mut fmt::Formatter<'_>) -> fmt::Result {
        match self {
            QueueError::Core(it) => write!(f, "{it}"),
            QueueError::Unknown => f.write_str("there is no such shard"),
            QueueError::TooManyHandles { limit } => write!(f, "no more than {limit} handles are issued"),
        }
    }
}

#[cfg(feature = "std")]
impl std::error::Error for QueueError {
    fn source(&self) -> Option<&(dyn std::error::Error + 'static)> {
        match self {
            QueueError::Core(it) => Some(it),
            _ => None,
        }
    }
}

impl From<CoreError> for QueueError {
    fn from(error: CoreError) -> QueueError {
        QueueError::Core(error)
    }
}
