//! The calls by key of a queue over plain words. Over shared words a caller makes them without the queue.

use crate::core::queue::DelayCore;
use crate::core::vec_words::VecWords;
use crate::core::words::{CallError, Look};
use crate::ticks::{Key, LAST_TICK};

impl<T> DelayCore<T, VecWords> {
    // Whether a key is of this queue's shard.
    fn is_mine(&self, key: &Key) -> bool {
        key.entry().shard() == self.shard
    }

    /// Raises the deadline of a live entry to `when`, a tick of one millisecond, and returns the deadline that is
    /// then in force: `when`, or a later one that the entry had. No deadline gets sooner by it. Constant time.
    ///
    /// # Errors
    /// In this order:
    /// - `TooFar` if `when` is beyond the last tick, 2^42 - 1.
    /// - `Unknown` if the key is of another shard, or no slot has it.
    /// - `Stale` if the slot has a later stamp: the entry was reset, or the slot has another entry.
    /// - `Ended` if the entry came out, was removed or was cancelled. It tells which.
    pub fn extend(&mut self, key: &Key, when: u64) -> Result<u64, CallError> {
        if when > LAST_TICK {
            return Err(CallError::TooFar { limit: LAST_TICK });
        }
        if !self.is_mine(key) {
            return Err(CallError::Unknown);
        }
        self.words.extend(key, when)
    }

    /// Cancels a live entry, so that it won't come out, and returns the deadline that it gave up, a tick of one
    /// millisecond. The entry keeps its slot and its value until it is freed: by a poll at which it would have been
    /// due, a sweep, a reap or a clear. Constant time.
    ///
    /// # Errors
    /// In this order:
    /// - `Unknown` if the key is of another shard, or no slot has it.
    /// - `Stale` if the slot has a later stamp: the entry was reset, or the slot has another entry.
    /// - `Ended` if the entry came out, was removed or was cancelled. It tells which.
    pub fn cancel(&mut self, key: &Key) -> Result<u64, CallError> {
        if !self.is_mine(key) {
            return Err(CallError::Unknown);
        }
        self.words.cancel(key)
    }

    /// Returns what the entry of `key` is: live, with its deadline, or how it ended. Constant time.
    ///
    /// # Errors
    /// In this order:
    /// - `Unknown` if the key is of another shard, or no slot has it.
    /// - `Stale` if the slot has a later stamp: the entry was reset, or the slot has another entry.
    pub fn look(&self, key: &Key) -> Result<Look, CallError> {
        if !self.is_mine(key) {
            return Err(CallError::Unknown);
        }
        self.words.look_key(key)
    }
}
