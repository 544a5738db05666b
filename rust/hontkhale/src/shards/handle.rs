//! A handle extends and cancels entries of every shard, and looks at them, without a lock.

use crate::core::{CallError, CoreError, Look};
use crate::index::{nth, nth_mut};
use crate::shards::errors::QueueError;
use crate::shards::queue::SharedDelayQueue;
use crate::ticks::{Key, LAST_TICK};
use crate::words::{Caller, WordsError};
use alloc::vec::Vec;

/// Extends and cancels entries of a queue of shards, and looks at them, from any thread. It has one caller for each
/// shard. Its calls take no lock and no memory, and wait for nobody.
///
/// A handle that is dropped counts as out for good: [`Handle::give_back`] tells why that matters.
///
/// ```
/// use hontkhale::parts::owner::{CallError, Look};
/// use hontkhale::parts::shards::{QueueConfig, SharedDelayQueue};
///
/// let queue = SharedDelayQueue::new(QueueConfig::of(1, 100))?;
/// let mut handle = queue.handle()?;
/// let key = queue.insert_or_drop(0, "value", 100)?;
/// assert_eq!(handle.extend(&key, 150), Ok(150));
/// assert_eq!(handle.cancel(&key), Ok(150));
/// assert_eq!(handle.extend(&key, 200), Err(CallError::Ended { how: Look::LookCancelled }));
/// assert_eq!(handle.give_back(), 1);
/// # Ok::<(), hontkhale::parts::shards::QueueError>(())
/// ```
pub struct Handle {
    callers: Vec<Caller>,
}

impl Handle {
    /// Raises the deadline of a live entry to `when`, a tick of one millisecond, and returns the deadline that is
    /// then in force: `when`, or a later one that the entry had. No deadline gets sooner by it. The entry doesn't
    /// come out before the returned deadline, unless the queue resets or removes it.
    ///
    /// It makes one load and at most one atomic step. It takes no lock and no memory. A parked task isn't woken.
    ///
    /// # Errors
    /// In this order:
    /// - `TooFar` if `when` is beyond the last tick, 2^42 - 1.
    /// - `Unknown` if no slot has the key, or if there is no such shard.
    /// - `Stale` if the slot has a later stamp: the entry was reset, or the slot has another entry.
    /// - `Ended` if the entry came out, was removed or was cancelled. It tells which.
    pub fn extend(&mut self, key: &Key, when: u64) -> Result<u64, CallError> {
        let shard = key.entry().shard() as usize;
        if shard < self.callers.len() {
            return nth_mut(&mut self.callers, shard).extend(key, when);
        }
        if when > LAST_TICK {
            return Err(CallError::TooFar { limit: LAST_TICK });
        }
        Err(CallError::Unknown)
    }

    /// Cancels a live entry, so that it won't come out, and returns the deadline that it gave up, a tick of one
    /// millisecond. The entry keeps its slot and its value until a call of its shard frees it.
    ///
    /// It makes one load and at most one atomic step. It takes no lock and no memory. A parked task isn't woken.
    ///
    /// # Errors
    /// In this order:
    /// - `Unknown` if no slot has the key, or if there is no such shard.
    /// - `Stale` if the slot has a later stamp: the entry was reset, or the slot has another entry.
    /// - `Ended` if the entry came out, was removed or was cancelled. It tells which.
    pub fn cancel(&mut self, key: &Key) -> Result<u64, CallError> {
        let shard = key.entry().shard() as usize;
        if shard < self.callers.len() {
            return nth_mut(&mut self.callers, shard).cancel(key);
        }
        Err(CallError::Unknown)
    }

    /// Returns what the entry of `key` is: live, with its deadline, or how it ended. It makes one load. It takes no
    /// lock and no memory.
    ///
    /// # Errors
    /// In this order:
    /// - `Unknown` if no slot has the key, or if there is no such shard.
    /// - `Stale` if the slot has a later stamp: the entry was reset, or the slot has another entry.
    pub fn look(&mut self, key: &Key) -> Result<Look, CallError> {
        let shard = key.entry().shard() as usize;
        if shard < self.callers.len() {
            return nth_mut(&mut self.callers, shard).look(key);
        }
        Err(CallError::Unknown)
    }

    /// Returns the number of cancels by this handle that were accepted.
    pub fn cancels(&self) -> u64 {
        let mut cancels = 0;
        for shard in 0..self.callers.len() {
            cancels += cancels_of(nth(&self.callers, shard));
        }
        cancels
    }

    /// Gives the handle's callers back, and returns the number of its cancels that were accepted. An audit tells
    /// totals only once every handle is given back.
    pub fn give_back(self) -> u64 {
        give_back_all(self.callers)
    }
}

// The accepted cancels of a caller, which are few.
fn cancels_of(caller: &Caller) -> u64 {
    caller.cancels()
}

// Gives back callers, and answers the number of their accepted cancels.
fn give_back_all(mut callers: Vec<Caller>) -> u64 {
    // requires vec_len callers ≤ SHARD_LIMIT
    let mut cancels = 0;
    while let Some(caller) = callers.pop() {
        let given = caller.give_back();
        cancels += given;
    }
    cancels
}

// Why no handle is made.
fn refused(refusal: WordsError) -> QueueError {
    // requires refusal ≢ BadConfig
    match refusal {
        WordsError::TooManyHandles { limit } => QueueError::TooManyHandles { limit },
        WordsError::NoMemory => QueueError::Core(CoreError::NoMemory),
        WordsError::BadConfig => unreachable!(),
    }
}

impl<T> SharedDelayQueue<T> {
    // One caller more of a shard.
    fn issue_of(&self, shard: usize) -> Result<Caller, WordsError> {
        // requires shard < self.now
        let mut shard = self.row.lock(shard);
        shard.issue()
    }
}

impl<T> SharedDelayQueue<T> {
    /// Makes a handle, by which one thread at a time extends and cancels entries without a lock. It has a caller of
    /// each shard. A shard makes 1,024 callers at most, given back or not, so a queue makes at most 1,024 handles in
    /// all.
    ///
    /// It takes the lock of each shard in turn, and memory for the callers.
    ///
    /// # Errors
    /// The callers that were made before the refusal are given back, but stay counted. In this order:
    /// - `NoMemory` if there is no room for the callers.
    /// - `TooManyHandles` if a shard has made 1,024 callers; `NoMemory` if one is refused its memory.
    pub fn handle(&self) -> Result<Handle, QueueError> {
        let Ok(mut callers) = self.row.room_for_each() else {
            return Err(QueueError::Core(CoreError::NoMemory));
        };
        for shard in 0..self.shards() {
            match self.issue_of(shard) {
                Ok(caller) => callers.push(caller),
                Err(refusal) => {
                    give_back_all(callers);
                    return Err(refused(refusal));
                }
            }
        }
        Ok(Handle { callers })
    }
}
