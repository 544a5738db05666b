//! The value behind a shard's lock: a queue over shared words, and the poller that waits for it.

use crate::core::{CoreError, DelayCore, Expired, Piece, ReapError, Removed, Swept, Turn};
use crate::shards::parking::{keep_or_leave, WatchedCore};
use crate::ticks::{EntryId, Key};
use crate::words::{Caller, Keeper, ManyTurn, WordsError};
use alloc::vec::Vec;

/// The state of a shard behind its lock: a queue over words that handles share, and the task that is parked there. A
/// program gets it by [`SharedDelayQueue::enter`](crate::parts::shards::SharedDelayQueue::enter) and
/// [`SharedDelayQueue::lend`](crate::parts::shards::SharedDelayQueue::lend).
///
/// A task is parked until a tick that isn't after the shard's next wake. A call that makes the next wake come sooner,
/// or after which nothing is left to wait for, takes the task out and wakes it at once, under the lock. A call of the
/// queue by name wakes it after the lock is released.
///
/// An entry is *live* until it comes out, is removed or is cancelled. A cancelled entry stays *linked*, in its slot,
/// until a call *reaps* it: its slot is free for another entry then, and its value is dropped.
#[repr(align(64))]
pub struct ShardState<T> {
    pub(crate) watched: WatchedCore<T, u64>,
}

impl<T> From<DelayCore<T, Keeper>> for ShardState<T> {
    fn from(core: DelayCore<T, Keeper>) -> ShardState<T> {
        ShardState {
            watched: WatchedCore::new(core),
        }
    }
}

// The one call of a state that may drop a value.
impl<T> ShardState<T> {
    /// Puts `value` in, to come out at the tick `when` of one millisecond, and returns its key. If `when` is before
    /// the shard's tick, the entry is due at once. If the only slot left has a value that waits for its drop, that
    /// value is dropped first. Constant time, and no memory is taken.
    ///
    /// # Errors
    /// `value` comes back. In this order:
    /// - `TooFar` if `when` is beyond the last tick, 2^42 - 1.
    /// - `Full` if no slot is free.
    #[inline(always)]
    pub fn insert(&mut self, value: T, when: u64) -> Result<Key, (CoreError, T)> {
        let answer = self.watched.core.insert(value, when);
        keep_or_leave(&self.watched.core, &mut self.watched.parked).wake();
        answer
    }
}

impl<T> ShardState<T> {
    /// Gives a live entry the deadline `when`, a tick of one millisecond, sooner or later than the one that it has,
    /// and returns its new key. If `when` is before the shard's tick, the entry is due at once. Callers and handles
    /// refuse the old key from then on. Constant time, and no memory is taken.
    ///
    /// # Errors
    /// In this order:
    /// - `TooFar` if `when` is beyond the last tick, 2^42 - 1.
    /// - `Missing` if the entry isn't linked here.
    /// - `WasCancelled` if the entry was cancelled.
    /// - `Worn` if the entry's slot has no stamp left for another key.
    #[inline(always)]
    pub fn reset(&mut self, entry: &EntryId, when: u64) -> Result<Key, CoreError> {
        let answer = self.watched.core.reset(entry, when);
        keep_or_leave(&self.watched.core, &mut self.watched.parked).wake();
        answer
    }

    /// Takes a live entry out, and returns its value with its key and its current deadline, a tick of one
    /// millisecond. Constant time, and no memory is taken.
    ///
    /// # Errors
    /// In this order:
    /// - `Missing` if the entry isn't linked here.
    /// - `WasCancelled` if the entry was cancelled.
    #[inline(always)]
    pub fn remove(&mut self, entry: &EntryId) -> Result<Removed<T>, CoreError> {
        let answer = self.watched.core.remove(entry);
        keep_or_leave(&self.watched.core, &mut self.watched.parked).wake();
        answer
    }

    /// Returns the current deadline of a live entry, a tick of one millisecond, by one look at its word. A parked
    /// task stays parked. Constant time.
    ///
    /// # Errors
    /// In this order:
    /// - `Missing` if the entry isn't linked here.
    /// - `WasCancelled` if the entry was cancelled.
    #[inline]
    pub fn deadline(&mut self, entry: &EntryId) -> Result<u64, CoreError> {
        self.watched.core.deadline(entry)
    }

    /// Notes `tick`, of one millisecond, and takes one entry out that is due at the greatest tick noted. Call it
    /// again while it returns `Out`. It returns:
    /// - `Out` has the entry's key, its deadline and its value. No live entry has an earlier deadline.
    /// - `Waiting` if no live entry is due: there is nothing to do before the tick `next`.
    /// - `Idle` if nothing is linked.
    ///
    /// It takes constant time for each entry that it moves down the wheel, schedules again or reaps; an entry moves
    /// at most five times after it was scheduled. It takes no memory, and drops no value: the values of reaped
    /// entries are deferred.
    ///
    /// # Errors
    /// `TickTooLarge` if `tick` is beyond the last tick. It isn't noted then.
    #[inline(always)]
    pub fn poll(&mut self, tick: u64) -> Result<Turn<T>, CoreError> {
        let answer = self.watched.core.poll_deferring(tick);
        keep_or_leave(&self.watched.core, &mut self.watched.parked).wake();
        answer
    }

    /// Notes `tick`, of one millisecond, and does at most `most` steps of a poll. It returns `Working` if more steps
    /// may be left, and else the poll's answer:
    /// - `Out` has the key, the deadline and the value of an entry that is due.
    /// - `Waiting` if no live entry is due: there is nothing to do before the tick `next`.
    /// - `Idle` if nothing is linked.
    ///
    /// Call it again while it returns `Working`. Each such call leaves at least `most` steps fewer than there were
    /// when its tick was noted. A call of no steps that returns `Working` tells nothing. Between two calls the lock
    /// may be released, and every other call may be made.
    ///
    /// A step takes constant time. The call takes no memory, and drops no value: the values of reaped entries are
    /// deferred.
    ///
    /// # Errors
    /// `TickTooLarge` if `tick` is beyond the last tick. It isn't noted then.
    pub fn poll_some(&mut self, tick: u64, most: u32) -> Result<Piece<T>, CoreError> {
        let answer = self.watched.core.poll_some_deferring(tick, most);
        keep_or_leave(&self.watched.core, &mut self.watched.parked).wake();
        answer
    }

    /// Notes `tick`, of one millisecond, and takes entries out that are due, until `row` is full or nothing is due.
    /// They are appended to `row` in the order of their deadlines, as many as its capacity has room for. It returns
    /// `More` if entries may still be due, and else what a poll returns then. Empty `row` and call it again while it
    /// returns `More`. If `row` has no room, nothing comes out and `tick` isn't noted. It costs as much as so many
    /// polls, and takes no memory.
    ///
    /// # Errors
    /// `TickTooLarge` if `tick` is beyond the last tick. Nothing changes then.
    pub fn poll_many(&mut self, tick: u64, row: &mut Vec<Expired<T>>) -> Result<ManyTurn, CoreError> {
        let (answer, pending) = self.watched.poll_many(tick, row);
        pending.wake();
        answer
    }

    /// Reaps all cancelled entries, and returns how many these were. Their values are deferred. It looks at every
    /// slot.
    pub fn sweep(&mut self) -> usize {
        let reaped = self.watched.core.sweep_deferring();
        keep_or_leave(&self.watched.core, &mut self.watched.parked).wake();
        reaped
    }

    /// Reaps the cancelled entries among the `count` slots from the slot `from` on. It returns how many these were,
    /// and the slot to go on from, which is none after the last slot. Their values are deferred. It takes time in
    /// proportion to `count`. Between two calls the lock may be released.
    pub fn sweep_some(&mut self, from: usize, count: usize) -> Swept {
        let swept = self.watched.core.sweep_some_deferring(from, count);
        keep_or_leave(&self.watched.core, &mut self.watched.parked).wake();
        swept
    }

    /// Reaps `entry` if it was cancelled: its slot is free for another entry, or worn, and its value is deferred.
    /// Constant time.
    ///
    /// # Errors
    /// In this order:
    /// - `Missing` if the entry isn't linked here.
    /// - `Live` if the entry wasn't cancelled. It stays.
    pub fn reap(&mut self, entry: &EntryId) -> Result<(), ReapError> {
        let answer = self.watched.core.reap_deferring(entry);
        keep_or_leave(&self.watched.core, &mut self.watched.parked).wake();
        answer
    }

    /// Takes all entries out, and returns how many live ones were removed. Their values, and those of cancelled
    /// entries, are deferred. A parked task is woken. It looks at every slot.
    pub fn clear(&mut self) -> usize {
        let removed = self.watched.core.clear_deferring();
        keep_or_leave(&self.watched.core, &mut self.watched.parked).wake();
        removed
    }

    /// Makes one caller more of this shard's words, which may go to any thread. It takes memory for the caller.
    ///
    /// # Errors
    /// In this order:
    /// - `TooManyHandles` if 1,024 callers were made, given back or not.
    /// - `NoMemory` if memory is refused.
    pub fn issue(&mut self) -> Result<Caller, WordsError> {
        self.watched.core.issue()
    }

    /// Returns the number of callers that were made and not given back, by one load. A caller that was dropped stays
    /// counted.
    pub fn out(&mut self) -> u64 {
        self.watched.core.out()
    }
}
