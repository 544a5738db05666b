//! The calls of a queue of shards by name that let no value go: each takes one shard's lock and makes the state's call.
//! Who leaves by it is woken once the lock is free.

use crate::core::{Removed, Tally};
use crate::shards::errors::QueueError;
use crate::shards::parking::{ring, unlock};
use crate::shards::queue::SharedDelayQueue;
use crate::ticks::{EntryId, Key};

impl<T> SharedDelayQueue<T> {
    /// Gives a live entry the deadline `when`, a tick of one millisecond, sooner or later than the one that it has,
    /// and returns its new key. If `when` is before the shard's tick, the entry is due at once. A handle refuses the
    /// old key from then on.
    ///
    /// It takes the lock of the entry's shard for constant time, and no memory. If a task is parked there until a
    /// later tick, the call wakes it after it has released the lock.
    ///
    /// # Errors
    /// In this order:
    /// - `Unknown` if there is no such shard.
    /// - `TooFar` if `when` is beyond the last tick, 2^42 - 1.
    /// - `Missing` if the entry isn't in the queue any more, or never was.
    /// - `WasCancelled` if a handle cancelled the entry.
    /// - `Worn` if the entry's slot has no stamp left for another key.
    ///
    /// ```
    /// use hontkhale::parts::shards::{QueueConfig, SharedDelayQueue};
    ///
    /// let queue = SharedDelayQueue::new(QueueConfig::of(8, 1_000))?;
    /// let key = queue.insert_or_drop(3, "value", 100)?;
    /// let sooner = queue.reset(&key.entry(), 50)?;
    /// assert_eq!(queue.deadline(&sooner.entry()), Ok(50));
    /// # Ok::<(), hontkhale::parts::shards::QueueError>(())
    /// ```
    pub fn reset(&self, entry: &EntryId, when: u64) -> Result<Key, QueueError> {
        let mut shard = self.enter(entry.shard() as usize)?;
        let (answer, pending) = shard.watched.reset(entry, when);
        unlock(shard, pending);
        Ok(answer?)
    }

    /// Takes a live entry out, and returns its value with its key and its current deadline, a tick of one
    /// millisecond.
    ///
    /// It takes the lock of the entry's shard for constant time, and no memory. If the shard holds no entry then, a
    /// parked task is woken after the lock is released.
    ///
    /// # Errors
    /// In this order:
    /// - `Unknown` if there is no such shard.
    /// - `Missing` if the entry isn't in the queue any more, or never was.
    /// - `WasCancelled` if a handle cancelled the entry.
    ///
    /// ```
    /// use hontkhale::parts::shards::{QueueConfig, SharedDelayQueue};
    ///
    /// let queue = SharedDelayQueue::new(QueueConfig::of(8, 1_000))?;
    /// let key = queue.insert_or_drop(3, "value", 100)?;
    /// let removed = queue.remove(&key.entry())?;
    /// assert_eq!((removed.value, removed.deadline), ("value", 100));
    /// # Ok::<(), hontkhale::parts::shards::QueueError>(())
    /// ```
    pub fn remove(&self, entry: &EntryId) -> Result<Removed<T>, QueueError> {
        let mut shard = self.enter(entry.shard() as usize)?;
        let (answer, pending) = shard.watched.remove(entry);
        unlock(shard, pending);
        Ok(answer?)
    }

    /// Returns the current deadline of a live entry, a tick of one millisecond: the one that was set last, or a later
    /// one to which a handle has extended it. It takes the lock of the entry's shard for constant time, and no
    /// memory.
    ///
    /// # Errors
    /// In this order:
    /// - `Unknown` if there is no such shard.
    /// - `Missing` if the entry isn't in the queue any more, or never was.
    /// - `WasCancelled` if a handle cancelled the entry.
    pub fn deadline(&self, entry: &EntryId) -> Result<u64, QueueError> {
        let mut shard = self.enter(entry.shard() as usize)?;
        let answer = shard.deadline(entry);
        Ok(answer?)
    }

    /// Returns the tick, of one millisecond, at which `shard` has something to do next. It returns none if the shard
    /// holds no entry. No live entry has a deadline before that tick; the least deadline may be later.
    ///
    /// It takes the shard's lock for constant time, and no memory.
    ///
    /// # Errors
    /// `Unknown` if there is no such shard.
    pub fn next_wake(&self, shard: usize) -> Result<Option<u64>, QueueError> {
        let shard = self.enter(shard)?;
        Ok(shard.next_wake())
    }

    /// Returns how many entries came to `shard` and went, and how many it holds. A cancelled entry counts as
    /// cancelled only once its slot is freed. It takes the shard's lock for constant time, and no memory.
    ///
    /// # Errors
    /// `Unknown` if there is no such shard.
    pub fn tally(&self, shard: usize) -> Result<Tally, QueueError> {
        let shard = self.enter(shard)?;
        Ok(shard.tally())
    }

    /// Tells `shard` that `tick`, of one millisecond, is reached: a task that is parked there until `tick` or before
    /// is taken out, and woken after the lock is released. It returns whether there was one. The queue reads no
    /// clock, so whoever keeps the time calls this.
    ///
    /// It takes the shard's lock for constant time, and no memory.
    ///
    /// # Errors
    /// `Unknown` if there is no such shard.
    pub fn ring(&self, shard: usize, tick: u64) -> Result<bool, QueueError> {
        let mut shard = self.enter(shard)?;
        let rung = ring(&mut shard.watched.parked, tick);
        let is_rung = rung.is_some();
        unlock(shard, rung);
        Ok(is_rung)
    }

    /// Returns the tick, of one millisecond, until which a task is parked in `shard`. It returns none if no task is
    /// parked. It takes the shard's lock for constant time, and no memory.
    ///
    /// # Errors
    /// `Unknown` if there is no such shard.
    pub fn parked(&self, shard: usize) -> Result<Option<u64>, QueueError> {
        let shard = self.enter(shard)?;
        Ok(shard.parked())
    }
}
