//! The calls of a queue of shards by name that may let a value go: each takes one shard's lock and makes the state's
//! call. Who leaves by it is woken once the lock is free, and what it frees is dropped then.
//!
//! A value's drop is a user's code: it may call the queue, and it may panic. What is reaped or cleared is deferred in
//! the shard, and the row takes it out and drops it behind the lock. Where a drop panics the shard is whole, and what
//! is still deferred is dropped by a later call. Beside the row and a stream's poll no other impl of a queue says that
//! a value of it may be dropped, so the checker refuses a drop anywhere else.

use crate::core::{CoreError, Expired, Piece, ReapError, Swept, Turn};
use crate::shards::errors::{QueueConfig, QueueError};
use crate::shards::parking::{unlock, PendingWake, Row};
use crate::shards::queue::SharedDelayQueue;
use crate::shards::state::ShardState;
use crate::ticks::{EntryId, Key};
use crate::words::ManyTurn;
use alloc::vec::Vec;
use core::num::NonZeroU32;

// The shard of a route. A route that is a shard's number is spared the division.
#[inline]
fn routed_shard(route: u64, shards: u64) -> u64 {
    // requires 0 < shards
    if route < shards {
        route
    } else {
        route % shards
    }
}

impl<T> SharedDelayQueue<T> {
    /// Makes a queue of empty shards at tick 0. Later only `handle` and `issue` take memory. It takes time and memory
    /// in proportion to the slots of all shards.
    ///
    /// # Errors
    /// - `BadConfig` if a number of `config` is out of its range: [`QueueConfig::check`] tells which.
    /// - `NoMemory` if memory is refused.
    pub fn new(config: QueueConfig) -> Result<SharedDelayQueue<T>, QueueError> {
        let Ok(()) = config.check() else {
            return Err(QueueError::Core(CoreError::BadConfig));
        };
        Ok(SharedDelayQueue {
            row: Row::of_queues(config.shards, config.capacity, config.last_stamp)?,
        })
    }

    /// Puts `value` into the shard `route` modulo the number of shards, to come out at the tick `when` of one
    /// millisecond, and returns its key. If `when` is before the shard's tick, the entry is due at once. Whoever has
    /// no reason to prefer a shard counts the routes up.
    ///
    /// It takes that shard's lock for constant time, and no memory. If a task is parked there until a later tick, the
    /// call wakes it after it has released the lock.
    ///
    /// # Errors
    /// `value` comes back. In this order:
    /// - `TooFar` if `when` is beyond the last tick, 2^42 - 1.
    /// - `Full` if that shard has no free slot. It tells how many entries are linked and how many slots are worn.
    ///
    /// ```
    /// use hontkhale::parts::owner::CoreError;
    /// use hontkhale::parts::shards::{QueueConfig, QueueError, SharedDelayQueue};
    ///
    /// let queue = SharedDelayQueue::new(QueueConfig::of(8, 1)).unwrap();
    /// let key = queue.insert(3, "value", 100).unwrap();
    /// assert_eq!(key.entry().shard(), 3);
    /// let (error, value) = queue.insert(11, "other", 100).unwrap_err();
    /// assert_eq!(error, QueueError::Core(CoreError::Full { linked: 1, worn: 0 }));
    /// assert_eq!(value, "other");
    /// ```
    pub fn insert(&self, route: u64, value: T, when: u64) -> Result<Key, (QueueError, T)> {
        let shard = routed_shard(route, self.row.len() as u64);
        let mut locked = self.row.lock_with_room(shard as usize);
        // A value that waited for its drop where the entry is now is dropped once the lock is free.
        let (answer, pending, _displaced) = locked.watched.insert(value, when);
        unlock(locked, pending);
        match answer {
            Ok(key) => Ok(key),
            Err((e, value)) => Err((QueueError::Core(e), value)),
        }
    }

    /// Puts `value` into the shard `route` modulo the number of shards, to come out at the tick `when` of one
    /// millisecond, and returns its key. If the entry is refused, `value` is dropped, and the error can be returned
    /// with `?`. [`SharedDelayQueue::insert`] gives the value back instead.
    ///
    /// It takes that shard's lock for constant time, and no memory. If a task is parked there until a later tick, the
    /// call wakes it after it has released the lock.
    ///
    /// # Errors
    /// In this order:
    /// - `TooFar` if `when` is beyond the last tick, 2^42 - 1.
    /// - `Full` if that shard has no free slot.
    pub fn insert_or_drop(&self, route: u64, value: T, when: u64) -> Result<Key, QueueError> {
        self.insert(route, value, when).map_err(|(error, _)| error)
    }

    /// Notes `tick`, of one millisecond, in `shard`, and takes one entry out that is due at the greatest tick noted
    /// there. Call it again while it returns `Out`. It returns:
    /// - `Out` has the entry's key, its deadline and its value. No live entry of the shard has an earlier deadline.
    /// - `Waiting` if no live entry is due: the shard has nothing to do before the tick `next`.
    /// - `Idle` if the shard holds no entry.
    ///
    /// It takes the shard's lock, and no memory. It takes constant time for each entry that it moves down the wheel,
    /// schedules again or frees; an entry moves at most five times after it was scheduled.
    /// [`SharedDelayQueue::poll_some`] bounds the steps of one call. The values of the cancelled entries that it
    /// frees are dropped after it has released the lock, or by a later call if it returns an entry.
    ///
    /// # Errors
    /// In this order:
    /// - `Unknown` if there is no such shard.
    /// - `TickTooLarge` if `tick` is beyond the last tick. It isn't noted then.
    ///
    /// # Examples
    /// Each call takes the shard's lock. [`SharedDelayQueue::lend`] polls in a loop under one lock:
    ///
    /// ```
    /// use hontkhale::parts::owner::Turn;
    /// use hontkhale::parts::shards::{QueueConfig, SharedDelayQueue};
    ///
    /// let queue = SharedDelayQueue::new(QueueConfig::of(1, 100))?;
    /// for number in 0..10 {
    ///     queue.insert_or_drop(0, number, 5)?;
    /// }
    /// let out = queue.lend(0, |state| {
    ///     let mut out = 0;
    ///     while let Ok(Turn::Out(_)) = state.poll(5) {
    ///         out += 1;
    ///     }
    ///     out
    /// })?;
    /// assert_eq!(out, 10);
    /// # Ok::<(), hontkhale::parts::shards::QueueError>(())
    /// ```
    pub fn poll(&self, shard: usize, tick: u64) -> Result<Turn<T>, QueueError> {
        let mut locked = self.enter(shard)?;
        let (answer, pending) = locked.watched.poll(tick);
        let is_out = matches!(answer, Ok(Turn::Out(_)));
        self.row.leave(shard, locked, pending, is_out);
        Ok(answer?)
    }

    /// Notes `tick`, of one millisecond, in `shard`, and does at most `most` steps of a poll there. It returns
    /// `Working` if more steps may be left, and else the poll's answer:
    /// - `Out` has the key, the deadline and the value of an entry that is due.
    /// - `Waiting` if no live entry is due: the shard has nothing to do before the tick `next`.
    /// - `Idle` if the shard holds no entry.
    ///
    /// Call it again while it returns `Working`. Each such call leaves at least `most` steps fewer than there were
    /// when its tick was noted. A call of no steps that returns `Working` tells nothing.
    ///
    /// It takes the shard's lock for these steps alone, so that other threads may take it between two calls, and no
    /// memory. A step takes constant time. Dropped values aren't counted: they are dropped after the lock is
    /// released, or by a later call if this one returns an entry.
    ///
    /// # Errors
    /// In this order:
    /// - `Unknown` if there is no such shard.
    /// - `TickTooLarge` if `tick` is beyond the last tick. It isn't noted then.
    ///
    /// ```
    /// use hontkhale::parts::owner::{Piece, Turn};
    /// use hontkhale::parts::shards::{QueueConfig, SharedDelayQueue};
    ///
    /// let queue = SharedDelayQueue::new(QueueConfig::of(1, 100))?;
    /// queue.insert_or_drop(0, "value", 100_000)?;
    /// let turn = loop {
    ///     match queue.poll_some(0, 100_000, 2)? {
    ///         Piece::Answer(turn) => break turn,
    ///         Piece::Working => {}
    ///     }
    /// };
    /// assert!(matches!(turn, Turn::Out(expired) if expired.value == "value"));
    /// # Ok::<(), hontkhale::parts::shards::QueueError>(())
    /// ```
    pub fn poll_some(&self, shard: usize, tick: u64, most: u32) -> Result<Piece<T>, QueueError> {
        let mut locked = self.enter(shard)?;
        let (answer, pending) = locked.watched.poll_some(tick, most);
        let is_out = matches!(answer, Ok(Piece::Answer(Turn::Out(_))));
        self.row.leave(shard, locked, pending, is_out);
        Ok(answer?)
    }

    /// Notes `tick`, of one millisecond, in `shard`, and takes one entry out that is due there, in pieces of at most
    /// `most` steps:
    /// - `Out` has the entry's key, its deadline and its value.
    /// - `Waiting` if no live entry is due: the shard has nothing to do before the tick `next`.
    /// - `Idle` if the shard holds no entry.
    ///
    /// It takes the shard's lock for each piece, and no memory. If another thread waits for the lock between two
    /// pieces, the call gives way for a bounded while. So a call by another thread waits for about one piece, and not
    /// for the whole poll. A step takes constant time. Each piece leaves at least `most` steps fewer, but other
    /// threads may give the shard more to do meanwhile.
    ///
    /// # Errors
    /// In this order:
    /// - `Unknown` if there is no such shard.
    /// - `TickTooLarge` if `tick` is beyond the last tick. It isn't noted then.
    ///
    /// ```
    /// use hontkhale::parts::owner::Turn;
    /// use hontkhale::parts::shards::{QueueConfig, SharedDelayQueue};
    /// use std::num::NonZeroU32;
    ///
    /// let queue = SharedDelayQueue::new(QueueConfig::of(1, 1_000))?;
    /// queue.insert_or_drop(0, "value", 100_000)?;
    /// let steps = NonZeroU32::new(64).expect("some");
    /// let turn = queue.poll_through(0, 100_000, steps)?;
    /// assert!(matches!(turn, Turn::Out(expired) if expired.value == "value"));
    /// # Ok::<(), hontkhale::parts::shards::QueueError>(())
    /// ```
    pub fn poll_through(&self, shard: usize, tick: u64, most: NonZeroU32) -> Result<Turn<T>, QueueError> {
        loop {
            match self.poll_some(shard, tick, most.get()) {
                Ok(Piece::Answer(turn)) => return Ok(turn),
                Ok(Piece::Working) => self.give_way(shard),
                Err(error) => return Err(error),
            }
        }
    }

    /// Notes `tick`, of one millisecond, in `shard`, and takes entries out that are due there, until `row` is full or
    /// nothing is due. They are appended to `row` in the order of their deadlines, as many as its capacity has room
    /// for. It returns `More` if entries may still be due, and else what a poll returns then. Empty `row` and call it
    /// again while it returns `More`. If `row` has no room, nothing comes out and `tick` isn't noted.
    ///
    /// It takes the shard's lock once, and no memory. It costs as much as so many polls without their locks.
    ///
    /// # Errors
    /// Nothing changes then. In this order:
    /// - `Unknown` if there is no such shard.
    /// - `TickTooLarge` if `tick` is beyond the last tick.
    ///
    /// ```
    /// use hontkhale::parts::owner::ManyTurn;
    /// use hontkhale::parts::shards::{QueueConfig, SharedDelayQueue};
    ///
    /// let queue = SharedDelayQueue::new(QueueConfig::of(1, 1_000))?;
    /// for number in 0..100 {
    ///     queue.insert_or_drop(0, number, 5)?;
    /// }
    /// let mut row = Vec::with_capacity(64);
    /// assert_eq!(queue.poll_many(0, 5, &mut row), Ok(ManyTurn::More));
    /// assert_eq!(row.drain(..).count(), 64);
    /// assert_eq!(queue.poll_many(0, 5, &mut row), Ok(ManyTurn::Idle));
    /// assert_eq!(row.len(), 36);
    /// # Ok::<(), hontkhale::parts::shards::QueueError>(())
    /// ```
    pub fn poll_many(&self, shard: usize, tick: u64, row: &mut Vec<Expired<T>>) -> Result<ManyTurn, QueueError> {
        let before = row.len();
        let mut locked = self.enter(shard)?;
        let (answer, pending) = locked.watched.poll_many(tick, row);
        let is_out = row.len() != before;
        self.row.leave(shard, locked, pending, is_out);
        Ok(answer?)
    }

    /// Frees the slots of all cancelled entries of `shard`, and returns how many these were. Their values are dropped
    /// after the lock is released.
    ///
    /// It looks at every slot of the shard while it holds the shard's lock. [`SharedDelayQueue::sweep_some`] does it
    /// in pieces. It takes no memory.
    ///
    /// # Errors
    /// `Unknown` if there is no such shard.
    pub fn sweep(&self, shard: usize) -> Result<usize, QueueError> {
        let mut locked = self.enter(shard)?;
        let (reaped, pending) = locked.watched.sweep();
        self.row.leave(shard, locked, pending, false);
        Ok(reaped)
    }

    /// Frees the slots of the cancelled entries among the `count` slots of `shard` from the slot `from` on. It
    /// returns how many these were, and the slot to go on from, which is none after the last slot. Their values are
    /// dropped after the lock is released.
    ///
    /// It takes the shard's lock, time in proportion to `count`, and no memory.
    ///
    /// # Errors
    /// `Unknown` if there is no such shard.
    ///
    /// # Examples
    /// A shard is swept in pieces, and other threads may take its lock between them:
    ///
    /// ```
    /// use hontkhale::parts::shards::{QueueConfig, SharedDelayQueue};
    ///
    /// let queue: SharedDelayQueue<u8> = SharedDelayQueue::new(QueueConfig::of(1, 100))?;
    /// let mut next = Some(0);
    /// while let Some(from) = next {
    ///     next = queue.sweep_some(0, from, 64)?.next;
    /// }
    /// # Ok::<(), hontkhale::parts::shards::QueueError>(())
    /// ```
    pub fn sweep_some(&self, shard: usize, from: usize, count: usize) -> Result<Swept, QueueError> {
        let mut locked = self.enter(shard)?;
        let (swept, pending) = locked.watched.sweep_some(from, count);
        self.row.leave(shard, locked, pending, false);
        Ok(swept)
    }

    /// Frees the slot of `entry` if the entry was cancelled. Its value is dropped after the lock is released. The
    /// outer result tells whether the shard was found, the inner one whether the entry was freed.
    ///
    /// It takes the lock of the entry's shard for constant time, and no memory.
    ///
    /// # Errors
    /// In this order:
    /// - `Unknown`, in the outer result, if there is no such shard.
    /// - `Missing`, in the inner result, if the entry isn't in the queue any more, or never was.
    /// - `Live`, in the inner result, if the entry wasn't cancelled. It stays.
    pub fn reap(&self, entry: &EntryId) -> Result<Result<(), ReapError>, QueueError> {
        let shard = entry.shard() as usize;
        let mut locked = self.enter(shard)?;
        let (answer, pending) = locked.watched.reap(entry);
        self.row.leave(shard, locked, pending, false);
        Ok(answer)
    }

    /// Takes all entries out of `shard`, and returns how many live ones were removed. Their values, and those of
    /// cancelled entries, are dropped after the lock is released. A parked task is woken then.
    ///
    /// It looks at every slot of the shard while it holds the shard's lock. It takes no memory.
    ///
    /// # Errors
    /// `Unknown` if there is no such shard.
    pub fn clear(&self, shard: usize) -> Result<usize, QueueError> {
        let mut locked = self.enter(shard)?;
        let (cleared, pending) = locked.watched.clear();
        self.row.leave(shard, locked, pending, false);
        Ok(cleared)
    }

    /// Drops the values that are deferred in `shard`, each while the shard's lock is free. `most` is how many the
    /// caller has left there: if that is 0, the call takes no lock and does nothing. Else it goes on until none is
    /// left. If there is no such shard, there is nothing to drop.
    ///
    /// One thread drops at a time. If another thread is dropping, or the call is made by the drop of a value, the
    /// other drops these values too, and this call returns at once. If a drop panics, a later call drops the rest.
    ///
    /// Every call by name does this by itself, and so does [`SharedDelayQueue::lend`]. Whoever holds a shard by
    /// [`SharedDelayQueue::enter`] asks [`ShardState::deferred`] before the lock is released.
    ///
    /// ```
    /// use hontkhale::parts::shards::{QueueConfig, SharedDelayQueue};
    ///
    /// let queue: SharedDelayQueue<String> = SharedDelayQueue::new(QueueConfig::of(1, 100))?;
    /// let mut state = queue.enter(0)?;
    /// state.sweep();
    /// let deferred = state.deferred();
    /// drop(state);
    /// queue.drop_deferred(0, deferred);
    /// # Ok::<(), hontkhale::parts::shards::QueueError>(())
    /// ```
    #[inline(always)]
    pub fn drop_deferred(&self, shard: usize, most: usize) {
        self.row.drop_deferred(shard, most);
    }
}

// A contract can't speak of a closure whose argument has an allocator of the caller's choice.
impl<T> SharedDelayQueue<T> {
    /// Calls `f` once with the state of `shard` while it holds the shard's lock, and returns what `f` returned. So
    /// `f` may make many calls on the shard under one lock.
    ///
    /// What a call of `f` wakes, it wakes under the lock: see [`SharedDelayQueue::enter`] for what waits for ever.
    /// Values that `f` frees are dropped after the lock is released. But an insert drops one value that waits for its
    /// drop, under the lock, if it finds no other slot. It takes no memory.
    ///
    /// # Errors
    /// `Unknown` if there is no such shard. `f` isn't called then.
    ///
    /// ```
    /// use hontkhale::parts::shards::{QueueConfig, SharedDelayQueue};
    ///
    /// let queue = SharedDelayQueue::new(QueueConfig::of(1, 100))?;
    /// let last = queue.lend(0, |state| {
    ///     let mut last = None;
    ///     for number in 0..10 {
    ///         last = state.insert(number, 100 + number).ok();
    ///     }
    ///     last
    /// })?;
    /// assert_eq!(queue.deadline(&last.expect("there is room").entry()), Ok(109));
    /// # Ok::<(), hontkhale::parts::shards::QueueError>(())
    /// ```
    pub fn lend<O, F: FnOnce(&mut ShardState<T>) -> O>(&self, shard: usize, f: F) -> Result<O, QueueError> {
        // requires F.IsAlwaysCallable f
        let mut locked = self.enter(shard)?;
        let answer = f(&mut locked);
        self.row.leave(shard, locked, PendingWake { poller: None }, false);
        Ok(answer)
    }
}
