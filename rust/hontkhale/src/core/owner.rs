//! The calls by which an owner's queue drops the values that it freed.
//!
//! A drop is a user's code, and may panic. So each of these calls is one that defers all drops, and what is left of it
//! is to drop them: with the queue lawful, as the last thing it does, and where it loses nothing that the call gives.
//! No other impl of a queue says that a value of it may be dropped, so the checker refuses a drop anywhere else.

use crate::core::errors::{CoreError, ReapError};
use crate::core::outcomes::{Piece, Swept, Turn};
use crate::core::queue::DelayCore;
use crate::core::words::Words;
use crate::ticks::{EntryId, Key, LAST_TICK};
use core::mem;

impl<T, W: Words> DelayCore<T, W> {
    /// Drops the freed values that wait for their drop. If a drop panics, the others wait for the next call that
    /// drops.
    #[inline]
    pub fn drop_deferred(&mut self) {
        for _turn in 0..self.deferred() {
            drop(self.take_deferred());
        }
    }

    // Drops the value that waits in the slot that the next insert takes, if one does.
    #[inline(always)]
    fn make_room(&mut self) {
        if mem::needs_drop::<T>() {
            drop(self.take_displaced());
        }
    }

    /// Puts `value` in, to come out at the tick `when` of one millisecond, and returns its key. If `when` is before
    /// the queue's tick, the entry is due at once. Constant time, and no memory is taken.
    ///
    /// # Errors
    /// `value` comes back, and nothing changes. In this order:
    /// - `TooFar` if `when` is beyond the last tick, 2^42 - 1.
    /// - `Full` if no slot is free. It tells how many entries are linked and how many slots are worn.
    ///
    /// ```
    /// use hontkhale::parts::owner::{CoreError, DelayCore};
    ///
    /// let mut queue = DelayCore::with_capacity(1).unwrap();
    /// queue.insert("value", 100).unwrap();
    /// let (error, value) = queue.insert("other", 100).unwrap_err();
    /// assert_eq!((error, value), (CoreError::Full { linked: 1, worn: 0 }, "other"));
    /// ```
    #[inline(always)]
    pub fn insert(&mut self, value: T, when: u64) -> Result<Key, (CoreError, T)> {
        if when > LAST_TICK {
            return Err((CoreError::TooFar { limit: LAST_TICK }, value));
        }
        // Another's drop may panic: it runs before there is an entry whose key would be lost.
        self.make_room();
        self.insert_deferring(value, when).0
    }

    /// Puts `value` in, to come out at the tick `when` of one millisecond, and returns its key. If the entry is
    /// refused, `value` is dropped, and the error can be returned with `?`. [`DelayCore::insert`] gives the value
    /// back instead. Constant time, and no memory is taken.
    ///
    /// # Errors
    /// In this order:
    /// - `TooFar` if `when` is beyond the last tick, 2^42 - 1.
    /// - `Full` if no slot is free.
    #[inline]
    pub fn insert_or_drop(&mut self, value: T, when: u64) -> Result<Key, CoreError> {
        match self.insert(value, when) {
            Ok(key) => Ok(key),
            Err((error, _)) => Err(error),
        }
    }

    /// Notes `tick`, of one millisecond, and takes one entry out that is due at the greatest tick noted. Call it
    /// again while it returns `Out`. It returns:
    /// - `Out` has the entry's key, its deadline and its value. No live entry has an earlier deadline.
    /// - `Waiting` if no live entry is due: there is nothing to do before the tick `next`.
    /// - `Idle` if the queue holds no entry.
    ///
    /// It takes constant time for each entry that it moves down the wheel, schedules again or frees; an entry moves
    /// at most five times after it was scheduled. It takes no memory. [`DelayCore::poll_some`] bounds the steps of
    /// one call. The values of the cancelled entries that it frees are dropped by it, or by a later call if it
    /// returns an entry.
    ///
    /// # Errors
    /// `TickTooLarge` if `tick` is beyond the last tick. It isn't noted then.
    ///
    /// ```
    /// use hontkhale::parts::owner::{DelayCore, Turn};
    ///
    /// let mut queue = DelayCore::with_capacity(100)?;
    /// queue.insert_or_drop("late", 20)?;
    /// queue.insert_or_drop("early", 10)?;
    /// let mut out = Vec::new();
    /// while let Turn::Out(expired) = queue.poll(20)? {
    ///     out.push(expired.value);
    /// }
    /// assert_eq!(out, ["early", "late"]);
    /// # Ok::<(), hontkhale::parts::owner::CoreError>(())
    /// ```
    #[inline(always)]
    pub fn poll(&mut self, tick: u64) -> Result<Turn<T>, CoreError> {
        let answer = self.poll_deferring(tick)?;
        // A drop that panics would lose the entry: it waits for a later call.
        if let Turn::Out(_) = &answer {
            return Ok(answer);
        }
        self.drop_deferred();
        Ok(answer)
    }

    /// Notes `tick`, of one millisecond, and does at most `most` steps of a poll. It returns `Working` if more steps
    /// may be left, and else the poll's answer:
    /// - `Out` has the key, the deadline and the value of an entry that is due.
    /// - `Waiting` if no live entry is due: there is nothing to do before the tick `next`.
    /// - `Idle` if the queue holds no entry.
    ///
    /// Call it again while it returns `Working`. Each such call leaves at least `most` steps fewer than there were
    /// when its tick was noted. A call of no steps that returns `Working` tells nothing. Between two calls every
    /// other call may be made.
    ///
    /// A step takes constant time. If callers share the words, an entry that is due may take two steps: a look, and
    /// one that ends it. Dropped values aren't counted: they are dropped by this call, or by a later one if it
    /// returns an entry. It takes no memory.
    ///
    /// # Errors
    /// `TickTooLarge` if `tick` is beyond the last tick. It isn't noted then.
    pub fn poll_some(&mut self, tick: u64, most: u32) -> Result<Piece<T>, CoreError> {
        let answer = self.poll_some_deferring(tick, most)?;
        if let Piece::Answer(Turn::Out(_)) = &answer {
            return Ok(answer);
        }
        self.drop_deferred();
        Ok(answer)
    }

    /// Frees the slots of all cancelled entries, drops their values, and returns how many these were. A slot without
    /// stamps left is worn then. It looks at every slot, and takes no memory.
    pub fn sweep(&mut self) -> usize {
        let reaped = self.sweep_deferring();
        self.drop_deferred();
        reaped
    }

    /// Frees the slots of the cancelled entries among the `count` slots from the slot `from` on, and drops their
    /// values. It returns how many these were, and the slot to go on from, which is none after the last slot. It
    /// takes time in proportion to `count`, and no memory.
    pub fn sweep_some(&mut self, from: usize, count: usize) -> Swept {
        let swept = self.sweep_some_deferring(from, count);
        self.drop_deferred();
        swept
    }

    /// Frees the slot of `entry` if the entry was cancelled, and drops its value. A slot without stamps left is worn
    /// then. Constant time, and no memory is taken.
    ///
    /// # Errors
    /// In this order:
    /// - `Missing` if the entry isn't in the queue any more, or never was.
    /// - `Live` if the entry wasn't cancelled. It stays.
    pub fn reap(&mut self, entry: &EntryId) -> Result<(), ReapError> {
        self.reap_deferring(entry)?;
        self.drop_deferred();
        Ok(())
    }

    /// Takes all entries out, drops their values and those of cancelled entries, and returns how many live ones were
    /// removed. It looks at every slot, and takes no memory.
    pub fn clear(&mut self) -> usize {
        let removed = self.clear_deferring();
        self.drop_deferred();
        removed
    }
}
