//! Extends, cancels and looks by `&self`, from any thread, which need no caller.

use crate::core::{shown, CallError, Look};
use crate::ticks::{stamp, unpack, Key, LAST_TICK};
use crate::words::caller::deadline_at;
use crate::words::keeper::{Keeper, WordsError};
use crate::words::seated::{cancelled_word, live_word, OpenWords};

impl Keeper {
    /// The words of this keeper, on which any thread may step from now on. No caller is issued for it.
    ///
    /// # Errors
    /// `NoMemory` if the words have too many holders.
    pub fn open(&mut self) -> Result<OpenWords, WordsError> {
        Ok(self.seat.open()?)
    }
}

impl OpenWords {
    // The slot of a key, where one may have it.
    fn slot(&self, key: &Key) -> Option<usize> {
        let index = key.entry().index() as usize;
        if index < self.rows() && key.stamp() > 0 {
            Some(index)
        } else {
            None
        }
    }

    /// Raises the deadline of a live entry to `when`, a tick of one millisecond, and returns the deadline that is
    /// then in force: `when`, or a later one that the entry had. No deadline gets sooner by it. The entry doesn't
    /// come out before the returned deadline, unless the queue resets or removes it.
    ///
    /// It makes one load and at most one atomic step. It takes no lock and no memory.
    ///
    /// # Errors
    /// In this order:
    /// - `TooFar` if `when` is beyond the last tick, 2^42 - 1.
    /// - `Unknown` if no slot has the key.
    /// - `Stale` if the slot has a later stamp: the entry was reset, or the slot has another entry.
    /// - `Ended` if the entry came out, was removed or was cancelled. It tells which.
    #[inline]
    pub fn extend(&self, key: &Key, when: u64) -> Result<u64, CallError> {
        if when > LAST_TICK {
            return Err(CallError::TooFar { limit: LAST_TICK });
        }
        let Some(index) = self.slot(key) else {
            return Err(CallError::Unknown);
        };
        let asked = key.stamp();
        let seen = self.pass(index);
        if stamp(seen) < asked {
            return Err(CallError::Unknown);
        }
        let found = self.pass_extend(index, live_word(asked, when));
        let before = deadline_at(found, asked)?;
        Ok(before.max(when))
    }

    /// Cancels a live entry, so that it won't come out, and returns the deadline that it gave up, a tick of one
    /// millisecond. The entry keeps its slot and its value until the queue frees it. No caller's `cancels` counts it.
    ///
    /// It makes one load and at most one atomic step. It takes no lock and no memory.
    ///
    /// # Errors
    /// In this order:
    /// - `Unknown` if no slot has the key.
    /// - `Stale` if the slot has a later stamp: the entry was reset, or the slot has another entry.
    /// - `Ended` if the entry came out, was removed or was cancelled. It tells which.
    pub fn cancel(&self, key: &Key) -> Result<u64, CallError> {
        let Some(index) = self.slot(key) else {
            return Err(CallError::Unknown);
        };
        let asked = key.stamp();
        let seen = self.pass(index);
        if stamp(seen) < asked {
            return Err(CallError::Unknown);
        }
        let found = self.pass_cancel(index, cancelled_word(asked));
        let given_up = deadline_at(found, asked)?;
        Ok(given_up)
    }

    /// Returns what the entry of `key` is: live, with its deadline, or how it ended. It makes one load. It takes no
    /// lock and no memory.
    ///
    /// # Errors
    /// In this order:
    /// - `Unknown` if no slot has the key.
    /// - `Stale` if the slot has a later stamp: the entry was reset, or the slot has another entry.
    #[inline]
    pub fn look(&self, key: &Key) -> Result<Look, CallError> {
        let Some(index) = self.slot(key) else {
            return Err(CallError::Unknown);
        };
        let asked = key.stamp();
        let found = self.pass(index);
        let seen = unpack(found);
        if seen.stamp < asked {
            return Err(CallError::Unknown);
        }
        if asked < seen.stamp {
            return Err(CallError::Stale { seen: seen.stamp });
        }
        Ok(shown(seen.mark, seen.field))
    }
}
