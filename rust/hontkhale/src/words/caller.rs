//! A seat that extends and cancels, from any thread.

use crate::core::{shown, CallError, Look};
use crate::ticks::{stamp, unpack, Key, Mark, LAST_TICK};
use crate::words::seated::{cancelled_word, live_word, Seated};

/// Extends and cancels entries, and looks at them, without a lock.
///
/// ```
/// use hontkhale::parts::owner::{shared_queue, Look, Turn};
/// use std::thread;
///
/// let mut queue = shared_queue(1_000)?;
/// let mut caller = queue.issue().unwrap();
/// let key = queue.insert_or_drop("lease", 100)?;
/// let worker = thread::spawn(move || {
///     assert_eq!(caller.extend(&key, 250), Ok(250));
///     assert_eq!(caller.look(&key), Ok(Look::StillLive(250)));
///     caller.give_back();
/// });
/// worker.join().unwrap();
/// assert!(matches!(queue.poll(249)?, Turn::Waiting { .. }));
/// assert!(matches!(queue.poll(250)?, Turn::Out(expired) if expired.value == "lease"));
/// # Ok::<(), hontkhale::parts::owner::CoreError>(())
/// ```
///
/// Each call makes one load and at most one atomic step, waits for nobody and takes no memory. A caller that is
/// dropped counts as out for good. It may outlive its queue: the entries that were live when the queue was dropped
/// are then refused as `Ended`, and a look shows them as removed.
pub struct Caller {
    pub(crate) seat: Seated,
    cancels: u64,
}

// The deadline of the word that a step of a stamp found live at that stamp, or why the word refuses the stamp.
pub(crate) fn deadline_at(found: u64, asked: u32) -> Result<u64, CallError> {
    // requires asked ≤ stamp_of found
    let parts = unpack(found);
    if asked < parts.stamp {
        return Err(CallError::Stale { seen: parts.stamp });
    }
    match parts.mark {
        Mark::LiveMark => Ok(parts.field),
        _ => Err(CallError::Ended {
            how: shown(parts.mark, parts.field),
        }),
    }
}

impl Caller {
    pub(crate) fn of(seat: Seated) -> Caller {
        // requires (seat.view.keeps ≡ false) × (seat.view.gone ≡ false) × (seat.view.calls ≡ []) × (seat.view.passes ≡ false)
        Caller { seat, cancels: 0 }
    }

    // The slot of a key, where one may have it.
    fn slot(&self, key: &Key) -> Option<usize> {
        let index = key.entry().index() as usize;
        if index < self.seat.rows() && key.stamp() > 0 {
            Some(index)
        } else {
            None
        }
    }

    /// Raises the deadline of a live entry to `when`, a tick of one millisecond, and returns the deadline that is
    /// then in force: `when`, or a later one that the entry had. No deadline gets sooner by it. The entry doesn't
    /// come out before the returned deadline, unless the queue resets or removes it.
    ///
    /// It makes one load and at most one atomic step. It takes no lock and no memory.
    ///
    /// # Errors
    /// In this order:
    /// - `TooFar` if `when` is beyond the last tick, 2^42 - 1.
    /// - `Unknown` if no slot has the key.
    /// - `Stale` if the slot has a later stamp: the entry was reset, or the slot has another entry.
    /// - `Ended` if the entry came out, was removed or was cancelled. It tells which.
    pub fn extend(&mut self, key: &Key, when: u64) -> Result<u64, CallError> {
        if when > LAST_TICK {
            return Err(CallError::TooFar { limit: LAST_TICK });
        }
        let Some(index) = self.slot(key) else {
            return Err(CallError::Unknown);
        };
        let asked = key.stamp();
        let seen = self.seat.caller_load(index);
        if stamp(seen) < asked {
            return Err(CallError::Unknown);
        }
        let found = self.seat.extend(index, live_word(asked, when));
        let before = deadline_at(found, asked)?;
        Ok(before.max(when))
    }

    /// Cancels a live entry, so that it won't come out, and returns the deadline that it gave up, a tick of one
    /// millisecond. The entry keeps its slot and its value until the queue frees it.
    ///
    /// It makes one load and at most one atomic step. It takes no lock and no memory.
    ///
    /// # Errors
    /// In this order:
    /// - `Unknown` if no slot has the key.
    /// - `Stale` if the slot has a later stamp: the entry was reset, or the slot has another entry.
    /// - `Ended` if the entry came out, was removed or was cancelled. It tells which.
    pub fn cancel(&mut self, key: &Key) -> Result<u64, CallError> {
        let Some(index) = self.slot(key) else {
            return Err(CallError::Unknown);
        };
        let asked = key.stamp();
        let seen = self.seat.caller_load(index);
        if stamp(seen) < asked {
            return Err(CallError::Unknown);
        }
        let found = self.seat.cancel(index, cancelled_word(asked));
        let given_up = deadline_at(found, asked)?;
        self.cancels += 1;
        Ok(given_up)
    }

    /// Returns what the entry of `key` is: live, with its deadline, or how it ended. It makes one load. It takes no
    /// lock and no memory.
    ///
    /// # Errors
    /// In this order:
    /// - `Unknown` if no slot has the key.
    /// - `Stale` if the slot has a later stamp: the entry was reset, or the slot has another entry.
    pub fn look(&mut self, key: &Key) -> Result<Look, CallError> {
        let Some(index) = self.slot(key) else {
            return Err(CallError::Unknown);
        };
        let asked = key.stamp();
        let seen = unpack(self.seat.caller_load(index));
        if seen.stamp < asked {
            return Err(CallError::Unknown);
        }
        if asked < seen.stamp {
            return Err(CallError::Stale { seen: seen.stamp });
        }
        Ok(shown(seen.mark, seen.field))
    }

    /// Returns the number of its cancels that were accepted.
    pub fn cancels(&self) -> u64 {
        self.cancels
    }

    /// Gives the caller back, and returns the number of its cancels that were accepted. It makes one atomic step,
    /// which counts the caller as gone and its cancels with it.
    pub fn give_back(mut self) -> u64 {
        let cancels = self.cancels;
        self.seat.give_back(cancels);
        cancels
    }
}
