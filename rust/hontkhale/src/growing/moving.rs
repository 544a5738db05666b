//! An entry goes on in the open core: one call takes it out and puts it in there, and loses nothing.
//!
//! A core that drains may wait long for its last entries. They are moved, and so is an entry whose slot has no stamp
//! left. Callers extend and cancel the entry until the step that takes it out, and the deadline that it has at that
//! step is the one with which it goes on.

use crate::core::{CoreError, DelayCore, Removed, Words};
use crate::growing::cores::Cores;
use crate::index::{nth, nth_mut};
use crate::ticks::{EntryId, Key, LAST_TICK};

/// The deadline with which a moved entry goes on.
#[derive(Clone, Copy, Debug, PartialEq, Eq)]
pub enum NextDeadline {
    /// The one that it has.
    Same,
    /// This tick.
    At(u64),
    /// The one that it has where that is after this tick. Else the entry isn't put in again: it comes out.
    SameIfAfter(u64),
}

/// What became of an entry that was taken out of its slot.
#[derive(Debug)]
pub enum Moved<T> {
    /// It is in again.
    To {
        /// Its key there.
        key: Key,
        /// The deadline with which it goes on, a tick of one millisecond: the one that it had, or the one that was
        /// asked for. It isn't raised: if it is before the open core's own tick
        /// ([`DelayCore::tick`]), the entry is due there at once, and has that tick for its deadline.
        deadline: u64,
    },
    /// It came out.
    Out(Removed<T>),
}

impl NextDeadline {
    // The deadline that the entry gets, by the one that it has; none where it comes out.
    fn of(self, had: u64) -> Option<u64> {
        match self {
            NextDeadline::Same => Some(had),
            NextDeadline::At(tick) => Some(tick),
            NextDeadline::SameIfAfter(tick) => {
                if tick < had {
                    Some(had)
                } else {
                    None
                }
            }
        }
    }

    // Whether the deadline that is asked for is beyond the last tick.
    fn is_beyond(self) -> bool {
        match self {
            NextDeadline::At(tick) => LAST_TICK < tick,
            NextDeadline::Same | NextDeadline::SameIfAfter(_) => false,
        }
    }
}

// How many entries are linked and how many slots are worn, where these are all slots; none where one is free.
fn full_of<T, W: Words>(core: &DelayCore<T, W>) -> Option<(usize, usize)> {
    let (linked, worn) = (core.len(), core.worn());
    if linked + worn < core.capacity() {
        None
    } else {
        Some((linked, worn))
    }
}

// Puts a value into a free slot. What was deferred there comes out beside the key.
fn put_in<T, W: Words>(core: &mut DelayCore<T, W>, value: T, deadline: u64) -> (Key, Option<T>) {
    // requires deadline ≤ LAST_TICK
    // requires HasFreeSlot core.old
    let (answer, displaced) = core.insert_deferring(value, deadline);
    match answer {
        Ok(key) => (key, displaced),
        Err(_) => unreachable!(),
    }
}

impl<T, W: Words> Cores<T, W> {
    // How many entries the open core has and how many worn slots, where these are all its slots; none where one is
    // free.
    fn full(&self) -> Option<(usize, usize)> {
        if self.opened >= self.cores.len() {
            return Some((0, 0));
        }
        full_of(nth(&self.cores, self.opened))
    }

    // Puts a value into the open core.
    fn put_in_open(&mut self, value: T, deadline: u64) -> (Key, Option<T>) {
        // requires deadline ≤ LAST_TICK
        // requires HasOpenRoom self.old
        self.turns.lower(self.opened, deadline);
        put_in(nth_mut(&mut self.cores, self.opened), value, deadline)
    }

    /// Takes a live entry out of its core and puts it into the open one, with its value and with the deadline that
    /// `next` makes of the one that it has as it is taken out. An entry of the open core goes to another slot there if
    /// its slot is worn. No value is dropped: one that waits for its drop in the slot that the entry takes comes out
    /// beside the answer, and none beside any answer but `To`. Constant time in each core, and no memory is taken.
    ///
    /// # Errors
    /// Nothing is taken out. In this order:
    /// - `TooFar` if a deadline is asked for that is beyond the last tick.
    /// - `Full` if no core is open, or the open one has no free slot. It has the open core's numbers.
    /// - `Missing` if the entry isn't in the store any more, or never was.
    /// - `WasCancelled` if the entry was cancelled.
    pub fn relocate(&mut self, entry: &EntryId, next: NextDeadline) -> (Result<Moved<T>, CoreError>, Option<T>) {
        if next.is_beyond() {
            return (Err(CoreError::TooFar { limit: LAST_TICK }), None);
        }
        if let Some((linked, worn)) = self.full() {
            return (Err(CoreError::Full { linked, worn }), None);
        }
        let removed = match self.remove(entry) {
            Ok(removed) => removed,
            Err(error) => return (Err(error), None),
        };
        let Some(deadline) = next.of(removed.deadline) else {
            return (Ok(Moved::Out(removed)), None);
        };
        let (key, displaced) = self.put_in_open(removed.value, deadline);
        (Ok(Moved::To { key, deadline }), displaced)
    }
}
