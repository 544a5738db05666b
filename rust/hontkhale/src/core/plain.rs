//! The slow twin of the queue: a list that each poll searches.
//!
//! It answers as a queue that is polled and filled does, and is simple enough to be read at one sitting: the tests
//! hold the wheel's answers against it. An insert is of constant time, a poll goes once over the list.

use crate::core::errors::CoreError;
use crate::memory::room_for;
use crate::ticks::{CAPACITY_LIMIT, LAST_TICK};
use alloc::vec::Vec;

/// An entry that waits.
pub struct Pending<T> {
    /// The tick from which on a poll takes it out.
    pub deadline: u64,
    /// The value.
    pub value: T,
}

/// What a poll of the plain queue answers.
pub enum PlainTurn<T> {
    /// An entry of least deadline, which is reached.
    PlainOut {
        /// Its deadline.
        deadline: u64,
        /// Its value.
        value: T,
    },
    /// Entries wait, and none of their deadlines is reached.
    PlainWaiting,
    /// No entry waits.
    PlainIdle,
}

// The index and the deadline of an entry of least deadline.
fn soonest<T>(entries: &[Pending<T>]) -> (usize, u64) {
    // requires 0 < length entries.now
    let mut first = 0;
    let mut deadline = entries[0].deadline;
    for (index, entry) in entries.iter().enumerate() {
        if entry.deadline < deadline {
            first = index;
            deadline = entry.deadline;
        }
    }
    (first, deadline)
}

/// A delay queue of one owner over a plain list, slow and short enough to be read. It is the twin to which the tests
/// compare the wheel.
///
/// ```
/// use hontkhale::parts::owner::{PlainQueue, PlainTurn};
///
/// let mut queue = PlainQueue::new(4)?;
/// assert_eq!(queue.insert("value", 10), Ok(10));
/// assert!(matches!(queue.poll(9)?, PlainTurn::PlainWaiting));
/// assert!(matches!(queue.poll(10)?, PlainTurn::PlainOut { deadline: 10, value: "value" }));
/// # Ok::<(), hontkhale::parts::owner::CoreError>(())
/// ```
pub struct PlainQueue<T> {
    capacity: usize,
    tick: u64,
    noted: u64,
    entries: Vec<Pending<T>>,
}

impl<T> PlainQueue<T> {
    /// Makes an empty queue for `capacity` entries, at tick 0. No other call takes memory.
    ///
    /// # Errors
    /// In this order:
    /// - `BadConfig` if `capacity` is 0 or beyond [`CAPACITY_LIMIT`].
    /// - `NoMemory` if memory is refused.
    pub fn new(capacity: usize) -> Result<PlainQueue<T>, CoreError> {
        if capacity == 0 || capacity > CAPACITY_LIMIT {
            return Err(CoreError::BadConfig);
        }
        let entries = room_for(capacity)?;
        Ok(PlainQueue {
            capacity,
            tick: 0,
            noted: 0,
            entries,
        })
    }

    /// How many entries may wait at once.
    pub fn capacity(&self) -> usize {
        self.capacity
    }

    /// How many entries wait.
    pub fn len(&self) -> usize {
        self.entries.len()
    }

    /// Whether no entry waits.
    pub fn is_empty(&self) -> bool {
        self.entries.is_empty()
    }

    /// The tick up to which the queue has gone: the noted tick after a poll that found nothing due, and the entry's
    /// deadline after one that took an entry out.
    pub fn tick(&self) -> u64 {
        self.tick
    }

    /// The greatest tick that a poll was given, at first 0.
    pub fn noted(&self) -> u64 {
        self.noted
    }

    /// Puts `value` in, to come out at the tick `when` of one millisecond, and returns its deadline: `when`, or the
    /// queue's tick if `when` is before it.
    ///
    /// # Errors
    /// `value` comes back. In this order:
    /// - `TooFar` if `when` is beyond the last tick.
    /// - `Full` if as many entries wait as the capacity.
    pub fn insert(&mut self, value: T, when: u64) -> Result<u64, (CoreError, T)> {
        if when > LAST_TICK {
            return Err((CoreError::TooFar { limit: LAST_TICK }, value));
        }
        let linked = self.entries.len();
        if linked == self.capacity {
            return Err((CoreError::Full { linked, worn: 0 }, value));
        }
        let deadline = when.max(self.tick);
        self.entries.push(Pending { deadline, value });
        Ok(deadline)
    }

    /// Notes `tick`, of one millisecond, and takes out an entry of least deadline if that deadline isn't after the
    /// greatest tick noted. It looks at each entry.
    ///
    /// # Errors
    /// `TickTooLarge` if `tick` is beyond the last tick. It isn't noted then.
    pub fn poll(&mut self, tick: u64) -> Result<PlainTurn<T>, CoreError> {
        if tick > LAST_TICK {
            return Err(CoreError::TickTooLarge { limit: LAST_TICK });
        }
        self.noted = self.noted.max(tick);
        if self.entries.is_empty() {
            self.tick = self.noted;
            return Ok(PlainTurn::PlainIdle);
        }
        let (first, deadline) = soonest(&self.entries);
        if deadline > self.noted {
            self.tick = self.noted;
            return Ok(PlainTurn::PlainWaiting);
        }
        let Pending { deadline, value } = self.entries.remove(first);
        self.tick = deadline;
        Ok(PlainTurn::PlainOut { deadline, value })
    }
}
