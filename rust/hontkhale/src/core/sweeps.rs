//! Calls that go over all slots: a sweep of the cancelled entries, and a clear of all.
//!
//! A cancelled entry stays linked until its keeper finds it so: a poll does where the entry comes due, a sweep at
//! once.

use crate::core::errors::ReapError;
use crate::core::outcomes::Swept;
use crate::core::queue::DelayCore;
use crate::core::words::Words;
use crate::ticks::{EntryId, Mark};

// The slot to go on from, none behind the last.
fn going_on(end: usize, capacity: usize) -> Option<usize> {
    if end < capacity {
        Some(end)
    } else {
        None
    }
}

impl<T, W: Words> DelayCore<T, W> {
    // Reaps the entry at a slot where it is found cancelled.
    fn reap_at(&mut self, index: usize) -> bool {
        // requires index < length self.old.slots.rows
        if !self.slots.is_held(index) {
            return false;
        }
        let word = self.words.look(index);
        let Mark::CancelledMark = word.mark else {
            return false;
        };
        self.wheel.unlink(index);
        self.slots.defer(index);
        true
    }

    /// Reaps each linked entry that is found cancelled, and returns how many. Their slots are free for others, or worn.
    /// No value is dropped: each waits until it is taken out. It looks at every slot.
    pub fn sweep_deferring(&mut self) -> usize {
        let mut reaped = 0;
        for index in 0..self.slots.capacity() {
            if self.reap_at(index) {
                reaped += 1;
            }
        }
        reaped
    }

    /// Reaps each linked entry that is found cancelled at `count` slots from `from` on, and tells the slot to go on
    /// from. No value is dropped: each waits until it is taken out.
    pub fn sweep_some_deferring(&mut self, from: usize, count: usize) -> Swept {
        let capacity = self.slots.capacity();
        let first = from.min(capacity);
        let end = first + count.min(capacity - first);
        let mut reaped = 0;
        for index in first..end {
            if self.reap_at(index) {
                reaped += 1;
            }
        }
        Swept {
            reaped,
            next: going_on(end, capacity),
        }
    }

    /// Reaps the entry of that name where it is found cancelled. Its value isn't dropped: it waits until it is taken
    /// out. Constant time.
    ///
    /// # Errors
    /// `Missing` where no entry is linked with that shard, index and birth stamp; `Live` where it is found live.
    pub fn reap_deferring(&mut self, entry: &EntryId) -> Result<(), ReapError> {
        let Some(index) = self.find(entry) else {
            return Err(ReapError::Missing);
        };
        if self.reap_at(index) {
            Ok(())
        } else {
            Err(ReapError::Live)
        }
    }

    // Ends the entry at a slot: as removed where it is live, and else it is reaped.
    fn clear_at(&mut self, index: usize) -> bool {
        // requires index < length self.old.slots.rows
        if !self.slots.is_held(index) {
            return false;
        }
        let stamp = self.slots.stamp(index);
        let ended = self.words.finish(index, stamp);
        self.wheel.unlink(index);
        match ended {
            Some(_) => {
                self.removed += 1;
                self.slots.defer(index);
                true
            }
            None => {
                self.slots.defer(index);
                false
            }
        }
    }

    /// Ends every linked entry: each live one as removed, and those that were cancelled are reaped. It returns how many
    /// it ended as removed, and goes over every slot. No value is dropped: each waits until it is taken out.
    pub fn clear_deferring(&mut self) -> usize {
        let mut removed = 0;
        for index in 0..self.slots.capacity() {
            if self.clear_at(index) {
                removed += 1;
            }
        }
        removed
    }
}
