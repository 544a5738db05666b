//! What a queue tells of itself and of its entries.

use crate::core::outcomes::Tally;
use crate::core::queue::DelayCore;
use crate::core::words::Words;
use crate::ticks::{EntryId, Key};
use crate::wheels::Place;

impl<T, W: Words> DelayCore<T, W> {
    /// The last stamp of each slot: what was put there under it, and has left, leaves the slot worn.
    pub fn last_stamp(&self) -> u32 {
        self.slots.last()
    }

    /// Returns how many entries came and went, and how many the queue holds. A cancelled entry counts as cancelled
    /// only once its slot is freed. Constant time.
    pub fn tally(&self) -> Tally {
        let linked = self.slots.linked() as u64;
        Tally {
            inserted: self.inserted,
            expired: self.expired,
            removed: self.removed,
            cancelled: self.inserted - self.expired - self.removed - linked,
            linked,
            moves: self.wheel.moved(),
        }
    }

    /// Returns the key of an entry that is scheduled first, possibly a cancelled one. It returns none if the queue
    /// holds no entry.
    ///
    /// No live entry has a deadline before the tick at which that one is scheduled, which [`Self::filed`] tells. So
    /// if that tick is its deadline, no live entry comes out before it, except one with the same deadline. Else one
    /// with an earlier deadline may come out first, for one of these reasons:
    /// - The entry was extended or cancelled.
    /// - It was scheduled further ahead than the wheel reaches.
    /// - A piece of a poll has opened a slot. All entries of the slot count as scheduled at its start until
    ///   [`Self::poll_some`] has gone through them.
    ///
    /// If the owner alone changes the deadlines, [`Self::entries`] then tells which live entry has the least one.
    pub fn peek(&self) -> Option<Key> {
        let index = self.wheel.least()?;
        let born = self.slots.born(index).unwrap();
        let entry = EntryId::new(self.shard, index as u32, born);
        Some(Key::new(entry, self.slots.stamp(index)))
    }

    /// Returns the entry that stands first in `count` slots from `from` on, live or cancelled. It returns none if none
    /// stands there.
    pub fn entry_from(&self, from: usize, count: usize) -> Option<EntryId> {
        let capacity = self.slots.capacity();
        let first = from.min(capacity);
        let end = first + count.min(capacity - first);
        for index in first..end {
            if let Some(born) = self.slots.born(index) {
                return Some(EntryId::new(self.shard, index as u32, born));
            }
        }
        None
    }

    /// Returns the key that the next insert gives. It returns none if no slot is left in which no value waits for its
    /// drop. Constant time.
    pub fn next_key(&self) -> Option<Key> {
        let index = self.slots.next()?;
        let born = self.slots.stamp(index) + 1;
        Some(Key::new(EntryId::new(self.shard, index as u32, born), born))
    }

    // The stamp of a slot, 0 past the last one.
    fn stamp_at(&self, index: usize) -> u32 {
        if index >= self.slots.capacity() {
            return 0;
        }
        self.slots.stamp(index)
    }

    /// Whether an entry of that name was here, or its stamp has been given: no insert gives that name. The number of
    /// the queue isn't asked.
    pub fn is_past(&self, entry: &EntryId) -> bool {
        if entry.born() > self.stamp_at(entry.index() as usize) {
            return false;
        }
        true
    }

    /// Returns where an entry stands in the wheel. It returns none if the entry isn't in the queue.
    pub fn place(&self, entry: &EntryId) -> Option<Place> {
        let index = self.find(entry)?;
        Some(self.wheel.place(index))
    }

    /// Returns the tick, of one millisecond, at which an entry is scheduled. It returns none if the entry isn't in
    /// the queue.
    pub fn filed(&self, entry: &EntryId) -> Option<u64> {
        let index = self.find(entry)?;
        self.wheel.filed(index)
    }
}
