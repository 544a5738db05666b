//! The live entries of a queue, one after the other, and the value of one of them, to be read or changed.

use crate::core::queue::DelayCore;
use crate::core::vec_words::VecWords;
use crate::core::words::Words;
use crate::ticks::{EntryId, Key, Mark};

/// A live entry of a queue over plain words.
pub struct LiveEntry<'a, T> {
    /// Its key, of the present stamp.
    pub key: Key,
    /// Its deadline in force, a tick of one millisecond.
    pub deadline: u64,
    /// Its value.
    pub value: &'a T,
}

/// The live entries of a queue over plain words, as an iterator over those that are left.
///
/// ```
/// use hontkhale::parts::owner::DelayCore;
///
/// let mut queue = DelayCore::with_capacity(4)?;
/// queue.insert_or_drop("a", 10)?;
/// queue.insert_or_drop("b", 20)?;
/// let sum: u64 = queue.entries().map(|entry| entry.deadline).sum();
/// assert_eq!(sum, 30);
/// # Ok::<(), hontkhale::parts::owner::CoreError>(())
/// ```
pub struct Entries<'a, T> {
    queue: &'a DelayCore<T, VecWords>,
    slot: usize,
}

impl<T, W: Words> DelayCore<T, W> {
    /// Returns the value of an entry. It returns none if the entry isn't in the queue any more, or never was. A
    /// cancelled entry has its value until it is freed. Constant time.
    pub fn get(&self, entry: &EntryId) -> Option<&T> {
        let index = self.find(entry)?;
        let held = self.slots.held(index)?;
        Some(held.1)
    }

    /// Calls a closure with the value of an entry, which it may change where it is, and returns what it returns. It
    /// returns none, and doesn't call it, if the entry isn't in the queue any more, or never was. A cancelled entry has
    /// its value until it is freed.
    pub fn with_value<R, F: FnOnce(&mut T) -> R>(&mut self, entry: &EntryId, call: F) -> Option<R> {
        // requires F.IsAlwaysCallable call
        let index = self.find(entry)?;
        let answer = self.slots.with_value(index, call);
        Some(answer)
    }
}

impl<T> DelayCore<T, VecWords> {
    // The live entry at a slot.
    fn entry_at(&self, slot: usize) -> Option<LiveEntry<'_, T>> {
        // requires slot < length self.now.slots.rows
        let held = self.slots.held(slot)?;
        let word = self.words.word(slot);
        let Mark::LiveMark = word.mark else {
            return None;
        };
        let entry = EntryId::new(self.shard, slot as u32, held.0);
        Some(LiveEntry {
            key: Key::new(entry, word.stamp),
            deadline: word.field,
            value: held.1,
        })
    }

    /// Returns the live entries, one after the other, in the order of their slots: each with its key, its deadline
    /// and its value. A step looks at slots until it finds a live entry, so all steps together take time in
    /// proportion to the slots.
    pub fn entries(&self) -> Entries<'_, T> {
        Entries { queue: self, slot: 0 }
    }
}

impl<'a, T> Iterator for Entries<'a, T> {
    type Item = LiveEntry<'a, T>;

    fn next(&mut self) -> Option<LiveEntry<'a, T>> {
        while self.slot < self.queue.capacity() {
            let slot = self.slot;
            self.slot += 1;
            if let Some(entry) = self.queue.entry_at(slot) {
                return Some(entry);
            }
        }
        None
    }
}
