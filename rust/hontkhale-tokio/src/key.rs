use crate::clock::Clock;
use hontkhale::parts::owner::{self, EntryId};
use std::fmt;
use tokio::time::Instant;

/// The bits of a stamp and of a slot in a name, which leave 28 for a core's number.
const STAMP_BITS: u32 = 20;
const SLOT_BITS: u32 = 16;
/// How many cores a queue may have made, so that a key names each.
pub(crate) const MOST_CORES: u32 = 1 << (u64::BITS - STAMP_BITS - SLOT_BITS);

/// The name of an entry, from its insert to its end: resets, growth and [`compact`](crate::DelayQueue::compact) leave it
/// good, and no key is ever taken for another entry.
#[derive(Clone, Copy, PartialEq, Eq, Hash)]
pub struct Key {
    /// The number of the queue, which no other queue of the program has.
    pub(crate) queue: u64,
    /// The name that the entry had at first. Two numbers in all: a key that was just made is copied from two stores, and not from
    /// four, for which a wider load would wait.
    pub(crate) name: Name,
}

/// A core's number, a slot there, and a stamp. An entry's first name is where it was put, and the stamp of its birth.
#[derive(Clone, Copy, PartialEq, Eq, Hash)]
pub(crate) struct Name(u64);

impl Name {
    /// The name of what is at a place under a stamp.
    #[inline]
    pub fn of(place: &EntryId, stamp: u32) -> Name {
        let slot = u64::from(place.shard()) << SLOT_BITS | u64::from(place.index());
        Name(slot << STAMP_BITS | u64::from(stamp))
    }

    /// The core's number.
    #[inline]
    pub fn core(self) -> u32 {
        (self.0 >> (STAMP_BITS + SLOT_BITS)) as u32
    }

    /// The id of an entry whose birth has that stamp: the store has an entry under that of its first name.
    #[inline]
    pub fn entry(self) -> EntryId {
        EntryId::new(self.core(), u32::from((self.0 >> STAMP_BITS) as u16), self.stamp())
    }

    #[inline]
    fn stamp(self) -> u32 {
        self.0 as u32 & ((1 << STAMP_BITS) - 1)
    }

    /// The key by which the words have it: they look at the slot and at the stamp alone.
    #[inline]
    pub fn key(self) -> owner::Key {
        owner::Key::new(self.entry(), self.stamp())
    }
}

impl fmt::Debug for Key {
    fn fmt(&self, f: &mut fmt::Formatter<'_>) -> fmt::Result {
        let entry = self.name.entry();
        f.debug_struct("Key")
            .field("queue", &self.queue)
            .field("core", &entry.shard())
            .field("slot", &entry.index())
            .field("born", &entry.born())
            .finish()
    }
}

/// An entry that came out of a [`DelayQueue`](crate::DelayQueue), or was removed from it.
pub struct Expired<T> {
    pub(crate) key: Key,
    pub(crate) data: T,
    /// The deadline, whose moment is reckoned where it is asked for.
    pub(crate) tick: u64,
    pub(crate) clock: Clock,
}

impl<T> Expired<T> {
    /// The value.
    pub fn get_ref(&self) -> &T {
        &self.data
    }

    /// The value, to be changed.
    pub fn get_mut(&mut self) -> &mut T {
        &mut self.data
    }

    /// The value alone.
    pub fn into_inner(self) -> T {
        self.data
    }

    /// The deadline that was in force, rounded up to the queue's milliseconds.
    pub fn deadline(&self) -> Instant {
        self.clock.moment(self.tick)
    }

    /// The key that the insert gave.
    pub fn key(&self) -> Key {
        self.key
    }
}

impl<T: fmt::Debug> fmt::Debug for Expired<T> {
    fn fmt(&self, f: &mut fmt::Formatter<'_>) -> fmt::Result {
        f.debug_struct("Expired")
            .field("data", &self.data)
            .field("deadline", &self.deadline())
            .field("key", &self.key)
            .finish()
    }
}
