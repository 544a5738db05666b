//! What a shard's state tells of its queue.

use crate::core::Tally;
use crate::shards::state::ShardState;
use crate::ticks::{EntryId, Key};
use crate::wheels::Place;

impl<T> ShardState<T> {
    /// The number of the shard, which its keys carry.
    #[inline]
    pub fn shard(&self) -> u32 {
        self.watched.core.shard()
    }

    /// Returns the tick, of one millisecond, at which the shard has something to do next. It returns none if nothing
    /// is linked. No live entry has a deadline before that tick; the least deadline may be later. Constant time.
    pub fn next_wake(&self) -> Option<u64> {
        self.watched.core.next_wake()
    }

    /// The number of linked entries, live or cancelled and not yet reaped.
    pub fn len(&self) -> usize {
        self.watched.core.len()
    }

    /// Whether nothing is linked.
    pub fn is_empty(&self) -> bool {
        self.watched.core.is_empty()
    }

    /// The number of slots.
    pub fn capacity(&self) -> usize {
        self.watched.core.capacity()
    }

    /// The wheel's tick of one millisecond, which is not after the noted one.
    pub fn tick(&self) -> u64 {
        self.watched.core.tick()
    }

    /// The greatest tick of one millisecond that a poll accepted; at first 0.
    pub fn noted(&self) -> u64 {
        self.watched.core.noted()
    }

    /// Returns how many entries came and went, and how many are linked. A cancelled entry counts as cancelled only
    /// once it is reaped, so there may have been more cancels; an audit tells them. Constant time.
    pub fn tally(&self) -> Tally {
        self.watched.core.tally()
    }

    /// Returns the key of an entry that is scheduled first, possibly a cancelled one. It returns none if nothing is
    /// linked. No live entry has a deadline before the tick at which that one is scheduled.
    pub fn peek(&self) -> Option<Key> {
        self.watched.core.peek()
    }

    /// Returns where an entry stands in the wheel. It returns none if the entry isn't linked here.
    pub fn place(&self, entry: &EntryId) -> Option<Place> {
        self.watched.core.place(entry)
    }

    /// Returns the tick, of one millisecond, at which an entry is scheduled, which isn't after its deadline. It
    /// returns none if the entry isn't linked here.
    pub fn filed(&self, entry: &EntryId) -> Option<u64> {
        self.watched.core.filed(entry)
    }
}
