//! The totals of all shards, which an audit answers.

use crate::core::Tally;
use crate::shards::queue::SharedDelayQueue;
use crate::shards::state::ShardState;
use core::fmt;

/// What became of all entries that were ever inserted: `inserted` is the sum of the others.
#[derive(Clone, Copy, Debug, PartialEq, Eq)]
pub struct Totals {
    /// Inserts.
    pub inserted: u64,
    /// Entries that came out of a poll.
    pub expired: u64,
    /// Entries that were removed, by `clear` too.
    pub removed: u64,
    /// Accepted cancels, reaped or not.
    pub cancelled: u64,
    /// Entries that are live.
    pub live: u64,
}

/// Some callers are not given back, so no audit can tell how many cancels were accepted.
#[derive(Clone, Copy, Debug, PartialEq, Eq)]
pub struct HandlesOut {
    /// How many of one shard's callers are out.
    pub out: u64,
}

impl fmt::Display for HandlesOut {
    fn fmt(&self, f: &mut fmt::Formatter<'_>) -> fmt::Result {
        let HandlesOut { out } = self;
        write!(f, "{out} handles are out")
    }
}

#[cfg(feature = "std")]
impl std::error::Error for HandlesOut {}

const NOTHING: Totals = Totals {
    inserted: 0,
    expired: 0,
    removed: 0,
    cancelled: 0,
    live: 0,
};

fn sum(one: &Totals, other: &Totals) -> Totals {
    // requires AddUp one.now × AddUp other.now
    // requires (one.now.inserted ≤ SHARD_LIMIT * most_begins) × FewInserted other.now
    Totals {
        inserted: one.inserted + other.inserted,
        expired: one.expired + other.expired,
        removed: one.removed + other.removed,
        cancelled: one.cancelled + other.cancelled,
        live: one.live + other.live,
    }
}

// The totals of a shard's tally, where callers accepted so many cancels.
fn totals_of(tally: &Tally, cancelled: u64) -> Totals {
    // requires EndsAreBegun tally.now cancelled
    Totals {
        inserted: tally.inserted,
        expired: tally.expired,
        removed: tally.removed,
        cancelled,
        live: tally.inserted - tally.expired - tally.removed - cancelled,
    }
}

impl<T> ShardState<T> {
    /// Returns what became of all entries of this shard that were ever inserted: what expired, was removed, was
    /// cancelled (freed or not) and is live adds up to what was inserted. It takes constant time and no memory.
    ///
    /// # Errors
    /// `HandlesOut` if some callers aren't given back, with their number: what they cancelled isn't known.
    pub fn audit(&mut self) -> Result<Totals, HandlesOut> {
        let tally = self.watched.core.tally();
        match self.watched.core.returned() {
            Ok(cancelled) => Ok(totals_of(&tally, cancelled)),
            Err(out) => Err(HandlesOut { out }),
        }
    }
}

impl<T> SharedDelayQueue<T> {
    // The totals of one shard.
    fn audit_of(&self, shard: usize) -> Result<Totals, HandlesOut> {
        // requires shard < self.now
        let mut shard = self.row.lock(shard);
        shard.audit()
    }

    /// Returns what became of all entries that were ever inserted, over all shards: what expired, was removed, was
    /// cancelled (freed or not) and is live adds up to what was inserted. It takes the lock of each shard in turn for
    /// constant time, and no memory.
    ///
    /// A handle that was dropped and not given back is out for good: then no audit returns totals any more.
    ///
    /// # Errors
    /// `HandlesOut` if a handle isn't given back, with the number that is out by the first shard that has one.
    pub fn audit(&self) -> Result<Totals, HandlesOut> {
        let mut sums = NOTHING;
        for shard in 0..self.shards() {
            sums = sum(&sums, &self.audit_of(shard)?);
        }
        Ok(sums)
    }
}
