//! What waits for a shard: where a stream's ticks come from, why it gives no entry, the poller that is
//! parked in a shard, the shard's queue with it, and its registration with the context of its task; and how many
//! threads wait for the shard's lock.

mod parked;
mod row;
mod sleeping;
mod source;
mod streaming;
mod watched;

pub use parked::{let_sleep, ring, Parked, PendingWake};
pub use row::{unlock, Row, Shard};
#[cfg(test)]
pub use sleeping::park_with;
pub use sleeping::{Sleeps, StreamFault};
pub use source::{MillisecondTicks, TickSource};
pub(crate) use streaming::Rows;
pub use streaming::{LockedShard, Pace, ShardStream, Shards, Whole};
pub use watched::{keep_or_leave, WatchedCore};
