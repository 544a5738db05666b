//! The proved parts of a [`DelayQueue`](crate::DelayQueue), for whoever builds a queue of another kind: with one owner, in
//! an embedded program, behind locks of its own, or as the C library and the Rattle sources have it.
//!
//! These queues count time in ticks of one millisecond. They read no clock: the program passes the tick in, from a
//! `Clock` or from whatever it counts by. A queue takes its memory when it is made. Inserts, resets and removals take
//! constant time, and no memory. A poll takes no memory either, and constant time for each entry that it moves or takes
//! out.
//!
//! | Who has it | Type | Module |
//! |---|---|---|
//! | one owner | [`DelayCore`](owner::DelayCore), made by [`with_capacity`](owner::DelayCore::with_capacity) | [`owner`] |
//! | one owner, whose entries any thread extends and cancels | [`shared_queue`](owner::shared_queue), with a [`Caller`](owner::Caller) for each thread, or [`OpenWords`](owner::OpenWords) | [`owner`] |
//!
//! With the feature `all-parts` there are these too; the last four ask for `std` as well:
//!
//! | Who has it | Type | Module |
//! |---|---|---|
//! | whoever keeps values by indexes | `Wheel`, the timing wheel alone | `wheel` |
//! | many threads, shards behind locks | `SharedDelayQueue`, with a `Handle` for each thread | `shards` |
//! | tasks that wait for a shard | `ExpiredStream` | `streams` |
//! | a cache; sessions that time out | `TtlCache`, `CountedCache`; `IdleSessions` | `cache`, `sessions` |
//! | a script of delays, from bytes to bytes | `run` | `replay` |
//!
//! A stream has a call `poll_next` of its own, since the crate depends on no other;
//! `futures::stream::poll_fn(|cx| stream.poll_next(cx))` makes a `Stream` of it.
//!
//! If a call that takes a value is refused, its error is a pair that has the value; `?` makes a [`Refused`] of it.
//!
//! An enum of errors and a record that a queue fills may get more variants and fields one day. What a call comes to, such as
//! [`Turn`](owner::Turn), has just the variants that it has.

#[cfg(feature = "std")]
pub use crate::clock::Clock;
pub use crate::memory::AllocError;
pub use crate::refused::Refused;

#[cfg(feature = "all-parts")]
pub mod wheel {
    //! The timing wheel alone, for whoever keeps values by indexes.

    pub use crate::checked_wheel::Wheel;
    pub use crate::ticks::REACH;
    pub use crate::wheels::{Place, WheelError};
}

pub mod owner {
    //! The queue of one owner, alone or with callers that extend and cancel its entries from other threads; or over
    //! [`OpenWords`], by which any thread does so with no caller.

    pub use crate::core::{
        BadNumber, CallError, CoreConfig, CoreError, DelayCore, Entries, Expired, Folded, LiveEntry, Look, Piece,
        ReapError, Removed, RenewError, SharedWords, Swept, Tally, Turn, VecWords, Words,
    };
    #[cfg(feature = "all-parts")]
    pub use crate::core::{Pending, PlainQueue, PlainTurn};
    #[cfg(feature = "all-parts")]
    pub use crate::ticks::{is_same_entry, is_same_key};
    pub use crate::ticks::{EntryId, Key, CAPACITY_LIMIT, LAST_STAMP, LAST_TICK};
    #[cfg(all(feature = "std", feature = "all-parts"))]
    pub use crate::words::ManyTurn;
    pub use crate::words::{numbered_queue, shared_queue, Caller, Keeper, OpenWords, WordsError, HANDLE_LIMIT};
}

#[cfg(all(feature = "std", feature = "all-parts"))]
pub mod shards {
    //! Delay queues behind locks, one a shard, whose entries are extended and cancelled without them.

    pub use crate::shards::{
        BadQueueNumber, Handle, HandlesOut, Parked, QueueConfig, QueueError, ShardState, SharedDelayQueue, Totals,
        SHARD_LIMIT,
    };
}

#[cfg(all(feature = "std", feature = "all-parts"))]
pub mod streams {
    //! Streams of the entries that expire in a shard, for a task. No other crate's queue has a [`ShardStream`]: the bound
    //! [`Shards`] is that of [`SharedDelayQueue`](crate::parts::shards::SharedDelayQueue) alone.

    pub use crate::shards::parking::{LockedShard, Pace, Shards};
    pub use crate::stream::{
        ExpiredStream, MillisecondTicks, PacedStream, ShardStream, StreamFault, TickSource, Whole,
    };
}

#[cfg(all(feature = "std", feature = "all-parts"))]
pub mod cache {
    //! Values that are kept under a key until their deadline.

    pub use crate::apps::{CountedCache, MemoAnswer, PutAnswer, Seen, TtlCache};
}

#[cfg(all(feature = "std", feature = "all-parts"))]
pub mod sessions {
    //! Sessions that end once nobody has touched them for a time.

    pub use crate::apps::{IdleSessions, Name};
}

#[cfg(all(feature = "std", feature = "all-parts"))]
pub mod replay {
    //! The replay of a script of delays, from bytes to bytes: what is written is a function of the bytes that are read.

    pub use crate::replay::{report, run, FaultKind, ReplayFault};
}

#[cfg(feature = "std")]
#[doc(hidden)]
pub mod directory {
    pub use crate::words::directory::{AddError, Clerk, Directory, MOST};
}

#[cfg(feature = "std")]
#[doc(hidden)]
pub mod growing {
    pub use crate::growing::{Cores, Folds, Moved, NextDeadline, SizedStore, Sizing, Store, TakeError};
}
