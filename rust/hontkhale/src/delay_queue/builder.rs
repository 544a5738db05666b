//! What a queue is made by.

use crate::debug::shows;
use crate::delay_queue::dropping::DropQueue;
use crate::delay_queue::shard::{Seen, Shard};
use crate::delay_queue::shared::{Common, Shared, NEXT_QUEUE};
use crate::delay_queue::time::{ManualClock, Source, Time};
use crate::delay_queue::waking::{granted, Waiting};
use crate::delay_queue::DelayQueue;
use crate::locks::Mutex;
use crate::ticks::LAST_STAMP;
use crate::words::directory::Clerk;
use std::marker::PhantomData;
use std::sync::atomic::{AtomicUsize, Ordering::SeqCst};
use std::sync::Arc;
use std::thread;
use std::time::Instant;

/// A receive looks at the hints of all shards, so they are few.
const MOST_SHARDS: usize = 64;

/// What a [`DelayQueue`] is made by, as [`DelayQueue::builder`] begins it.
///
/// ```
/// use hontkhale::DelayQueue;
///
/// let queue: DelayQueue<String> = DelayQueue::builder().max_entries(1_000_000).shards(8).build();
/// assert!(queue.is_empty());
/// ```
#[must_use]
pub struct Builder<T> {
    shards: usize,
    max_entries: usize,
    last_stamp: u32,
    clock: Source,
    start: Option<Instant>,
    values: PhantomData<fn() -> T>,
}

impl<T> Builder<T> {
    pub(crate) fn new() -> Builder<T> {
        let shards = thread::available_parallelism().map_or(4, |count| count.get().clamp(2, 16));
        Builder {
            shards,
            max_entries: usize::MAX,
            last_stamp: LAST_STAMP,
            clock: Source::System,
            start: None,
            values: PhantomData,
        }
    }

    /// How many entries may wait at most. An insert beyond is refused as
    /// [`Full`](crate::delay_queue::InsertErrorKind::Full). An entry that is due counts until it comes out. One that was cancelled
    /// doesn't count, nor does one that came out, though its receiver may still be at work with it. Without this call a queue grows
    /// until it has 4 million entries a shard.
    pub fn max_entries(mut self, most: usize) -> Builder<T> {
        self.max_entries = most;
        self
    }

    /// Over how many shards, each behind a lock of its own, the threads of a queue are spread: 1 to 64, and the nearest of these
    /// for another number. With 1 all threads use one shard. Without this call they are as many as the machine runs threads, 2 to
    /// 16.
    pub fn shards(mut self, shards: usize) -> Builder<T> {
        self.shards = shards.clamp(1, MOST_SHARDS);
        self
    }

    /// A clock that a test advances, in the place of the system's.
    pub fn clock(mut self, clock: &ManualClock) -> Builder<T> {
        self.clock = Source::Manual(clock.clone());
        self
    }

    /// A function that tells the time, in the place of the system's clock: that of a runtime which has its own. What it tells
    /// never falls.
    ///
    /// ```
    /// use hontkhale::DelayQueue;
    /// use std::time::Instant;
    ///
    /// let queue: DelayQueue<String> = DelayQueue::builder().read_clock(Instant::now).build();
    /// assert!(queue.try_recv().is_err());
    /// ```
    pub fn read_clock(mut self, now: fn() -> Instant) -> Builder<T> {
        self.clock = Source::Read(now);
        self
    }

    /// From which moment the queue counts its milliseconds, in the place of its making. A deadline that is whole milliseconds
    /// after it isn't rounded, so that the ticks of another clock are kept. Deadlines may be up to 139 years after it. A moment
    /// that is yet to come counts as the making.
    ///
    /// ```
    /// use hontkhale::DelayQueue;
    /// use std::time::{Duration, Instant};
    ///
    /// let start = Instant::now();
    /// let queue = DelayQueue::builder().ticks_from(start).build();
    /// let deadline = start + Duration::from_millis(30_000);
    /// let key = queue.insert_at("session", deadline)?;
    /// assert_eq!(queue.deadline(&key)?, deadline);
    /// # Ok::<(), Box<dyn std::error::Error>>(())
    /// ```
    pub fn ticks_from(mut self, start: Instant) -> Builder<T> {
        self.start = Some(start);
        self
    }

    /// After how many inserts and resets a slot is worn, 1 to [`LAST_STAMP`]: for tests of what is done then.
    #[doc(hidden)]
    pub fn last_stamp(mut self, last: u32) -> Builder<T> {
        self.last_stamp = last.clamp(1, LAST_STAMP);
        self
    }

    /// The queue, which is empty, and takes memory as entries come.
    #[must_use]
    pub fn build(self) -> DelayQueue<T> {
        let clerk = granted::<Common, _>(Clerk::new(u32::MAX));
        let (receivers, written, hints) = granted::<Common, _>(Waiting::new(self.shards));
        let common = Arc::new(Common {
            id: NEXT_QUEUE.fetch_add(1, SeqCst),
            time: Time::new(self.clock.clone(), self.start),
            words: clerk.directory().clone(),
            receivers,
            hints,
            most: self.max_entries,
            waiting: AtomicUsize::new(0),
            seen: (0..self.shards).map(|_| Seen::default()).collect(),
            state: AtomicUsize::new(0),
            asked: AtomicUsize::new(0),
            inserters: AtomicUsize::new(0),
        });
        if let Source::Manual(clock) = &self.clock {
            clock.wakes(&common);
        }
        let shard = |(at, hint)| Mutex::new(Shard::new(common.id, at, hint));
        DelayQueue::of(&Arc::new(Shared {
            shards: written.into_iter().enumerate().map(shard).collect(),
            common,
            makes: Mutex::new(clerk),
            last_stamp: self.last_stamp,
            deferred: DropQueue::new(),
        }))
    }
}

shows! {
    [T] Builder<T> { .shards .max_entries .clock .start }
}
