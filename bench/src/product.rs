//! The crate's `DelayQueue`, as a program has it: one queue for all threads, under a clock that stands until it is moved.

use std::hint::black_box;
use std::sync::atomic::{AtomicU64, Ordering};
use std::time::{Duration, Instant};

use hontkhale::{DelayQueue, Expired, Key, KeyError, ManualClock};

use crate::plan::BURST;
use crate::queue::{Extends, Parts, Polls, Queue, Sharded, Shared};
use crate::rows::Clock;
use crate::shards::{Begun, Gone};

/// The clock of a queue.
pub struct Standing {
    clock: ManualClock,
    start: Instant,
    tick: AtomicU64,
}

impl Standing {
    pub fn new() -> Standing {
        let clock = ManualClock::new();
        let start = clock.now();
        Standing { clock, start, tick: AtomicU64::new(0) }
    }

    /// The moment at which a tick begins.
    #[inline(always)]
    pub fn at(&self, tick: u64) -> Instant {
        self.start + Duration::from_millis(tick)
    }

    #[inline(always)]
    pub fn now(&self) -> Instant {
        self.clock.now()
    }

    /// How long it is until a tick, beside a reading of the system's clock.
    #[inline(always)]
    pub fn after(&self, tick: u64) -> Duration {
        black_box(Instant::now());
        Duration::from_millis(tick.saturating_sub(self.tick.load(Ordering::Relaxed)))
    }

    /// The present tick, beside a reading of the system's clock.
    #[inline(always)]
    pub fn tick_now(&self) -> u64 {
        black_box(Instant::now());
        self.clock.now().saturating_duration_since(self.start).as_millis() as u64
    }

    /// The tick of a moment by hand, as a server's that keeps ticks: rounded up.
    #[inline(always)]
    pub fn by_hand(&self, when: Instant) -> u64 {
        let length = when.saturating_duration_since(self.start);
        length.as_secs() * 1_000 + u64::from(length.subsec_nanos().div_ceil(1_000_000))
    }
}

impl Clock for Standing {
    fn within(&self, round: &mut dyn FnMut()) {
        round();
    }

    fn moment(&self, tick: u64) {
        let before = self.tick.fetch_max(tick, Ordering::SeqCst);
        self.clock.advance(Duration::from_millis(tick.saturating_sub(before)));
    }
}

/// By which calls deadlines are given.
#[derive(Clone, Copy, PartialEq, Eq)]
pub enum By {
    /// From now on, beside a reading of the system's clock, which the standing one spares.
    Duration,
    /// By a moment, which reads no clock.
    Moment,
}

pub struct Product<'c> {
    queue: DelayQueue<u64>,
    clock: &'c Standing,
    by: By,
    shards: usize,
}

impl<'c> Product<'c> {
    /// A queue that keeps room for so many entries from the start, or grows.
    pub fn new(clock: &'c Standing, shards: usize, by: By, room: usize) -> Product<'c> {
        let queue = DelayQueue::builder().clock(&clock.clock).shards(shards).build();
        queue.reserve(room).expect("memory");
        Product { queue, clock, by, shards }
    }

    #[inline(always)]
    fn put(&self, value: u64, deadline: u64) -> Key {
        let put = match self.by {
            By::Duration => self.queue.insert(value, self.clock.after(deadline)),
            By::Moment => self.queue.insert_at(value, self.clock.at(deadline)),
        };
        put.map_err(|refused| refused.kind()).expect("memory")
    }

    #[inline(always)]
    fn raise(&self, key: Key, deadline: u64) -> u64 {
        let in_force = match self.by {
            By::Duration => self.queue.extend(&key, self.clock.after(deadline)),
            By::Moment => {
                let when = self.clock.at(deadline);
                let in_force = self.queue.extend_at(&key, when).expect("the entry is live");
                return if in_force == when { deadline } else { self.tick_of(in_force) };
            }
        };
        self.in_force(in_force, deadline)
    }

    #[inline(always)]
    fn in_force(&self, found: Result<Instant, KeyError>, deadline: u64) -> u64 {
        let in_force = found.expect("the entry is live");
        if in_force == self.clock.at(deadline) {
            deadline
        } else {
            self.tick_of(in_force)
        }
    }

    #[inline(always)]
    fn set(&self, key: Key, deadline: u64) -> Key {
        let set = match self.by {
            By::Duration => self.queue.reset(&key, self.clock.after(deadline)),
            By::Moment => self.queue.reset_at(&key, self.clock.at(deadline)),
        };
        set.expect("the entry is live")
    }

    #[inline(always)]
    fn take(&self) -> Option<Expired<u64>> {
        black_box(Instant::now());
        self.queue.try_recv().ok().or_else(|| self.take_behind())
    }

    /// A burst of what is due, where something is.
    #[inline(always)]
    fn take_many(&self, row: &mut Vec<Expired<u64>>) -> bool {
        black_box(Instant::now());
        if self.queue.try_recv_many(row, BURST).is_err() {
            row.extend(self.take_behind());
        }
        !row.is_empty()
    }

    /// What stands behind more entries than a call goes over.
    #[cold]
    fn take_behind(&self) -> Option<Expired<u64>> {
        self.queue.try_iter().next()
    }

    fn tick_of(&self, moment: Instant) -> u64 {
        moment.duration_since(self.clock.start).as_millis() as u64
    }
}

impl Queue for Product<'_> {
    type Key = Key;
    type Out = Expired<u64>;

    fn insert(&mut self, value: u64, deadline: u64) -> Key {
        self.put(value, deadline)
    }

    fn extend(&mut self, key: Key, deadline: u64) -> u64 {
        self.raise(key, deadline)
    }

    fn reset(&mut self, key: Key, deadline: u64) -> Key {
        self.set(key, deadline)
    }

    fn remove(&mut self, key: Key) -> u64 {
        self.queue.remove(&key).expect("the entry is live")
    }

    fn cancel(&mut self, key: Key) {
        self.queue.cancel(&key).expect("the entry is live");
    }

    fn poll(&mut self, _tick: u64) -> Option<Expired<u64>> {
        self.take()
    }

    fn value(out: &Expired<u64>) -> u64 {
        out.value
    }

    fn deadline(&self, out: &Expired<u64>) -> u64 {
        self.tick_of(out.deadline)
    }
}

impl Shared for Product<'_> {
    fn share(&mut self, threads: usize) -> Parts<impl Extends<Key>, impl Polls<Expired<u64>>> {
        let queue = &*self;
        // The clock is moved meanwhile, so it is by moments that all peers ask for the same deadlines.
        let extend = move |key, deadline| {
            black_box(Instant::now());
            queue.in_force(queue.queue.extend_at(&key, queue.clock.at(deadline)), deadline)
        };
        Parts { extends: vec![extend; threads], poll: move |_| queue.take() }
    }
}

/// The queue says by itself in which shard an entry is, and a receiver takes from all of them.
impl Sharded for Product<'_> {
    type Key = Key;
    type Toucher = ();

    fn shards(&self) -> usize {
        self.shards
    }

    fn toucher(&self) {}

    fn insert(&self, begun: &Begun) -> Key {
        self.put(begun.value, begun.deadline)
    }

    fn insert_burst(&self, _shard: usize, burst: &[Begun], keys: &mut Vec<Key>) {
        keys.extend(burst.iter().map(|begun| Sharded::insert(self, begun)));
    }

    fn extend(&self, (): &mut (), key: Key, deadline: u64) -> u64 {
        self.raise(key, deadline)
    }

    fn cancel(&self, (): &mut (), key: Key) {
        self.queue.cancel(&key).expect("the entry is live");
    }

    fn reset(&self, key: Key, deadline: u64) -> Key {
        self.set(key, deadline)
    }

    fn remove(&self, key: Key) -> u64 {
        self.queue.remove(&key).expect("the entry is live")
    }

    fn poll_all(&self, _shard: usize, _tick: u64, gone: &mut Gone) {
        while let Some(out) = self.take() {
            gone.count(out.value);
        }
    }

    fn poll_bursts(&self, _shard: usize, _tick: u64, gone: &mut Gone) {
        let mut row = Vec::with_capacity(BURST);
        while self.take_many(&mut row) {
            row.drain(..).for_each(|out| gone.count(out.value));
        }
    }

    fn poll_alone(&mut self, _shard: usize, _tick: u64) -> Option<(u64, u64)> {
        let out = self.take()?;
        Some((out.value, self.tick_of(out.deadline)))
    }
}
