//! What a queue's row and a stream ask of a shard behind its lock, and of the poller that waits for it, one at a time;
//! and what a stream asks of the queue.

use crate::core::{CoreError, Piece};
use crate::locks::MutexGuard;
use crate::shards::errors::QueueError;
use crate::shards::parking::{let_sleep, ring, Parked, Row, Rows, Shard, Shards, Sleeps, TickSource};
use crate::shards::queue::SharedDelayQueue;
use crate::shards::state::ShardState;
use core::task::Waker;

impl<T> ShardState<T> {
    /// How many values are deferred: those of entries that were reaped or cleared, and that aren't dropped yet.
    /// Constant time.
    #[inline(always)]
    pub fn deferred(&self) -> usize {
        self.watched.core.deferred()
    }

    /// Returns the tick, of one millisecond, until which a task is parked. It returns none if no task is parked.
    pub fn parked(&self) -> Option<u64> {
        match &self.watched.parked {
            Some(poller) => Some(poller.next),
            None => None,
        }
    }

    /// Parks a task until `next`, a tick of one millisecond that isn't after the next wake. A task that was parked
    /// before is replaced, and isn't woken.
    ///
    /// # Panics
    /// If `next` is after the next wake, or nothing is linked.
    pub fn park(&mut self, next: u64, waker: Waker) {
        // requires IsParked self.old.core (Some (poller next waker))
        assert!(
            matches!(self.next_wake(), Some(wake) if next <= wake),
            "a poller is parked after the next wake"
        );
        self.unpark();
        self.watched.parked = Some(Parked { next, waker });
    }

    /// Takes the parked task out, and doesn't wake it. It returns whether there was one.
    pub fn unpark(&mut self) -> bool {
        let_sleep(self.take_parked())
    }

    /// Takes the parked task out, and returns it unwoken. Whoever has its waker may wake it, or drop it, after the
    /// shard's lock is released.
    pub fn take_parked(&mut self) -> Option<Parked> {
        self.watched.parked.take()
    }

    /// Tells the shard that `tick`, of one millisecond, is reached: a task that is parked until `tick` or before is
    /// taken out and woken. It returns whether there was one.
    pub fn ring(&mut self, tick: u64) -> bool {
        let rung = ring(&mut self.watched.parked, tick);
        let is_rung = rung.is_some();
        rung.wake();
        is_rung
    }
}

impl<T> Shard for ShardState<T> {
    type Value = T;

    type Next = u64;

    #[inline(always)]
    fn stands_at(&self, place: usize, _places: usize) -> bool {
        self.watched.core.shard() as usize == place
    }

    #[inline(always)]
    fn deferred(&self) -> usize {
        self.watched.core.deferred()
    }

    #[inline(always)]
    fn take_displaced(&mut self) -> Option<T> {
        self.watched.core.take_displaced()
    }

    fn take_one(&mut self, is_mine: &mut bool) -> Option<T> {
        self.watched.take_one(is_mine)
    }

    fn end_dropping(&mut self, is_mine: &mut bool) {
        self.watched.end_dropping(is_mine);
    }
}

/// A poller waits for a tick: where nothing is linked none is parked.
impl<T> Sleeps for ShardState<T> {
    fn take_parked(&mut self) -> Option<Parked> {
        ShardState::take_parked(self)
    }

    fn park(&mut self, next: u64, waker: Waker) {
        ShardState::park(self, next, waker);
    }

    fn poll_piece(&mut self, tick: u64, most: Option<u32>) -> Result<Piece<T>, CoreError> {
        self.watched.poll_unparked(tick, most)
    }
}

/// A stream of a shard asks its source under the shard's lock, and ends by a refused tick.
impl<T> Shards for SharedDelayQueue<T> {
    type State = ShardState<T>;

    type Error = QueueError;
}

impl<T> Rows<ShardState<T>, QueueError> for SharedDelayQueue<T> {
    fn row(&self) -> &Row<ShardState<T>> {
        &self.row
    }

    fn unknown() -> QueueError {
        QueueError::Unknown
    }

    fn ends() -> bool {
        true
    }

    fn entered<S: TickSource>(
        &self,
        place: usize,
        source: &mut S,
        before: &mut Option<Parked>,
    ) -> (MutexGuard<'_, ShardState<T>>, u64) {
        let mut shard = self.row.lock(place);
        *before = shard.take_parked();
        let tick = source.now();
        (shard, tick)
    }
}
