//! The expired entries of a shard as a stream, polled by hand or by an executor.
//!
//! A stream waits in its shard, as the shard's parked poller. The shard wakes it where its next wake comes sooner or is
//! gone. Whoever keeps the time rings the shard, at each tick or at the ticks that matter: a stream that nobody rings
//! sleeps until the next wake changes. A shard parks one poller, so a second stream on it puts the first to sleep.

use crate::locks::MutexGuard;
use crate::shards::parking::parked::{let_sleep, Parked};
use crate::shards::parking::row::{Row, Shard};
use crate::shards::parking::sleeping::{forget, register, turn, NextOf, Polled, Sleeps, StreamFault, ValueOf};
use crate::shards::parking::source::TickSource;
use core::num::NonZeroU32;
use core::task::{Context, Poll, Waker};

/// A shard behind its lock. No other crate's types have it.
pub trait LockedShard: Sleeps {}

impl<S: Sleeps> LockedShard for S {}

/// A queue of shards: the bound of whatever a stream is of. No other crate's types have it.
#[allow(private_bounds)]
pub trait Shards: Rows<<Self as Shards>::State, <Self as Shards>::Error> {
    /// A shard behind its lock.
    type State: LockedShard;

    /// Why a call is refused.
    type Error;
}

/// What a stream asks of a queue of shards.
pub(crate) trait Rows<H: Sleeps, E> {
    /// Its shards behind their locks.
    fn row(&self) -> &Row<H>;

    /// The refusal where there is no such shard.
    fn unknown() -> E;

    /// Whether a refused tick ends a stream for good.
    fn ends() -> bool;

    /// Takes a shard's lock, takes out who is parked there, and asks the source for the tick, before the lock or under
    /// it.
    fn entered<S: TickSource>(
        &self,
        place: usize,
        source: &mut S,
        before: &mut Option<Parked<NextOf<H>>>,
    ) -> (MutexGuard<'_, H>, u64);
}

/// How many steps a stream makes a poll.
pub trait Pace {
    /// At most so many; none where each poll is whole.
    fn most(&self) -> Option<u32>;
}

/// Each poll is whole.
#[derive(Clone, Copy, Debug, PartialEq, Eq)]
pub struct Whole;

impl Pace for Whole {
    fn most(&self) -> Option<u32> {
        None
    }
}

impl Pace for NonZeroU32 {
    fn most(&self) -> Option<u32> {
        Some(self.get())
    }
}

/// The entries that expire in one shard, at the ticks of a source.
///
/// Each poll takes the shard's lock once, and returns one entry that is due. Else it parks its task in the shard until
/// the shard's next wake, one task a shard. The shard wakes the task if the next wake comes sooner or goes away, and
/// `ring` of the queue wakes it at a tick. A stream may be polled again at any time. It holds no entry, so none is lost
/// when it is dropped; its task stays parked until it is woken or another takes its place.
pub struct ShardStream<'q, Q: Shards, S, P = Whole> {
    pub(crate) queue: &'q Q,
    pub(crate) place: usize,
    pub(crate) source: S,
    pub(crate) ended: bool,
    pub(crate) pace: P,
}

impl<'q, Q: Shards, S> ShardStream<'q, Q, S, Whole> {
    /// Makes a stream of the shard at `place`, at the ticks of `source`. It takes no memory.
    ///
    /// # Errors
    /// `Unknown` if there is no such shard. `source` comes back.
    pub fn new(queue: &'q Q, place: usize, source: S) -> Result<ShardStream<'q, Q, S, Whole>, (Q::Error, S)> {
        if place >= queue.row().len() {
            return Err((Q::unknown(), source));
        }
        Ok(ShardStream {
            queue,
            place,
            source,
            ended: false,
            pace: Whole,
        })
    }
}

impl<'q, Q: Shards, S, P> ShardStream<'q, Q, S, P> {
    /// Makes a stream of this one, whose polls make at most `steps` steps. A step settles one entry or moves the
    /// wheel to a slot, and takes constant time, except for the drop of a value.
    ///
    /// A poll that has made them all and has more to do releases the lock, wakes its own task and is `Pending`. So
    /// other threads may take the lock before the task is polled again. If the task is polled at once, it gives way
    /// for a bounded while to the threads that wait for the lock. A paced stream returns what its stream would return,
    /// and parks when that one does. It keeps nothing of a poll: what is under way stands in the shard.
    pub fn paced(self, steps: NonZeroU32) -> ShardStream<'q, Q, S, NonZeroU32> {
        self.at_pace(steps)
    }

    /// Returns its stream, which makes whole polls.
    pub fn into_inner(self) -> ShardStream<'q, Q, S, Whole> {
        self.at_pace(Whole)
    }

    fn at_pace<N>(self, pace: N) -> ShardStream<'q, Q, S, N> {
        ShardStream {
            queue: self.queue,
            place: self.place,
            source: self.source,
            ended: self.ended,
            pace,
        }
    }
}

// How many of the values that are deferred are dropped behind a poll: none where it gave an entry, which a drop that
// panics would lose.
fn dropped_behind<T>(answer: &Polled<T>, deferred: usize) -> usize {
    match answer {
        Poll::Ready(Some(Ok(_))) => 0,
        _ => deferred,
    }
}

// Whether a stream has ended for good after this answer, where a refused tick ends it or doesn't.
fn ends_by<T>(ends: bool, answer: &Polled<T>) -> bool {
    ends && matches!(answer, Poll::Ready(Some(Err(StreamFault::TickTooLarge { .. }))))
}

// What a poll does under its shard's lock, for a task that left its waker. Who was parked there before goes out with
// the answer, and so does how many values are deferred. It knows no drop of a value, so none is dropped here.
fn poll_entered<Q: Shards, S: TickSource>(
    queue: &Q,
    place: usize,
    source: &mut S,
    most: Option<u32>,
    slot: &mut Option<Waker>,
    before: &mut Option<Parked<NextOf<Q::State>>>,
) -> (Option<Polled<ValueOf<Q::State>>>, usize) {
    // requires place < Q.places queue.now
    let (mut shard, tick) = queue.entered(place, source, before);
    let polled = turn(&mut *shard, tick, most, slot);
    (polled, shard.deferred())
}

/// Polls the shard at a place of a queue once for a task, whole or by at most `most` steps. It is pending where the
/// shard has more to do: the task is woken then. What is deferred is dropped once the lock is free; where an entry is
/// given, by a later call.
pub fn poll_place<Q: Shards, S: TickSource>(
    queue: &Q,
    place: usize,
    source: &mut S,
    most: Option<u32>,
    cx: &mut Context<'_>,
) -> Polled<ValueOf<Q::State>> {
    // requires place < Q.places queue.now
    // The task's waker is made, and those that aren't parked are let go, while the lock is free.
    let mut before = None;
    let mut slot = register(cx);
    let (polled, deferred) = poll_entered(queue, place, source, most, &mut slot, &mut before);
    let_sleep(before);
    forget(slot);
    let Some(answer) = polled else {
        cx.waker().wake_by_ref();
        queue.row().drop_deferred(place, deferred);
        return Poll::Pending;
    };
    queue.row().drop_deferred(place, dropped_behind(&answer, deferred));
    answer
}

impl<'q, Q: Shards, S: TickSource, P: Pace> ShardStream<'q, Q, S, P> {
    /// Polls the stream once, on a shard whose lock the caller holds. It polls the shard in hand, and takes no lock. It
    /// takes the parked task out, asks its source for the tick, and polls the shard once. It returns:
    /// - `Ready(Some(Ok(..)))` with an entry that is due. No live entry of the shard has an earlier deadline.
    /// - `Pending` if no live entry is due: the task is parked in the shard at its next wake.
    /// - `Pending` if the stream is paced and more steps are left: nothing is parked, and the polled task is woken.
    /// - `Ready(None)` if the shard holds no entry. Later polls go on.
    /// - `Ready(Some(Err(..)))` for a fault: see below.
    ///
    /// It makes the polled task's waker under the lock, and drops the waker that was parked before there. If such a
    /// drop may call the queue, take the waker out before, and drop it after the lock is released.
    ///
    /// # Errors
    /// Each is an item of the stream:
    /// - `TickTooLarge` if the source tells a tick beyond the last one. The stream has ended then: each later poll
    ///   returns `Ready(None)`.
    /// - `NoMemory` if no waker can be made. The stream goes on.
    pub fn poll_locked(&mut self, shard: &mut Q::State, cx: &mut Context<'_>) -> Polled<ValueOf<Q::State>> {
        if self.ended {
            return Poll::Ready(None);
        }
        let mut slot = register(cx);
        let_sleep(shard.take_parked());
        let polled = turn(shard, self.source.now(), self.pace.most(), &mut slot);
        forget(slot);
        let Some(answer) = polled else {
            cx.waker().wake_by_ref();
            return Poll::Pending;
        };
        self.ended = ends_by(Q::ends(), &answer);
        answer
    }
}

impl<'q, Q: Shards, S: TickSource, P: Pace> ShardStream<'q, Q, S, P> {
    /// Polls the stream once. It returns:
    /// - `Ready(Some(Ok(..)))` with an entry that is due. No live entry of the shard has an earlier deadline.
    /// - `Pending` if no live entry is due: the task is parked in the shard until its next wake.
    /// - `Pending` if the stream is paced and more steps are left: nothing is parked, and the polled task is woken.
    /// - `Ready(None)` if the shard holds no entry. Later polls go on.
    /// - `Ready(Some(Err(..)))` for a fault: `TickTooLarge` if the source tells a tick beyond the last one, and
    ///   `NoMemory` if no waker can be made. The stream goes on after `NoMemory`. After `TickTooLarge` it has ended:
    ///   each later poll returns `Ready(None)` without taking the lock.
    ///
    /// It makes the polled task's waker before it takes the shard's lock, and drops the one that was parked before
    /// after it has released the lock. It asks the source under the lock, so the source may not take that lock. It
    /// costs as much as one poll of the shard.
    pub fn poll_next(&mut self, cx: &mut Context<'_>) -> Polled<ValueOf<Q::State>> {
        if self.ended {
            return Poll::Ready(None);
        }
        let most = self.pace.most();
        if most.is_some() {
            self.queue.row().give_way(self.place);
        }
        let answer = poll_place(self.queue, self.place, &mut self.source, most, cx);
        self.ended = ends_by(Q::ends(), &answer);
        answer
    }
}
