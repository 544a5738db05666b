use crate::budget::{Budget, Streak, DEFAULT_BUDGET};
use crate::entries::{Entries, NEVER};
use crate::handle::{EntryError, Handle};
use crate::key::{Expired, Key};
use crate::numbers::{Latest, Numbers};
use crate::timer::Timer;
use futures_core::Stream;
use hontkhale::parts::owner::{Piece, Turn, LAST_STAMP, LAST_TICK};
use std::fmt;
use std::pin::Pin;
use std::sync::Arc;
use std::task::{Context, Poll};
use std::time::Duration;
use tokio::time::Instant;

/// A queue whose entries come out when their deadline is reached, with the calls of [`tokio_util`'s `DelayQueue`][peer].
///
/// Deadlines are rounded up to milliseconds from the queue's making. Entries come out in the order of their deadlines; those
/// of one millisecond in any order. Where nothing is due, [`poll_expired`](DelayQueue::poll_expired) is pending, and its
/// task is woken by the runtime's timer, or by an insert or reset that comes sooner. A poll makes so many steps at most and
/// wakes its task for the rest: see [`set_budget`](DelayQueue::set_budget). The queue grows as it fills, and is used within a
/// runtime with time.
///
/// Beside that, a [`Handle`] extends and cancels entries from any thread, while the owner inserts, polls or waits.
///
/// ```
/// # #[tokio::main(flavor = "current_thread", start_paused = true)]
/// # async fn main() {
/// use hontkhale_tokio::DelayQueue;
/// use std::{future::poll_fn, time::Duration};
/// let mut queue = DelayQueue::new();
/// queue.insert("late", Duration::from_secs(20));
/// let key = queue.insert("early", Duration::from_secs(10));
/// queue.reset(&key, Duration::from_secs(30));
/// let first = poll_fn(|cx| queue.poll_expired(cx)).await.unwrap();
/// assert_eq!(first.into_inner(), "late");
/// # }
/// ```
///
/// [peer]: https://docs.rs/tokio-util/latest/tokio_util/time/delay_queue/struct.DelayQueue.html
pub struct DelayQueue<T> {
    entries: Entries<T>,
    /// The greatest tick that is known to be over.
    reached: u64,
    timer: Timer,
    /// Until when the timer's task waits: an insert or reset before that tick wakes it.
    armed: u64,
    /// Whether an entry was reset since the task began to wait.
    has_resets: bool,
    /// Whether one was reset or removed since then, so that there may be nothing at the tick `armed`.
    has_changes: bool,
    /// Whether the clock was looked at since the task was woken. Where more came due meanwhile, the timer tells it.
    has_looked: bool,
    latest: Latest,
    /// The most steps of a poll, as they were set.
    budget: u32,
    streak: Streak,
}

// No value is ever pinned.
impl<T> Unpin for DelayQueue<T> {}

impl<T> DelayQueue<T> {
    /// An empty queue, which takes memory with its first entry.
    ///
    /// ```
    /// # #[tokio::main(flavor = "current_thread")]
    /// # async fn main() {
    /// let queue = hontkhale_tokio::DelayQueue::<u32>::new();
    /// assert_eq!(queue.capacity(), 0);
    /// # }
    /// ```
    pub fn new() -> DelayQueue<T> {
        DelayQueue::with_capacity(0)
    }

    /// An empty queue with room for at least so many entries. It takes memory for 65,536 of them at most, and for as many more
    /// each time that these are full.
    ///
    /// # Panics
    /// If that is more than 2³² entries, before any memory is taken; if memory is refused.
    ///
    /// ```
    /// # #[tokio::main(flavor = "current_thread")]
    /// # async fn main() {
    /// let queue = hontkhale_tokio::DelayQueue::<u32>::with_capacity(10);
    /// assert_eq!(queue.capacity(), 10);
    /// # }
    /// ```
    pub fn with_capacity(capacity: usize) -> DelayQueue<T> {
        DelayQueue::with_last_stamp(capacity, LAST_STAMP)
    }

    /// A queue whose slots wear out sooner than they have to.
    pub(crate) fn with_last_stamp(capacity: usize, last_stamp: u32) -> DelayQueue<T> {
        DelayQueue {
            entries: Entries::new(capacity, last_stamp),
            reached: 0,
            timer: Timer::default(),
            armed: 0,
            has_resets: false,
            has_changes: false,
            has_looked: false,
            latest: Latest::default(),
            budget: DEFAULT_BUDGET,
            streak: Streak::default(),
        }
    }

    /// The most steps that a poll makes.
    pub fn budget(&self) -> u32 {
        self.budget
    }

    /// Sets the most steps that a poll makes, 128 at first. A step moves or takes out one entry, drops the value of one that a
    /// [`Handle`] cancelled, or brings the wheels to where there is one, in constant time but for a value's drop. A poll that
    /// has more to do is pending, and wakes its task at once, so that other tasks have their turn in between. 0 is taken as 1.
    ///
    /// `u32::MAX` is no limit: a poll makes all of its steps, as the peer's does. It takes fewer instructions for each entry then,
    /// and the longest poll is as long as what is due, or has to move, at once. How many entries a task is given in a row doesn't
    /// hang on the budget: see [`poll_expired`](DelayQueue::poll_expired).
    ///
    /// ```
    /// # #[tokio::main(flavor = "current_thread", start_paused = true)]
    /// # async fn main() {
    /// use std::{future::poll_fn, time::Duration};
    /// let mut queue = hontkhale_tokio::DelayQueue::new();
    /// queue.set_budget(32);
    /// for session in 0..1_000 {
    ///     queue.insert(session, Duration::from_secs(30));
    /// }
    /// let mut ended = 0;
    /// while let Some(_) = poll_fn(|cx| queue.poll_expired(cx)).await {
    ///     ended += 1;
    /// }
    /// assert_eq!((ended, queue.budget()), (1_000, 32));
    /// # }
    /// ```
    pub fn set_budget(&mut self, steps: u32) {
        self.budget = steps;
    }

    /// Puts a value in that comes out at `when`, or at once where `when` is over. The present millisecond may not be over by
    /// tokio's timer: see [`poll_expired`](DelayQueue::poll_expired). Constant time, but that the queue may grow.
    ///
    /// # Panics
    /// If `when` is more than 139 years after the queue's making, if the queue would hold 2³² entries, or if memory is refused.
    ///
    /// ```
    /// # #[tokio::main(flavor = "current_thread")]
    /// # async fn main() {
    /// use std::time::Duration;
    /// use tokio::time::Instant;
    /// let mut queue = hontkhale_tokio::DelayQueue::new();
    /// let key = queue.insert_at("foo", Instant::now() + Duration::from_secs(5));
    /// assert_eq!(queue.remove(&key).into_inner(), "foo");
    /// # }
    /// ```
    #[track_caller]
    pub fn insert_at(&mut self, value: T, when: Instant) -> Key {
        let tick = self.entries.shared.clock.tick_at(when);
        assert!(tick <= LAST_TICK, "invalid deadline: beyond the last tick, {LAST_TICK}");
        // A waker that panics takes no key along.
        self.wake_before(tick);
        self.entries.insert(value, tick)
    }

    /// Puts a value in that comes out after `timeout`, by the clock of the runtime. Constant time, but that the queue may grow.
    ///
    /// # Panics
    /// If that is more than 139 years after the queue's making, if the queue would hold 2³² entries, or if memory is refused.
    #[track_caller]
    pub fn insert(&mut self, value: T, timeout: Duration) -> Key {
        self.insert_at(value, Instant::now() + timeout)
    }

    /// Takes out the first entry whose deadline is reached. It returns none if the queue is empty; the task is woken by an
    /// insert then. It is pending in three cases:
    /// - No deadline is reached. The task is woken for the next one.
    /// - The [budget](DelayQueue::set_budget) is spent. The task is woken at once.
    /// - It was given 128 entries in a row, with no pending poll between them. The task is woken at once.
    ///
    /// Whether the present millisecond is reached, tokio's timer decides, which rounds up to milliseconds of its runtime. So
    /// where a running runtime's time is paused, by `tokio::time::pause()`, an entry for `Instant::now()` may be pending until
    /// the time is advanced by a millisecond, as is tokio's `sleep_until(Instant::now())`. In a runtime that began with paused
    /// time, and went on by whole milliseconds, it is ready.
    pub fn poll_expired(&mut self, cx: &mut Context<'_>) -> Poll<Option<Expired<T>>> {
        if self.armed > 0 && self.armed < NEVER {
            // It was given nothing since it waits, so there is no row to end.
            let is_as_it_was = !self.has_changes && !self.entries.has_news() && self.timer.is_of(cx.waker());
            if is_as_it_was && self.timer.poll_again(cx).is_pending() {
                return Poll::Pending;
            }
            // The task waited, so what is due came due since the clock was looked at.
            self.look();
        }
        let mut budget = Budget::of(self.budget);
        // A row of entries ends as the budget does: what handles cancelled is dropped before.
        if !self.entries.heed_news(&mut budget) || self.streak.is_over() {
            return self.give_way(cx);
        }
        if self.budget == u32::MAX {
            return self.poll_whole(budget, cx);
        }
        self.poll_entries::<false>(budget, cx)
    }

    /// A poll that makes all of its steps.
    #[inline(never)]
    fn poll_whole(&mut self, budget: Budget, cx: &mut Context<'_>) -> Poll<Option<Expired<T>>> {
        self.poll_entries::<true>(budget, cx)
    }

    /// A large value takes a place on the stack for each function that it comes through, and for each call that may give one.
    #[inline(always)]
    fn poll_entries<const IS_WHOLE: bool>(
        &mut self,
        mut budget: Budget,
        cx: &mut Context<'_>,
    ) -> Poll<Option<Expired<T>>> {
        loop {
            if self.entries.has_peeked(self.reached) {
                return self.poll_peeked(budget, cx);
            }
            let piece = if IS_WHOLE {
                self.entries.poll_whole(self.reached)
            } else {
                let Some(most) = budget.piece() else {
                    return self.give_way(cx);
                };
                self.entries.poll(self.reached, most)
            };
            if let Ok(Piece::Answer(Turn::Out(out))) = &piece {
                // No call stands between the value's place there and its place in the answer.
                self.note_out(out.deadline);
                self.entries.note_expired(out);
            }
            match piece {
                Ok(Piece::Answer(Turn::Out(out))) => return Poll::Ready(Some(self.entries.expired(out))),
                Ok(Piece::Answer(_)) => {
                    let Some(wake) = self.entries.wake(self.reached) else {
                        self.timer.note_task(cx.waker());
                        self.arm(NEVER);
                        return Poll::Ready(None);
                    };
                    // By the clock, and by the task's timer.
                    if !self.has_looked {
                        self.look();
                    }
                    if self.reached < wake && self.poll_sleep(wake, cx).is_pending() {
                        return Poll::Pending;
                    }
                }
                Ok(Piece::Working) => budget.grow(),
                Err(_) => unreachable!("a tick that the clock showed"),
            }
        }
    }

    /// A poll where the entry is due that a peek named.
    #[cold]
    fn poll_peeked(&mut self, budget: Budget, cx: &mut Context<'_>) -> Poll<Option<Expired<T>>> {
        match self.entries.take_peeked() {
            Some(out) => {
                self.note_out(out.tick);
                Poll::Ready(Some(out))
            }
            // A handle extended or cancelled it.
            None if self.budget == u32::MAX => self.poll_whole(budget, cx),
            None => self.poll_entries::<false>(budget, cx),
        }
    }

    /// Notes that the task is given an entry.
    #[inline]
    fn note_out(&mut self, deadline: u64) {
        self.armed = 0;
        self.timer.leave();
        self.streak.count();
        self.latest.note(deadline, self.reached, &self.entries.shared.clock);
    }

    /// Wakes the task at once: other tasks run before it comes again.
    #[cold]
    fn give_way(&mut self, cx: &mut Context<'_>) -> Poll<Option<Expired<T>>> {
        // It is woken already, so nothing that comes sooner has to.
        self.armed = 0;
        self.has_looked = false;
        self.streak.end();
        cx.waker().wake_by_ref();
        Poll::Pending
    }

    /// Looks at the clock, on behalf of the task.
    fn look(&mut self) {
        self.has_looked = true;
        self.note_clock();
    }

    /// The tick that the clock shows is left to the timer, which rounds a moment within it up.
    fn note_clock(&mut self) {
        let over = self.entries.shared.clock.tick_over();
        self.reached = self.reached.max(over.saturating_sub(1).min(LAST_TICK));
    }

    /// Sleeps until a tick. Ready where it is reached.
    fn poll_sleep(&mut self, wake: u64, cx: &mut Context<'_>) -> Poll<()> {
        let moment = self.entries.shared.clock.moment(wake);
        self.timer.note_task(cx.waker());
        if self.timer.poll_until(moment, cx).is_ready() {
            self.reached = wake;
            return Poll::Ready(());
        }
        self.streak.end();
        self.arm(wake);
        Poll::Pending
    }

    /// Notes that the task waits until a tick.
    fn arm(&mut self, wake: u64) {
        self.armed = wake;
        self.has_resets = false;
        self.has_changes = false;
        self.has_looked = false;
    }

    /// Wakes the task if it waits for a later tick.
    #[inline]
    fn wake_before(&mut self, tick: u64) {
        if tick < self.armed {
            self.wake();
        }
    }

    /// Wakes the task where the first reset since it began to wait leaves the wheels a step to make that is over already:
    /// the entry that it waits for may have gone to a later slot, and a task that makes the step now waits for the right one.
    #[inline]
    fn wake_to_step(&mut self) {
        if self.armed > 0 && !self.has_resets {
            self.has_resets = true;
            if self.entries.has_step_before(self.armed) {
                self.note_clock();
                if self.entries.has_step_before(self.armed.min(self.reached + 1)) {
                    self.wake();
                }
            }
        }
    }

    #[cold]
    fn wake(&mut self) {
        self.armed = 0;
        if let Some(waker) = self.timer.task.take() {
            waker.wake();
        }
    }

    /// Takes an entry out. Constant time.
    ///
    /// # Panics
    /// If no entry is in the queue under that key: it came out, was removed, or a [`Handle`] cancelled it. See
    /// [`try_remove`](DelayQueue::try_remove).
    #[track_caller]
    pub fn remove(&mut self, key: &Key) -> Expired<T> {
        match self.try_remove(key) {
            Some(expired) => expired,
            None => panic!("invalid key"),
        }
    }

    /// Takes an entry out if there is one under that key. Constant time.
    ///
    /// ```
    /// # #[tokio::main(flavor = "current_thread")]
    /// # async fn main() {
    /// let mut queue = hontkhale_tokio::DelayQueue::new();
    /// let key = queue.insert("foo", std::time::Duration::from_secs(5));
    /// assert_eq!(queue.try_remove(&key).unwrap().into_inner(), "foo");
    /// assert!(queue.try_remove(&key).is_none());
    /// # }
    /// ```
    pub fn try_remove(&mut self, key: &Key) -> Option<Expired<T>> {
        let out = self.entries.remove(key);
        if out.is_some() {
            self.has_changes = true;
            // Nothing is left but what handles cancelled.
            if self.armed > 0 && self.len() <= self.entries.cancelled() {
                self.wake();
            }
        }
        out
    }

    /// Gives an entry another deadline, earlier or later, under the same key. An entry that is due and hasn't come out yet is put
    /// off, too. By a moment of the present millisecond the entry may be pending yet: see
    /// [`poll_expired`](DelayQueue::poll_expired). Constant time.
    ///
    /// # Panics
    /// If `when` is more than 139 years after the queue's making, or if no entry is in the queue under that key: it came out, was
    /// removed, or a [`Handle`] cancelled it. See [`try_reset_at`](DelayQueue::try_reset_at).
    ///
    /// ```
    /// # #[tokio::main(flavor = "current_thread")]
    /// # async fn main() {
    /// use std::time::Duration;
    /// use tokio::time::Instant;
    /// let mut queue = hontkhale_tokio::DelayQueue::new();
    /// let key = queue.insert("foo", Duration::from_secs(5));
    /// queue.reset_at(&key, Instant::now() + Duration::from_secs(1));
    /// assert!(queue.deadline(&key) < Instant::now() + Duration::from_secs(2));
    /// # }
    /// ```
    #[track_caller]
    pub fn reset_at(&mut self, key: &Key, when: Instant) {
        match self.try_reset_at(key, when) {
            Ok(()) => {}
            Err(EntryError::TooFar) => panic!("invalid deadline"),
            Err(_) => panic!("invalid key"),
        }
    }

    /// Gives an entry another deadline, earlier or later, under the same key, if it is there yet: a [`Handle`] may have cancelled
    /// it. Constant time.
    ///
    /// # Errors
    /// In this order:
    /// - `TooFar` if `when` is more than 139 years after the queue's making.
    /// - `Ended` if no entry is in the queue under that key: it came out, was removed or cancelled.
    #[inline]
    pub fn try_reset_at(&mut self, key: &Key, when: Instant) -> Result<(), EntryError> {
        let tick = self.entries.shared.clock.tick_at(when);
        if tick > LAST_TICK {
            return Err(EntryError::TooFar);
        }
        self.entries.reset(key, tick).map_err(|_| EntryError::Ended)?;
        self.has_changes = true;
        self.wake_before(tick);
        self.wake_to_step();
        Ok(())
    }

    /// Gives an entry the deadline `timeout` from now, earlier or later than it had, under the same key. Constant time.
    ///
    /// # Panics
    /// If that is more than 139 years after the queue's making, or if no entry is in the queue under that key: it came out, was
    /// removed, or a [`Handle`] cancelled it.
    #[track_caller]
    pub fn reset(&mut self, key: &Key, timeout: Duration) {
        self.reset_at(key, Instant::now() + timeout);
    }

    /// The deadline of an entry, to which a handle may have extended it. Constant time.
    ///
    /// # Panics
    /// If no entry is in the queue under that key: it came out, was removed, or a [`Handle`] cancelled it. See
    /// [`try_deadline`](DelayQueue::try_deadline).
    #[track_caller]
    pub fn deadline(&self, key: &Key) -> Instant {
        self.try_deadline(key).expect("invalid key")
    }

    /// The deadline of an entry, to which a handle may have extended it; none if no entry is in the queue under that key.
    /// Constant time.
    pub fn try_deadline(&self, key: &Key) -> Option<Instant> {
        let tick = self.entries.deadline(key)?;
        Some(self.entries.shared.clock.moment(tick))
    }

    /// The key of the entry that the next poll gives, unless one that comes sooner is put in before, or a [`Handle`] extends
    /// or cancels it. None where there is no entry. Of entries of one millisecond the poll gives the one that was named.
    ///
    /// Constant time while the entry that was named stays as it is. Else the entries are looked through that come next: those
    /// of one slot of the wheels, or, where a handle extended or cancelled the first of them or a poll is amid a slot, all.
    ///
    /// ```
    /// # #[tokio::main(flavor = "current_thread")]
    /// # async fn main() {
    /// use std::time::Duration;
    /// let mut queue = hontkhale_tokio::DelayQueue::new();
    /// assert_eq!(queue.peek(), None);
    /// queue.insert("late", Duration::from_secs(5));
    /// let early = queue.insert("early", Duration::from_secs(1));
    /// assert_eq!(queue.peek(), Some(early));
    /// # }
    /// ```
    pub fn peek(&self) -> Option<Key> {
        self.entries.first().map(|(key, _)| key)
    }

    /// Takes every entry out and drops its value. The room stays. A task that waits for an entry is woken for the end.
    ///
    /// Where a value's drop panics, the entries behind it stay in the queue, under their keys: none is lost.
    pub fn clear(&mut self) {
        self.entries.clear();
        if self.armed > 0 && self.armed < NEVER {
            self.wake();
        }
    }

    /// How many entries fit in without growth.
    pub fn capacity(&self) -> usize {
        self.entries.capacity()
    }

    /// The number of entries; one that a [`Handle`] cancelled counts until the queue comes upon its place.
    pub fn len(&self) -> usize {
        self.entries.len()
    }

    /// Whether there is no entry.
    pub fn is_empty(&self) -> bool {
        self.len() == 0
    }

    /// Makes room for at least so many more entries. It takes memory for 65,536 of them at most, and for as many more each time
    /// that these are full. No entry is moved.
    ///
    /// # Panics
    /// If the queue would have room for more than 2³² entries, before any memory is taken; if memory is refused.
    ///
    /// ```
    /// # #[tokio::main(flavor = "current_thread")]
    /// # async fn main() {
    /// let mut queue = hontkhale_tokio::DelayQueue::new();
    /// queue.insert("hello", std::time::Duration::from_secs(10));
    /// queue.reserve(10);
    /// assert!(queue.capacity() >= 11);
    /// # }
    /// ```
    pub fn reserve(&mut self, additional: usize) {
        self.entries.reserve(additional);
    }

    /// Moves the entries of those wheels of the queue of which less than a quarter is used together, under the keys that they
    /// have, and lets these wheels go: so there is room for at most four times as many entries as there are. It goes over every
    /// slot. While moved entries are there, some 50 bytes are taken for each, and half as many again where handles are. Of a
    /// wheel that is let go the queue keeps 8 bytes for each slot.
    ///
    /// ```
    /// # #[tokio::main(flavor = "current_thread")]
    /// # async fn main() {
    /// use std::time::Duration;
    /// let mut queue = hontkhale_tokio::DelayQueue::with_capacity(10);
    /// queue.insert(5, Duration::from_secs(5));
    /// let key = queue.insert(10, Duration::from_secs(10));
    /// queue.insert(15, Duration::from_secs(15));
    /// queue.remove(&key);
    /// queue.compact();
    /// assert_eq!(queue.capacity(), 2);
    /// # }
    /// ```
    pub fn compact(&mut self) {
        self.entries.compact();
    }

    /// Lets room go that is in empty wheels of the queue. No entry is moved; see [`compact`](DelayQueue::compact).
    pub fn shrink_to_fit(&mut self) {
        self.entries.shrink_to_fit();
    }

    /// What a server watches, by one call: how much waits, how late it is, and what is held. From the first call on each poll that
    /// gives an entry reads the clock once.
    ///
    /// It looks for the entry that comes next: in constant time while that one stays, else through the entries of one slot of the
    /// wheels, or, where a handle extended or cancelled the first of them or a poll is amid a slot, through all.
    ///
    /// ```
    /// # #[tokio::main(flavor = "current_thread", start_paused = true)]
    /// # async fn main() {
    /// use std::time::Duration;
    /// let mut queue = hontkhale_tokio::DelayQueue::new();
    /// let handle = queue.handle();
    /// let key = queue.insert("ann", Duration::from_secs(30));
    /// queue.insert("bob", Duration::from_secs(40));
    /// handle.cancel(&key).unwrap();
    /// tokio::time::advance(Duration::from_secs(42)).await;
    /// let text = "1 waiting, 1 cancelled, 0 slots worn, 1 handles, 2.000 s late, at most 2.000 s";
    /// assert_eq!(queue.numbers().to_string(), text);
    /// # }
    /// ```
    pub fn numbers(&self) -> Numbers {
        let clock = &self.entries.shared.clock;
        let cancelled = self.entries.cancelled();
        let late = self.entries.first().map_or(0, |(_, deadline)| clock.tick_over().saturating_sub(deadline));
        self.latest.note_late(late);
        Numbers {
            waiting: self.len() - cancelled,
            cancelled,
            worn: self.entries.worn(),
            handles: Arc::strong_count(&self.entries.shared) - 1,
            late: Duration::from_millis(late),
            latest: self.latest.ask(),
        }
    }

    /// A handle, which extends and cancels entries from any thread. It may be cloned.
    ///
    /// ```
    /// # #[tokio::main(flavor = "current_thread")]
    /// # async fn main() {
    /// use std::time::Duration;
    /// use tokio::time::Instant;
    /// let mut leases = hontkhale_tokio::DelayQueue::new();
    /// let handle = leases.handle();
    /// let key = leases.insert("a lease", Duration::from_secs(5));
    /// let renewed = handle.extend(&key, Duration::from_secs(50)).unwrap();
    /// assert_eq!(leases.deadline(&key), renewed);
    /// # }
    /// ```
    pub fn handle(&mut self) -> Handle {
        self.entries.share();
        Handle { shared: self.entries.shared.clone() }
    }
}

impl<T> Default for DelayQueue<T> {
    fn default() -> DelayQueue<T> {
        DelayQueue::new()
    }
}

impl<T> Stream for DelayQueue<T> {
    type Item = Expired<T>;

    fn poll_next(self: Pin<&mut Self>, cx: &mut Context<'_>) -> Poll<Option<Expired<T>>> {
        self.get_mut().poll_expired(cx)
    }
}

impl<T> fmt::Debug for DelayQueue<T> {
    fn fmt(&self, f: &mut fmt::Formatter<'_>) -> fmt::Result {
        let (len, capacity) = (self.len(), self.capacity());
        f.debug_struct("DelayQueue").field("len", &len).field("capacity", &capacity).finish_non_exhaustive()
    }
}
