//! What receives in the place of a queue's clone, and how it does so in a task: a runtime polls it, and has a timer for when to
//! poll it again. A task joins the line of receivers where it has nothing to take, and leaves it with what it takes.

use crate::debug::shows;
use crate::delay_queue::errors::{RecvTimeoutError, TryRecvError};
use crate::delay_queue::receive::{Step, TURNS};
use crate::delay_queue::shard::STEPS;
use crate::delay_queue::shared::Shared;
use crate::delay_queue::waking::{Seat, Wakes};
use crate::delay_queue::{DelayQueue, Expired, Iter, TryIter};
use std::sync::Arc;
use std::task::{Context, Poll, Waker};
use std::time::{Duration, Instant};

/// Receives from a [`DelayQueue`], in a thread or in a task, and ends by itself.
///
/// It keeps what waits, but inserts nothing: once every clone of the queue is dropped, and nothing waits any more, it gives none.
/// It gives none as well once the queue is closed and nothing is due. Any number of receivers, of which clones are others, may
/// receive from one queue. A [`Handle`](crate::delay_queue::Handle) and a [`Timeout`](crate::delay_queue::Timeout) insert
/// nothing either.
///
/// ```
/// use hontkhale::DelayQueue;
/// use std::thread;
/// use std::time::Duration;
///
/// let queue = DelayQueue::new();
/// let receiver = queue.receiver();
/// let receives = thread::spawn(move || receiver.iter().map(|expired| expired.value).collect::<Vec<_>>());
/// queue.insert("late", Duration::from_millis(20))?;
/// queue.insert("early", Duration::from_millis(10))?;
/// drop(queue);
/// assert_eq!(receives.join().unwrap(), ["early", "late"]);
/// # Ok::<(), Box<dyn std::error::Error>>(())
/// ```
///
/// # In a task
/// [`poll_recv`](Receiver::poll_recv) receives under any runtime that has timers. Under tokio the crate hontkhale-tokio makes a
/// `Stream` of it.
///
/// A waker that panics keeps nobody asleep: another receiver is woken in its place, as are all others whom the call wakes, and
/// then the panic goes on to whoever made it. An insert's entry is in then, but its key is lost with the panic. An insert for
/// which no slot was free may wake receivers before its entry is in, and the value is dropped then. A waker's panic is lost where
/// the call has an entry to return, where the end of the last entry wakes the tasks, and where a receiver that leaves wakes the
/// next one.
///
/// ```
/// use hontkhale::DelayQueue;
/// use std::sync::Arc;
/// use std::task::{Context, Poll, Wake, Waker};
/// use std::time::Duration;
///
/// struct Unparks(std::thread::Thread);
/// impl Wake for Unparks {
///     fn wake(self: Arc<Self>) {
///         self.0.unpark();
///     }
/// }
///
/// let queue = DelayQueue::new();
/// queue.insert("session", Duration::from_millis(5))?;
/// let mut receiver = queue.receiver();
/// let waker = Waker::from(Arc::new(Unparks(std::thread::current())));
/// let session = loop {
///     match receiver.poll_recv(&mut Context::from_waker(&waker)) {
///         Poll::Ready(received) => break received,
///         // A runtime's timer does this.
///         Poll::Pending => match receiver.wake_at() {
///             Some(when) => std::thread::park_timeout(when.saturating_duration_since(std::time::Instant::now())),
///             None => std::thread::park(),
///         },
///     }
/// };
/// assert_eq!(session.map(|expired| expired.value), Some("session"));
/// # Ok::<(), Box<dyn std::error::Error>>(())
/// ```
#[must_use = "a receiver gives nothing until it is asked"]
pub struct Receiver<T> {
    shared: Arc<Shared<T>>,
    /// Its seat in the line of receivers, where it has one.
    seat: Option<Seat>,
    wake_at: Option<Instant>,
}

impl<T> Receiver<T> {
    pub(crate) fn new(shared: &Arc<Shared<T>>) -> Receiver<T> {
        Receiver {
            shared: Arc::clone(shared),
            seat: None,
            wake_at: None,
        }
    }

    /// As [`DelayQueue::recv`]; none as well once nothing is inserted any more and nothing waits.
    pub fn recv(&self) -> Option<Expired<T>> {
        self.shared.receive(None).ok()
    }

    /// As [`DelayQueue::recv_timeout`].
    ///
    /// # Errors
    /// - `Timeout` if none was found in time.
    /// - `Closed` if the receiver has ended.
    pub fn recv_timeout(&self, timeout: Duration) -> Result<Expired<T>, RecvTimeoutError> {
        self.shared.receive_within(timeout)
    }

    /// As [`DelayQueue::recv_deadline`].
    ///
    /// # Errors
    /// - `Timeout` if none was found in time.
    /// - `Closed` if the receiver has ended.
    pub fn recv_deadline(&self, when: Instant) -> Result<Expired<T>, RecvTimeoutError> {
        self.shared.receive(Some(when))
    }

    /// As [`DelayQueue::try_recv`].
    ///
    /// # Errors
    /// - `Empty` if nothing that is due by now was found.
    /// - `Closed` if the receiver has ended.
    pub fn try_recv(&self) -> Result<Expired<T>, TryRecvError> {
        self.shared.try_receive()
    }

    /// As [`DelayQueue::recv_many`]; 0 as well once the receiver has ended.
    pub fn recv_many(&self, row: &mut Vec<Expired<T>>, most: usize) -> usize {
        self.shared.receive_many(row, most)
    }

    /// As [`DelayQueue::try_recv_many`].
    ///
    /// # Errors
    /// - `Empty` if nothing that is due by now was found.
    /// - `Closed` if the receiver has ended.
    pub fn try_recv_many(&self, row: &mut Vec<Expired<T>>, most: usize) -> Result<usize, TryRecvError> {
        self.shared.try_receive_many(row, most)
    }

    /// What comes out, one entry after the other, until the receiver has ended: each step is a [`recv`](Receiver::recv).
    pub fn iter(&self) -> Iter<'_, T> {
        Iter { shared: &self.shared }
    }

    /// As [`DelayQueue::try_iter`].
    pub fn try_iter(&self) -> TryIter<'_, T> {
        TryIter { shared: &self.shared }
    }

    /// Takes an entry out that is due; none once the receiver has ended.
    ///
    /// Where it is pending it waits in one line with all who receive. The task is woken once it is the first there, while it is by
    /// what comes sooner than it waits for, and once the receiver ends. The caller polls again at
    /// [`wake_at`](Receiver::wake_at), too: the queue has no timer. A first one that isn't polled then is passed over after a
    /// moment.
    /// A poll goes over 1,024 entries at most that don't come out, and drops as many values; where more is to do it is pending, and
    /// wakes its task at once.
    ///
    /// The values of cancelled entries are dropped here, before something is in hand, and while no lock is held.
    pub fn poll_recv(&mut self, cx: &mut Context<'_>) -> Poll<Option<Expired<T>>> {
        self.poll_by(cx, |shared| shared.try_poll(0))
    }

    /// The same by what `take` comes to.
    fn poll_by(
        &mut self,
        cx: &mut Context<'_>,
        mut take: impl FnMut(&Shared<T>) -> Step<Expired<T>>,
    ) -> Poll<Option<Expired<T>>> {
        self.wake_at = None;
        for _ in 0..TURNS {
            let shared = &self.shared;
            shared.drop_some(STEPS as usize);
            // It is asked first: what was put in before a close comes out.
            let is_closed = shared.common.is_closed();
            match take(shared) {
                Step::Took(expired) => {
                    shared.common.leave(&mut self.seat);
                    return Poll::Ready(Some(expired));
                }
                Step::Works => {}
                // Nobody sleeps any more, and no seat in line is of use.
                Step::Rests if is_closed => return Poll::Ready(None),
                // More is left to do, before it sleeps.
                Step::Rests if shared.maintain_all() => break,
                Step::Rests => {
                    if let Some(tick) = self.sleep(cx.waker()) {
                        self.wake_at = self.shared.common.time.moment_of(tick);
                        return Poll::Pending;
                    }
                }
            }
        }
        cx.waker().wake_by_ref();
        Poll::Pending
    }

    fn len(&self) -> usize {
        self.shared.common.waiting()
    }

    /// Sleeps in line, at most until the tick that it tells; none where something came meanwhile.
    fn sleep(&mut self, waker: &Waker) -> Option<u64> {
        let common = &self.shared.common;
        // Whoever leads looks at the hints once more as it sleeps.
        let (until, now) = (common.least_hint(), common.time.tick());
        if until <= now {
            return None;
        }
        let wakes = Wakes::Task(waker.clone());
        common.receivers.sleep(&mut self.seat, wakes, until, now)
    }

    /// When the task is to poll again, unless it is woken before; none where only an insert or a close is waited for, or the
    /// task was woken already.
    pub fn wake_at(&self) -> Option<Instant> {
        self.wake_at
    }

    /// The queue that it receives from, which takes inserts as long as another clone of it was there.
    #[must_use]
    pub fn queue(&self) -> DelayQueue<T> {
        DelayQueue::of(&self.shared)
    }
}

shows! {
    [T] Receiver<T> { .len() .wake_at }
}

impl<T> Clone for Receiver<T> {
    fn clone(&self) -> Receiver<T> {
        Receiver::new(&self.shared)
    }
}

impl<T> Drop for Receiver<T> {
    fn drop(&mut self) {
        self.shared.common.leave(&mut self.seat);
    }
}

impl<'r, T> IntoIterator for &'r Receiver<T> {
    type Item = Expired<T>;
    type IntoIter = Iter<'r, T>;

    fn into_iter(self) -> Iter<'r, T> {
        self.iter()
    }
}

#[cfg(test)]
mod tests {
    use crate::delay_queue::receive::ROUND;
    use crate::delay_queue::{Key, ManualClock};
    use crate::index::looked;
    use crate::{DelayQueue, Receiver};
    use std::sync::atomic::{AtomicBool, AtomicUsize, Ordering::SeqCst};
    use std::sync::mpsc::channel;
    use std::sync::Arc;
    use std::task::{Context, Poll, Wake, Waker};
    use std::thread;
    use std::time::Duration;

    /// A waker that asks for the deadline of an entry.
    struct Asks {
        queue: DelayQueue<u64>,
        key: Key,
        was_told: AtomicBool,
    }

    impl Wake for Asks {
        fn wake(self: Arc<Self>) {
            self.was_told.store(self.queue.deadline(&self.key).is_ok(), SeqCst);
        }
    }

    struct Sleeps;

    impl Wake for Sleeps {
        fn wake(self: Arc<Self>) {}
    }

    #[derive(Default)]
    struct Counts(AtomicUsize);

    impl Wake for Counts {
        fn wake(self: Arc<Self>) {
            self.0.fetch_add(1, SeqCst);
        }
    }

    /// The entry that is due stands behind them.
    #[test]
    fn a_poll_frees_few_entries_and_folds_one_core_and_wakes_its_task_for_the_rest() {
        let (clock, value) = (ManualClock::new(), Arc::new(()));
        let queue = DelayQueue::builder().shards(1).clock(&clock).build();
        let insert = |after| {
            queue
                .insert(Arc::clone(&value), Duration::from_millis(after))
                .expect("room")
        };
        let keys: Vec<Key> = (0..20_000).map(|_| insert(1)).collect();
        insert(2);
        keys.iter().for_each(|key| _ = queue.cancel(key).expect("it waits"));
        clock.advance(Duration::from_millis(2));
        let (mut receiver, wakes) = (queue.receiver(), Arc::<Counts>::default());
        let waker = Waker::from(Arc::clone(&wakes));
        let seen = || {
            let shard = queue.shared.lock(0);
            (shard.linked(), shard.cores().count(), Arc::strong_count(&value))
        };
        let (mut outs, mut polls) = (0, 0);
        while wakes.0.load(SeqCst) + outs == polls {
            let (linked, cores, values) = seen();
            outs += usize::from(receiver.poll_recv(&mut Context::from_waker(&waker)).is_ready());
            polls += 1;
            let after = seen();
            assert!(linked - after.0 <= ROUND && cores <= after.1 + 1 && values - after.2 <= ROUND);
        }
        assert_eq!((outs, seen()), (1, (0, 1, 1)));
        assert!(polls > 20_000 / ROUND);
    }

    #[test]
    fn what_was_put_in_just_before_the_close_is_given_to_a_task() {
        let queue = DelayQueue::new();
        let (mut receiver, mut is_first) = (queue.receiver(), true);
        let waker = Waker::from(Arc::new(Sleeps));
        let polled = receiver.poll_by(&mut Context::from_waker(&waker), |shared| {
            let step = shared.try_poll(0);
            if std::mem::take(&mut is_first) {
                queue.insert("due".to_string(), Duration::ZERO).expect("room");
                queue.close();
            }
            step
        });
        assert!(matches!(polled, Poll::Ready(Some(out)) if out.value == "due"));
    }

    /// The steps are those in the line, each of which looks at an index.
    #[test]
    fn each_of_many_tasks_is_dropped_by_a_few_steps() {
        const MANY: usize = 10_000;
        let queue = DelayQueue::<u64>::builder().shards(1).build();
        let waker = Waker::from(Arc::new(Sleeps));
        let waits = |_| {
            let mut receiver = queue.receiver();
            assert!(receiver.poll_recv(&mut Context::from_waker(&waker)).is_pending());
            receiver
        };
        for turns_round in [false, true] {
            let mut tasks: Vec<Receiver<u64>> = (0..MANY).map(waits).collect();
            if turns_round {
                tasks.reverse();
            }
            let steps = looked::by(|| drop(tasks));
            assert!(steps <= 20 * MANY, "{steps}");
        }
    }

    /// Who moves entries comes upon a cancelled one, and wakes a receiver that is to drop its value.
    #[test]
    fn a_waker_that_is_called_as_an_entry_was_moved_finds_the_entry() {
        const FAR: Duration = Duration::from_secs(1_000);
        let queue = DelayQueue::builder().clock(&ManualClock::new()).shards(1).build();
        // There is another core once the first one is full, which drains but for two entries.
        let keys: Vec<Key> = (0..65).map(|number| queue.insert(number, FAR).expect("room")).collect();
        let asks = Arc::new(Asks {
            queue: queue.clone(),
            key: keys[0],
            was_told: AtomicBool::new(false),
        });
        let mut receiver = queue.receiver();
        let waker = Waker::from(Arc::clone(&asks));
        assert!(receiver.poll_recv(&mut Context::from_waker(&waker)).is_pending());
        keys[2..].iter().for_each(|key| assert!(queue.remove(key).is_ok()));
        let moved = |queue: &DelayQueue<u64>| queue.shared.lock(0).counts.moved;
        assert_eq!(moved(&queue), 0);
        queue.cancel(&keys[1]).expect("it waits");
        let (done, waits) = channel();
        let moves = queue.clone();
        thread::spawn(move || {
            moves.shared.maintain(0);
            let _ = done.send(moved(&moves));
        });
        assert_eq!(waits.recv_timeout(Duration::from_secs(20)), Ok(1));
        assert!(asks.was_told.load(SeqCst));
    }
}
