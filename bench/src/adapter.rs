//! Our queue by tokio_util's own calls: the crate `hontkhale-tokio`, under a clock that stands until it is moved.

use std::sync::atomic::{AtomicBool, Ordering};
use std::sync::Arc;
use std::task::{Context, Poll, Wake, Waker};
use std::time::Duration;

use hontkhale_tokio::delay_queue::{Expired, Key};
use hontkhale_tokio::{DelayQueue, Handle};
use tokio::time::Instant;

use crate::queue::{Extends, Parts, Polls, Queue, Shared};
use crate::tokio_queue::PausedClock;

/// Who extends and cancels.
#[derive(Clone, Copy, PartialEq, Eq)]
pub enum Touching {
    /// The owner, by the calls that `DelayQueue` has: a `reset_at` and a `remove`.
    Owner,
    /// A handle.
    Handle,
}

/// Whether a task was woken.
#[derive(Default)]
struct Woken(AtomicBool);

impl Wake for Woken {
    fn wake(self: Arc<Woken>) {
        self.wake_by_ref();
    }

    fn wake_by_ref(self: &Arc<Woken>) {
        self.0.store(true, Ordering::SeqCst);
    }
}

/// The task that polls: a poll makes so many steps at most and wakes its task for the rest, so it comes again once woken.
pub struct Task {
    woken: Arc<Woken>,
    waker: Waker,
}

impl Task {
    pub fn new() -> Task {
        let woken = Arc::new(Woken::default());
        let waker = Waker::from(Arc::clone(&woken));
        Task { woken, waker }
    }

    /// What is due, as a runtime would poll for it. The clock says the tick.
    #[inline(always)]
    pub fn run<O>(&self, mut poll: impl FnMut(&mut Context<'_>) -> Poll<Option<O>>) -> Option<O> {
        loop {
            if let Poll::Ready(out) = self.run_once(&mut poll) {
                return out;
            }
        }
    }

    /// One poll: it is pending where the task was woken meanwhile.
    #[inline(always)]
    pub fn run_once<O>(&self, mut poll: impl FnMut(&mut Context<'_>) -> Poll<Option<O>>) -> Poll<Option<O>> {
        match poll(&mut Context::from_waker(&self.waker)) {
            Poll::Pending if !self.woken.0.swap(false, Ordering::SeqCst) => Poll::Ready(None),
            answer => answer,
        }
    }
}

/// The queue under its task.
struct Polled {
    queue: DelayQueue<u64>,
    task: Task,
}

impl Polled {
    #[inline(always)]
    fn poll(&mut self) -> Option<Expired<u64>> {
        self.task.run(|context| self.queue.poll_expired(context))
    }
}

/// The queue, and a handle in its owner's hands.
pub struct Adapter {
    polled: Polled,
    handle: Option<Handle>,
    start: Instant,
}

impl Adapter {
    /// A queue within the runtime of that clock.
    pub fn new(clock: &PausedClock, capacity: usize, touching: Touching) -> Adapter {
        clock.enter(|| {
            let mut queue = DelayQueue::with_capacity(capacity);
            let handle = (touching == Touching::Handle).then(|| queue.handle());
            Adapter { polled: Polled { queue, task: Task::new() }, handle, start: clock.start() }
        })
    }
}

fn moment(start: Instant, tick: u64) -> Instant {
    start + Duration::from_millis(tick)
}

#[inline(always)]
fn extended(handle: &Handle, start: Instant, key: &Key, deadline: u64) -> u64 {
    let when = moment(start, deadline);
    let in_force = handle.extend_at(key, when).expect("the entry is live");
    if in_force == when {
        deadline
    } else {
        in_force.duration_since(start).as_millis() as u64
    }
}

impl Queue for Adapter {
    type Key = Key;
    type Out = Expired<u64>;

    fn insert(&mut self, value: u64, deadline: u64) -> Key {
        self.polled.queue.insert_at(value, moment(self.start, deadline))
    }

    fn extend(&mut self, key: Key, deadline: u64) -> u64 {
        match &self.handle {
            Some(handle) => extended(handle, self.start, &key, deadline),
            None => {
                self.polled.queue.reset_at(&key, moment(self.start, deadline));
                deadline
            }
        }
    }

    fn reset(&mut self, key: Key, deadline: u64) -> Key {
        self.polled.queue.reset_at(&key, moment(self.start, deadline));
        key
    }

    fn remove(&mut self, key: Key) -> u64 {
        self.polled.queue.remove(&key).into_inner()
    }

    fn cancel(&mut self, key: Key) {
        match &self.handle {
            Some(handle) => assert!(handle.cancel(&key).is_ok(), "the entry is live"),
            None => drop(self.polled.queue.remove(&key)),
        }
    }

    fn poll(&mut self, _tick: u64) -> Option<Expired<u64>> {
        self.polled.poll()
    }

    fn poll_once(&mut self, tick: u64) -> Poll<Option<Expired<u64>>> {
        if self.handle.is_some() {
            // The number of its calls isn't that of another run.
            return Poll::Ready(self.poll(tick));
        }
        let Polled { queue, task } = &mut self.polled;
        task.run_once(|context| queue.poll_expired(context))
    }

    fn value(out: &Expired<u64>) -> u64 {
        *out.get_ref()
    }

    fn deadline(&self, out: &Expired<u64>) -> u64 {
        out.deadline().duration_since(self.start).as_millis() as u64
    }
}

impl Shared for Adapter {
    fn share(&mut self, threads: usize) -> Parts<impl Extends<Key>, impl Polls<Expired<u64>>> {
        let (start, polled) = (self.start, &mut self.polled);
        let extends = (0..threads)
            .map(|_| {
                let handle = polled.queue.handle();
                move |key, deadline| extended(&handle, start, &key, deadline)
            })
            .collect();
        Parts { extends, poll: move |_| polled.poll() }
    }
}
