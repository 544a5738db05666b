//! The crate's `DelayQueue` under tokio: the `SharedQueue` of `hontkhale-tokio` and its stream, under a clock that stands until it
//! is moved.

use std::future::Future;
use std::pin::pin;
use std::time::Duration;

use hontkhale_tokio::shared_queue::{Expired, Key, QueueStream};
use hontkhale_tokio::SharedQueue;
use tokio::time::Instant;

use crate::adapter::Task;
use crate::queue::Queue;
use crate::tokio_queue::PausedClock;

pub struct Stream {
    queue: SharedQueue<u64>,
    stream: QueueStream<u64>,
    task: Task,
    start: Instant,
}

impl Stream {
    /// A queue within the runtime of that clock.
    pub fn new(clock: &PausedClock) -> Stream {
        clock.enter(|| {
            let queue = SharedQueue::new();
            Stream { stream: queue.stream(), queue, task: Task::new(), start: clock.start() }
        })
    }

    fn moment(&self, tick: u64) -> Instant {
        self.start + Duration::from_millis(tick)
    }

    fn tick_of(&self, moment: Instant) -> u64 {
        moment.duration_since(self.start).as_millis() as u64
    }
}

impl Queue for Stream {
    type Key = Key;
    type Out = Expired<u64>;

    fn insert(&mut self, value: u64, deadline: u64) -> Key {
        self.queue.insert_at(value, self.moment(deadline)).map_err(|refused| refused.kind()).expect("memory")
    }

    fn extend(&mut self, key: Key, deadline: u64) -> u64 {
        self.tick_of(self.queue.extend_at(&key, self.moment(deadline)).expect("the entry is live"))
    }

    fn reset(&mut self, key: Key, deadline: u64) -> Key {
        self.queue.reset_at(&key, self.moment(deadline)).expect("the entry is live")
    }

    fn remove(&mut self, key: Key) -> u64 {
        self.queue.remove(&key).expect("the entry is live")
    }

    fn cancel(&mut self, key: Key) {
        self.queue.cancel(&key).expect("the entry is live");
    }

    /// As a `select!` polls that makes a `next()` each time.
    #[inline(always)]
    fn poll(&mut self, _tick: u64) -> Option<Expired<u64>> {
        self.task.run(|context| pin!(self.stream.next()).poll(context))
    }

    fn value(out: &Expired<u64>) -> u64 {
        out.value
    }

    fn deadline(&self, out: &Expired<u64>) -> u64 {
        self.tick_of(out.deadline)
    }
}
