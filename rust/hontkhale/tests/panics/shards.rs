//! The calls of a shared queue by name, by a shard in hand and by a stream, with a task that is parked.

use super::kit::{deadline_of, key, panics_in_turn, user_code, waker, At, Keys, Subject, Value, CAPACITY};
use crate::parts::owner::{Key, Piece, Tally};
use crate::parts::shards::{Handle, QueueConfig, SharedDelayQueue};
use crate::parts::streams::ExpiredStream;
use std::num::NonZeroU32;
use std::task::{Context, Poll};

struct Queue {
    queue: SharedDelayQueue<Value>,
    handle: Handle,
}

impl Subject for Queue {
    fn made() -> Queue {
        let queue = SharedDelayQueue::new(QueueConfig::of(1, CAPACITY)).expect("a queue");
        let handle = queue.handle().expect("a handle");
        Queue { queue, handle }
    }

    fn insert(&mut self, when: u64) -> Option<Key> {
        key(self.queue.insert(0, Value::new(), when))
    }

    fn cancel(&mut self, key: &Key) {
        self.handle.cancel(key).expect("a live entry");
    }

    fn out(&mut self, tick: u64) -> Option<u64> {
        deadline_of(self.queue.poll(0, tick).expect("a tick"))
    }

    fn sweep(&mut self) {
        self.queue.sweep(0).expect("a shard");
    }

    fn clear(&mut self) {
        self.queue.clear(0).expect("a shard");
    }

    fn tally(&mut self) -> Tally {
        self.queue.tally(0).expect("a shard")
    }

    fn check_law(&mut self) -> Result<(), &'static str> {
        self.queue.lend(0, |state| state.check_law()).expect("a shard")
    }
}

// The program's code in a call panics at least so often, over all states, with a task parked in the shard and without.
fn at_least(places: u64, name: &str, call: impl Fn(&SharedDelayQueue<Value>, &Keys)) {
    let met = panics_in_turn(name, |queue: &mut Queue, keys| call(&queue.queue, keys))
        + panics_in_turn(&format!("{name}, parked"), |queue: &mut Queue, keys| {
            drop(queue.queue.enter(0).map(|mut shard| {
                let next = shard.next_wake();
                if let Some(next) = next {
                    shard.park(next, waker());
                }
            }));
            call(&queue.queue, keys);
        });
    assert!(met >= places, "{name}: {met} panics");
}

#[test]
fn an_insert_panics_in_turn() {
    at_least(2, "insert", |queue, _| drop(key(queue.insert(0, Value::new(), 3))));
    at_least(2, "insert_or_drop", |queue, _| {
        drop(key(queue.insert_or_drop(0, Value::new(), 3)))
    });
    at_least(2, "three inserts", |queue, _| {
        (0..3).for_each(|at| drop(key(queue.insert(0, Value::new(), 3 + at))));
    });
}

#[test]
fn a_poll_panics_in_turn() {
    at_least(4, "poll", |queue, _| drop(queue.poll(0, 10)));
    at_least(4, "poll until it rests", |queue, _| {
        while deadline_of(queue.poll(0, 50).expect("a shard")).is_some() {}
    });
    at_least(4, "poll_some", |queue, _| {
        while matches!(queue.poll_some(0, 50, 1), Ok(Piece::Working)) {}
    });
    let most = NonZeroU32::MIN;
    at_least(4, "poll_through", |queue, _| drop(queue.poll_through(0, 50, most)));
    at_least(4, "poll_many", |queue, _| {
        let mut row = Vec::with_capacity(2);
        drop(queue.poll_many(0, 50, &mut row));
    });
}

#[test]
fn a_sweep_panics_in_turn() {
    at_least(6, "sweep", |queue, _| drop(queue.sweep(0)));
    at_least(2, "sweep_some", |queue, _| drop(queue.sweep_some(0, 0, 1)));
    at_least(2, "reap", |queue, keys| drop(queue.reap(&keys[0].entry())));
}

#[test]
fn a_clear_panics_in_turn() {
    at_least(8, "clear", |queue, _| drop(queue.clear(0)));
}

#[test]
fn calls_of_one_entry_panic_in_turn() {
    at_least(1, "remove", |queue, keys| drop(queue.remove(&keys[3].entry())));
    at_least(1, "reset", |queue, keys| drop(queue.reset(&keys[3].entry(), 3)));
    at_least(1, "ring", |queue, _| drop(queue.ring(0, 200)));
}

#[test]
fn a_shard_in_hand_panics_in_turn() {
    at_least(6, "lend", |queue, _| {
        drop(queue.lend(0, |shard| {
            shard.sweep();
            user_code("closure");
            drop(key(shard.insert(Value::new(), 3)));
        }));
    });
    at_least(4, "enter", |queue, _| {
        let mut shard = queue.enter(0).expect("a shard");
        drop(shard.poll_some(50, 100));
        user_code("body");
        let deferred = shard.deferred();
        drop(shard);
        queue.drop_deferred(0, deferred);
    });
}

// The polls of a stream at a tick, until it rests.
fn polls(queue: &SharedDelayQueue<Value>, tick: u64, pieces: bool) {
    let (waker, most) = (waker(), NonZeroU32::MIN);
    let mut cx = Context::from_waker(&waker);
    let Ok(mut stream) = ExpiredStream::new(queue, 0, At(tick)) else {
        panic!("a stream")
    };
    if !pieces {
        while let Poll::Ready(Some(given)) = stream.poll_next(&mut cx) {
            drop(given);
        }
        return;
    }
    let mut stream = stream.paced(most);
    for _turn in 0..20 {
        if let Poll::Ready(None) = stream.poll_next(&mut cx) {
            return;
        }
    }
}

#[test]
fn a_stream_panics_in_turn() {
    at_least(8, "a stream", |queue, _| polls(queue, 10, false));
    at_least(8, "a stream in pieces", |queue, _| polls(queue, 10, true));
}
