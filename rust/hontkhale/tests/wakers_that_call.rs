//! Wakers that call the queue by name, where they wake and where they are dropped.

use std::num::NonZeroU32;
use std::sync::atomic::{AtomicUsize, Ordering::SeqCst};
use std::sync::mpsc::channel;
use std::sync::Arc;
use std::task::{Context, Wake, Waker};
use std::thread;
use std::time::Duration;

use hontkhale::parts::owner::{Key, Turn};
use hontkhale::parts::shards::{QueueConfig, SharedDelayQueue};
use hontkhale::parts::streams::{ExpiredStream, TickSource};

type Queue = Arc<SharedDelayQueue<Box<u32>>>;

/// How often a waker has woken, and how many were dropped.
#[derive(Default)]
struct Counts {
    woken: AtomicUsize,
    dropped: AtomicUsize,
}

/// Polls the queue where it wakes, and asks it where it is dropped.
struct Caller {
    queue: Queue,
    counts: Arc<Counts>,
}

impl Wake for Caller {
    fn wake(self: Arc<Caller>) {
        self.counts.woken.fetch_add(1, SeqCst);
        assert!(self.queue.poll(0, 0).is_ok());
    }
}

impl Drop for Caller {
    fn drop(&mut self) {
        assert!(self.queue.next_wake(0).is_ok());
        self.counts.dropped.fetch_add(1, SeqCst);
    }
}

fn waker(queue: &Queue, counts: &Arc<Counts>) -> Waker {
    Waker::from(Arc::new(Caller {
        queue: Arc::clone(queue),
        counts: Arc::clone(counts),
    }))
}

fn queue_of_one() -> (Queue, Key) {
    let queue = Arc::new(SharedDelayQueue::new(QueueConfig::of(1, 8)).unwrap());
    let key = queue.insert(0, Box::new(7), 10).unwrap();
    (queue, key)
}

/// Fails where the test hasn't ended within ten seconds.
fn ends(name: &str, test: impl FnOnce() + Send + 'static) {
    let (done, ended) = channel();
    let thread = thread::spawn(move || {
        test();
        done.send(()).unwrap();
    });
    match ended.recv_timeout(Duration::from_secs(10)) {
        Ok(()) => thread.join().unwrap(),
        Err(_) => panic!("{name} waits for ever, or failed"),
    }
}

/// A call by name that ends the wait of whoever is parked for the one entry, at tick 10.
type Change = (&'static str, fn(&Queue, &Key));

const CHANGES: &[Change] = &[
    ("insert", |queue, _| assert!(queue.insert(0, Box::new(1), 5).is_ok())),
    ("insert_or_drop", |queue, _| {
        assert!(queue.insert_or_drop(0, Box::new(1), 5).is_ok())
    }),
    ("reset", |queue, key| assert!(queue.reset(&key.entry(), 5).is_ok())),
    ("remove", |queue, key| assert!(queue.remove(&key.entry()).is_ok())),
    ("poll", |queue, _| {
        assert!(matches!(queue.poll(0, 10), Ok(Turn::Out(_))))
    }),
    ("poll_some", |queue, _| assert!(queue.poll_some(0, 10, 64).is_ok())),
    ("sweep", |queue, key| {
        cancel(queue, key);
        assert_eq!(queue.sweep(0).unwrap(), 1);
    }),
    ("sweep_some", |queue, key| {
        cancel(queue, key);
        assert_eq!(queue.sweep_some(0, 0, 8).unwrap().reaped, 1);
    }),
    ("reap", |queue, key| {
        cancel(queue, key);
        queue.reap(&key.entry()).unwrap().unwrap();
    }),
    ("clear", |queue, _| assert_eq!(queue.clear(0).unwrap(), 1)),
    ("ring", |queue, _| assert!(queue.ring(0, 10).unwrap())),
];

fn cancel(queue: &Queue, key: &Key) {
    queue.handle().unwrap().cancel(key).unwrap();
}

fn wakes_once(name: &str, change: fn(&Queue, &Key)) {
    let (queue, key) = queue_of_one();
    let counts = Arc::new(Counts::default());
    let parked = waker(&queue, &counts);
    queue.enter(0).unwrap().park(10, parked);
    change(&queue, &key);
    let seen = (counts.woken.load(SeqCst), counts.dropped.load(SeqCst));
    assert_eq!((name, seen), (name, (1, 1)));
    assert_eq!(queue.parked(0).unwrap(), None);
}

#[test]
fn a_wake_may_poll() {
    for &(name, change) in CHANGES {
        ends(name, move || wakes_once(name, change));
    }
}

struct AtTickZero;

impl TickSource for AtTickZero {
    fn now(&mut self) -> u64 {
        0
    }
}

// Polls a stream with three wakers, one after the other. Each goes where the next takes its place, and wakes nobody.
fn lets_wakers_go(steps: Option<NonZeroU32>) {
    let (queue, _) = queue_of_one();
    let counts = Arc::new(Counts::default());
    for round in 0..3 {
        let waker = waker(&queue, &counts);
        let stream = ExpiredStream::new(&queue, 0, AtTickZero);
        let Ok(mut stream) = stream else {
            panic!("shard 0 is there")
        };
        let mut cx = Context::from_waker(&waker);
        let answer = match steps {
            Some(steps) => stream.paced(steps).poll_next(&mut cx),
            None => stream.poll_next(&mut cx),
        };
        assert!(answer.is_pending());
        drop(waker);
        let seen = (counts.woken.load(SeqCst), counts.dropped.load(SeqCst));
        assert_eq!((round, seen), (round, (0, round)));
    }
    // The last one is parked still, and holds the queue that holds it. It calls where it is dropped: not under the lock.
    let last = queue.enter(0).unwrap().take_parked();
    drop(last);
}

#[test]
fn a_waker_whose_place_is_taken_may_call() {
    ends("a stream", || lets_wakers_go(None));
    ends("a paced stream", || lets_wakers_go(NonZeroU32::new(4)));
}
