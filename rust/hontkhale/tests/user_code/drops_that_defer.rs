//! Values whose drops defer more values, and values that panic where a call takes them out: however many there are, no
//! drop runs inside another, each value is dropped once, and no key is lost.

use super::kit::{panics, within_the_limit};
use hontkhale::parts::owner::{Expired, Key, Turn};
use hontkhale::parts::shards::{QueueConfig, SharedDelayQueue};
use std::panic::{catch_unwind, AssertUnwindSafe};
use std::sync::atomic::{AtomicBool, AtomicU64, Ordering::SeqCst};
use std::sync::mpsc::channel;
use std::sync::Arc;
use std::thread;

/// A queue, by its calls at its first shard.
struct Queue(SharedDelayQueue<Node>);

impl Queue {
    fn of(capacity: usize) -> Arc<Queue> {
        Arc::new(Queue(
            SharedDelayQueue::new(QueueConfig::of(2, capacity)).expect("a queue"),
        ))
    }

    fn insert(&self, value: Node, when: u64) -> Key {
        self.0.insert(0, value, when).unwrap_or_else(|_| panic!("room"))
    }

    fn cancel_all(&self, keys: &[Key]) {
        let mut handle = self.0.handle().expect("a handle");
        keys.iter().for_each(|key| assert!(handle.cancel(key).is_ok()));
        handle.give_back();
    }

    fn sweep(&self) -> usize {
        self.0.sweep(0).expect("a shard")
    }

    fn sweep_one(&self, slot: usize) {
        self.0.sweep_some(0, slot, 1).expect("a shard");
    }

    fn reap(&self, key: &Key) {
        let _ = self.0.reap(&key.entry());
    }

    fn poll(&self, tick: u64) -> Option<Expired<Node>> {
        match self.0.poll(0, tick).expect("a shard") {
            Turn::Out(expired) => Some(expired),
            _ => None,
        }
    }

    fn poll_many(&self, tick: u64, row: &mut Vec<Expired<Node>>) {
        let _turn = self.0.poll_many(0, tick, row).expect("a shard");
    }

    fn clear(&self) -> usize {
        self.0.clear(0).expect("a shard")
    }

    fn deferred(&self) -> usize {
        self.0.enter(0).expect("a shard").deferred()
    }

    fn linked(&self) -> u64 {
        self.0.tally(0).expect("a shard").linked
    }
}

/// How deep drops are nested, how deep they ever were, and how many there were.
#[derive(Default)]
struct Depth {
    now: AtomicU64,
    greatest: AtomicU64,
    drops: AtomicU64,
}

impl Depth {
    fn seen(&self) -> (u64, u64) {
        (self.drops.load(SeqCst), self.greatest.load(SeqCst))
    }
}

type Action = Box<dyn FnOnce() + Send + Sync>;

/// A value that runs this where it is dropped.
struct Node {
    depth: Arc<Depth>,
    action: Option<Action>,
}

impl Node {
    fn that(depth: &Arc<Depth>, action: impl FnOnce() + Send + Sync + 'static) -> Node {
        Node {
            depth: depth.clone(),
            action: Some(Box::new(action)),
        }
    }

    fn quiet(depth: &Arc<Depth>) -> Node {
        Node::that(depth, || ())
    }

    fn that_panics(depth: &Arc<Depth>) -> Node {
        Node::that(depth, || panic!("a value's drop"))
    }
}

impl Drop for Node {
    fn drop(&mut self) {
        let deep = self.depth.now.fetch_add(1, SeqCst) + 1;
        self.depth.greatest.fetch_max(deep, SeqCst);
        self.depth.drops.fetch_add(1, SeqCst);
        let ends = Ends(&self.depth.now);
        if let Some(action) = self.action.take() {
            action();
        }
        drop(ends);
    }
}

struct Ends<'d>(&'d AtomicU64);

impl Drop for Ends<'_> {
    fn drop(&mut self) {
        self.0.fetch_sub(1, SeqCst);
    }
}

/// As many as a shard has slots.
const MANY: usize = 50_000;

/// Runs a test on a thread whose stack has no room for drops that nest by thousands.
fn on_a_small_stack(test: impl FnOnce() + Send + 'static) {
    let runs = thread::Builder::new()
        .stack_size(256 * 1024)
        .spawn(test)
        .expect("a thread");
    runs.join()
        .unwrap_or_else(|panicked| std::panic::resume_unwind(panicked));
}

// Cancelled entries, of which each one's drop makes this call with its number, and one call that frees them.
fn each_drop_calls(inner: fn(&Queue, usize), outer: fn(&Queue, &[Key])) {
    within_the_limit(move || {
        on_a_small_stack(move || {
            let (queue, depth) = (Queue::of(MANY), Arc::<Depth>::default());
            let keys: Vec<_> = (0..MANY)
                .map(|at| {
                    let by_drop = queue.clone();
                    queue.insert(Node::that(&depth, move || inner(&by_drop, at)), 10 + at as u64)
                })
                .collect();
            queue.cancel_all(&keys);
            outer(&queue, &keys);
            assert_eq!(depth.seen(), (MANY as u64, 1));
            assert_eq!((queue.deferred(), queue.linked()), (0, 0));
        });
    });
}

// The slots are given out in order, so the next slot has the next entry.
fn sweeps_the_next(queue: &Queue, at: usize) {
    queue.sweep_one((at + 1) % MANY);
}

#[test]
fn drops_that_sweep_in_a_sweep() {
    each_drop_calls(sweeps_the_next, |queue, _| assert_eq!(queue.sweep(), MANY));
}

#[test]
fn drops_that_poll_in_a_sweep() {
    each_drop_calls(
        |queue, at| assert!(queue.poll(at as u64).is_none()),
        |queue, _| assert_eq!(queue.sweep(), MANY),
    );
}

#[test]
fn drops_that_sweep_in_a_reap() {
    each_drop_calls(sweeps_the_next, |queue, keys| queue.reap(&keys[0]));
}

#[test]
fn drops_that_sweep_in_a_poll() {
    each_drop_calls(sweeps_the_next, |queue, _| {
        assert!(queue.poll(10 + MANY as u64).is_none())
    });
}

#[test]
fn drops_that_sweep_in_a_clear() {
    each_drop_calls(sweeps_the_next, |queue, _| {
        queue.clear();
    });
}

// The first of a drop's calls that leaves its value to the thread that drops doesn't end the dropping.
#[test]
fn drops_that_sweep_twice_in_a_sweep() {
    within_the_limit(move || {
        let (queue, depth) = (Queue::of(4), Arc::<Depth>::default());
        let by_drop = queue.clone();
        let sweeps = Node::that(&depth, move || (1..3).for_each(|slot| by_drop.sweep_one(slot)));
        let keys = [sweeps, Node::quiet(&depth), Node::quiet(&depth)].map(|value| queue.insert(value, 10));
        queue.cancel_all(&keys);
        queue.sweep_one(0);
        assert_eq!((depth.seen(), queue.deferred()), ((3, 1), 0));
    });
}

// A thread finds another one at it, and leaves its value to that one.
#[test]
fn another_threads_values_are_left_to_the_thread_that_drops() {
    within_the_limit(move || {
        let (queue, depth) = (Queue::of(8), Arc::<Depth>::default());
        let (entered, waits) = channel();
        let (goes_on, may_go_on) = channel::<()>();
        let may_go_on = std::sync::Mutex::new(may_go_on);
        let slow = Node::that(&depth, move || {
            entered.send(()).expect("a test");
            may_go_on.lock().expect("a lock").recv().expect("a test");
        });
        let keys = [queue.insert(slow, 10), queue.insert(Node::quiet(&depth), 10)];
        queue.cancel_all(&keys);
        let other = queue.clone();
        let first = keys[0];
        let runs = thread::spawn(move || other.reap(&first));
        waits.recv().expect("a drop");
        queue.reap(&keys[1]);
        assert_eq!((depth.drops.load(SeqCst), queue.deferred()), (1, 1), "it is left");
        goes_on.send(()).expect("a thread");
        runs.join().expect("a thread");
        assert_eq!((depth.drops.load(SeqCst), queue.deferred()), (2, 0));
    });
}

/// Calls that free what was cancelled.
const LETS_GO: [fn(&Queue); 3] = [
    |queue| assert_eq!(queue.sweep(), 40),
    |queue| assert_eq!(queue.clear(), 0),
    |queue| assert!(queue.poll(10).is_none()),
];

// Where a drop panics what was taken out with it is dropped too, once each, and a later call drops what is left.
#[test]
fn a_drop_panics_among_many() {
    for lets_go in LETS_GO {
        for panicking in [0, 5, 15, 16, 39] {
            within_the_limit(move || {
                let (queue, depth) = (Queue::of(64), Arc::<Depth>::default());
                let keys: Vec<_> = (0..40)
                    .map(|at| match at == panicking {
                        true => queue.insert(Node::that_panics(&depth), 5),
                        false => queue.insert(Node::quiet(&depth), 5),
                    })
                    .collect();
                queue.cancel_all(&keys);
                assert_eq!(panics(|| lets_go(&queue)), "a value's drop");
                let (dropped, left) = (depth.drops.load(SeqCst), queue.deferred() as u64);
                assert_eq!(dropped + left, 40, "none is lost");
                queue.sweep();
                assert!(queue.poll(10).is_none());
                assert_eq!((depth.drops.load(SeqCst), queue.deferred()), (40, 0));
            });
        }
    }
}

// A value's drop panics while another call has left its own to it: a later call drops that one.
#[test]
fn a_later_call_drops_what_was_left_to_a_drop_that_panicked() {
    within_the_limit(move || {
        let (queue, depth) = (Queue::of(8), Arc::<Depth>::default());
        let other = queue.insert(Node::quiet(&depth), 10);
        let by_drop = queue.clone();
        let first = queue.insert(
            Node::that(&depth, move || {
                by_drop.reap(&other);
                panic!("a value's drop");
            }),
            10,
        );
        queue.cancel_all(&[other, first]);
        assert_eq!(panics(|| queue.reap(&first)), "a value's drop");
        assert_eq!((depth.drops.load(SeqCst), queue.deferred()), (1, 1));
        assert!(queue.poll(10).is_none());
        assert_eq!((depth.drops.load(SeqCst), queue.deferred()), (2, 0));
    });
}

/// A value is deferred in a shard of two slots, and no place is known for it but its own: a poll left it that gave an entry.
fn one_deferred(queue: &Queue, value: Node, depth: &Arc<Depth>) {
    let cancelled = queue.insert(value, 5);
    queue.cancel_all(&[cancelled]);
    queue.insert(Node::quiet(depth), 10);
    drop(queue.poll(10).expect("an entry is due"));
    assert_eq!((queue.deferred(), queue.linked()), (1, 0));
}

// An insert may drop another value, whose slot it takes: a drop that panics loses no key and neither value.
#[test]
fn a_drop_panics_in_an_insert() {
    within_the_limit(move || {
        let (queue, depth) = (Queue::of(2), Arc::<Depth>::default());
        one_deferred(&queue, Node::that_panics(&depth), &depth);
        let mut panics = 0;
        for when in [30, 31] {
            let (linked, is_dropped) = (queue.linked(), Arc::new(AtomicBool::new(false)));
            let was_dropped = is_dropped.clone();
            let value = Node::that(&depth, move || was_dropped.store(true, SeqCst));
            if catch_unwind(AssertUnwindSafe(|| queue.insert(value, when))).is_ok() {
                assert_eq!(queue.linked(), linked + 1);
                continue;
            }
            panics += 1;
            assert_eq!(queue.linked(), linked, "nothing is in without a key");
            assert!(is_dropped.load(SeqCst), "the new value is dropped as any argument is");
        }
        assert_eq!((panics, queue.linked(), queue.deferred()), (1, 1, 0));
        let key = queue.insert(Node::quiet(&depth), 30);
        queue.cancel_all(&[key]);
        assert_eq!((queue.sweep(), queue.linked(), queue.deferred()), (1, 1, 0));
    });
}

// The drop of the value in whose slot an insert goes leaves another one there, in a shard that is full again. That one
// is dropped before the insert too: where it panics, nothing is in without a key.
#[test]
fn a_drop_leaves_another_value_where_an_insert_goes() {
    within_the_limit(move || {
        let (queue, depth) = (Queue::of(2), Arc::<Depth>::default());
        let (by_drop, nested) = (queue.clone(), depth.clone());
        let leaves_another = Node::that(&depth, move || {
            let cancelled = by_drop.insert(Node::that_panics(&nested), 20);
            by_drop.cancel_all(&[cancelled]);
            drop(by_drop.poll(30).expect("an entry is due"));
            by_drop.insert(Node::quiet(&nested), 100);
        });
        one_deferred(&queue, leaves_another, &depth);
        queue.insert(Node::quiet(&depth), 30);
        assert_eq!(panics(|| queue.insert(Node::quiet(&depth), 101)), "a value's drop");
        assert_eq!((queue.deferred(), queue.linked()), (0, 1));
        let key = queue.insert(Node::quiet(&depth), 101);
        queue.cancel_all(&[key]);
        assert_eq!((queue.sweep(), queue.linked(), queue.deferred()), (1, 1, 0));
    });
}

// What came out of a poll for many isn't lost by a drop that panics.
#[test]
fn a_poll_for_many_that_gives_drops_nothing() {
    within_the_limit(move || {
        let (queue, depth) = (Queue::of(8), Arc::<Depth>::default());
        let cancelled = [queue.insert(Node::that_panics(&depth), 5)];
        queue.cancel_all(&cancelled);
        queue.insert(Node::quiet(&depth), 10);
        let mut row = Vec::with_capacity(4);
        queue.poll_many(10, &mut row);
        assert_eq!((row.len(), depth.drops.load(SeqCst), queue.deferred()), (1, 0, 1));
        row.clear();
        assert_eq!(panics(|| queue.poll_many(10, &mut row)), "a value's drop");
        assert_eq!((depth.drops.load(SeqCst), queue.deferred()), (2, 0));
    });
}
