//! Whose call drops a value: no insert that has room does, and a queue's values aren't kept by another queue's drop.

use crate::kit::{ms, within_the_limit, Drops, Value, FAR};
use hontkhale::{DelayQueue, InsertErrorKind, ManualClock, Timeout};
use std::panic::{catch_unwind, AssertUnwindSafe};
use std::sync::atomic::{AtomicUsize, Ordering::SeqCst};
use std::sync::mpsc::channel;
use std::sync::{Arc, Mutex};
use std::task::{Context, Wake};
use std::thread::{self, JoinHandle};

/// How many values are cancelled before a receiver drops them.
const CANCELLED: u64 = 20;

/// How often a task was woken.
#[derive(Default)]
struct Wakes(AtomicUsize);

impl Wake for Wakes {
    fn wake(self: Arc<Self>) {
        self.0.fetch_add(1, SeqCst);
    }
}

/// How many of the first values were dropped.
fn dropped(drops: &Drops, values: u64) -> usize {
    (0..values).map(|number| drops.count(number)).sum()
}

/// A queue with cancelled values, in the shard to which this thread's next insert goes, and a receiver that is within
/// the drop of the first of them, each of which makes a call.
fn within_a_drop(call: impl Fn() + Send + Sync + 'static) -> (DelayQueue<Value>, Drops, JoinHandle<()>) {
    let (clock, drops, call) = (ManualClock::new(), Drops::default(), Arc::new(call));
    let queue = DelayQueue::builder().clock(&clock).build();
    let (begun, begins) = channel();
    for number in 0..CANCELLED {
        let (call, begun) = (Arc::clone(&call), begun.clone());
        let value = drops.value(number).then(move || {
            let _ = begun.send(());
            call();
        });
        let key = queue.insert(value, ms(10)).expect("room");
        queue.cancel(&key).expect("it waits");
    }
    clock.advance(ms(10));
    let receiver = queue.clone();
    let receives = thread::spawn(move || assert!(receiver.try_recv().is_err()));
    begins.recv().expect("a drop");
    (queue, drops, receives)
}

#[test]
fn an_insert_does_not_wait_for_a_drop_of_another_thread() {
    within_the_limit(|| {
        let (ends, ended) = channel::<()>();
        let ended = Mutex::new(ended);
        let (queue, drops, receives) = within_a_drop(move || assert!(ended.lock().expect("no panic").recv().is_err()));
        for number in CANCELLED..2 * CANCELLED {
            queue.insert(drops.value(number), FAR).expect("room");
        }
        assert_eq!(dropped(&drops, CANCELLED), 1);
        drop(ends);
        receives.join().expect("the receiver ends");
        assert_eq!((queue.clear() as u64, queue.stats().cancelled), (CANCELLED, 0));
        assert!(drops.are_once(2 * CANCELLED));
    });
}

#[test]
fn an_insert_may_hold_a_mutex_that_a_drop_takes() {
    within_the_limit(|| {
        let mutex = Arc::new(Mutex::new(()));
        let held = mutex.lock().expect("no panic");
        let taken = Arc::clone(&mutex);
        let (queue, drops, receives) = within_a_drop(move || drop(taken.lock().expect("no panic")));
        for number in CANCELLED..2 * CANCELLED {
            queue.insert(drops.value(number), FAR).expect("room");
        }
        drop(held);
        receives.join().expect("the receiver ends");
        assert_eq!((queue.clear() as u64, queue.stats().cancelled), (CANCELLED, 0));
        assert!(drops.are_once(2 * CANCELLED));
    });
}

/// They were deferred by a receiver that took an entry, which drops nothing beside it.
#[test]
fn an_insert_that_has_room_drops_nothing() {
    let (clock, drops) = (ManualClock::new(), Drops::default());
    let queue = DelayQueue::builder().clock(&clock).build();
    let insert = |number: u64, after| queue.insert(drops.value(number), after).expect("room");
    let keys: Vec<_> = (0..200).map(|number| insert(number, ms(10))).collect();
    insert(200, ms(10));
    let handle = queue.handle();
    for key in &keys {
        handle.cancel(key).expect("it waits");
    }
    insert(201, FAR);
    clock.advance(ms(10));
    assert_eq!(queue.try_recv().map(|expired| expired.value.number), Ok(200));
    for number in [202, 203] {
        insert(number, FAR);
        assert_eq!(dropped(&drops, 200), 0);
    }
    assert_eq!(queue.stats().cancelled, 200);
    assert!(queue.try_recv().is_err());
    assert_eq!((dropped(&drops, 200), queue.stats().cancelled), (200, 0));
}

/// Fills the first core, so that there is another one, and ends what is in it, the last three by cancels.
fn fills_a_core(queue: &DelayQueue<Value>, drops: &Drops) {
    let insert = |number| queue.insert(drops.value(number), FAR).expect("room");
    let keys: Vec<_> = (0..66).map(insert).collect();
    for (number, key) in keys.iter().enumerate() {
        if (61..64).contains(&number) {
            queue.cancel(key).expect("it waits");
        } else {
            drop(queue.remove(key).expect("it waits"));
        }
    }
}

fn uses_a_slot(queue: &DelayQueue<Value>, drops: &Drops, number: u64) {
    let key = queue.insert(drops.value(number), FAR).expect("room");
    drop(queue.remove(&key).expect("it waits"));
}

/// The thousandth insert moves the last entries of a core that drains, and frees what was cancelled there.
#[test]
fn an_insert_that_empties_a_core_drops_nothing() {
    let drops = Drops::default();
    let queue = DelayQueue::builder().shards(1).build();
    fills_a_core(&queue, &drops);
    let memory = queue.stats().memory;
    (66..2_000).for_each(|number| uses_a_slot(&queue, &drops, number));
    assert_eq!((dropped(&drops, 66), queue.stats().cancelled), (63, 3));
    // Whoever receives drops the values, and gives the core's memory back.
    assert!(queue.try_recv().is_err());
    assert!(queue.try_recv().is_err() && queue.stats().memory < memory);
    assert_eq!((queue.stats().cancelled, drops.are_once(2_000)), (0, true));
}

/// Nothing else is due.
#[test]
fn a_receiver_that_sleeps_drops_what_an_insert_deferred() {
    within_the_limit(|| {
        let drops = Drops::default();
        let queue = DelayQueue::builder().shards(1).build();
        let receiver = queue.clone();
        let receives = thread::spawn(move || assert!(receiver.recv().is_none()));
        // It most likely sleeps by then.
        thread::sleep(ms(50));
        fills_a_core(&queue, &drops);
        (66..2_000).for_each(|number| uses_a_slot(&queue, &drops, number));
        while dropped(&drops, 66) < 66 {
            thread::sleep(ms(1));
        }
        queue.close();
        receives.join().expect("the receiver ends");
    });
}

#[test]
fn a_queue_whose_values_are_dropped_within_anothers_call_drops_them_there() {
    let (sessions, sockets) = (DelayQueue::new(), DelayQueue::new());
    let socket = Arc::new("a socket".to_string());
    let guard: Timeout<_> = sockets.guard(Arc::clone(&socket), FAR).expect("room");
    sessions.insert(guard, FAR).expect("room");
    assert_eq!((sessions.clear(), Arc::strong_count(&socket)), (1, 1));
}

/// Each value is the guard of a value of the other queue.
#[test]
fn no_value_of_two_queues_is_left_that_let_each_other_go() {
    struct Link {
        _behind: Option<Timeout<Link>>,
        _owned: Arc<String>,
    }
    const LINKS: usize = 40_000;
    let by_turns = || {
        let owned = Arc::new("a value".to_string());
        let queues = [DelayQueue::new(), DelayQueue::new()];
        let mut last = None;
        for number in 0..LINKS {
            let link = Link {
                _behind: last,
                _owned: Arc::clone(&owned),
            };
            last = Some(queues[number % 2].guard(link, FAR).expect("room"));
        }
        assert_eq!(Arc::strong_count(&owned), LINKS + 1);
        drop(last);
        assert_eq!(Arc::strong_count(&owned), 1);
        assert!(queues.iter().all(DelayQueue::is_empty));
    };
    // It holds some hundred calls.
    let thread = thread::Builder::new().stack_size(256 * 1_024);
    thread
        .spawn(by_turns)
        .expect("a thread")
        .join()
        .expect("the test passes");
}

/// The insert finds no free slot, and drops what was cancelled there.
#[test]
fn a_drop_within_another_queues_call_inserts() {
    within_the_limit(|| {
        let drops = Drops::default();
        let queue = DelayQueue::builder().shards(2).build();
        // As many as there are slots at first.
        for number in 0..64 {
            let key = queue.insert(drops.value(number), FAR).expect("room");
            queue.cancel(&key).expect("it waits");
        }
        let memory = queue.stats().memory;
        let other = DelayQueue::new();
        let (clone, counts) = (queue.clone(), drops.clone());
        let value = Drops::default().value(0).then(move || {
            clone.insert(counts.value(64), FAR).expect("room");
        });
        other.insert(value, FAR).expect("room");
        assert_eq!((other.clear(), queue.len(), dropped(&drops, 64)), (1, 1, 64));
        assert_eq!((queue.stats().cancelled, queue.stats().memory), (0, memory));
    });
}

#[test]
fn after_a_panic_within_the_drops_of_two_queues_both_drop() {
    let drops = Drops::default();
    let (outer, inner) = (DelayQueue::new(), DelayQueue::new());
    for number in [0, 1] {
        let value = drops
            .value(number)
            .then(move || assert!(number > 0, "a drop that panics"));
        let guard = inner.guard(value, FAR).expect("room");
        outer.insert(guard, FAR).expect("room");
    }
    for _ in [0, 1] {
        let _panic = catch_unwind(AssertUnwindSafe(|| outer.clear()));
    }
    assert!(outer.is_empty() && inner.is_empty());
    assert!(drops.are_once(2));
}

/// It was let go within the drop that panics, and a receiver rests once it is dropped.
#[test]
fn a_later_call_drops_what_was_let_go_within_a_drop_that_panics() {
    let (queue, drops) = (DelayQueue::new(), Drops::default());
    let guard = queue.guard(drops.value(1), FAR).expect("room");
    let panics = drops.value(0).then(move || {
        drop(guard);
        panic!("a drop that panics");
    });
    let panics = queue.guard(panics, FAR).expect("room");
    assert!(catch_unwind(AssertUnwindSafe(|| drop(panics))).is_err());
    assert_eq!((drops.count(0), drops.count(1)), (1, 0));
    let (mut task, wakes) = (queue.receiver(), Arc::<Wakes>::default());
    for _ in 0..2 {
        assert!(task
            .poll_recv(&mut Context::from_waker(&wakes.clone().into()))
            .is_pending());
        assert_eq!((drops.count(1), wakes.0.load(SeqCst)), (1, 0));
    }
}

/// What it let go is dropped after it.
#[test]
fn a_receive_within_a_drop_waits_for_no_other_drop() {
    let (queue, drops) = (DelayQueue::new(), Drops::default());
    let guard = queue.guard(drops.value(1), FAR).expect("room");
    let (mut task, wakes, counts) = (queue.receiver(), Arc::<Wakes>::default(), drops.clone());
    let receives = drops.value(0).then(move || {
        drop(guard);
        let waker = wakes.clone().into();
        assert!(task.poll_recv(&mut Context::from_waker(&waker)).is_pending());
        assert_eq!((counts.count(1), wakes.0.load(SeqCst)), (0, 0));
    });
    drop(queue.guard(receives, FAR).expect("room"));
    assert!(queue.is_empty() && drops.are_once(2));
}

/// One queue's drop stands within another one's, and a third one's was within it.
#[test]
fn what_a_drop_within_other_queues_drops_lets_go_is_dropped_after_it() {
    let (queues, drops) = ([(); 3].map(|()| DelayQueue::new()), Drops::default());
    let guard = |at: usize, value| queues[at].guard(value, FAR).expect("room");
    let (inner, last) = (guard(2, drops.value(2)), guard(1, drops.value(3)));
    let counts = drops.clone();
    let middle = guard(
        1,
        drops.value(1).then(move || {
            drop(inner);
            drop(last);
            assert_eq!((counts.count(2), counts.count(3)), (1, 0));
        }),
    );
    let counts = drops.clone();
    let outer = drops.value(0).then(move || {
        drop(middle);
        assert_eq!(counts.count(3), 1);
    });
    drop(guard(0, outer));
    assert!(drops.are_once(4));
}

/// The queue is closed while the value is made, and refuses it.
#[test]
fn what_a_drop_made_in_vain_is_dropped_after_it() {
    let (queue, drops) = (DelayQueue::new(), Drops::default());
    let (clone, counts) = (queue.clone(), drops.clone());
    let makes = drops.value(0).then(move || {
        let make = |_| {
            clone.close_when_empty();
            counts.value(1)
        };
        assert_eq!(clone.insert_with(make, FAR), Err(InsertErrorKind::Closed));
        assert_eq!((clone.stats().deferred, counts.count(1)), (1, 0));
    });
    drop(queue.guard(makes, FAR).expect("room"));
    assert!(queue.is_empty() && drops.are_once(2));
}

#[test]
fn what_a_drop_lets_go_is_told_until_it_is_dropped() {
    let (queue, drops) = (DelayQueue::new(), Drops::default());
    let guards: Vec<_> = (1..4)
        .map(|number| queue.guard(drops.value(number), FAR).expect("room"))
        .collect();
    let (clone, counts) = (queue.clone(), drops.clone());
    let value = drops.value(0).then(move || {
        drop(guards);
        assert_eq!((clone.stats().deferred, clone.len(), dropped(&counts, 4)), (3, 0, 1));
    });
    drop(queue.guard(value, FAR).expect("room"));
    assert_eq!((queue.stats().deferred, drops.are_once(4)), (0, true));
}
