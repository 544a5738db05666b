//! What a value's drop may do: it calls the queue, and it panics, while no lock is held.

use crate::kit::{ms, within_the_limit, Drops, Value, FAR};
use hontkhale::{DelayQueue, ManualClock, Timeout};
use std::panic::{catch_unwind, AssertUnwindSafe};
use std::thread;

/// All of a queue's calls, made from a drop.
fn calls_all(queue: &DelayQueue<crate::kit::Value>, drops: &Drops, number: u64) {
    let key = queue.insert(drops.value(number), FAR).expect("room");
    queue.extend(&key, FAR * 2).expect("it waits");
    queue.reset(&key, FAR).expect("it waits");
    assert!(queue.recv_timeout(ms(1)).is_err());
    let _ = (queue.stats(), queue.next_deadline(), queue.len());
    queue.handle().cancel(&key).expect("it waits");
}

#[test]
fn a_drop_calls_the_queue_whoever_makes_it() {
    within_the_limit(|| {
        let drops = Drops::default();
        let queue = DelayQueue::new();
        let insert = |number: u64, after: u64| {
            let (clone, counts) = (queue.clone(), drops.clone());
            let value = drops
                .value(number)
                .then(move || calls_all(&clone, &counts, number + 100));
            queue.insert(value, ms(after)).expect("room")
        };
        // A receiver that comes upon it, and one in a quiet moment.
        queue.cancel(&insert(0, 1)).expect("it waits");
        thread::sleep(ms(5));
        assert!(queue.try_recv().is_err() && drops.count(0) == 1);
        queue.cancel(&insert(1, 100_000)).expect("it waits");
        while drops.count(1) == 0 {
            assert!(queue.recv_timeout(ms(1)).is_err());
        }
        // A drain that comes upon it, and a clear.
        queue.cancel(&insert(2, 100_000)).expect("it waits");
        assert!(queue.drain().next().is_none() && drops.count(2) == 1);
        insert(3, 100_000);
        assert_eq!((queue.clear(), drops.count(3)), (1, 1));
        // An insert that finds no room.
        queue.cancel(&insert(4, 100_000)).expect("it waits");
        while drops.count(4) == 0 {
            insert(5, 100_000);
        }
        queue.clear();
    });
}

#[test]
fn a_drop_that_panics_loses_itself_alone() {
    within_the_limit(|| {
        let (clock, drops) = (ManualClock::new(), Drops::default());
        let queue = DelayQueue::builder().clock(&clock).build();
        let panics = |number| {
            let value = drops.value(number).then(|| panic!("a drop that panics"));
            queue.insert(value, ms(10)).expect("room")
        };
        let keys: Vec<_> = (0..10).map(panics).collect();
        let keeps: Vec<_> = (10..20)
            .map(|number| queue.insert(drops.value(number), ms(10)).expect("room"))
            .collect();
        for key in &keys {
            queue.cancel(key).expect("it waits");
        }
        clock.advance(ms(10));
        let (mut got, mut panicked) = (0, 0);
        while got < keeps.len() {
            match catch_unwind(AssertUnwindSafe(|| queue.try_recv())) {
                Ok(Ok(expired)) => got += usize::from(expired.value.number >= 10),
                Ok(Err(_)) => panic!("an entry is lost"),
                Err(_) => panicked += 1,
            }
        }
        while let Err(_panic) = catch_unwind(AssertUnwindSafe(|| queue.try_recv().is_err())) {
            panicked += 1;
        }
        assert_eq!((panicked, queue.len()), (10, 0));
        assert!(drops.are_once(20));
    });
}

/// An insert drops what was cancelled before its own entry is in: a panic there loses the value that was handed in alone.
#[test]
fn an_insert_that_meets_a_drop_that_panics_puts_nothing_in() {
    within_the_limit(|| {
        let drops = Drops::default();
        let queue = DelayQueue::builder().shards(2).build();
        // As many as there are slots at first.
        for number in 0..64 {
            let value = drops.value(number).then(|| panic!("a drop that panics"));
            let key = queue.insert(value, FAR).expect("room");
            queue.cancel(&key).expect("it waits");
        }
        let (mut inserted, mut panicked) = (0, 0);
        for number in 64..1_064 {
            match catch_unwind(AssertUnwindSafe(|| queue.insert(drops.value(number), FAR))) {
                Ok(key) => {
                    key.expect("room");
                    inserted += 1;
                }
                Err(_panic) => panicked += 1,
            }
        }
        assert_eq!((panicked, inserted, queue.len()), (64, 936, 936));
        queue.clear();
        assert!(drops.are_once(1_064));
    });
}

/// How many values are dropped on a stack that holds some hundred calls.
const MANY: u64 = 2_000;

fn on_a_small_stack(test: impl FnOnce() + Send + 'static) {
    let thread = thread::Builder::new().stack_size(256 * 1_024);
    thread.spawn(test).expect("a thread").join().expect("the test passes");
}

type Calls = fn(&DelayQueue<Value>, &Drops, u64);

/// Has all values dropped by calls on the queue, each of which makes a call in its drop.
fn drops_many(within: Calls, are_cancelled: bool, all: Calls) {
    let (clock, drops) = (ManualClock::new(), Drops::default());
    let queue = DelayQueue::builder().clock(&clock).build();
    let insert = |number: u64| {
        let (clone, counts) = (queue.clone(), drops.clone());
        let value = drops.value(number);
        let value = value.then(move || within(&clone, &counts, 2 * MANY + number));
        queue.insert(value, ms(10)).expect("room")
    };
    let keys: Vec<_> = (0..MANY).map(insert).collect();
    for key in keys.iter().filter(|_| are_cancelled) {
        queue.cancel(key).expect("it waits");
    }
    clock.advance(ms(10));
    all(&queue, &drops, MANY);
    while !queue.is_empty() {
        queue.clear();
    }
    assert!(queue.try_recv().is_err());
    assert!(drops.are_once(MANY));
    assert_eq!(queue.stats().cancelled, 0);
}

#[test]
fn no_drop_stands_on_the_stack_of_another() {
    let inserts: Calls = |queue, drops, number| {
        queue.insert(drops.value(number), FAR).expect("room");
    };
    let clears: Calls = |queue, _, _| {
        queue.clear();
    };
    let receives: Calls = |queue, _, _| drop(queue.recv_timeout(ms(0)));
    let tries: Calls = |queue, _, _| drop(queue.try_recv());
    let inserts_many: Calls = |queue, drops, first| {
        (first..first + 1_000).for_each(|number| drop(queue.insert(drops.value(number), FAR)));
    };
    within_the_limit(move || {
        for all in [tries, receives, clears, inserts_many] {
            for within in [inserts, receives, tries, clears] {
                on_a_small_stack(move || drops_many(within, true, all));
            }
        }
        on_a_small_stack(move || drops_many(clears, false, clears));
        on_a_small_stack(move || drops_many(inserts, false, clears));
    });
}

/// A guard that is the value of another guard's entry, and so on.
#[test]
fn a_chain_of_guards_is_dropped_link_by_link() {
    struct Link(#[allow(dead_code)] Option<Timeout<Link>>);
    on_a_small_stack(|| {
        let queue = DelayQueue::new();
        let mut last = None;
        for _ in 0..MANY {
            last = Some(queue.guard(Link(last), FAR).expect("room"));
        }
        drop(last);
        assert!(queue.is_empty());
    });
}
