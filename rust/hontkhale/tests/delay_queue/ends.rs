//! The ends of a queue: cleared, drained, dropped, and many queues in one thread.

use crate::kit::{ms, Drops, FAR};
use hontkhale::{DelayQueue, Key, KeyError, ManualClock};
use std::cell::RefCell;
use std::collections::HashMap;
use std::thread;

#[test]
fn a_drain_gives_each_entry_that_waits_with_its_key_and_deadline() {
    let clock = ManualClock::new();
    let queue = DelayQueue::builder().clock(&clock).last_stamp(2).build();
    let mut waits = HashMap::new();
    for number in 0..500 {
        let key = queue.insert(number, ms(number)).expect("room");
        // The second reset moves it.
        for after in [number + 1, number + 2] {
            queue.reset(&key, ms(after)).expect("it waits");
        }
        waits.insert(key, (clock.now() + ms(number + 2), number));
    }
    for key in waits.keys().copied().take(100).collect::<Vec<_>>() {
        queue.cancel(&key).expect("it waits");
        waits.remove(&key);
    }
    for (key, deadline, value) in queue.drain() {
        assert_eq!(waits.remove(&key), Some((deadline, value)));
    }
    assert!(waits.is_empty() && queue.is_empty() && queue.stats().cancelled == 0);
}

#[test]
fn each_value_is_dropped_once_with_its_queue() {
    let drops = Drops::default();
    let queue = DelayQueue::new();
    let keys: Vec<_> = (0..1_000)
        .map(|number| queue.insert(drops.value(number), FAR).expect("room"))
        .collect();
    for key in &keys[..300] {
        queue.cancel(key).expect("it waits");
    }
    for key in &keys[300..400] {
        drop(queue.remove(key).expect("it waits"));
    }
    assert!(drops.count(999) == 0 && drops.count(300) == 1);
    drop(queue);
    assert!(drops.are_once(1_000));
}

/// A thread keeps callers of few queues, and gives those of the others back.
#[test]
fn one_thread_touches_many_queues() {
    let clock = ManualClock::new();
    let queue = |_| DelayQueue::builder().clock(&clock).shards(2).build();
    let queues: Vec<DelayQueue<usize>> = (0..1_000).map(queue).collect();
    let keys: Vec<_> = (0..)
        .zip(&queues)
        .map(|(number, queue)| queue.insert(number, FAR).expect("room"))
        .collect();
    for turn in 0..3 {
        for (queue, key) in queues.iter().zip(&keys) {
            queue.extend(key, FAR + ms(turn)).expect("it waits");
        }
    }
    for (number, (queue, key)) in queues.iter().zip(&keys).enumerate() {
        assert_eq!(queue.remove(key), Ok(number));
    }
}

/// Threads use handles of queues while these are dropped: each call is made, or says that the queue has gone.
#[test]
fn queues_are_dropped_under_their_handles() {
    let drops = Drops::default();
    for turn in 0..50 {
        let queue = DelayQueue::builder().last_stamp(3).build();
        let keys: Vec<_> = (0..40)
            .map(|number| queue.insert(drops.value(40 * turn + number), FAR).expect("room"))
            .collect();
        thread::scope(|scope| {
            for thread in 0..4 {
                let (handle, keys) = (queue.handle(), &keys);
                scope.spawn(move || {
                    for key in keys[10 * thread..].iter().chain(keys).cycle() {
                        match handle.extend(key, FAR) {
                            Err(KeyError::Closed) => return,
                            Ok(_) | Err(KeyError::Ended) => {}
                            Err(refused) => panic!("{refused}"),
                        }
                    }
                });
            }
            for key in &keys {
                queue.reset(key, FAR).expect("it waits");
            }
            drop(queue);
        });
    }
    assert!(drops.are_once(2_000));
}

/// What a thread keeps for itself is dropped as it ends, and may use a queue whose callers of the thread are gone by then.
#[test]
fn a_queue_is_used_while_a_thread_ends() {
    struct AtTheEnd(RefCell<Option<(DelayQueue<u8>, Key)>>);

    impl Drop for AtTheEnd {
        fn drop(&mut self) {
            if let Some((queue, key)) = self.0.take() {
                queue.extend(&key, FAR * 2).expect("it waits");
                queue.insert(2, FAR).expect("room");
                queue.cancel(&key).expect("it waits");
            }
        }
    }

    thread_local! {
        static FIRST: AtTheEnd = const { AtTheEnd(RefCell::new(None)) };
        static LAST: AtTheEnd = const { AtTheEnd(RefCell::new(None)) };
    }

    let queue = DelayQueue::new();
    let of_thread = queue.clone();
    thread::spawn(move || {
        let entry = || (of_thread.clone(), of_thread.insert(1, FAR).expect("room"));
        // One of the two is dropped before the thread's callers, and one after them.
        FIRST.with(|first| *first.0.borrow_mut() = Some(entry()));
        of_thread.extend(&entry().1, FAR).expect("it waits");
        LAST.with(|last| *last.0.borrow_mut() = Some(entry()));
    })
    .join()
    .unwrap();
    let mut left: Vec<u8> = queue.drain().map(|(_, _, value)| value).collect();
    left.sort_unstable();
    assert_eq!(left, [1, 2, 2]);
}
