//! What is done with a value where it is, under its shard's lock.

use crate::kit::{ms, within_the_limit, Drops, Value, FAR};
use hontkhale::{DelayQueue, InsertErrorKind, Key, KeyError, ManualClock};
use std::panic::{catch_unwind, AssertUnwindSafe};
use std::thread;
use std::time::Duration;

/// Fills free slots of every kind: never used, freed last, and those of cancelled entries.
#[test]
fn a_value_is_made_by_the_key_that_its_insert_returns() {
    let clock = ManualClock::new();
    for last_stamp in [1, 3, u32::MAX] {
        let queue = DelayQueue::builder()
            .clock(&clock)
            .shards(3)
            .last_stamp(last_stamp)
            .build();
        let mut keys = Vec::new();
        for number in 0..5_000_u64 {
            let key = queue
                .insert_with(|key| (key, number.to_string()), ms(number % 97))
                .expect("room");
            assert_eq!(
                queue.get(&key, |value| value.0 == key && value.1 == number.to_string()),
                Ok(true)
            );
            keys.push(key);
            match number % 5 {
                0 => _ = queue.remove(&keys[number as usize / 2]),
                1 => _ = queue.cancel(&keys[number as usize / 3]),
                2 => assert!(queue.insert((key, String::new()), FAR).is_ok()),
                3 => queue
                    .try_iter()
                    .for_each(|out| assert!(out.value.0 == out.key || out.value.1.is_empty())),
                _ => clock.advance(ms(1)),
            }
        }
        assert!(queue
            .drain()
            .all(|(key, _, value)| value.0 == key || value.1.is_empty()));
    }
}

#[test]
fn a_value_is_read_and_changed_until_its_entry_ends() {
    let (queue, other) = (DelayQueue::builder().last_stamp(2).build(), DelayQueue::new());
    let keys = ["one", "two"].map(|value| queue.insert(value.to_string(), FAR).expect("room"));
    assert_eq!(queue.get_mut(&keys[0], |value| value.push('!')), Ok(()));
    // The second reset moves it.
    for _ in 0..5 {
        assert!(queue.reset(&keys[0], FAR).is_ok());
        assert_eq!(queue.get(&keys[0], String::clone).as_deref(), Ok("one!"));
    }
    assert_eq!(
        other.insert(0, FAR).map(|key| queue.get(&key, |_| ())),
        Ok(Err(KeyError::WrongQueue))
    );
    assert!(queue.remove(&keys[0]).is_ok() && queue.cancel(&keys[1]).is_ok());
    for key in &keys {
        assert_eq!(queue.get(key, |_| panic!("it ended")), Err(KeyError::Ended));
        assert_eq!(queue.get_mut(key, |_| panic!("it ended")), Err(KeyError::Ended));
    }
}

#[test]
fn a_refused_insert_makes_no_value() {
    let queue = DelayQueue::<String>::builder().max_entries(1).build();
    let refused = |after| queue.insert_with(|_| panic!("it is refused"), after);
    assert_eq!(refused(Duration::MAX), Err(InsertErrorKind::TooFar));
    queue.insert_with(|_| String::new(), FAR).expect("room");
    assert_eq!(refused(FAR), Err(InsertErrorKind::Full));
    queue.close();
    assert_eq!(refused(FAR), Err(InsertErrorKind::Closed));
}

/// Nothing is put in, counted or lost, and the lock is free.
#[test]
fn a_closure_that_panics_leaves_a_queue_that_goes_on() {
    within_the_limit(|| {
        let drops = Drops::default();
        let queue = DelayQueue::builder().shards(1).max_entries(2).build();
        let panics = || -> Result<Key, InsertErrorKind> { queue.insert_with(|_| panic!("a closure that panics"), FAR) };
        for number in 0..100 {
            assert!(catch_unwind(AssertUnwindSafe(panics)).is_err());
            let key = queue.insert_with(|_| drops.value(number), FAR).expect("room");
            let read = || queue.get(&key, |_| panic!("a closure that panics"));
            assert!(catch_unwind(AssertUnwindSafe(read)).is_err());
            let renames = |value: &mut Value| -> () {
                value.number += 1_000;
                panic!("a closure that panics")
            };
            let change = || queue.get_mut(&key, renames);
            assert!(catch_unwind(AssertUnwindSafe(change)).is_err());
            let other = queue.clone();
            let removed = thread::spawn(move || other.remove(&key).map(|value| value.number));
            assert_eq!((removed.join().unwrap(), queue.len()), (Ok(1_000 + number), 0));
        }
        assert_eq!(queue.stats().inserted, 100);
    });
}

type Calls = fn(&DelayQueue<u64>, &Key);

/// A call that wants the lock which is held panics, where it would wait for itself. The others are made.
#[test]
fn a_closure_that_calls_its_queue_never_hangs() {
    within_the_limit(|| {
        let wants_the_lock: [Calls; 9] = [
            |queue, key| _ = queue.remove(key),
            |queue, key| _ = queue.reset(key, FAR / 2),
            |queue, key| _ = queue.get(key, |value| *value),
            |queue, _| _ = queue.insert(1, FAR),
            |queue, _| _ = queue.insert_with(|_| 1, FAR),
            |queue, _| _ = queue.clear(),
            |queue, _| _ = queue.stats(),
            |queue, _| _ = queue.next_deadline(),
            |queue, _| _ = queue.wait_empty(Duration::ZERO),
        ];
        let takes_none: [Calls; 4] = [
            |queue, key| _ = queue.extend(key, FAR * 2),
            |queue, key| _ = queue.deadline(key),
            |queue, _| _ = queue.len(),
            |queue, key| _ = queue.cancel(key),
        ];
        let queue = DelayQueue::builder().shards(1).build();
        let key = queue.insert(7, FAR).expect("room");
        // The thread's first one takes the lock.
        queue.extend(&key, FAR).expect("it waits");
        for calls in wants_the_lock {
            let within_get = || queue.get(&key, |_| calls(&queue, &key));
            let panicked = catch_unwind(AssertUnwindSafe(within_get)).expect_err("it would wait for itself");
            let told = panicked.downcast_ref::<&str>().copied();
            assert_eq!(
                told,
                Some("a closure that is called under a queue's lock calls the queue")
            );
            let within_insert = || queue.insert_with(|_| (calls(&queue, &key), 1).1, FAR);
            assert!(catch_unwind(AssertUnwindSafe(within_insert)).is_err());
        }
        for calls in takes_none {
            assert_eq!(queue.get_mut(&key, |_| calls(&queue, &key)), Ok(()));
        }
        assert_eq!(
            (queue.len(), queue.get(&key, |value| *value)),
            (0, Err(KeyError::Ended))
        );
        queue.insert(1, Duration::ZERO).expect("room");
        assert_eq!(queue.recv().map(|out| out.value), Some(1));
    });
}
