//! The end of an entry by whoever comes upon it: where it is due, and not where it was extended meanwhile.

use crate::kit::{ms, within_the_limit, Drops, FAR};
use hontkhale::{DelayQueue, InsertErrorKind, Key, KeyError, ManualClock};
use std::panic::{catch_unwind, AssertUnwindSafe};
use std::sync::atomic::{AtomicBool, Ordering::SeqCst};
use std::sync::Mutex;
use std::thread;
use std::time::Instant;

#[test]
fn an_entry_is_taken_out_at_its_deadline_and_not_before() {
    let clock = ManualClock::new();
    let queue = DelayQueue::builder().clock(&clock).build();
    let key = queue.insert("lease", ms(10)).expect("room");
    clock.advance(ms(9));
    assert_eq!(queue.remove_if_due(&key), Ok(None));
    let later = queue.reset(&key, ms(2)).expect("it waits");
    clock.advance(ms(1));
    assert_eq!(
        (queue.remove_if_due(&key), queue.remove_if_due(&later)),
        (Ok(None), Ok(None))
    );
    clock.advance(ms(1));
    assert_eq!((queue.remove_if_due(&key), queue.len()), (Ok(Some("lease")), 0));
    assert_eq!(queue.remove_if_due(&later), Err(KeyError::Ended));
    assert!(queue.try_recv().is_err());
}

/// Until a receiver takes it out or a reader ends it, an entry that is due can be put off by whoever has its key.
#[test]
fn what_is_due_is_put_off_by_an_extend_or_a_reset_until_it_comes_out() {
    let clock = ManualClock::new();
    let queue = DelayQueue::builder().clock(&clock).build();
    let handle = queue.handle();
    let mut guard = queue.guard("lease", ms(10)).expect("room");
    let key = guard.key();
    for call in 0..8 {
        clock.advance(ms(11));
        let when = clock.now() + ms(10);
        let is_put_off = match call {
            0 => queue.extend(&key, ms(10)).is_ok(),
            1 => queue.extend_at(&key, when).is_ok(),
            2 => handle.extend(&key, ms(10)).is_ok(),
            3 => handle.extend_at(&key, when).is_ok(),
            4 => queue.reset(&key, ms(10)).is_ok(),
            5 => queue.reset_at(&key, when).is_ok(),
            6 => guard.extend(ms(10)).is_ok(),
            _ => guard.reset(ms(10)).is_ok(),
        };
        assert!(is_put_off && queue.deadline(&key) == Ok(when), "{call}");
        clock.advance(ms(9));
        assert_eq!((queue.try_recv().is_err(), queue.remove_if_due(&key)), (true, Ok(None)));
    }
    clock.advance(ms(1));
    assert_eq!(queue.remove_if_due(&key), Ok(Some("lease")));
    assert_eq!(queue.extend(&key, ms(10)), Err(KeyError::Ended));
}

#[test]
fn a_key_of_another_queue_and_one_that_was_cancelled_end_nothing() {
    let (queue, other) = (DelayQueue::new(), DelayQueue::<u64>::new());
    let (key, cancelled) = (
        queue.insert(1, ms(0)).expect("room"),
        queue.insert(2, ms(0)).expect("room"),
    );
    queue.cancel(&cancelled).expect("it waits");
    assert_eq!(other.remove_if_due(&key), Err(KeyError::WrongQueue));
    assert_eq!(queue.remove_if_due(&cancelled), Err(KeyError::Ended));
    queue.close();
    assert_eq!(queue.remove_if_due(&key), Ok(Some(1)));
}

/// No slot has a second stamp: each reset moves its entry. Of those that are moved too the key stays good, and what has ended
/// makes room.
#[test]
fn a_moved_entry_is_taken_out_by_its_first_key() {
    let clock = ManualClock::new();
    let queue = DelayQueue::builder()
        .clock(&clock)
        .shards(2)
        .last_stamp(1)
        .max_entries(40)
        .build();
    for round in 0..50 {
        let keys: Vec<Key> = (0..40).map(|number| queue.insert(number, FAR).expect("room")).collect();
        let refused = queue.insert(40, FAR).map_err(|refused| refused.kind());
        assert_eq!(refused.expect_err("it is full"), InsertErrorKind::Full);
        for key in &keys {
            assert_eq!(queue.reset(key, ms(round)), Ok(*key));
        }
        clock.advance(ms(round));
        for (number, key) in (0..).zip(&keys) {
            assert_eq!(queue.remove_if_due(key), Ok(Some(number)));
            assert_eq!(queue.remove_if_due(key), Err(KeyError::Ended));
        }
        assert_eq!(queue.len(), 0);
    }
}

/// It takes no memory, wherever the entry is.
#[test]
fn a_full_queue_does_not_grow_by_it() {
    let queue = DelayQueue::builder().shards(2).build();
    let keys: Vec<Key> = (0..128)
        .map(|number| queue.insert(number, ms(0)).expect("room"))
        .collect();
    let memory = queue.stats().memory;
    for (number, key) in (0..).zip(&keys) {
        assert_eq!(queue.remove_if_due(key), Ok(Some(number)));
    }
    assert!(queue.is_empty() && queue.stats().memory <= memory);
}

/// An extend takes no lock, so that it may come at any step of the call.
#[test]
fn no_accepted_extend_is_lost() {
    within_the_limit(|| {
        for last_stamp in [1, 2, 1_000_000] {
            let clock = ManualClock::new();
            let queue = DelayQueue::builder()
                .shards(2)
                .last_stamp(last_stamp)
                .clock(&clock)
                .build();
            for round in 0..3_000 {
                let key = queue.insert(round, ms(1)).expect("room");
                let begun = AtomicBool::new(false);
                let (accepted, ended) = thread::scope(|scope| {
                    let extends = scope.spawn(|| accepted_last(&queue, &key, &clock, &begun));
                    while !begun.load(SeqCst) {
                        thread::yield_now();
                    }
                    let ended = loop {
                        clock.advance(ms(1));
                        if let Some(value) = queue.remove_if_due(&key).expect("nobody else ends it") {
                            assert_eq!(value, round);
                            break clock.now();
                        }
                    };
                    (extends.join().unwrap(), ended)
                });
                assert!(accepted <= ended, "taken out {:?} early", accepted - ended);
            }
            assert_eq!(queue.len(), 0);
        }
    });
}

/// Extends an entry by a little until it has ended, and tells the last deadline that was accepted.
fn accepted_last(queue: &DelayQueue<u64>, key: &Key, clock: &ManualClock, begun: &AtomicBool) -> Instant {
    let mut accepted = clock.now();
    for turn in 0..1_000 {
        match queue.extend(key, ms(1)) {
            Ok(deadline) => accepted = deadline,
            Err(_) => break,
        }
        begun.store(true, SeqCst);
        if turn % 3 == 0 {
            thread::yield_now();
        }
    }
    begun.store(true, SeqCst);
    accepted
}

#[test]
fn of_receivers_and_readers_one_gets_each_entry() {
    within_the_limit(|| {
        let queue = DelayQueue::new();
        let (keys, got) = (Mutex::new(Vec::new()), Mutex::new(Vec::new()));
        let is_over = AtomicBool::new(false);
        let reads = || loop {
            let is_last = is_over.load(SeqCst);
            let some: Vec<Key> = keys.lock().unwrap().clone();
            let ended = some.iter().filter_map(|key| queue.remove_if_due(key).ok()?);
            ended.for_each(|number| got.lock().unwrap().push(number));
            if is_last {
                break;
            }
        };
        thread::scope(|scope| {
            let receives = || queue.iter().for_each(|expired| got.lock().unwrap().push(expired.value));
            let receivers = [(); 2].map(|()| scope.spawn(receives));
            let readers = [(); 2].map(|()| scope.spawn(reads));
            for number in 0..20_000_u64 {
                let key = queue.insert(number, ms(number % 3)).expect("room");
                let mut keys = keys.lock().unwrap();
                keys.push(key);
                let kept = keys.len().saturating_sub(50);
                keys.drain(..kept);
            }
            thread::sleep(ms(10));
            is_over.store(true, SeqCst);
            readers.into_iter().for_each(|reader| reader.join().unwrap());
            queue.close();
            receivers.into_iter().for_each(|receiver| receiver.join().unwrap());
        });
        let mut got = got.into_inner().unwrap();
        got.extend(queue.drain().map(|(.., number)| number));
        got.sort_unstable();
        assert!(got.iter().copied().eq(0..20_000), "each comes out once");
    });
}

/// Where every slot is taken and has had its last stamp, it needs no room: the value of what was cancelled is dropped later.
#[test]
fn a_drop_that_panics_is_not_its_business() {
    let (clock, drops) = (ManualClock::new(), Drops::default());
    let queue = DelayQueue::builder().shards(2).last_stamp(1).clock(&clock).build();
    let mut panicked = 0;
    for round in 0..200 {
        let value = drops.value(2 * round).then(|| panic!("a drop that panics"));
        let cancelled = queue.insert(value, ms(1)).expect("room");
        let key = queue.insert(drops.value(2 * round + 1), ms(1)).expect("room");
        queue.cancel(&cancelled).expect("it waits");
        clock.advance(ms(2));
        let ended = queue.remove_if_due(&key);
        assert_eq!(ended.map(|value| value.map(|it| it.number)), Ok(Some(2 * round + 1)));
        while catch_unwind(AssertUnwindSafe(|| assert!(queue.try_recv().is_err()))).is_err() {
            panicked += 1;
        }
    }
    assert_eq!((panicked, queue.len()), (200, 0));
    drop(queue);
    assert!(drops.are_once(400));
}

/// What a value's drop may do, this too.
#[test]
fn a_drop_may_end_what_is_due() {
    within_the_limit(|| {
        let drops = Drops::default();
        let queue = DelayQueue::new();
        let key = queue.insert(drops.value(0), ms(0)).expect("room");
        let clone = queue.clone();
        let value = drops.value(1).then(move || drop(clone.remove_if_due(&key)));
        queue
            .cancel(&queue.insert(value, ms(0)).expect("room"))
            .expect("it waits");
        while drops.count(1) == 0 {
            drop(queue.recv_timeout(ms(1)));
        }
        assert!(drops.are_once(2));
    });
}

/// A deadline by another clock isn't rounded where the queue counts from a moment of that clock's.
#[test]
fn ticks_begin_where_they_are_told_to() {
    let clock = ManualClock::new();
    clock.advance(std::time::Duration::from_micros(700));
    let start = clock.now() - std::time::Duration::from_micros(300);
    let queue = DelayQueue::builder().clock(&clock).ticks_from(start).build();
    let key = queue.insert_at("lease", start + ms(5)).expect("room");
    assert_eq!(queue.deadline(&key), Ok(start + ms(5)));
    clock.advance(ms(5) - std::time::Duration::from_micros(301));
    assert_eq!(queue.remove_if_due(&key), Ok(None));
    clock.advance(std::time::Duration::from_micros(1));
    assert_eq!(queue.remove_if_due(&key), Ok(Some("lease")));
    // Nothing comes out early where the moment is yet to come.
    let queue = DelayQueue::builder()
        .clock(&clock)
        .ticks_from(clock.now() + ms(50))
        .build();
    let key = queue.insert_at("lease", clock.now() + ms(20)).expect("room");
    assert_eq!(queue.remove_if_due(&key), Ok(None));
    clock.advance(ms(20));
    assert_eq!(queue.remove_if_due(&key), Ok(Some("lease")));
}
