//! An entry that is moved while other threads reach for it, as worn slots and shards are left: no slot has a second stamp here.

use crate::kit::{ms, within_the_limit, FAR};
use hontkhale::{DelayQueue, Key, KeyError, ManualClock};
use std::sync::atomic::{AtomicBool, Ordering::SeqCst};
use std::sync::{Barrier, Mutex};
use std::thread;
use std::time::Duration;

/// Extends an entry as long as another thread makes its calls, and tells whether an extend was lost that was accepted.
fn loses_an_extend(queue: &DelayQueue<u64>, key: &Key, begun: &AtomicBool, is_over: &AtomicBool) -> bool {
    let first = queue.deadline(key).expect("it waits");
    for turn in 1.. {
        let deadline = queue.extend_at(key, first + ms(turn)).expect("it waits");
        begun.store(true, SeqCst);
        if queue.deadline(key).expect("it waits") < deadline {
            return true;
        }
        if is_over.load(SeqCst) {
            break;
        }
    }
    false
}

/// An extend takes no lock, so that it may come at any step of the move of its entry out of a worn shard.
#[test]
fn no_extend_is_lost_while_its_entry_is_moved() {
    within_the_limit(|| {
        for _ in 0..400 {
            let clock = ManualClock::new();
            let queue = DelayQueue::builder().shards(2).last_stamp(1).clock(&clock).build();
            let key = queue.insert(0, FAR).expect("room");
            let (begun, is_over) = (AtomicBool::new(false), AtomicBool::new(false));
            let is_lost = thread::scope(|scope| {
                let extends = scope.spawn(|| loses_an_extend(&queue, &key, &begun, &is_over));
                while !begun.load(SeqCst) {
                    thread::yield_now();
                }
                for number in 0..200 {
                    let other = queue.insert(number, FAR).expect("room");
                    queue.remove(&other).expect("it waits");
                    clock.advance(ms(10));
                }
                is_over.store(true, SeqCst);
                extends.join().unwrap()
            });
            assert!(!is_lost);
        }
    });
}

/// Puts entries in and moves each. Of three two are due then.
fn moves_entries(queue: &DelayQueue<u64>, keys: &Mutex<Vec<Key>>) {
    for number in 0..2_000 {
        let key = queue.insert(number, FAR).expect("room");
        keys.lock().unwrap().push(key);
        queue.reset(&key, FAR * 2).expect("it waits");
        queue
            .reset(&key, if number % 3 == 0 { FAR } else { ms(0) })
            .expect("it waits");
    }
}

#[test]
fn what_was_moved_comes_out_with_its_key_while_others_are_moved() {
    within_the_limit(|| {
        for _ in 0..20 {
            let queue = DelayQueue::builder().shards(4).last_stamp(1).build();
            let (inserted, received) = (Mutex::new(Vec::new()), Mutex::new(Vec::new()));
            thread::scope(|scope| {
                let receives = || {
                    queue
                        .iter()
                        .for_each(|expired| received.lock().unwrap().push(expired.key))
                };
                let receivers = [(); 2].map(|()| scope.spawn(receives));
                let movers = [(); 2].map(|()| scope.spawn(|| moves_entries(&queue, &inserted)));
                movers.into_iter().for_each(|mover| mover.join().unwrap());
                queue.close();
                receivers.into_iter().for_each(|receiver| receiver.join().unwrap());
            });
            let (mut inserted, mut ended) = (inserted.into_inner().unwrap(), received.into_inner().unwrap());
            ended.extend(queue.drain().map(|(key, ..)| key));
            inserted.sort();
            ended.sort();
            assert!(inserted == ended, "a key came out that was never given");
        }
    });
}

/// It would miss an entry that is moved from where it comes to where it has been.
#[test]
fn a_clear_takes_out_what_is_moved_meanwhile() {
    within_the_limit(|| {
        for round in 0..100 {
            // Slots that are left may have stamps here.
            let queue = DelayQueue::builder().shards(4).last_stamp(2 + round % 4).build();
            let insert = |number| queue.insert(number, FAR).expect("room");
            let keys: Vec<_> = (0..500_u64).map(insert).collect();
            let (begins, is_over) = (Barrier::new(3), AtomicBool::new(false));
            let moves = || {
                begins.wait();
                while !is_over.load(SeqCst) {
                    for key in &keys {
                        let _ = queue.reset(key, FAR);
                    }
                }
            };
            thread::scope(|scope| {
                let movers = [(); 2].map(|()| scope.spawn(moves));
                begins.wait();
                queue.clear();
                is_over.store(true, SeqCst);
                movers.into_iter().for_each(|mover| mover.join().unwrap());
            });
            assert_eq!(queue.len(), 0);
        }
    });
}

/// An entry keeps the id of its first slot, and has another slot's stamps: whoever is in the first slot by then isn't reached.
#[test]
fn a_key_of_a_moved_entry_reaches_no_other_one() {
    for resets in 0..6 {
        let clock = ManualClock::new();
        let queue = DelayQueue::builder().clock(&clock).shards(1).build();
        let keys: Vec<Key> = (0..65).map(|number| queue.insert(number, FAR).expect("room")).collect();
        keys[1..].iter().for_each(|key| assert!(queue.remove(key).is_ok()));
        (0..10).for_each(|_| assert!(queue.try_recv().is_err()));
        let mut moved = keys[0];
        for sooner in 1..=resets {
            moved = queue
                .reset(&moved, FAR - Duration::from_secs(sooner))
                .expect("it waits");
        }
        clock.advance(FAR);
        let expired = queue.recv().expect("it is due");
        assert_eq!((expired.key, expired.value), (keys[0], 0));
        for _ in 0..8 {
            let others: Vec<Key> = (0..300)
                .map(|number| queue.insert(number, FAR).expect("room"))
                .collect();
            for key in [&keys[0], &moved, &expired.key] {
                assert_eq!(queue.extend(key, 2 * FAR), Err(KeyError::Ended));
                assert_eq!(queue.cancel(key), Err(KeyError::Ended));
            }
            others.iter().for_each(|key| assert!(queue.remove(key).is_ok()));
        }
    }
}

/// Its slot has no stamp left at the second reset, and it goes to the one that the drain has just freed.
#[test]
fn a_drain_gives_what_is_moved_to_where_it_has_been() {
    let queue = DelayQueue::builder().shards(1).last_stamp(2).build();
    let keys = [1, 2].map(|number| queue.insert(number.to_string(), FAR).expect("room"));
    let mut drain = queue.drain();
    assert_eq!(drain.next().map(|(key, ..)| key), Some(keys[0]));
    for part in [2, 3] {
        assert_eq!(queue.reset(&keys[1], FAR / part), Ok(keys[1]));
    }
    assert_eq!(drain.next().map(|(key, ..)| key), Some(keys[1]));
    assert!(drain.next().is_none() && queue.is_empty());
}

/// The first core has 64 slots. It goes with its last entry, and those behind it move up.
#[test]
fn a_drain_goes_on_where_a_core_has_gone() {
    let queue = DelayQueue::builder().shards(1).build();
    let keys: Vec<_> = (0..66)
        .map(|number| queue.insert(number.to_string(), FAR).expect("room"))
        .collect();
    let mut drain = queue.drain();
    assert!(drain.next().is_some_and(|(key, ..)| keys[64..].contains(&key)));
    keys[..64].iter().for_each(|key| assert!(queue.remove(key).is_ok()));
    (0..10).for_each(|_| assert!(queue.try_recv().is_err()));
    assert!(drain.next().is_some_and(|(key, ..)| keys[64..].contains(&key)));
    assert!(drain.next().is_none() && queue.is_empty());
}
