//! A key names its entry for as long as that lives, and nothing else.

use crate::kit::{ms, Drops, Value, FAR};
use hontkhale::{DelayQueue, Handle, InsertErrorKind, Key, KeyError, ManualClock, Timeout};
use std::cell::Cell;
use std::cmp::Ordering;
use std::collections::{BTreeSet, HashMap};
use std::mem::size_of;
use std::thread;
use std::time::Duration;

fn is_sent<T: Send>() {}
fn is_shared<T: Send + Sync + Clone>() {}

#[test]
fn its_types_are_sent_and_shared() {
    is_shared::<DelayQueue<Cell<u8>>>();
    is_shared::<Handle>();
    is_shared::<Key>();
    is_sent::<Timeout<Cell<u8>>>();
    assert_eq!(size_of::<Key>(), 16);
}

#[test]
fn keys_of_different_entries_differ_and_those_of_one_are_equal() {
    let queue = DelayQueue::new();
    let keys: Vec<Key> = (0..1_000)
        .map(|number| queue.insert(number, FAR).expect("room"))
        .collect();
    assert_eq!(keys.iter().collect::<BTreeSet<_>>().len(), 1_000);
    let names: HashMap<Key, usize> = keys.iter().copied().zip(0..).collect();
    for (number, key) in keys.iter().enumerate() {
        let renamed = queue.reset(key, FAR / 2).expect("it waits");
        assert_eq!((renamed, names[&renamed]), (*key, number));
        assert_eq!(renamed.cmp(key), Ordering::Equal);
    }
}

/// Also where the reset moves the entry, which it does here from the second on.
#[test]
fn a_key_serves_for_its_entrys_whole_life() {
    for last_stamp in [1, 2, 3, 1_000] {
        let queue = DelayQueue::builder().last_stamp(last_stamp).build();
        let key = queue.insert("session", FAR).expect("room");
        let handle = queue.handle();
        for turn in 1..50 {
            let later = FAR + ms(1_000 * turn);
            assert_eq!(queue.reset(&key, FAR), Ok(key));
            let deadline = queue.extend(&key, later).expect("it waits");
            assert_eq!(handle.deadline(&key), Ok(deadline));
            let handle = handle.clone();
            let extends = thread::spawn(move || handle.extend(&key, later + ms(500)).is_ok());
            assert!(extends.join().unwrap());
        }
        queue.reset(&key, ms(0)).expect("it waits");
        let expired = queue.recv().expect("it is due");
        assert_eq!((expired.key, expired.value), (key, "session"));
    }
}

#[test]
fn what_has_ended_is_refused_by_each_call() {
    let clock = ManualClock::new();
    let queue = DelayQueue::builder().clock(&clock).build();
    let [out, removed, cancelled] = [1, 2, 3].map(|number| queue.insert(number, ms(number)).expect("room"));
    assert!(queue.cancel(&cancelled).is_ok());
    assert_eq!(queue.remove(&removed), Ok(2));
    clock.advance(ms(1));
    assert_eq!(queue.recv().map(|expired| expired.value), Some(1));
    // Other entries get their slots.
    let others: Vec<_> = (0..200)
        .map(|number| queue.insert(number, FAR).expect("room"))
        .collect();
    for key in [out, removed, cancelled] {
        assert_eq!(queue.extend(&key, FAR), Err(KeyError::Ended));
        assert_eq!(queue.reset(&key, FAR), Err(KeyError::Ended));
        assert_eq!(queue.cancel(&key), Err(KeyError::Ended));
        assert_eq!(queue.deadline(&key), Err(KeyError::Ended));
        assert_eq!(queue.remove(&key), Err(KeyError::Ended));
        assert_eq!(queue.handle().extend(&key, FAR), Err(KeyError::Ended));
    }
    assert_eq!(queue.len(), others.len());
}

#[test]
fn an_extend_never_lowers_and_a_reset_does() {
    let clock = ManualClock::new();
    let queue = DelayQueue::builder().clock(&clock).build();
    let key = queue.insert((), ms(100)).expect("room");
    assert_eq!(queue.extend(&key, ms(50)), Ok(clock.now() + ms(100)));
    assert_eq!(queue.extend_at(&key, clock.now() + ms(200)), Ok(clock.now() + ms(200)));
    queue.reset(&key, ms(70)).expect("it waits");
    assert_eq!(queue.deadline(&key), Ok(clock.now() + ms(70)));
    queue.reset_at(&key, clock.now() + ms(60)).expect("it waits");
    assert_eq!(queue.next_deadline(), Some(clock.now() + ms(60)));
    assert_eq!(queue.cancel(&key), Ok(clock.now() + ms(60)));
}

#[test]
fn a_deadline_that_is_too_far_is_refused_and_changes_nothing() {
    let queue = DelayQueue::new();
    let key = queue.insert((), FAR).expect("room");
    let deadline = queue.deadline(&key);
    let too_far = Duration::from_secs(140 * 366 * 24 * 3_600);
    assert_eq!(queue.extend(&key, too_far), Err(KeyError::TooFar));
    assert_eq!(queue.reset(&key, too_far), Err(KeyError::TooFar));
    assert_eq!(queue.handle().extend(&key, too_far), Err(KeyError::TooFar));
    assert_eq!(queue.deadline(&key), deadline);
}

/// Also in a thread that reached for none of the queue's entries before.
#[test]
fn of_several_refusals_the_first_that_is_told_is_returned() {
    let (queue, other) = (DelayQueue::new(), DelayQueue::<u64>::new());
    let key = queue.insert((), FAR).expect("room");
    queue.remove(&key).expect("it waits");
    let refusals = || {
        let of_queue = [
            queue.extend(&key, Duration::MAX).err(),
            queue.reset(&key, Duration::MAX).err(),
        ];
        let of_other = [
            other.extend(&key, Duration::MAX).err(),
            other.reset(&key, Duration::MAX).err(),
        ];
        assert_eq!(of_queue, [Some(KeyError::TooFar); 2]);
        assert_eq!(of_other, [Some(KeyError::WrongQueue); 2]);
        assert_eq!(queue.handle().extend(&key, Duration::MAX), Err(KeyError::TooFar));
        assert_eq!(queue.extend(&key, FAR), Err(KeyError::Ended));
    };
    thread::scope(|scope| drop(scope.spawn(refusals)));
    refusals();
    let key = queue.insert((), FAR).expect("room");
    queue.extend(&key, FAR).expect("it waits");
    refusals();
    // By a lock, as it was reset: once as it waits, and once as it has ended.
    queue.reset(&key, ms(1)).expect("it waits");
    for _ in 0..2 {
        assert_eq!(queue.extend(&key, Duration::MAX), Err(KeyError::TooFar));
        let _ = queue.remove(&key);
    }
    let bounded = DelayQueue::builder().max_entries(0).build();
    let kind = |after| bounded.insert((), after).map_err(|refused| refused.kind());
    assert_eq!(
        [kind(Duration::MAX), kind(FAR)],
        [Err(InsertErrorKind::TooFar), Err(InsertErrorKind::Full)]
    );
    bounded.close();
    assert_eq!(
        [kind(Duration::MAX), kind(FAR)],
        [Err(InsertErrorKind::TooFar), Err(InsertErrorKind::Closed)]
    );
}

#[test]
fn a_guard_takes_its_entry_out_where_it_is_dropped() {
    let (drops, queue) = (Drops::default(), DelayQueue::new());
    drop(queue.guard(drops.value(1), FAR).expect("room"));
    assert!(queue.is_empty() && drops.count(1) == 1);
    let guard = queue.guard(drops.value(2), ms(0)).expect("room");
    assert!(guard.extend(FAR).is_ok());
    assert!(queue.try_recv().is_err());
    assert_eq!(guard.cancel().map(|value| value.number), Some(2));
    let key = queue.guard(drops.value(3), FAR).expect("room").forget();
    assert_eq!(queue.remove(&key).map(|value| value.number), Ok(3));
    let guard = queue.guard(drops.value(4), ms(0)).expect("room");
    assert_eq!(queue.recv().map(|expired| expired.value.number), Some(4));
    assert_eq!(guard.extend(FAR), Err(KeyError::Ended));
    assert!(guard.cancel().is_none());
}

/// A guard's deadline is moved as a key's is, until its value came out.
#[test]
fn a_guard_moves_its_deadline_until_its_value_came_out() {
    let clock = ManualClock::new();
    let queue = DelayQueue::builder().clock(&clock).last_stamp(3).build();
    let at = |millis| clock.now() + ms(millis);
    let mut guard = queue.guard_at("value".to_string(), at(50)).expect("room");
    assert_eq!(guard.deadline(), Ok(at(50)));
    assert_eq!(guard.extend_at(at(90)), Ok(at(90)));
    assert_eq!(guard.extend_at(at(20)), Ok(at(90)));
    // The last ones move it to another slot.
    for millis in [10, 70, 30, 40] {
        assert_eq!((guard.reset_at(at(millis)), guard.deadline()), (Ok(()), Ok(at(millis))));
        assert_eq!(
            (guard.reset(ms(millis + 1)), guard.deadline()),
            (Ok(()), Ok(at(millis + 1)))
        );
    }
    let late = clock.now();
    clock.advance(ms(41));
    assert_eq!(queue.recv().map(|out| out.value).as_deref(), Some("value"));
    assert_eq!(
        (guard.deadline(), guard.extend(ms(1))),
        (Err(KeyError::Ended), Err(KeyError::Ended))
    );
    assert_eq!(
        (guard.reset(ms(1)), guard.reset_at(late)),
        (Err(KeyError::Ended), Err(KeyError::Ended))
    );
    assert_eq!((guard.extend_at(late), guard.cancel()), (Err(KeyError::Ended), None));
}

#[test]
fn a_handle_takes_a_value_of_the_queues_type_once() {
    let (drops, queue, other) = (Drops::default(), DelayQueue::new(), DelayQueue::new());
    let key = queue.insert(drops.value(0), FAR).expect("room");
    let (handle, others) = (queue.handle(), other.handle());
    other.insert(0_u64, FAR).expect("room");
    assert_eq!(handle.take::<String>(&key), Err(KeyError::WrongQueue));
    assert_eq!(others.take::<u64>(&key), Err(KeyError::WrongQueue));
    assert_eq!((drops.count(0), queue.len(), other.len()), (0, 1, 1));
    assert_eq!(handle.take(&key).map(|value: Value| value.number), Ok(0));
    assert_eq!(handle.take::<Value>(&key).map(drop), Err(KeyError::Ended));
    assert!(drops.are_once(1));
    drop(queue);
    assert_eq!(handle.take::<Value>(&key).map(drop), Err(KeyError::Closed));
}

/// The shard's number is among what a key shows.
#[test]
fn threads_that_are_not_spread_insert_into_one_shard() {
    let queue = DelayQueue::builder().shards(1).build();
    let insert = |_| format!("{:?}", queue.insert(0, FAR).expect("room"));
    let shard_of = |key: &String| key.split(", index").next().map(str::to_owned);
    let keys: Vec<String> = thread::scope(|scope| {
        let threads: Vec<_> = (0..4)
            .map(|_| scope.spawn(|| (0..10).map(insert).collect::<Vec<_>>()))
            .collect();
        threads.into_iter().flat_map(|thread| thread.join().unwrap()).collect()
    });
    assert_eq!(keys.len(), 40);
    assert!(keys.iter().all(|key| shard_of(key) == shard_of(&keys[0])), "{keys:?}");
    // There is room beyond it.
    assert!((0..1_000).all(|number| queue.insert(number, FAR).is_ok()));
}
