//! What has put servers out of order: a test for each.

use crate::kit::{ms, within_the_limit, FAR};
use hontkhale::{DelayQueue, KeyError, ManualClock};
use std::error::Error;
use std::thread;
use std::time::{Duration, Instant};

#[test]
fn an_insert_that_comes_sooner_wakes_the_receiver() {
    within_the_limit(|| {
        let queue = DelayQueue::new();
        queue.insert("far", FAR).expect("room");
        let receiver = queue.clone();
        let waits = thread::spawn(move || receiver.recv().map(|expired| expired.value));
        thread::sleep(ms(50));
        let before = Instant::now();
        queue.insert("urgent", ms(10)).expect("room");
        assert_eq!(waits.join().unwrap(), Some("urgent"));
        assert!(before.elapsed() >= ms(10));
    });
}

#[test]
fn a_reset_that_comes_sooner_wakes_the_receiver() {
    within_the_limit(|| {
        let queue = DelayQueue::new();
        let key = queue.insert("far", FAR).expect("room");
        let receiver = queue.clone();
        let waits = thread::spawn(move || receiver.recv().map(|expired| expired.value));
        thread::sleep(ms(50));
        queue.reset(&key, ms(1)).expect("it waits");
        assert_eq!(waits.join().unwrap(), Some("far"));
    });
}

/// Each slot lasts for two inserts here, and no slot is left for a third of them.
#[test]
fn a_queue_is_never_full_for_good_of_inserts_and_resets() {
    let clock = ManualClock::new();
    let queue = DelayQueue::builder().last_stamp(2).clock(&clock).build();
    for number in 0..50_000 {
        let key = queue.insert(number, ms(10)).expect("room");
        queue.reset(&key, ms(5)).expect("it waits");
        queue.reset(&key, ms(3)).expect("it waits");
        clock.advance(ms(1));
        while queue.try_recv().is_ok() {}
    }
    let memory = queue.stats().memory;
    assert!(memory < 1_000_000, "{memory}");
}

/// One session in each shard is extended for ever, which would hold a worn shard closed.
#[test]
fn an_entry_that_is_extended_for_ever_stands_in_nobodys_way() {
    let clock = ManualClock::new();
    let queue = DelayQueue::builder()
        .shards(2)
        .max_entries(32)
        .last_stamp(1)
        .clock(&clock)
        .build();
    let sessions: Vec<_> = (0..4).map(|number| queue.insert(number, FAR).expect("room")).collect();
    for number in 0..20_000 {
        for key in &sessions {
            queue.extend(key, FAR).expect("it waits");
        }
        queue.insert(number, ms(1)).expect("room");
        clock.advance(ms(1));
        assert!(queue.try_recv().is_ok());
    }
    let memory = queue.stats().memory;
    assert!(memory < 1_000_000, "{memory}");
    assert_eq!(queue.len(), 4);
    for (number, key) in (0..).zip(&sessions) {
        assert_eq!(queue.remove(key), Ok(number));
    }
}

#[test]
fn any_number_of_handles_are_made_in_a_queues_life() {
    let queue = DelayQueue::new();
    let key = queue.insert((), FAR).expect("room");
    for _ in 0..1_000_000 {
        drop(queue.handle());
    }
    for turn in 0..2_000 {
        let handle = queue.handle();
        let extends = thread::spawn(move || handle.extend(&key, FAR + ms(turn)).is_ok());
        assert!(extends.join().unwrap());
    }
}

/// More threads than callers of a shard, all there at once.
#[test]
fn more_threads_than_callers_extend_and_cancel() {
    let queue = DelayQueue::new();
    let keys: Vec<_> = (0..1_100)
        .map(|number| queue.insert(number, FAR).expect("room"))
        .collect();
    let barrier = std::sync::Barrier::new(keys.len());
    thread::scope(|scope| {
        for key in &keys {
            let (queue, barrier) = (&queue, &barrier);
            let call = move || {
                queue.extend(key, FAR * 2).expect("it waits");
                barrier.wait();
                queue.cancel(key).expect("it waits");
            };
            thread::Builder::new()
                .stack_size(64 << 10)
                .spawn_scoped(scope, call)
                .expect("a thread");
        }
    });
    assert!(queue.is_empty());
}

#[test]
fn another_queues_key_is_refused_by_each_call() {
    let (mine, other) = (DelayQueue::new(), DelayQueue::new());
    let key = mine.insert("mine", FAR).expect("room");
    let stranger = other.insert("a stranger's", FAR).expect("room");
    let (wrong, now) = (Some(KeyError::WrongQueue), Instant::now());
    assert_eq!(mine.extend(&stranger, FAR).err(), wrong);
    assert_eq!(mine.extend_at(&stranger, now).err(), wrong);
    assert_eq!(mine.reset(&stranger, FAR).err(), wrong);
    assert_eq!(mine.reset_at(&stranger, now).err(), wrong);
    assert_eq!(mine.cancel(&stranger).err(), wrong);
    assert_eq!(mine.deadline(&stranger).err(), wrong);
    assert_eq!(mine.remove(&stranger).err(), wrong);
    let handle = mine.handle();
    assert_eq!(handle.extend(&stranger, FAR).err(), wrong);
    assert_eq!(handle.extend_at(&stranger, now).err(), wrong);
    assert_eq!(handle.cancel(&stranger).err(), wrong);
    assert_eq!(handle.deadline(&stranger).err(), wrong);
    assert_eq!(
        (mine.remove(&key), other.remove(&stranger)),
        (Ok("mine"), Ok("a stranger's"))
    );
}

#[test]
fn a_handle_says_closed_after_its_queues_end() {
    let queue = DelayQueue::new();
    let [key, ended, others] =
        [&queue, &queue, &DelayQueue::new()].map(|queue| queue.insert("a value".to_string(), FAR).expect("room"));
    let handle = queue.handle();
    handle.extend(&key, FAR).expect("it waits");
    handle.cancel(&ended).expect("it waits");
    drop(queue.clone());
    handle.extend(&key, FAR * 2).expect("it waits");
    drop(queue);
    let closed = Some(KeyError::Closed);
    // Of an entry that had ended before, and of another queue's, too.
    for key in [key, ended, others] {
        assert_eq!(handle.extend(&key, FAR).err(), closed);
        assert_eq!(handle.extend(&key, Duration::MAX).err(), closed);
        assert_eq!(handle.extend_at(&key, Instant::now()).err(), closed);
        assert_eq!(handle.cancel(&key).err(), closed);
        assert_eq!(handle.deadline(&key).err(), closed);
        assert_eq!(handle.take::<String>(&key).err(), closed);
    }
}

#[test]
fn a_refused_insert_is_an_error_that_a_question_mark_takes() {
    /// A value that can't be shown.
    struct Opaque;

    fn boxed(queue: &DelayQueue<Opaque>) -> Result<(), Box<dyn Error + Send + Sync>> {
        let key = queue.insert(Opaque, FAR)?;
        queue.extend(&key, FAR)?;
        queue.insert(Opaque, Duration::MAX)?;
        Ok(())
    }

    let refused = boxed(&DelayQueue::new()).unwrap_err();
    assert_eq!(refused.to_string(), "the deadline is too far");
}
