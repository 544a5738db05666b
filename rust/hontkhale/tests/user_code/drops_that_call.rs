//! A value's drop calls the queue: by name, as a session does that removes its other timer, or by a handle.

use super::kit::{insert, insert_cancelled, is_whole, queue, within_the_limit, Drops, Queue};
use hontkhale::parts::shards::QueueError;
use std::sync::atomic::{AtomicBool, Ordering};
use std::sync::Arc;

// A value whose drop removes another entry of shard 0 is reaped or cleared by a call.
fn removes_another<T>(is_cancelled: bool, call: impl FnOnce(&Queue) -> T + Send + 'static) {
    within_the_limit(move || {
        let (queue, drops) = (queue(), Drops::default());
        let other = insert(&queue, drops.value(), 500);
        let (by_drop, removed) = (queue.clone(), Arc::new(AtomicBool::new(false)));
        let was_removed = removed.clone();
        let value = drops.value_that(move || {
            let answer = by_drop.remove(&other.entry());
            was_removed.store(answer.is_ok(), Ordering::SeqCst);
        });
        match is_cancelled {
            true => insert_cancelled(&queue, value, 10),
            false => insert(&queue, value, 10),
        };
        call(&queue);
        assert_eq!(drops.count(), 2, "both values are dropped");
        assert!(
            is_cancelled == removed.load(Ordering::SeqCst),
            "what is left is removed by the drop"
        );
        is_whole(&queue, &drops);
    });
}

#[test]
fn a_drop_removes_another_in_sweep() {
    removes_another(true, |queue| queue.sweep(0));
}

#[test]
fn a_drop_removes_another_in_sweep_some() {
    removes_another(true, |queue| queue.sweep_some(0, 0, 8));
}

#[test]
fn a_drop_removes_another_in_reap() {
    removes_another(true, |queue| {
        let cancelled = hontkhale::parts::owner::EntryId::new(0, 1, 1);
        assert_eq!(queue.reap(&cancelled), Ok(Ok(())));
    });
}

#[test]
fn a_drop_removes_another_in_poll() {
    removes_another(true, |queue| queue.poll(0, 10));
}

#[test]
fn a_drop_removes_another_in_poll_some() {
    removes_another(true, |queue| queue.poll_some(0, 10, 8));
}

// All entries are cleared before a value is dropped, or the drop removes what a clear hasn't come to.
#[test]
fn a_drop_calls_by_name_in_clear() {
    within_the_limit(|| {
        let (queue, drops) = (queue(), Drops::default());
        let by_drop = queue.clone();
        insert(&queue, drops.value_that(move || assert!(by_drop.tally(0).is_ok())), 10);
        insert(&queue, drops.value(), 500);
        assert_eq!(queue.clear(0), Ok(2));
        assert_eq!(drops.count(), 2);
        is_whole(&queue, &drops);
    });
}

// A value whose drop extends another entry by a handle.
fn extends_another<T>(is_cancelled: bool, call: impl FnOnce(&Queue) -> T + Send + 'static) {
    within_the_limit(move || {
        let (queue, drops) = (queue(), Drops::default());
        let other = insert(&queue, drops.value(), 500);
        let mut handle = queue.handle().expect("a handle");
        let value = drops.value_that(move || {
            let _ = handle.extend(&other, 600);
            handle.give_back();
        });
        match is_cancelled {
            true => insert_cancelled(&queue, value, 10),
            false => insert(&queue, value, 10),
        };
        call(&queue);
        is_whole(&queue, &drops);
        assert_eq!(drops.count(), 3);
        assert!(queue.audit().is_ok(), "the handle is given back");
    });
}

#[test]
fn a_drop_calls_its_handle_in_sweep() {
    extends_another(true, |queue| queue.sweep(0));
}

#[test]
fn a_drop_calls_its_handle_in_a_poll_that_reaps() {
    extends_another(true, |queue| queue.poll(0, 10));
}

#[test]
fn a_drop_calls_its_handle_in_clear() {
    extends_another(false, |queue| queue.clear(0));
}

#[test]
fn what_came_out_may_call_by_name_where_it_is_dropped() {
    within_the_limit(|| {
        let (queue, drops) = (queue(), Drops::default());
        let other = insert(&queue, drops.value(), 500);
        let by_drop = queue.clone();
        insert(
            &queue,
            drops.value_that(move || assert!(by_drop.remove(&other.entry()).is_ok())),
            10,
        );
        drop(queue.poll(0, 10).expect("a turn"));
        assert_eq!(drops.count(), 2);
        is_whole(&queue, &drops);
    });
}

#[test]
fn what_is_removed_may_call_by_name_where_it_is_dropped() {
    within_the_limit(|| {
        let (queue, drops) = (queue(), Drops::default());
        let by_drop = queue.clone();
        let key = insert(&queue, drops.value_that(move || assert!(by_drop.tally(0).is_ok())), 10);
        drop(queue.remove(&key.entry()).expect("an entry"));
        assert_eq!(drops.count(), 1);
        is_whole(&queue, &drops);
    });
}

#[test]
fn what_is_refused_may_call_by_name_where_it_is_dropped() {
    within_the_limit(|| {
        let (queue, drops) = (queue(), Drops::default());
        let by_drop = queue.clone();
        let value = drops.value_that(move || assert!(by_drop.tally(0).is_ok()));
        let refused = queue.insert_or_drop(0, value, u64::MAX);
        assert!(matches!(refused, Err(QueueError::Core(_))));
        assert_eq!(drops.count(), 1);
        is_whole(&queue, &drops);
    });
}
