//! A wake polls the queue at once, or the drop of a waker calls it. Or a wake panics: that comes out of the call, whose work is done,
//! and the shard is whole.

use super::kit::{insert, is_whole, panics, park, queue, within_the_limit, Drops, Queue, Task};
use hontkhale::parts::owner::{EntryId, Tally};
use std::num::NonZeroU32;
use std::sync::Arc;

// Shard 0 has an entry that is due at 10, and a poller that polls where it is woken; a call wakes it.
fn polls<T>(call: impl FnOnce(&Queue, &Drops) -> T + Send + 'static) {
    within_the_limit(move || {
        let (queue, drops) = (queue(), Drops::default());
        let by_wake = queue.clone();
        let task = Task::that(move || drop(by_wake.poll(0, 0).expect("a turn")));
        insert(&queue, drops.value(), 10);
        park(&queue, &task.waker());
        call(&queue, &drops);
        assert_eq!(task.wakes(), 1);
        is_whole(&queue, &drops);
    });
}

#[test]
fn a_wake_polls_in_ring() {
    polls(|queue, _| queue.ring(0, 10));
}

#[test]
fn a_wake_polls_in_insert() {
    polls(|queue, drops| insert(queue, drops.value(), 5));
}

#[test]
fn a_wake_polls_in_reset() {
    polls(|queue, _| queue.reset(&EntryId::new(0, 0, 1), 3));
}

#[test]
fn a_wake_polls_in_remove() {
    polls(|queue, _| queue.remove(&EntryId::new(0, 0, 1)));
}

#[test]
fn a_wake_polls_in_clear() {
    polls(|queue, _| queue.clear(0));
}

#[test]
fn a_wake_polls_in_poll() {
    polls(|queue, _| queue.poll(0, 10));
}

#[test]
fn a_wake_polls_in_each_poll_by_name() {
    let steps = NonZeroU32::new(100).expect("some");
    polls(|queue, _| queue.poll_some(0, 10, 100));
    polls(move |queue, _| queue.poll_through(0, 10, steps));
    polls(|queue, _| queue.poll_many(0, 10, &mut Vec::with_capacity(4)));
}

// A poller is parked in the place of another, whose last waker calls the queue where it is dropped.
#[test]
fn a_dropped_waker_calls_where_another_parks() {
    within_the_limit(|| {
        let (queue, drops, task) = (queue(), Drops::default(), Task::that_counts());
        insert(&queue, drops.value(), 10);
        let by_drop = queue.clone();
        park(&queue, &Task::dropped_by(move || assert!(by_drop.tally(0).is_ok())));
        park(&queue, &task.waker());
        assert_eq!(Arc::strong_count(&queue), 1, "the waker is dropped");
        assert_eq!(queue.ring(0, 10), Ok(true));
        assert_eq!(task.wakes(), 1);
        is_whole(&queue, &drops);
    });
}

// Shard 0 has an entry that is due at 10, and a poller whose wake panics inside a call. What the shard tells then.
fn is_done<T>(call: impl FnOnce(&Queue, &Drops) -> T + Send + 'static, tells: impl FnOnce(Tally) + Send + 'static) {
    within_the_limit(move || {
        let (queue, drops, task) = (queue(), Drops::default(), Task::that_panics());
        insert(&queue, drops.value(), 10);
        park(&queue, &task.waker());
        assert_eq!(panics(|| call(&queue, &drops)), "a wake");
        assert_eq!((task.wakes(), queue.parked(0)), (1, Ok(None)));
        tells(queue.tally(0).expect("a shard"));
        is_whole(&queue, &drops);
        assert_eq!(task.wakes(), 1, "it is woken once");
    });
}

#[test]
fn a_wake_panics_in_ring() {
    is_done(|queue, _| queue.ring(0, 10), |tally| assert_eq!(tally.linked, 1));
}

// The entry is in, and its key is lost to its caller.
#[test]
fn a_wake_panics_in_insert() {
    is_done(
        |queue, drops| insert(queue, drops.value(), 5),
        |tally| assert_eq!(tally.linked, 2),
    );
}

#[test]
fn a_wake_panics_in_remove() {
    let first = hontkhale::parts::owner::EntryId::new(0, 0, 1);
    is_done(
        move |queue, _| queue.remove(&first),
        |tally| assert_eq!((tally.linked, tally.removed), (0, 1)),
    );
}

#[test]
fn a_wake_panics_in_reset() {
    let first = hontkhale::parts::owner::EntryId::new(0, 0, 1);
    is_done(
        move |queue, _| queue.reset(&first, 3),
        |tally| assert_eq!(tally.linked, 1),
    );
}

#[test]
fn a_wake_panics_in_clear() {
    is_done(
        |queue, _| queue.clear(0),
        |tally| assert_eq!((tally.linked, tally.removed), (0, 1)),
    );
}

#[test]
fn a_wake_panics_in_poll() {
    is_done(
        |queue, _| queue.poll(0, 10),
        |tally| assert_eq!((tally.linked, tally.expired), (0, 1)),
    );
}
