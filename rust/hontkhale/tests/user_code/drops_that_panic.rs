//! A value's drop panics inside a call: the panic comes out of the call, and the shard is whole.

use super::kit::{insert, insert_cancelled, is_whole, panics, park, queue, within_the_limit, Drops, Queue, Task};
use hontkhale::parts::streams::{ExpiredStream, TickSource};
use std::num::NonZeroU32;
use std::panic::{catch_unwind, AssertUnwindSafe};
use std::sync::Arc;
use std::task::Context;

// Shard 0 has an entry that panics where it is dropped between two that don't, all cancelled; a call reaps them.
fn reaps_whole<T>(call: impl FnOnce(&Queue) -> T + Send + 'static) {
    within_the_limit(move || {
        let (queue, drops) = (queue(), Drops::default());
        insert_cancelled(&queue, drops.value(), 10);
        insert_cancelled(&queue, drops.value_that_panics(), 10);
        insert_cancelled(&queue, drops.value(), 10);
        assert_eq!(panics(|| call(&queue)), "a value's drop");
        is_whole(&queue, &drops);
        assert_eq!(drops.count(), 4, "each value is dropped once");
        assert_eq!(queue.tally(0).expect("a shard").cancelled, 3);
    });
}

#[test]
fn a_drop_panics_in_sweep() {
    reaps_whole(|queue| queue.sweep(0));
}

#[test]
fn a_drop_panics_in_sweep_some() {
    reaps_whole(|queue| queue.sweep_some(0, 0, 8));
}

#[test]
fn a_drop_panics_in_a_poll_that_reaps() {
    reaps_whole(|queue| queue.poll(0, 10));
}

#[test]
fn a_drop_panics_in_a_poll_in_pieces_that_reaps() {
    reaps_whole(|queue| {
        for _ in 0..9 {
            let _ = queue.poll_some(0, 10, 1);
        }
    });
}

#[test]
fn a_drop_panics_in_reap() {
    within_the_limit(|| {
        let (queue, drops) = (queue(), Drops::default());
        let key = insert_cancelled(&queue, drops.value_that_panics(), 10);
        assert_eq!(panics(|| queue.reap(&key.entry())), "a value's drop");
        assert_eq!(queue.tally(0).expect("a shard").linked, 0);
        is_whole(&queue, &drops);
        assert_eq!(drops.count(), 2);
    });
}

#[test]
fn a_drop_panics_in_clear() {
    within_the_limit(|| {
        let (queue, drops, task) = (queue(), Drops::default(), Task::that_counts());
        insert(&queue, drops.value(), 10);
        insert(&queue, drops.value_that_panics(), 10);
        insert(&queue, drops.value(), 10);
        park(&queue, &task.waker());
        assert_eq!(panics(|| queue.clear(0)), "a value's drop");
        is_whole(&queue, &drops);
        assert_eq!((task.wakes(), drops.count()), (1, 4));
        assert_eq!(queue.tally(0).expect("a shard").removed, 4);
    });
}

// Always tells tick 10.
struct Ten;

impl TickSource for Ten {
    fn now(&mut self) -> u64 {
        10
    }
}

// Each poll has more to do, and the drop of a value that the last one reaped panics: the task was woken by that one too.
fn is_woken_in_each_poll(task: &Arc<Task>, mut is_pending: impl FnMut(&mut Context<'_>) -> bool) {
    let waker = task.waker();
    for polls in 1..9 {
        match catch_unwind(AssertUnwindSafe(|| is_pending(&mut Context::from_waker(&waker)))) {
            Ok(pending) => assert!(pending, "there is more to do"),
            Err(_) => return assert_eq!(task.wakes(), polls),
        }
    }
    panic!("no drop panicked");
}

#[test]
fn a_drop_that_panics_behind_a_piece_of_a_stream_leaves_its_task_woken() {
    within_the_limit(|| {
        let (queue, drops, task) = (queue(), Drops::default(), Task::that_counts());
        insert_cancelled(&queue, drops.value_that_panics(), 1);
        for when in 2..9 {
            insert_cancelled(&queue, drops.value(), when);
        }
        let Ok(stream) = ExpiredStream::new(&queue, 0, Ten) else {
            panic!("a stream")
        };
        let mut stream = stream.paced(NonZeroU32::MIN);
        is_woken_in_each_poll(&task, |cx| stream.poll_next(cx).is_pending());
        is_whole(&queue, &drops);
    });
}
