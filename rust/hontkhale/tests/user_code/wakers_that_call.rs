//! A waker calls the queue where it is cloned, woken or dropped, in a poll of a task that parks: none of it under the
//! shard's lock.

use super::kit::{
    insert, insert_cancelled, is_whole, panics, park, queue, waker_that, within_the_limit, Drops, Queue, Task,
};
use hontkhale::parts::streams::{ExpiredStream, TickSource};
use std::num::NonZeroU32;
use std::sync::atomic::{AtomicU64, Ordering::SeqCst};
use std::sync::Arc;
use std::task::{Context, Waker};

/// One poll of shard 0 at tick 10 by a task that parks.
type Polls<Q> = fn(&Q, &mut Context<'_>);

/// Always tells tick 10.
struct Ten;

impl TickSource for Ten {
    fn now(&mut self) -> u64 {
        10
    }
}

fn of_shard<S: TickSource>(queue: &Queue, source: S) -> ExpiredStream<'_, super::kit::Value, S> {
    ExpiredStream::new(queue, 0, source).ok().expect("a shard")
}

const POLLS: &[Polls<Queue>] = &[
    |queue, cx| drop(of_shard(queue, Ten).poll_next(cx)),
    |queue, cx| drop(of_shard(queue, Ten).paced(NonZeroU32::MIN).poll_next(cx)),
];

/// Polls twice by each of two wakers that call: where an entry is due, where there is more to do, where nothing is due,
/// and in the place of another.
fn polls(calls: &AtomicU64, wakers: &[Waker; 2], poll: impl Fn(&mut Context<'_>)) {
    for waker in wakers {
        for _ in 0..8 {
            poll(&mut Context::from_waker(waker));
        }
    }
    assert!(calls.load(SeqCst) > 2, "wakers were cloned and dropped");
}

#[test]
fn a_waker_calls_in_each_stream() {
    for poll in POLLS {
        within_the_limit(move || {
            let (queue, drops, calls) = (queue(), Drops::default(), Arc::<AtomicU64>::default());
            let wakers = [(); 2].map(|()| {
                let (by_waker, calls) = (queue.clone(), calls.clone());
                waker_that(move || {
                    calls.fetch_add(1, SeqCst);
                    assert!(by_waker.tally(0).is_ok());
                })
            });
            insert(&queue, drops.value(), 5);
            insert_cancelled(&queue, drops.value(), 6);
            insert_cancelled(&queue, drops.value(), 7);
            insert(&queue, drops.value(), 500);
            polls(&calls, &wakers, |cx| poll(&queue, cx));
            drop(wakers);
            is_whole(&queue, &drops);
        });
    }
}

/// Panics where it is asked for the tick.
struct Broken;

impl TickSource for Broken {
    fn now(&mut self) -> u64 {
        panic!("a source")
    }
}

// The source panics while another task is parked, whose last waker removes its own entry where it is dropped.
#[test]
fn a_dropped_waker_calls_where_a_source_panics() {
    let polls: [Polls<Queue>; 2] = [
        |queue, cx| drop(of_shard(queue, Broken).poll_next(cx)),
        |queue, cx| drop(of_shard(queue, Broken).paced(NonZeroU32::MIN).poll_next(cx)),
    ];
    for poll in polls {
        within_the_limit(move || {
            let (queue, drops) = (queue(), Drops::default());
            let key = insert(&queue, drops.value(), 10);
            let by_drop = queue.clone();
            park(
                &queue,
                &Task::dropped_by(move || assert!(by_drop.remove(&key.entry()).is_ok())),
            );
            let woken = Task::that_counts().waker();
            assert_eq!(panics(|| poll(&queue, &mut Context::from_waker(&woken))), "a source");
            assert_eq!((drops.count(), queue.parked(0)), (1, Ok(None)));
            is_whole(&queue, &drops);
        });
    }
}

// A waker's clone panics while another task is parked, whose last waker removes its own entry where it is dropped.
fn panics_at_its_clone() -> Waker {
    let clones = AtomicU64::new(0);
    waker_that(move || assert!(clones.fetch_add(1, SeqCst) > 0, "a clone"))
}

#[test]
fn a_dropped_waker_calls_where_a_clone_panics() {
    for poll in POLLS {
        within_the_limit(move || {
            let (queue, drops) = (queue(), Drops::default());
            let key = insert(&queue, drops.value(), 20);
            let by_drop = queue.clone();
            park(
                &queue,
                &Task::dropped_by(move || assert!(by_drop.remove(&key.entry()).is_ok())),
            );
            let waker = panics_at_its_clone();
            assert_eq!(panics(|| poll(&queue, &mut Context::from_waker(&waker))), "a clone");
            assert!(
                queue.parked(0).is_ok_and(|parked| parked.is_some()),
                "who was parked stays"
            );
            park(&queue, &Task::that_counts().waker());
            assert_eq!(drops.count(), 1);
            is_whole(&queue, &drops);
        });
    }
}

// A task that has more to do is woken behind the lock, and polls again at once.
#[test]
fn a_wake_polls_in_a_poll_in_pieces() {
    within_the_limit(|| {
        let (queue, drops) = (queue(), Drops::default());
        for when in 1..5 {
            insert_cancelled(&queue, drops.value(), when);
        }
        let by_wake = queue.clone();
        let task = Task::that(move || drop(by_wake.poll_some(0, 10, 1)));
        let waker = task.waker();
        let mut stream = of_shard(&queue, Ten).paced(NonZeroU32::MIN);
        assert!(stream.poll_next(&mut Context::from_waker(&waker)).is_pending());
        assert_eq!(task.wakes(), 1);
        is_whole(&queue, &drops);
    });
}

// Who was parked before waits no more, and isn't woken.
#[test]
fn a_stream_that_is_polled_on_a_shard_in_hand_wakes_nobody() {
    within_the_limit(|| {
        let (queue, drops) = (queue(), Drops::default());
        insert(&queue, drops.value(), 20);
        let (first, second) = (Task::that_counts(), Task::that_counts());
        park(&queue, &first.waker());
        let waker = second.waker();
        let mut stream = of_shard(&queue, Ten);
        let mut shard = queue.enter(0).expect("a shard");
        let polled = stream.poll_locked(&mut shard, &mut Context::from_waker(&waker));
        assert!(polled.is_pending());
        drop(shard);
        assert_eq!(queue.ring(0, 20), Ok(true));
        assert_eq!((first.wakes(), second.wakes()), (0, 1));
    });
}

#[test]
fn who_is_taken_out_is_not_woken() {
    within_the_limit(|| {
        let (queue, drops, task) = (queue(), Drops::default(), Task::that_counts());
        insert(&queue, drops.value(), 20);
        park(&queue, &task.waker());
        assert!(queue.enter(0).expect("a shard").unpark());
        assert_eq!(task.wakes(), 0);
    });
}
