//! What the docs tell of odd input, line by line.

use crate::kit::{ms, within_the_limit, FAR};
use hontkhale::{DelayQueue, InsertErrorKind, Key, KeyError, ManualClock, RecvTimeoutError, TryRecvError};
use std::time::{Duration, Instant};

fn queue() -> (ManualClock, DelayQueue<u64>, Key) {
    let clock = ManualClock::new();
    let queue = DelayQueue::builder().clock(&clock).build();
    clock.advance(ms(10));
    let key = queue.insert(7, ms(5)).expect("room");
    (clock, queue, key)
}

type Puts = fn(&DelayQueue<u64>, &Key, Instant) -> bool;

#[test]
fn a_time_of_zero_and_a_moment_that_is_over_are_due_at_once() {
    let puts: [Puts; 7] = [
        |queue, _, _| queue.insert(1, Duration::ZERO).is_ok(),
        |queue, _, over| queue.insert_at(1, over).is_ok(),
        |queue, _, _| queue.insert_with(|_| 1, Duration::ZERO).is_ok(),
        |queue, _, _| queue.guard(1, Duration::ZERO).map(|guard| guard.forget()).is_ok(),
        |queue, _, over| queue.guard_at(1, over).map(|guard| guard.forget()).is_ok(),
        |queue, key, _| queue.reset(key, Duration::ZERO).is_ok(),
        |queue, key, over| queue.reset_at(key, over).is_ok(),
    ];
    for puts in puts {
        let (clock, queue, key) = queue();
        assert!(puts(&queue, &key, clock.now() - ms(8)));
        let out = queue.try_recv().expect("it is due");
        assert!(out.deadline <= clock.now() && queue.try_recv().is_err());
    }
}

#[test]
fn an_extend_by_nothing_lowers_no_deadline() {
    let (clock, queue, key) = queue();
    let deadline = clock.now() + ms(5);
    let handle = queue.handle();
    for over in [clock.now() - ms(8), clock.now()] {
        assert_eq!(
            (queue.extend_at(&key, over), handle.extend_at(&key, over)),
            (Ok(deadline), Ok(deadline))
        );
    }
    let by_zero = (queue.extend(&key, Duration::ZERO), handle.extend(&key, Duration::ZERO));
    assert_eq!(by_zero, (Ok(deadline), Ok(deadline)));
    clock.advance(ms(20));
    assert_eq!(queue.extend(&key, Duration::ZERO), Ok(clock.now()));
    assert_eq!(queue.try_recv().map(|out| out.value), Ok(7));
}

/// The moment that is told is one from which on the entry comes out.
#[test]
fn an_extend_tells_the_deadline_as_it_is_rounded() {
    let (clock, queue, key) = queue();
    let (start, handle) = (clock.now(), queue.handle());
    let guard = queue.guard(1, ms(1)).expect("room");
    let within = |millis| start + ms(millis) + Duration::from_nanos(1);
    assert_eq!(queue.extend_at(&key, within(20)), Ok(start + ms(21)));
    assert_eq!(handle.extend_at(&key, within(21)), Ok(start + ms(22)));
    assert_eq!(guard.extend_at(within(22)), Ok(start + ms(23)));
    assert_eq!(
        (queue.deadline(&key), guard.deadline()),
        (Ok(start + ms(22)), Ok(start + ms(23)))
    );
}

/// Its clock goes no further than 584 years, and the queue's ticks than 139.
#[test]
fn a_clock_that_is_at_its_end_stays_there() {
    let (clock, queue, key) = queue();
    clock.advance(Duration::MAX);
    let end = clock.now();
    clock.advance(FAR);
    assert_eq!((clock.now(), queue.remove_if_due(&key)), (end, Ok(Some(7))));
    let late = queue.insert(8, Duration::ZERO).expect("room");
    assert_eq!(queue.try_recv().map(|out| (out.key, out.value)), Ok((late, 8)));
}

#[test]
fn what_is_too_far_is_refused() {
    let (_clock, queue, key) = queue();
    let handle = queue.handle();
    let mut guard = queue.guard(1, FAR).expect("room");
    let far = Instant::now() + Duration::from_secs(140 * 366 * 24 * 3_600);
    let kinds = [
        queue.insert(1, Duration::MAX).map_err(|refused| refused.kind()),
        queue.insert_at(1, far).map_err(|refused| refused.kind()),
        queue.insert_with(|_| 1, Duration::MAX),
        queue
            .guard(1, Duration::MAX)
            .map(|it| it.key())
            .map_err(|refused| refused.kind()),
        queue
            .guard_at(1, far)
            .map(|it| it.key())
            .map_err(|refused| refused.kind()),
    ];
    assert_eq!(kinds, [Err(InsertErrorKind::TooFar); 5]);
    let extends = [
        queue.extend(&key, Duration::MAX),
        queue.extend_at(&key, far),
        handle.extend(&key, Duration::MAX),
        handle.extend_at(&key, far),
        guard.extend(Duration::MAX),
        guard.extend_at(far),
    ];
    assert_eq!(extends, [Err(KeyError::TooFar); 6]);
    assert_eq!(
        [queue.reset(&key, Duration::MAX), queue.reset_at(&key, far)],
        [Err(KeyError::TooFar); 2]
    );
    assert_eq!(
        [guard.reset(Duration::MAX), guard.reset_at(far)],
        [Err(KeyError::TooFar); 2]
    );
    assert_eq!(queue.len(), 2);
}

#[test]
fn a_wait_of_no_time_does_not_wait_and_one_without_end_does() {
    within_the_limit(|| {
        let (clock, queue, _) = queue();
        let timeout = Err(RecvTimeoutError::Timeout);
        assert_eq!(queue.recv_timeout(Duration::ZERO).map(|out| out.value), timeout);
        for over in [clock.now(), clock.now() - ms(8)] {
            assert_eq!(queue.recv_deadline(over).map(|out| out.value), timeout);
        }
        assert!(!queue.wait_empty(Duration::ZERO));
        let (mut row, empty) = (Vec::new(), Err(TryRecvError::Empty));
        assert_eq!(
            (queue.recv_many(&mut row, 0), queue.try_recv_many(&mut row, 0)),
            (0, Ok(0))
        );
        assert_eq!(queue.try_recv_many(&mut row, 8), empty);
        clock.advance(ms(5));
        assert_eq!(queue.recv_timeout(Duration::MAX).map(|out| out.value), Ok(7));
        assert!(queue.wait_empty(Duration::MAX));
    });
}

#[test]
fn a_closed_queue_refuses_inserts_alone() {
    for closes in [DelayQueue::close, DelayQueue::close_when_empty] {
        let (clock, queue, key) = queue();
        let mut guard = queue.guard(8, ms(5)).expect("room");
        closes(&queue);
        let kinds = [
            queue.insert(1, FAR).map_err(|refused| refused.kind()),
            queue.insert_at(1, clock.now()).map_err(|refused| refused.kind()),
            queue.insert_with(|_| 1, FAR),
            queue.guard(1, FAR).map(|it| it.key()).map_err(|refused| refused.kind()),
            queue
                .guard_at(1, clock.now())
                .map(|it| it.key())
                .map_err(|refused| refused.kind()),
        ];
        assert_eq!(kinds, [Err(InsertErrorKind::Closed); 5]);
        assert_eq!(queue.insert(1, FAR).unwrap_err().into_inner(), 1);
        let later = clock.now() + ms(9);
        assert_eq!(
            (queue.extend(&key, ms(9)), queue.deadline(&key)),
            (Ok(later), Ok(later))
        );
        assert_eq!(
            (queue.reset(&key, ms(4)), queue.get(&key, |value| *value)),
            (Ok(key), Ok(7))
        );
        assert_eq!(
            (guard.reset(ms(3)), guard.deadline()),
            (Ok(()), Ok(clock.now() + ms(3)))
        );
        assert_eq!((queue.len(), queue.stats().waiting, queue.is_closed()), (2, 2, true));
        clock.advance(ms(3));
        assert_eq!(queue.recv().map(|out| out.value), Some(8));
        assert_eq!(queue.remove(&key), Ok(7));
        assert!(queue.recv().is_none());
        queue.close();
        assert_eq!(queue.try_recv().map(|out| out.value), Err(TryRecvError::Closed));
        assert_eq!((queue.drain().count(), queue.clear()), (0, 0));
    }
}

/// Also where it is to wait no longer.
#[test]
fn a_receive_of_a_closed_queue_says_that_it_is_closed() {
    let (clock, queue, _) = queue();
    queue.close();
    let closed = Err(RecvTimeoutError::Closed);
    for timeout in [Duration::ZERO, ms(1), Duration::MAX] {
        assert_eq!(queue.recv_timeout(timeout).map(|out| out.value), closed);
    }
    for when in [clock.now() - ms(8), clock.now(), clock.now() + ms(1)] {
        assert_eq!(queue.recv_deadline(when).map(|out| out.value), closed);
    }
}

#[test]
fn a_close_ends_what_waits_until_it_is_empty() {
    let (_clock, queue, _) = queue();
    queue.close_when_empty();
    assert_eq!(queue.try_recv().map(|out| out.value), Err(TryRecvError::Empty));
    queue.close();
    queue.close_when_empty();
    assert_eq!(queue.try_recv().map(|out| out.value), Err(TryRecvError::Closed));
    assert_eq!(queue.drain().map(|(.., value)| value).collect::<Vec<_>>(), [7]);
}

#[test]
fn a_bound_of_no_entries_and_odd_numbers_of_shards_are_taken() {
    let none = DelayQueue::builder().max_entries(0).build();
    assert_eq!(none.insert(1, FAR).unwrap_err().kind(), InsertErrorKind::Full);
    let shown = |shards| format!("{:?}", DelayQueue::<u64>::builder().shards(shards));
    assert_eq!([0, 65].map(shown), [1, 64].map(shown));
    for shards in [0, 1, 2, 3, 64, 65, usize::MAX] {
        let queue = DelayQueue::builder().shards(shards).build();
        assert!((0..2_000).all(|number| queue.insert(number, FAR).is_ok()));
        assert_eq!(queue.clear(), 2_000);
    }
}
