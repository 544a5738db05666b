//! A task that sleeps is woken where its queue has come to its end.

mod common;

use common::{ends, ms, paused, Wakes};
use hontkhale_tokio::DelayQueue;
use std::sync::Arc;
use std::task::{Context, Poll, Waker};
use tokio::time::advance;

#[test]
fn a_remove_that_leaves_only_cancelled_entries_wakes_the_task() {
    ends(|| {
        paused().block_on(async {
            for cancelled in 0..3 {
                let wakes = Arc::<Wakes>::default();
                let waker = Waker::from(wakes.clone());
                let mut cx = Context::from_waker(&waker);
                let mut queue = DelayQueue::new();
                let handle = queue.handle();
                let keys: Vec<_> = (0..=cancelled).map(|at| queue.insert(at, ms(3_408_000 + at))).collect();
                assert!(queue.poll_expired(&mut cx).is_pending());
                keys[1..].iter().for_each(|key| assert!(handle.cancel(key).is_ok()));
                assert_eq!(wakes.take(), 0, "a cancel wakes nobody");
                queue.remove(&keys[0]);
                assert_eq!(wakes.take(), 1, "the end is told with {cancelled} cancelled");
                assert!(matches!(queue.poll_expired(&mut cx), Poll::Ready(None)));
            }
        });
    });
}

#[test]
fn a_reset_of_the_last_that_a_handle_cancelled_wakes_nobody_for_long() {
    ends(|| {
        paused().block_on(async {
            let wakes = Arc::<Wakes>::default();
            let waker = Waker::from(wakes.clone());
            let mut cx = Context::from_waker(&waker);
            let mut queue = DelayQueue::new();
            let handle = queue.handle();
            let (one, other) = (queue.insert("one", ms(50_000)), queue.insert("other", ms(60_000)));
            assert!(queue.poll_expired(&mut cx).is_pending());
            handle.cancel(&one).unwrap();
            assert!(queue.poll_expired(&mut cx).is_pending());
            assert_eq!(queue.len(), 1, "the poll has freed the place of a cancelled entry");
            queue.remove(&other);
            assert_eq!(wakes.take(), 1);
            assert!(matches!(queue.poll_expired(&mut cx), Poll::Ready(None)));
        });
    });
}

#[test]
fn a_clear_wakes_the_task() {
    ends(|| {
        paused().block_on(async {
            let wakes = Arc::<Wakes>::default();
            let waker = Waker::from(wakes.clone());
            let mut cx = Context::from_waker(&waker);
            let mut queue = DelayQueue::new();
            queue.insert("a", ms(50_000));
            assert!(queue.poll_expired(&mut cx).is_pending());
            queue.clear();
            assert_eq!(wakes.take(), 1, "the end is told");
            assert!(matches!(queue.poll_expired(&mut cx), Poll::Ready(None)));
            queue.clear();
            assert_eq!(wakes.take(), 0, "there was no entry");
        });
    });
}

/// It polls once more, for another reason, and then waits for what comes first by now.
#[test]
fn a_task_that_polled_after_a_reset_or_a_remove_is_not_woken_for_what_was_first() {
    ends(|| {
        paused().block_on(async {
            for removes in [false, true] {
                let wakes = Arc::<Wakes>::default();
                let waker = Waker::from(wakes.clone());
                let mut cx = Context::from_waker(&waker);
                let mut queue = DelayQueue::new();
                let [first, _] = [10_000, 30_000].map(|after| queue.insert("a value".to_string(), ms(after)));
                assert!(queue.poll_expired(&mut cx).is_pending());
                if removes {
                    queue.remove(&first);
                } else {
                    queue.reset(&first, ms(40_000));
                }
                assert!(queue.poll_expired(&mut cx).is_pending());
                wakes.take();
                advance(ms(20_000)).await;
                assert_eq!(wakes.take(), 0);
                advance(ms(10_000)).await;
                assert_eq!(wakes.take(), 1);
                assert!(queue.poll_expired(&mut cx).is_ready());
            }
        });
    });
}

#[test]
fn a_task_that_gives_way_is_woken_once() {
    ends(|| {
        paused().block_on(async {
            let wakes = Arc::<Wakes>::default();
            let waker = Waker::from(wakes.clone());
            let mut cx = Context::from_waker(&waker);
            let mut queue = DelayQueue::new();
            queue.set_budget(1);
            let handle = queue.handle();
            let keys = [10_000, 20_000, 30_000].map(|after| queue.insert("a value".to_string(), ms(after)));
            while queue.poll_expired(&mut cx).is_pending() && wakes.take() > 0 {}
            keys[1..].iter().for_each(|key| assert!(handle.cancel(key).is_ok()));
            assert!(queue.poll_expired(&mut cx).is_pending());
            assert_eq!(wakes.take(), 1, "it has one more to free");
            queue.insert("sooner".to_string(), ms(1_000));
            assert_eq!(wakes.take(), 0, "it was woken already");
        });
    });
}

#[test]
fn an_insert_or_a_reset_wakes_the_task_only_where_it_is_sooner_than_what_the_task_waits_for() {
    ends(|| {
        paused().block_on(async {
            let wakes = Arc::<Wakes>::default();
            let waker = Waker::from(wakes.clone());
            let mut cx = Context::from_waker(&waker);
            let mut queue = DelayQueue::new();
            let first = queue.insert("first".to_string(), ms(10_000));
            assert!(queue.poll_expired(&mut cx).is_pending());
            let other = queue.insert("at the same time".to_string(), ms(10_000));
            queue.insert("later".to_string(), ms(20_000));
            queue.reset(&other, ms(10_000));
            assert_eq!(wakes.take(), 0);
            queue.insert("sooner".to_string(), ms(9_999));
            assert_eq!(wakes.take(), 1);
            assert!(queue.poll_expired(&mut cx).is_pending());
            queue.reset(&first, ms(9_998));
            assert_eq!(wakes.take(), 1);
            assert!(queue.poll_expired(&mut cx).is_pending());
            advance(ms(9_998)).await;
            assert_eq!(wakes.take(), 1);
            assert!(queue.poll_expired(&mut cx).is_ready());
            queue.clear();
            assert_eq!(wakes.take(), 0, "who was given an entry polls again by itself");
        });
    });
}
