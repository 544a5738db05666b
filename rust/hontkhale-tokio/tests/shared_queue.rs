//! The shared queue by tokio's clock and moments, and a future of one key.

mod common;

use common::{ends, ms, paused, running, threaded, Dice, Wakes};
use hontkhale_tokio::shared_queue::{Handle, InsertErrorKind, KeyError, KeySleep};
use hontkhale_tokio::SharedQueue;
use std::future::Future;
use std::pin::Pin;
use std::sync::atomic::{AtomicBool, Ordering::SeqCst};
use std::sync::Arc;
use std::task::{Context, Poll, Waker};
use std::time::Duration;
use tokio::time::{advance, sleep, timeout, Instant};

#[test]
fn the_types_go_between_threads() {
    fn sent<T: Send + Sync + Unpin>() {}
    sent::<SharedQueue<String>>();
    sent::<KeySleep<String>>();
    sent::<Handle>();
}

#[test]
fn each_moment_is_of_the_paused_clock() {
    ends(|| {
        paused().block_on(async {
            advance(ms(1_000_000)).await;
            let (queue, start) = (SharedQueue::new(), Instant::now());
            let handle = queue.handle();
            let key = queue.insert_at("a".to_string(), start + ms(10)).unwrap();
            advance(ms(5)).await;
            assert_eq!(queue.deadline(&key), Ok(start + ms(10)));
            assert_eq!(queue.extend(&key, ms(10)), Ok(start + ms(15)));
            assert_eq!(queue.extend_at(&key, start + ms(20)), Ok(start + ms(20)));
            assert_eq!(handle.extend(&key, ms(20)), Ok(start + ms(25)));
            assert_eq!(handle.extend_at(&key, start + ms(30)), Ok(start + ms(30)));
            let key = queue.reset(&key, ms(2)).unwrap();
            assert_eq!(handle.deadline(&key), Ok(start + ms(7)));
            let key = queue.reset_at(&key, start + ms(40)).unwrap();
            // The reset is a later one, so that it may tell the deadline from before.
            assert!(queue.next_deadline().is_some_and(|next| next <= start + ms(40)));
            assert_eq!(queue.remove_if_due(&key), Ok(None));
            assert_eq!(queue.stream().next().await.map(|out| (out.key, out.deadline)), Some((key, start + ms(40))));
            assert_eq!(Instant::now(), start + ms(40));
            let keys = [1, 2, 3].map(|at| queue.insert(at.to_string(), ms(at)).unwrap());
            assert_eq!(queue.cancel(&keys[0]), Ok(start + ms(41)));
            assert_eq!(handle.cancel(&keys[1]), Ok(start + ms(42)));
            assert!(!queue.is_closed() && !queue.is_empty());
            queue.close();
            let left: Vec<_> = queue.drain().map(|out| (out.key, out.deadline, out.value)).collect();
            assert_eq!(left, [(keys[2], start + ms(43), "3".to_string())]);
            assert!(queue.is_empty() && queue.is_closed() && queue.stream().next().await.is_none());
        });
    });
}

#[test]
fn values_are_made_by_their_keys_read_and_changed_and_streams_end_with_the_last() {
    ends(|| {
        paused().block_on(async {
            let (queue, start) = (SharedQueue::new(), Instant::now());
            let key = queue.insert_with(|key| (key, "a".to_string()), ms(10)).unwrap();
            assert_eq!(queue.get(&key, |value| value.0), Ok(key));
            assert_eq!(queue.get_mut(&key, |value| value.1.push('!')), Ok(()));
            let mut expired = queue.stream();
            queue.close_when_empty();
            assert_eq!(queue.insert_with(|key| (key, String::new()), ms(1)), Err(InsertErrorKind::Closed));
            assert_eq!(expired.next().await.map(|out| out.value), Some((key, "a!".to_string())));
            assert!(expired.next().await.is_none());
            assert_eq!(Instant::now(), start + ms(10));
            assert_eq!(queue.get(&key, |value| value.0), Err(KeyError::Ended));
        });
    });
}

#[test]
fn a_sleep_ends_at_the_deadline_that_is_in_force_then() {
    ends(|| {
        paused().block_on(async {
            let (queue, start) = (SharedQueue::new(), Instant::now());
            let key = queue.insert("a", ms(10)).unwrap();
            let extends = queue.handle();
            tokio::spawn(async move {
                for _ in 0..9 {
                    sleep(ms(9)).await;
                    extends.extend(&key, ms(10)).unwrap();
                }
            });
            let both = tokio::join!(queue.sleep(&key), queue.sleep(&key));
            assert_eq!(both, (Ok(start + ms(91)), Ok(start + ms(91))));
            assert_eq!(Instant::now(), start + ms(91));
            assert_eq!(queue.sleep(&key).await, Ok(start + ms(91)), "it is due at once");
            let key = queue.reset(&key, ms(9)).unwrap();
            assert_eq!(queue.sleep(&key).await, Ok(start + ms(100)));
            assert_eq!(queue.remove_if_due(&key), Ok(Some("a")));
        });
    });
}

/// It is seen at the deadline that was known, or as the task polls.
#[test]
fn a_sleep_says_that_its_entry_is_gone_or_another_queues() {
    ends(|| {
        paused().block_on(async {
            let (queue, other, start) = (SharedQueue::new(), SharedQueue::new(), Instant::now());
            let keys = [10, 20, 30].map(|at| queue.insert(at, ms(at)).unwrap());
            assert_eq!(other.insert(1, ms(1)).map(|_| ()).ok(), Some(()));
            assert_eq!(other.sleep(&keys[0]).await, Err(KeyError::WrongQueue));
            let (first, second) = (queue.sleep(&keys[0]), queue.sleep(&keys[1]));
            let taken = queue.clone();
            tokio::spawn(async move {
                sleep(ms(5)).await;
                taken.cancel(&keys[0]).unwrap();
                taken.remove(&keys[1]).unwrap();
            });
            assert_eq!(first.await, Err(KeyError::Ended));
            assert_eq!(Instant::now(), start + ms(10));
            assert_eq!(second.await, Err(KeyError::Ended));
            assert_eq!(Instant::now(), start + ms(10), "it wasn't polled before");
            assert_eq!(queue.stream().next().await.map(|out| out.value), Some(30));
            assert_eq!(queue.sleep(&keys[2]).await, Err(KeyError::Ended));
            let key = queue.insert(40, Duration::ZERO).unwrap();
            assert_eq!(queue.sleep(&key).await, Ok(Instant::now()));
        });
    });
}

#[test]
fn a_sleep_that_is_dropped_changes_nothing() {
    ends(|| {
        paused().block_on(async {
            let (queue, start, wakes) = (SharedQueue::new(), Instant::now(), Arc::<Wakes>::default());
            let key = queue.insert("a", ms(1_000)).unwrap();
            let waker = Waker::from(wakes.clone());
            for _ in 0..99 {
                assert!(timeout(ms(10), queue.sleep(&key)).await.is_err());
                let mut sleep = queue.sleep(&key);
                assert!(Pin::new(&mut sleep).poll(&mut Context::from_waker(&waker)).is_pending());
            }
            drop(waker);
            assert_eq!(Arc::strong_count(&wakes), 1);
            assert_eq!(queue.sleep(&key).await, Ok(start + ms(1_000)));
            assert_eq!((wakes.take(), queue.len()), (0, 1));
            assert_eq!(queue.remove(&key), Ok("a"));
        });
    });
}

/// The task that waited last is woken, whichever it is.
#[test]
fn a_sleep_goes_on_in_another_task_and_another_runtime() {
    ends(|| {
        let first = paused();
        let (queue, key) = first.block_on(async {
            let queue = SharedQueue::new();
            let key = queue.insert("a", ms(5)).unwrap();
            (queue, key)
        });
        let mut sleep = queue.sleep(&key);
        let wakes = Arc::<Wakes>::default();
        first.block_on(async {
            let waker = Waker::from(wakes.clone());
            assert!(Pin::new(&mut sleep).poll(&mut Context::from_waker(&waker)).is_pending());
        });
        running().block_on(async move { assert!(sleep.await.is_ok()) });
    });
}

#[test]
fn no_sleep_of_many_ends_before_what_was_accepted() {
    ends(|| {
        threaded(4).block_on(async {
            let (queue, is_over) = (SharedQueue::new(), Arc::new(AtomicBool::new(false)));
            let keys: Vec<_> = (0..64).map(|at| queue.insert(at.to_string(), ms(20)).unwrap()).collect();
            let extends: Vec<_> = (1..=2)
                .map(|seed| {
                    let (handle, keys, is_over) = (queue.handle(), keys.clone(), is_over.clone());
                    std::thread::spawn(move || {
                        let mut dice = Dice(seed);
                        while !is_over.load(SeqCst) {
                            let _ = handle.extend(&keys[dice.below(64) as usize], ms(5 + dice.below(20)));
                            std::thread::yield_now();
                        }
                    })
                })
                .collect();
            sleep(ms(200)).await;
            is_over.store(true, SeqCst);
            for thread in extends {
                thread.join().unwrap();
            }
            let sleeps: Vec<_> = keys.iter().map(|key| tokio::spawn(queue.sleep(key))).collect();
            for (sleep, key) in sleeps.into_iter().zip(&keys) {
                let deadline = sleep.await.unwrap().expect("nobody takes it");
                assert!(Ok(deadline) == queue.deadline(key) && deadline <= Instant::now());
                assert!(matches!(queue.remove_if_due(key), Ok(Some(_))));
            }
        });
    });
}

/// As in a `select!` whose other branch was ready, and reset the entry.
#[test]
fn a_sleep_that_is_polled_after_a_sooner_reset_ends_by_it() {
    ends(|| {
        paused().block_on(async {
            let (queue, start) = (SharedQueue::new(), Instant::now());
            let key = queue.insert("a".to_string(), ms(1_000)).unwrap();
            let mut expires = queue.sleep(&key);
            assert!(timeout(ms(5), &mut expires).await.is_err());
            let key = queue.reset(&key, ms(10)).unwrap();
            assert_eq!(expires.await, Ok(start + ms(15)));
            assert_eq!(Instant::now(), start + ms(15));
            assert_eq!(queue.remove_if_due(&key), Ok(Some("a".to_string())));
        });
    });
}

#[test]
fn a_sleep_isnt_early_and_may_be_polled_again_once_it_has_ended() {
    ends(|| {
        paused().block_on(async {
            let queue = SharedQueue::new();
            let key = queue.insert("a", ms(5)).unwrap();
            let mut sleep = queue.sleep(&key);
            let mut poll =
                || Pin::new(&mut sleep).poll(&mut Context::from_waker(&Waker::from(Arc::<Wakes>::default())));
            assert!(poll().is_pending());
            advance(ms(4)).await;
            assert!(poll().is_pending());
            advance(ms(2)).await;
            assert!(matches!(poll(), Poll::Ready(Ok(_))));
            queue.extend(&key, ms(5)).unwrap();
            assert!(poll().is_pending());
            queue.cancel(&key).unwrap();
            assert_eq!(poll(), Poll::Ready(Err(KeyError::Ended)));
        });
    });
}
