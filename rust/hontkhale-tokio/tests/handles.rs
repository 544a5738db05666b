//! Handles: from any thread, without the owner, for entries that came after them, and through moves.

mod common;

use common::{ends, ms, paused, running};
use hontkhale::KeyError;
use hontkhale_tokio::{delay_queue::Key, DelayQueue, EntryError, Handle};
use std::future::poll_fn;
use std::sync::atomic::{AtomicBool, AtomicU64, Ordering::SeqCst};
use std::sync::{mpsc, Arc, Mutex};
use std::task::{Context, Poll, Wake, Waker};
use std::thread;
use std::time::Duration;
use tokio::time::{advance, sleep, Instant};

const YEAR: Duration = Duration::from_secs(366 * 86_400);

#[derive(Default)]
struct Flag(AtomicBool);

impl Wake for Flag {
    fn wake(self: Arc<Self>) {
        self.0.store(true, SeqCst);
    }
}

async fn next<T>(queue: &mut DelayQueue<T>) -> Option<T> {
    poll_fn(|cx| queue.poll_expired(cx)).await.map(|out| out.into_inner())
}

#[test]
fn the_types_go_between_threads() {
    fn shared<T: Send + Sync + Unpin>() {}
    shared::<DelayQueue<String>>();
    shared::<Handle>();
    shared::<Key>();
    fn sent<T: Send + Unpin>() {}
    sent::<DelayQueue<std::cell::Cell<u8>>>();
    fn pinned<T: Unpin>() {}
    pinned::<DelayQueue<std::marker::PhantomPinned>>();
}

#[test]
fn an_extended_entry_comes_out_later_and_wakes_nobody() {
    ends(|| {
        paused().block_on(async {
            let mut queue = DelayQueue::new();
            let handle = queue.handle();
            let start = Instant::now();
            let key = queue.insert("a", ms(100));
            queue.insert("b", ms(200));
            let flag = Arc::<Flag>::default();
            let waker = Waker::from(flag.clone());
            assert!(queue.poll_expired(&mut Context::from_waker(&waker)).is_pending());
            assert_eq!(handle.extend(&key, ms(300)), Ok(start + ms(300)));
            assert_eq!(handle.extend(&key, ms(50)), Ok(start + ms(300)), "an extend never lowers");
            assert!(!flag.0.load(SeqCst));
            assert_eq!(queue.deadline(&key), start + ms(300));
            assert_eq!(next(&mut queue).await, Some("b"));
            assert_eq!(start.elapsed(), ms(200));
            assert_eq!(next(&mut queue).await, Some("a"));
            assert_eq!(start.elapsed(), ms(300));
            assert_eq!(next(&mut queue).await, None);
            assert_eq!(handle.extend(&key, ms(1)), Err(EntryError::Ended));
        });
    });
}

#[test]
fn an_entry_that_is_due_is_put_off_until_it_comes_out() {
    ends(|| {
        paused().block_on(async {
            let mut queue = DelayQueue::new();
            let (handle, start) = (queue.handle(), Instant::now());
            let key = queue.insert("a", ms(10));
            advance(ms(20)).await;
            assert_eq!(handle.extend(&key, ms(10)), Ok(start + ms(30)));
            advance(ms(20)).await;
            queue.reset(&key, ms(10));
            assert_eq!((next(&mut queue).await, start.elapsed()), (Some("a"), ms(50)));
            assert_eq!(handle.extend(&key, ms(10)), Err(EntryError::Ended));
        });
    });
}

#[test]
fn a_cancelled_value_is_dropped_by_the_next_poll() {
    ends(|| {
        paused().block_on(async {
            let mut queue = DelayQueue::new();
            let handle = queue.handle();
            let value = Arc::new("a socket");
            let key = queue.insert(value.clone(), ms(100_000));
            let flag = Arc::<Flag>::default();
            let waker = Waker::from(flag.clone());
            assert!(queue.poll_expired(&mut Context::from_waker(&waker)).is_pending());
            assert!(handle.cancel(&key).is_ok());
            assert!(!flag.0.load(SeqCst));
            assert_eq!(handle.cancel(&key), Err(EntryError::Ended));
            assert!(queue.try_remove(&key).is_none());
            let _ = queue.poll_expired(&mut Context::from_waker(&waker));
            assert_eq!(Arc::strong_count(&value), 1);
            assert_eq!(next(&mut queue).await, None);
        });
    });
}

#[test]
fn handles_serve_while_another_thread_holds_the_queue() {
    ends(|| {
        running().block_on(async {
            let mut queue = DelayQueue::new();
            let keys: Vec<Key> = (0..200).map(|value| queue.insert(value, ms(60_000))).collect();
            let handle = queue.handle();
            let queue = Mutex::new(queue);
            let (held, start) = (queue.lock().unwrap(), Instant::now());
            thread::scope(|scope| {
                for _ in 0..4 {
                    scope.spawn(|| {
                        for key in &keys {
                            assert!(handle.extend(key, ms(90_000)).is_ok());
                        }
                    });
                }
            });
            assert!(keys.iter().all(|key| held.deadline(key) >= start + ms(90_000)));
        });
    });
}

#[test]
fn handles_serve_entries_of_later_wheels_and_moved_ones() {
    ends(|| {
        running().block_on(async {
            let mut queue = DelayQueue::new();
            let handle = queue.handle();
            let keys: Vec<Key> = (0..100_000).map(|value| queue.insert(value, ms(60_000))).collect();
            let far = Instant::now() + ms(600_000);
            for key in &keys {
                assert!(handle.extend_at(key, far).unwrap() >= far);
            }
            for (_, key) in keys.iter().enumerate().filter(|it| it.0 % 8 > 0) {
                queue.remove(key);
            }
            queue.compact();
            assert!(queue.capacity() <= queue.len() + queue.len() / 8);
            let farther = far + ms(1);
            let extended = keys.iter().filter(|key| handle.extend_at(key, farther).is_ok()).count();
            assert_eq!(extended, queue.len());
            assert!(keys.iter().filter_map(|key| queue.try_remove(key)).all(|out| out.deadline() >= farther));
            assert!(queue.is_empty());
        });
    });
}

/// Each reset to a sooner deadline gives its entry another stamp.
#[test]
fn a_handle_finds_what_was_reset_before_it_was_made() {
    ends(|| {
        paused().block_on(async {
            let mut queue = DelayQueue::new();
            let keys = [1, 2].map(|_| queue.insert("a value".to_string(), ms(60_000)));
            keys.iter().for_each(|key| queue.reset(key, ms(30_000)));
            let handle = queue.handle();
            let deadline = handle.extend(&keys[0], ms(90_000));
            assert_eq!(deadline, Ok(queue.deadline(&keys[0])));
            assert!(handle.cancel(&keys[1]).is_ok());
            assert_eq!(next(&mut queue).await.as_deref(), Some("a value"));
            assert!(deadline.is_ok_and(|deadline| deadline <= Instant::now()) && next(&mut queue).await.is_none());
        });
    });
}

/// The slot of one that has ended is the next one's.
#[test]
fn a_key_tells_no_deadline_of_the_entry_that_has_its_slot_by_now() {
    ends(|| {
        paused().block_on(async {
            let mut queue = DelayQueue::with_capacity(1);
            let first = queue.insert("first".to_string(), ms(10));
            assert_eq!(queue.remove(&first).into_inner(), "first");
            let second = queue.insert("second".to_string(), ms(20));
            assert_eq!((queue.try_deadline(&first), queue.capacity()), (None, 1));
            assert!(queue.try_deadline(&second).is_some());
        });
    });
}

#[test]
fn many_threads_at_once() {
    ends(|| {
        running().block_on(async {
            let mut queue = DelayQueue::new();
            let handle = queue.handle();
            let keys: Vec<Key> = (0..100).map(|value| queue.insert(value, ms(60_000))).collect();
            let (stay, until) = mpsc::channel::<()>();
            let (until, start) = (Mutex::new(until), Instant::now());
            thread::scope(|scope| {
                let (ready, readies) = mpsc::channel();
                for _ in 0..60 {
                    let (ready, until, keys, handle) = (ready.clone(), &until, &keys, handle.clone());
                    scope.spawn(move || {
                        keys.iter().for_each(|key| assert!(handle.extend(key, ms(90_000)).is_ok()));
                        ready.send(()).unwrap();
                        let _ = until.lock().unwrap().recv();
                        keys.iter().for_each(|key| assert!(handle.extend(key, ms(95_000)).is_ok()));
                    });
                }
                (0..60).for_each(|_| readies.recv().unwrap());
                assert!(queue
                    .poll_expired(&mut Context::from_waker(&Waker::from(Arc::<Flag>::default())))
                    .is_pending());
                drop(stay);
            });
            assert!(keys.iter().all(|key| queue.deadline(key) >= start + ms(95_000)));
        });
    });
}

#[test]
fn a_queue_that_is_gone_ends_its_entries() {
    ends(|| {
        running().block_on(async {
            let mut queue = DelayQueue::new();
            let (handle, unused) = (queue.handle(), queue.handle());
            let key = queue.insert("a", ms(60_000));
            assert!(handle.extend(&key, ms(61_000)).is_ok());
            drop(queue);
            for handle in [handle.clone(), handle, unused] {
                assert_eq!(handle.extend(&key, ms(70_000)), Err(EntryError::Ended));
                assert_eq!(handle.cancel(&key), Err(EntryError::Ended));
            }
        });
    });
}

#[test]
fn no_key_of_another_queue_is_taken() {
    ends(|| {
        running().block_on(async {
            let (mut one, mut other) = (DelayQueue::new(), DelayQueue::new());
            let (ones, others) = (one.handle(), other.handle());
            let key = one.insert("one", ms(60_000));
            let others_key = other.insert("other", ms(60_000));
            let deadline = ones.extend(&key, ms(61_000)).unwrap();
            others.extend(&others_key, ms(61_000)).unwrap();
            assert_eq!(others.extend(&key, ms(70_000)), Err(EntryError::Ended));
            assert_eq!(others.cancel(&key), Err(EntryError::Ended));
            assert!(other.try_remove(&key).is_none());
            assert_eq!(one.deadline(&key), deadline);
        });
    });
}

#[test]
fn too_far_is_refused() {
    ends(|| {
        running().block_on(async {
            let mut queue = DelayQueue::new();
            let handle = queue.handle();
            let key = queue.insert("a", ms(60_000));
            assert_eq!(handle.extend(&key, YEAR * 140), Err(EntryError::TooFar));
            assert_eq!(handle.extend(&key, Duration::MAX), Err(EntryError::TooFar));
            assert_eq!(queue.try_reset_at(&key, Instant::now() + YEAR * 140), Err(EntryError::TooFar));
            assert!(handle.extend(&key, YEAR * 130).is_ok());
            // It is told first, of an entry that has ended too.
            assert_eq!(queue.remove(&key).into_inner(), "a");
            assert_eq!(queue.try_reset_at(&key, Instant::now() + YEAR * 140), Err(EntryError::TooFar));
            assert_eq!(handle.extend(&key, Duration::MAX), Err(EntryError::TooFar));
            drop(queue);
            assert_eq!(handle.extend_at(&key, Instant::now() + YEAR * 140), Err(EntryError::TooFar));
            assert_eq!(handle.extend(&key, YEAR * 130), Err(EntryError::Ended));
        });
    });
}

#[test]
fn an_error_says_which_it_is() {
    let said = [EntryError::TooFar, EntryError::Ended].map(|error| error.to_string());
    assert!(said[0].contains("too far") && said[1].contains("ended"));
}

/// A queue that was made by a paused clock, which was advanced, begins later than the machine's clock shows.
#[test]
fn a_timeout_runs_from_now_where_the_queue_begins_later() {
    ends(|| {
        paused().block_on(async {
            advance(YEAR).await;
            let mut queue = DelayQueue::new();
            let (start, handle) = (Instant::now(), queue.handle());
            let key = queue.insert("a", ms(10));
            let outside = |timeout| {
                thread::spawn({
                    let handle = handle.clone();
                    move || handle.extend(&key, timeout).unwrap()
                })
            };
            assert_eq!(outside(ms(60_000)).join().unwrap(), start + ms(10), "that is over before it began");
            let later = outside(YEAR + ms(60_000)).join().unwrap();
            assert!((start + ms(60_000)..start + ms(120_000)).contains(&later), "{:?}", later - start);
        });
    });
}

/// Extends and cancels race with an owner who resets, compacts, removes, peeks and polls. No entry comes out before a deadline
/// that was accepted for it, no cancelled one comes out, and each value is dropped once.
#[test]
fn races_with_the_owner() {
    ends(|| {
        running().block_on(async {
            struct Counted<'a>(usize, &'a AtomicU64);
            impl Drop for Counted<'_> {
                fn drop(&mut self) {
                    self.1.fetch_add(1, SeqCst);
                }
            }
            const ENTRIES: usize = 600;
            const NEVER: u64 = u64::MAX;
            for round in 0..30 {
                let dropped = AtomicU64::new(0);
                let mut queue = DelayQueue::new();
                let handle = queue.handle();
                let start = Instant::now();
                let keys: Vec<Key> = (0..ENTRIES)
                    .map(|value| queue.insert(Counted(value, &dropped), ms(1 + value as u64 % 40)))
                    .collect();
                // The greatest deadline that a handle's call was told to be in force, in milliseconds; NEVER of a cancelled entry.
                let told: Vec<AtomicU64> = (0..ENTRIES).map(|_| AtomicU64::new(0)).collect();
                let is_over = AtomicBool::new(false);
                let mut outs = Vec::new();
                thread::scope(|scope| {
                    for thread in 0..2u64 {
                        let (handle, keys, told, is_over) = (handle.clone(), &keys, &told, &is_over);
                        scope.spawn(move || {
                            let mut dice = 0x9e37_79b9 + thread + 2 * round;
                            while !is_over.load(SeqCst) {
                                dice ^= dice << 13;
                                dice ^= dice >> 7;
                                dice ^= dice << 17;
                                let at = (dice >> 8) as usize % ENTRIES;
                                if dice % 64 == 0 {
                                    if handle.cancel(&keys[at]).is_ok() {
                                        told[at].store(NEVER, SeqCst);
                                    }
                                } else {
                                    let when = start + ms(20 + dice % 40);
                                    if let Ok(deadline) = handle.extend_at(&keys[at], when) {
                                        assert!(deadline >= when);
                                        told[at].fetch_max((when - start).as_millis() as u64, SeqCst);
                                    }
                                }
                            }
                        });
                    }
                    let waker = Waker::from(Arc::<Flag>::default());
                    let mut cx = Context::from_waker(&waker);
                    let mut turns = 0;
                    loop {
                        turns += 1;
                        if turns % 50 == 0 {
                            queue.compact();
                        }
                        // A reset to a later deadline than any extend's takes none back.
                        let key = keys[turns % ENTRIES];
                        if turns % 3 == 0 && turns % ENTRIES < ENTRIES / 2 && queue.len() > ENTRIES / 3 {
                            if let Some(out) = queue.try_remove(&key) {
                                let (deadline, value) = (out.deadline(), out.into_inner());
                                let told = told[value.0].load(SeqCst);
                                assert!(told != NEVER && deadline >= start + ms(told));
                            }
                        } else if turns % 7 == 0 {
                            let _ = queue.try_reset_at(&key, Instant::now() + ms(65));
                        }
                        // What is looked at is extended before it comes out, or not.
                        match turns % 4 {
                            0 => _ = queue.peek(),
                            1 => _ = queue.numbers(),
                            _ => {}
                        }
                        match queue.poll_expired(&mut cx) {
                            Poll::Ready(Some(out)) => outs.push((out.deadline(), out.into_inner())),
                            Poll::Ready(None) => break,
                            Poll::Pending => thread::yield_now(),
                        }
                        if start.elapsed() > ms(400) {
                            break;
                        }
                    }
                    is_over.store(true, SeqCst);
                });
                for (deadline, value) in &outs {
                    let told = told[value.0].load(SeqCst);
                    assert!(told != NEVER, "a cancelled entry came out");
                    assert!(*deadline >= start + ms(told), "{:?} before {told}", *deadline - start);
                }
                drop((outs, queue));
                assert_eq!(dropped.load(SeqCst), ENTRIES as u64);
            }
        });
    });
}

#[test]
fn a_sooner_insert_or_reset_wakes_the_task() {
    ends(|| {
        paused().block_on(async {
            let mut queue = DelayQueue::new();
            let flag = Arc::<Flag>::default();
            let waker = Waker::from(flag.clone());
            let mut cx = Context::from_waker(&waker);
            let is_woken = || flag.0.swap(false, SeqCst);
            assert!(matches!(queue.poll_expired(&mut cx), Poll::Ready(None)));
            let key = queue.insert("a", ms(500));
            assert!(is_woken(), "the queue was empty");
            assert!(queue.poll_expired(&mut cx).is_pending());
            queue.insert("b", ms(600));
            assert!(!is_woken());
            queue.insert("c", ms(400));
            assert!(is_woken());
            assert!(queue.poll_expired(&mut cx).is_pending());
            queue.reset(&key, ms(300));
            assert!(is_woken());
            assert!(queue.poll_expired(&mut cx).is_pending());
            sleep(ms(300)).await;
            assert!(is_woken());
            assert!(matches!(queue.poll_expired(&mut cx), Poll::Ready(Some(_))));
            assert!(queue.poll_expired(&mut cx).is_pending());
            queue.clear();
            assert!(matches!(queue.poll_expired(&mut cx), Poll::Ready(None)));
            let last = queue.insert("d", ms(100));
            assert!(is_woken());
            assert!(queue.poll_expired(&mut cx).is_pending());
            queue.remove(&last);
            assert!(is_woken(), "the end is told");
        });
    });
}

#[test]
fn a_thread_calls_handles_of_many_queues_in_turns() {
    ends(|| {
        running().block_on(async {
            let mut queues: Vec<_> = (0..40).map(|_| DelayQueue::new()).collect();
            let handles: Vec<_> = queues.iter_mut().map(DelayQueue::handle).collect();
            let keys: Vec<Key> = queues.iter_mut().map(|queue| queue.insert((), ms(60_000))).collect();
            for round in 0..3 {
                for (at, handle) in handles.iter().enumerate() {
                    let told = handle.extend(&keys[at], ms(100_000 + round)).unwrap();
                    assert_eq!(queues[at].deadline(&keys[at]), told);
                    assert_eq!(handle.extend(&keys[(at + 8) % 40], ms(100_000)), Err(EntryError::Ended));
                }
            }
            // Those that go end their entries alone.
            queues.drain(..20);
            for (at, handle) in handles.iter().enumerate() {
                assert_eq!(handle.extend(&keys[at], ms(200_000)).is_ok(), at >= 20);
            }
        });
    });
}

/// A thread that called both kinds of handle keeps callers, of queues that another thread drops meanwhile.
#[test]
fn a_thread_that_keeps_callers_extends_nothing_in_a_queue_that_has_gone() {
    ends(|| {
        running().block_on(async {
            let mut queue = DelayQueue::new();
            let (handle, key) = (queue.handle(), queue.insert("a", ms(60_000)));
            let shared = hontkhale::DelayQueue::new();
            let (holder, lease) = (shared.handle(), shared.insert("b", ms(60_000)).unwrap());
            let (called, has_called) = mpsc::channel();
            let (dropped, are_dropped) = mpsc::channel::<()>();
            let thread = thread::spawn(move || {
                assert!(handle.extend(&key, ms(70_000)).is_ok() && holder.extend(&lease, ms(70_000)).is_ok());
                called.send(()).unwrap();
                let _ = are_dropped.recv();
                for _ in 0..2 {
                    assert_eq!(handle.extend(&key, ms(80_000)), Err(EntryError::Ended));
                    assert_eq!(handle.cancel(&key), Err(EntryError::Ended));
                    assert_eq!(holder.extend(&lease, ms(80_000)), Err(KeyError::Closed));
                    assert_eq!(holder.cancel(&lease), Err(KeyError::Closed));
                }
            });
            has_called.recv().unwrap();
            drop((queue, shared));
            drop(dropped);
            thread.join().expect("what it is told");
        });
    });
}
