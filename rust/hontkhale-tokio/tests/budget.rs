//! A poll makes at most so many steps and wakes its task for the rest: everything comes out, in its order, and other tasks
//! have their turn in between.

mod common;

use common::{ends, ms, paused, running, Dice};
use futures_core::Stream;
use hontkhale_tokio::{DelayQueue, SharedQueue};
use std::cell::Cell;
use std::future::poll_fn;
use std::pin::Pin;
use std::rc::Rc;
use std::sync::atomic::{AtomicUsize, Ordering::SeqCst};
use std::sync::Arc;
use std::task::{Context, Poll, Wake, Waker};
use std::time::Duration;
use tokio::task::LocalSet;
use tokio::time::{advance, timeout, Instant};
use tokio_util::time::delay_queue as peer;

const BUDGETS: [u32; 7] = [0, 1, 8, 13, 128, 1_000, u32::MAX];

#[derive(Default)]
struct Wakes(AtomicUsize);

impl Wake for Wakes {
    fn wake(self: Arc<Self>) {
        self.0.fetch_add(1, SeqCst);
    }
}

/// Polls by hand until it is ready: its answer, and how many polls were pending. Each of them has woken its task.
fn polled<R>(mut poll: impl FnMut(&mut Context<'_>) -> Poll<R>) -> (R, u64) {
    let wakes = Arc::<Wakes>::default();
    let waker = Waker::from(wakes.clone());
    for pending in 0..10_000_000 {
        if let Poll::Ready(answer) = poll(&mut Context::from_waker(&waker)) {
            return (answer, pending);
        }
        assert_eq!(wakes.0.swap(0, SeqCst), 1, "a poll that has more to do wakes its task, once");
    }
    panic!("it never comes to an end");
}

#[test]
fn a_queues_poll_makes_so_many_steps() {
    ends(|| {
        paused().block_on(async {
            for budget in BUDGETS {
                let (mut queue, value) = (DelayQueue::new(), Rc::new(()));
                let handle = queue.handle();
                let keys: Vec<_> = (0..3_000).map(|_| queue.insert(value.clone(), ms(5_000))).collect();
                for (at, key) in keys.iter().enumerate() {
                    match at % 3 {
                        0 => drop(handle.extend(key, ms(50_000)).unwrap()),
                        1 => drop(handle.cancel(key).unwrap()),
                        _ => {}
                    }
                }
                queue.set_budget(budget);
                advance(ms(20_000)).await;
                let mut polls = 0;
                for left in (0..1_000).rev() {
                    let (out, pending) = polled(|cx| queue.poll_expired(cx));
                    drop(out.unwrap());
                    polls += pending + 1;
                    assert!(Rc::strong_count(&value) > left);
                }
                // Each entry was moved, taken out or dropped by a step at least.
                let most = u64::from(budget.max(1));
                assert!(polls * most >= 3_000, "{polls} polls of {most}");
                // Those that were cancelled are gone once the queue comes to rest, and the others come out in their time.
                let start = Instant::now();
                let out = poll_fn(|cx| queue.poll_expired(cx)).await.unwrap();
                assert!(out.deadline() - start == ms(30_000) && start.elapsed() == ms(30_000));
                drop(out);
                assert_eq!((Rc::strong_count(&value), queue.len()), (1_000, 999));
                while poll_fn(|cx| queue.poll_expired(cx)).await.is_some() {}
                assert_eq!(Rc::strong_count(&value), 1);
            }
        });
    });
}

#[test]
fn a_queues_order_stays_over_all_wheels() {
    ends(|| {
        paused().block_on(async {
            for budget in [1, 2, 9, 64, u32::MAX] {
                let (mut queue, mut dice) = (DelayQueue::new(), Dice(3 + u64::from(budget)));
                queue.set_budget(budget);
                let start = Instant::now();
                let mut whens: Vec<u64> = (0..2_000).map(|_| dice.below(100_000)).collect();
                for &when in &whens {
                    queue.insert(when, ms(when));
                }
                let mut outs = Vec::new();
                while let Some(out) =
                    timeout(ms(200_000), poll_fn(|cx| queue.poll_expired(cx))).await.expect("the task is woken")
                {
                    if outs.len() < 1_000 {
                        assert_eq!(start.elapsed(), ms(*out.get_ref()), "it comes out at its deadline");
                    }
                    outs.push(out.into_inner());
                    if outs.len() == 1_000 {
                        advance(ms(40_000)).await;
                    }
                }
                whens.sort_unstable();
                assert_eq!(outs, whens);
            }
        });
    });
}

#[test]
fn a_poll_in_pieces_forgets_a_deadline_that_has_gone() {
    ends(|| {
        paused().block_on(async {
            for budget in [1, 2, 128, u32::MAX] {
                let mut queue = DelayQueue::new();
                queue.set_budget(budget);
                queue.insert(0, ms(40));
                for value in 1..64 {
                    queue.insert(value, ms(10_000));
                }
                // It is in a wheel of its own.
                let gone = queue.insert(64, ms(100));
                queue.reset(&gone, ms(20_000));
                advance(ms(60)).await;
                assert_eq!(polled(|cx| queue.poll_expired(cx)).0.map(|out| out.into_inner()), Some(0));
                let wakes = Arc::<Wakes>::default();
                let waker = Waker::from(wakes.clone());
                loop {
                    assert!(queue.poll_expired(&mut Context::from_waker(&waker)).is_pending());
                    if wakes.0.swap(0, SeqCst) == 0 {
                        break;
                    }
                }
                advance(ms(60)).await;
                assert_eq!(wakes.0.load(SeqCst), 0, "nothing is there at 100 ms any more");
                let mut left = 0;
                while poll_fn(|cx| queue.poll_expired(cx)).await.is_some() {
                    left += 1;
                }
                assert_eq!(left, 64);
            }
        });
    });
}

/// Whatever the shards are over which the entries are spread, by the thread that puts them in.
#[test]
fn a_streams_poll_makes_so_many_steps() {
    ends(|| {
        paused().block_on(async {
            let queue = SharedQueue::new();
            let mut stream = queue.stream();
            for value in 0..50_000 {
                let key = queue.insert(value, ms(5_000)).unwrap();
                // A poll at 5 s files it anew.
                queue.extend(&key, ms(10_000)).unwrap();
            }
            advance(ms(5_000)).await;
            let wakes = Arc::<Wakes>::default();
            let waker = Waker::from(wakes.clone());
            let mut turns = 0;
            loop {
                assert!(Pin::new(&mut stream).poll_next(&mut Context::from_waker(&waker)).is_pending());
                if wakes.0.swap(0, SeqCst) == 0 {
                    break;
                }
                turns += 1;
            }
            assert!(turns >= 50_000 / 1_024, "{turns} turns");
            assert!(timeout(ms(6_000), stream.next()).await.expect("the task is woken").is_some());
        });
    });
}

/// More entries than a loop is given until a timeout of 50 ms ends it, however fast the machine is.
const ENDLESS: u32 = 5_000_000;

/// Each entry that comes out is put in again, due at once: the task never comes to wait for one.
#[test]
fn a_timeout_ends_a_loop_over_a_stream_that_always_has_an_entry() {
    ends(|| {
        running().block_on(async {
            let queue = SharedQueue::new();
            queue.insert("again".to_string(), Duration::ZERO).unwrap();
            let (mut stream, mut given) = (queue.stream(), 0);
            let looped = timeout(ms(50), async {
                while let Some(out) = stream.next().await {
                    queue.insert(out.value, Duration::ZERO).unwrap();
                    given += 1;
                    assert!(given < ENDLESS, "it goes on and on");
                }
            });
            assert!(looped.await.is_err());
        });
    });
}

#[test]
fn a_timeout_ends_a_loop_over_a_queue_that_always_has_an_entry() {
    ends(|| {
        running().block_on(async {
            for budget in [1, 128, u32::MAX] {
                let (mut queue, start) = (DelayQueue::new(), Instant::now());
                queue.set_budget(budget);
                queue.insert_at("again".to_string(), start);
                let mut given = 0;
                let looped = timeout(ms(50), async {
                    while let Some(out) = poll_fn(|cx| queue.poll_expired(cx)).await {
                        queue.insert_at(out.into_inner(), start);
                        given += 1;
                        assert!(given < ENDLESS, "it goes on and on");
                    }
                });
                assert!(looped.await.is_err());
            }
        });
    });
}

/// The most entries that a task takes of `next` while another task, which is ready all the time, waits for its turn.
async fn most_between_turns<E>(mut next: impl FnMut(&mut Context<'_>) -> Poll<Option<E>>, entries: usize) -> usize {
    let turns = Rc::new(Cell::new(0));
    let counted = turns.clone();
    let local = LocalSet::new();
    let other = local.spawn_local(async move {
        loop {
            counted.set(counted.get() + 1);
            tokio::task::yield_now().await;
        }
    });
    let taken = local.run_until(async {
        tokio::task::yield_now().await;
        let (mut most, mut row, mut turn) = (0, 0, turns.get());
        for _ in 0..entries {
            assert!(poll_fn(&mut next).await.is_some());
            if turn != turns.get() {
                (row, turn) = (0, turns.get());
            }
            row += 1;
            most = most.max(row);
        }
        assert!(turns.get() > 0, "the other task is ready");
        most
    });
    let most = taken.await;
    other.abort();
    most
}

#[test]
fn many_that_are_due_keep_another_task_waiting_no_longer_than_the_peers() {
    const ENTRIES: usize = 500_000;
    ends(|| {
        paused().block_on(async {
            let (mut ours, mut peers, shared) = (DelayQueue::new(), peer::DelayQueue::new(), SharedQueue::new());
            for at in 0..ENTRIES {
                let when = ms(1 + at as u64 % 1_000);
                ours.insert(Box::new(at), when);
                peers.insert(Box::new(at), when);
                shared.insert(Box::new(at), when).unwrap();
            }
            advance(ms(2_000)).await;
            let mut stream = shared.stream();
            let by_peer = most_between_turns(|cx| peers.poll_expired(cx), ENTRIES).await;
            let by_stream = most_between_turns(|cx| Pin::new(&mut stream).poll_next(cx), ENTRIES).await;
            let ours = most_between_turns(|cx| ours.poll_expired(cx), ENTRIES).await;
            println!("{by_peer} by the peer, {ours} by the queue, {by_stream} by the stream");
            assert!(ours <= by_peer && by_stream <= by_peer && by_peer <= 128, "{ours}, {by_stream}, {by_peer}");
        });
    });
}

#[test]
fn the_poll_that_ends_a_row_of_entries_drops_what_a_handle_cancelled() {
    ends(|| {
        paused().block_on(async {
            let (mut queue, value) = (DelayQueue::new(), Rc::new(()));
            let handle = queue.handle();
            queue.set_budget(u32::MAX);
            (0..200).for_each(|_| _ = queue.insert(value.clone(), ms(10)));
            let cancelled = queue.insert(value.clone(), ms(60_000));
            advance(ms(11)).await;
            for _ in 0..128 {
                drop(polled(|cx| queue.poll_expired(cx)).0);
            }
            handle.cancel(&cancelled).unwrap();
            let waker = Waker::from(Arc::<Wakes>::default());
            assert!(queue.poll_expired(&mut Context::from_waker(&waker)).is_pending());
            assert_eq!((Rc::strong_count(&value), queue.len()), (73, 72));
        });
    });
}

/// A poll that finds the queue empty isn't pending.
#[test]
fn a_row_of_entries_goes_on_where_the_queue_is_empty_between_them() {
    ends(|| {
        paused().block_on(async {
            let mut queue = DelayQueue::new();
            let waker = Waker::from(Arc::<Wakes>::default());
            let mut cx = Context::from_waker(&waker);
            for at in 0..128 {
                queue.insert(at.to_string(), Duration::ZERO);
                assert!(matches!(queue.poll_expired(&mut cx), Poll::Ready(Some(_))), "{at}");
                assert!(at == 127 || matches!(queue.poll_expired(&mut cx), Poll::Ready(None)), "{at}");
            }
            assert!(queue.poll_expired(&mut cx).is_pending());
        });
    });
}

/// A poll that waits for an entry, or has more steps to make, begins the count anew.
#[test]
fn a_row_of_entries_ends_where_a_poll_is_pending() {
    ends(|| {
        paused().block_on(async {
            let (mut queue, shared) = (DelayQueue::new(), SharedQueue::new());
            let mut stream = shared.stream();
            let waker = Waker::from(Arc::<Wakes>::default());
            let mut cx = Context::from_waker(&waker);
            for _ in 0..5 {
                for at in 0..100 {
                    queue.insert(at.to_string(), ms(10));
                    shared.insert(at.to_string(), ms(10)).unwrap();
                }
                assert!(
                    queue.poll_expired(&mut cx).is_pending() && Pin::new(&mut stream).poll_next(&mut cx).is_pending()
                );
                advance(ms(11)).await;
                for at in 0..100 {
                    assert!(queue.poll_expired(&mut cx).is_ready(), "{at}");
                    assert!(Pin::new(&mut stream).poll_next(&mut cx).is_ready(), "{at}");
                }
            }
        });
    });
}
