//! A queue that outlives its runtime goes on in the next one, and in a second one while the first isn't driven.

mod common;

use common::{ends, ms, paused, running, Dice, Wakes};
use futures_core::Stream;
use hontkhale_tokio::{DelayQueue, SharedQueue};
use std::collections::BTreeMap;
use std::future::{poll_fn, Future};
use std::pin::{pin, Pin};
use std::sync::Arc;
use std::task::{Context, Waker};
use tokio::runtime::Runtime;
use tokio::time::{advance, pause, sleep_until, timeout, Instant};

/// The next value in a runtime.
fn next(runtime: &Runtime, queue: &mut DelayQueue<&'static str>) -> Option<&'static str> {
    runtime.block_on(async { poll_fn(|cx| queue.poll_expired(cx)).await.map(|out| out.into_inner()) })
}

/// A queue that was made in a runtime.
fn made(runtime: &Runtime) -> DelayQueue<&'static str> {
    runtime.block_on(async { DelayQueue::new() })
}

#[test]
fn a_queue_that_was_emptied_goes_on_in_the_next_runtime() {
    ends(|| {
        let first = paused();
        let mut queue = made(&first);
        for round in 0..3 {
            let runtime = if round == 0 { paused() } else { Runtime::new().unwrap() };
            runtime.block_on(async { queue.insert("a", ms(10)) });
            assert_eq!(next(&runtime, &mut queue), Some("a"));
            assert_eq!(next(&runtime, &mut queue), None);
        }
    });
}

#[test]
fn a_queue_of_which_an_entry_was_taken_goes_on_in_the_next_runtime() {
    ends(|| {
        let first = paused();
        let mut queue = made(&first);
        first.block_on(async {
            queue.insert("a", ms(10));
            queue.insert("b", ms(20));
            queue.insert("c", ms(300));
        });
        assert_eq!(next(&first, &mut queue), Some("a"));
        drop(first);
        let second = paused();
        assert_eq!(next(&second, &mut queue), Some("b"));
        drop(second);
        let third = Runtime::new().unwrap();
        assert_eq!(next(&third, &mut queue), Some("c"));
        assert_eq!(next(&third, &mut queue), None);
    });
}

#[test]
fn a_queue_that_waits_goes_on_in_the_next_runtime() {
    ends(|| {
        let first = paused();
        let mut queue = made(&first);
        first.block_on(async {
            queue.insert("a", ms(60_000));
            assert!(timeout(ms(1_000), poll_fn(|cx| queue.poll_expired(cx))).await.is_err());
        });
        drop(first);
        let second = paused();
        second.block_on(async {
            assert!(timeout(ms(1_000), poll_fn(|cx| queue.poll_expired(cx))).await.is_err());
            queue.insert("b", ms(100));
        });
        assert_eq!(next(&second, &mut queue), Some("b"));
        assert_eq!(next(&second, &mut queue), Some("a"));
    });
}

#[test]
fn a_stream_outlives_its_runtime() {
    ends(|| {
        let first = paused();
        let queue = first.block_on(async { SharedQueue::new() });
        let mut stream = queue.stream();
        first.block_on(async {
            queue.insert("a", ms(10)).unwrap();
            queue.insert("waits", ms(60_000)).unwrap();
            assert_eq!(stream.next().await.unwrap().value, "a");
            assert!(timeout(ms(1_000), stream.next()).await.is_err());
        });
        drop(first);
        for runtime in [paused(), Runtime::new().unwrap()] {
            runtime.block_on(async {
                queue.insert("b", ms(10)).unwrap();
                assert_eq!(stream.next().await.unwrap().value, "b");
            });
        }
        paused().block_on(async {
            assert_eq!(stream.next().await.unwrap().value, "waits");
            queue.insert("c", ms(10)).unwrap();
            assert_eq!(stream.next().await.unwrap().value, "c");
            queue.close();
            assert!(stream.next().await.is_none());
        });
    });
}

async fn waits(queue: &mut DelayQueue<&'static str>) {
    assert!(timeout(ms(5), poll_fn(|cx| queue.poll_expired(cx))).await.is_err());
}

/// How a queue is left in its first runtime.
#[derive(Clone, Copy, Debug)]
enum Left {
    Emptied,
    OneTakenOut,
    OneRemoved,
    WokenAndRemoved,
    Waiting,
}

/// `a` is the first of the first runtime, which stays and isn't driven any more; the second waits for `c` alone.
fn c_comes_out_in_a_second_runtime(left: Left) {
    let (first, second) = (paused(), paused());
    let mut queue = made(&first);
    first.block_on(async {
        let a = queue.insert("a", ms(10));
        match left {
            Left::Emptied => {
                assert!(poll_fn(|cx| queue.poll_expired(cx)).await.is_some());
                assert!(poll_fn(|cx| queue.poll_expired(cx)).await.is_none());
            }
            Left::OneTakenOut => {
                queue.insert("c", ms(300));
                assert!(poll_fn(|cx| queue.poll_expired(cx)).await.is_some());
            }
            Left::OneRemoved => {
                waits(&mut queue).await;
                queue.remove(&a);
            }
            Left::WokenAndRemoved => {
                waits(&mut queue).await;
                let sooner = queue.insert("b", ms(1));
                queue.remove(&a);
                queue.remove(&sooner);
            }
            Left::Waiting => {
                queue.reset(&a, ms(400));
                waits(&mut queue).await;
                queue.insert("c", ms(300));
            }
        }
    });
    if !matches!(left, Left::OneTakenOut | Left::Waiting) {
        second.block_on(async { queue.insert("c", ms(300)) });
    }
    assert_eq!(next(&second, &mut queue), Some("c"), "{left:?}");
    drop(first);
}

#[test]
fn a_queue_goes_on_in_a_second_runtime_while_the_first_is_not_driven() {
    for left in [Left::Emptied, Left::OneTakenOut, Left::OneRemoved, Left::WokenAndRemoved, Left::Waiting] {
        ends(move || c_comes_out_in_a_second_runtime(left));
    }
}

/// Both poll by one waker, as that of a task within a task.
#[test]
fn one_task_goes_on_in_a_second_runtime_once_it_was_given_an_entry() {
    ends(|| {
        let (first, second) = (paused(), paused());
        let mut queue = made(&first);
        let wakes = Arc::<Wakes>::default();
        let waker = Waker::from(wakes.clone());
        let mut cx = Context::from_waker(&waker);
        first.block_on(async {
            queue.set_budget(1);
            let handle = queue.handle();
            let keys = [300, 1_000, 2_000].map(|after| queue.insert("c", ms(after)));
            while queue.poll_expired(&mut cx).is_pending() && wakes.take() > 0 {}
            keys[1..].iter().for_each(|key| assert!(handle.cancel(key).is_ok()));
            assert!(queue.poll_expired(&mut cx).is_pending());
            assert_eq!(wakes.take(), 1, "it gave way");
            queue.insert("a", ms(0));
            while queue.poll_expired(&mut cx).is_pending() {
                assert_eq!(wakes.take(), 1);
            }
        });
        second.block_on(async {
            while queue.poll_expired(&mut cx).is_pending() && wakes.take() > 0 {}
            advance(ms(301)).await;
            assert_eq!(wakes.take(), 1);
        });
        drop(first);
    });
}

/// The same of a stream.
#[test]
fn a_stream_of_one_task_goes_on_in_a_second_runtime_once_it_gave_an_entry() {
    ends(|| {
        let (first, second) = (paused(), paused());
        let queue = first.block_on(async { SharedQueue::new() });
        let mut stream = queue.stream();
        let wakes = Arc::<Wakes>::default();
        let waker = Waker::from(wakes.clone());
        let mut cx = Context::from_waker(&waker);
        first.block_on(async {
            queue.insert("c".to_string(), ms(60_000)).unwrap();
            assert!(Pin::new(&mut stream).poll_next(&mut cx).is_pending());
            queue.insert("a".to_string(), ms(1)).unwrap();
            advance(ms(1)).await;
            assert!(Pin::new(&mut stream).poll_next(&mut cx).is_ready());
        });
        second.block_on(async {
            assert!(Pin::new(&mut stream).poll_next(&mut cx).is_pending());
            wakes.take();
            advance(ms(60_001)).await;
            assert_eq!(wakes.take(), 1);
        });
        drop(first);
    });
}

#[test]
fn a_stream_goes_on_in_a_second_runtime_while_the_first_is_not_driven() {
    for has_waited in [false, true] {
        ends(move || {
            let (first, second) = (paused(), paused());
            let queue = first.block_on(async { SharedQueue::new() });
            let mut stream = queue.stream();
            first.block_on(async {
                queue.insert("a", ms(10)).unwrap();
                queue.insert("c", ms(300)).unwrap();
                assert_eq!(stream.next().await.unwrap().value, "a");
                assert!(!has_waited || timeout(ms(5), stream.next()).await.is_err());
            });
            second.block_on(async { assert_eq!(stream.next().await.unwrap().value, "c") });
            first.block_on(async { queue.insert("d", ms(60_000)).unwrap() });
            for runtime in [&first, &second] {
                runtime.block_on(async { assert!(timeout(ms(5), stream.next()).await.is_err()) });
            }
            first.block_on(async {
                let out = timeout(ms(90_000), stream.next()).await.expect("it is due").expect("the queue is open");
                assert_eq!((out.value, out.deadline), ("d", Instant::now()));
            });
            drop(second);
        });
    }
}

/// This queue and tokio_util's, with the keys of both by the value.
struct Both {
    ours: DelayQueue<u64>,
    peers: tokio_util::time::DelayQueue<u64>,
    keys: BTreeMap<u64, (hontkhale_tokio::delay_queue::Key, tokio_util::time::delay_queue::Key)>,
    outs: usize,
    outs_of_peer: usize,
}

impl Both {
    fn new() -> Both {
        let (ours, peers) = (DelayQueue::new(), tokio_util::time::DelayQueue::new());
        Both { ours, peers, keys: BTreeMap::new(), outs: 0, outs_of_peer: 0 }
    }

    fn call(&mut self, dice: &mut Dice, value: u64) {
        let at = dice.below(self.keys.len() as u64 + 1) as usize;
        let drawn = self.keys.keys().nth(at).copied();
        match (dice.below(8), drawn) {
            (0..=3, _) => {
                let ahead = ms(dice.below(200));
                self.keys.insert(value, (self.ours.insert(value, ahead), self.peers.insert(value, ahead)));
            }
            (4..=6, Some(value)) => {
                let (ours, peers) = self.keys.remove(&value).expect("a value that is in");
                assert_eq!(self.ours.remove(&ours).into_inner(), self.peers.remove(&peers).into_inner());
            }
            (7, _) if dice.below(4) == 0 => {
                self.ours.clear();
                self.peers.clear();
                self.keys.clear();
            }
            _ => {}
        }
    }

    /// Waits on both for a while. Where the peer gives one that is due, ours gives one: the clocks of two runtimes
    /// differ, since each stands while the other is driven.
    async fn wait(&mut self, most: u64) {
        let Both { ours, peers, .. } = self;
        let (ours, peers) = tokio::join!(
            timeout(ms(most), poll_fn(|cx| ours.poll_expired(cx))),
            timeout(ms(most), poll_fn(|cx| peers.poll_expired(cx))),
        );
        let (ours, peers) = (ours.ok().flatten(), peers.ok().flatten());
        if let Some(peers) = peers.as_ref().filter(|out| out.deadline() <= Instant::now()) {
            assert!(ours.is_some(), "the peer gives {}, and ours waits", peers.get_ref());
        }
        self.outs += usize::from(ours.is_some());
        self.outs_of_peer += usize::from(peers.is_some());
        let (ours, peers) = (ours.map(|out| out.into_inner()), peers.map(|out| out.into_inner()));
        if ours == peers {
            ours.map(|value| self.keys.remove(&value));
            return;
        }
        // Each gives up what the other one gave.
        ours.map(|value| self.peers.remove(&self.keys.remove(&value).expect("a value that is in").1));
        peers.map(|value| self.ours.remove(&self.keys.remove(&value).expect("a value that is in").0));
    }
}

/// One of both is driven at a time, while the other stays.
#[test]
fn what_the_peer_gives_in_either_of_two_runtimes_ours_gives() {
    ends(|| {
        let (mut outs, mut outs_of_peer) = (0, 0);
        for seed in 1..=200 {
            let mut dice = Dice(seed << 32 | 0x9e37_79b9);
            let runtimes = [paused(), paused()];
            let mut both = runtimes[0].block_on(async { Both::new() });
            for value in 0..200 {
                let runtime = &runtimes[dice.below(2) as usize];
                runtime.block_on(async {
                    (0..dice.below(4)).for_each(|at| both.call(&mut dice, 4 * value + at));
                    both.wait(dice.below(100)).await;
                });
            }
            outs += both.outs;
            outs_of_peer += both.outs_of_peer;
        }
        println!("{outs} entries came out, {outs_of_peer} of the peer");
        assert!(outs_of_peer > 1_000 && outs >= outs_of_peer);
    });
}

/// tokio's timer rounds a moment up to milliseconds of its runtime, at none of which a clock stands that is paused later.
#[test]
fn an_entry_for_now_is_as_ready_as_tokios_sleep_where_time_is_paused_later() {
    ends(|| {
        running().block_on(async {
            pause();
            let waker = Waker::from(Arc::<Wakes>::default());
            let mut cx = Context::from_waker(&waker);
            let mut queue = DelayQueue::new();
            let key = queue.insert("a", ms(60_000));
            advance(ms(5)).await;
            for round in 0..2 {
                match round {
                    0 => queue.reset_at(&key, Instant::now()),
                    _ => drop(queue.insert_at("b", Instant::now())),
                }
                let is_ready = pin!(sleep_until(Instant::now())).poll(&mut cx).is_ready();
                assert_eq!(queue.poll_expired(&mut cx).is_ready(), is_ready);
                if !is_ready {
                    advance(ms(1)).await;
                    assert!(queue.poll_expired(&mut cx).is_ready());
                }
            }
        });
    });
}

/// A clock beyond the last tick, some 139 years after the queue was made.
#[test]
fn a_clock_beyond_the_last_tick_is_taken_as_the_last() {
    ends(|| {
        paused().block_on(async {
            let mut queue = DelayQueue::new();
            queue.insert("a", ms(10));
            let (shared, years) = (SharedQueue::new(), std::time::Duration::from_secs(365 * 86_400));
            let mut stream = shared.stream();
            shared.insert("b", ms(10)).unwrap();
            for _ in 0..8 {
                tokio::time::advance(20 * years).await;
            }
            assert_eq!(poll_fn(|cx| queue.poll_expired(cx)).await.map(|out| out.into_inner()), Some("a"));
            assert!(poll_fn(|cx| queue.poll_expired(cx)).await.is_none());
            assert_eq!(stream.next().await.map(|out| out.value), Some("b"));
            shared.close();
            assert!(stream.next().await.is_none());
        });
    });
}
