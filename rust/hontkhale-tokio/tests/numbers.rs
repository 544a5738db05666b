//! What a server watches by `numbers()`, beside what the test knows: what waits, and how late it is and was.

mod common;

use common::{ends, ms, paused, Dice, Wakes};
use hontkhale_tokio::{delay_queue::Key, DelayQueue};
use std::sync::Arc;
use std::task::{Context, Poll, Waker};
use std::time::Duration;
use tokio::time::{advance, Instant};

fn waker() -> Waker {
    Waker::from(Arc::<Wakes>::default())
}

/// A while, mostly short.
fn drawn(dice: &mut Dice) -> Duration {
    let most = [3, 90, 5_000, 300_000][dice.below(4) as usize];
    ms(dice.below(most))
}

/// By how much the oldest of some live entries is late.
fn late(deadlines: impl Iterator<Item = Instant>) -> Duration {
    deadlines.min().map_or(ms(0), |first| Instant::now().saturating_duration_since(first))
}

/// Each entry is taken out ten milliseconds after the one before it, and they are due one after the other: a server that
/// falls behind.
#[test]
fn the_longest_is_by_the_clock_once_it_is_asked_for() {
    ends(|| {
        paused().block_on(async {
            for is_asked_for in [false, true] {
                let mut queue = DelayQueue::new();
                if is_asked_for {
                    assert_eq!(queue.numbers().latest, ms(0));
                }
                for at in 10..110 {
                    queue.insert(at, ms(at));
                }
                advance(ms(10)).await;
                for at in 0..100 {
                    let Poll::Ready(Some(out)) = queue.poll_expired(&mut Context::from_waker(&waker())) else {
                        panic!("the entry after {at} others is due");
                    };
                    let late_by = out.deadline().elapsed();
                    assert_eq!(late_by, ms(9 * at));
                    assert!(!is_asked_for || queue.numbers().latest == late_by, "{at}");
                    advance(ms(10)).await;
                }
                let latest = queue.numbers().latest;
                assert!(latest <= ms(891) && (!is_asked_for || latest == ms(891)), "{latest:?}");
            }
        });
    });
}

/// What was told once is never less later, also where what was late is taken away or a poll gives it.
#[test]
fn the_longest_never_falls() {
    ends(|| {
        paused().block_on(async {
            let mut queue = DelayQueue::new();
            let (one, _) = (queue.insert("removed", ms(10)), queue.insert("given", ms(20)));
            advance(ms(1_010)).await;
            assert_eq!((queue.numbers().late, queue.numbers().latest), (ms(1_000), ms(1_000)));
            queue.remove(&one);
            assert_eq!((queue.numbers().late, queue.numbers().latest), (ms(990), ms(1_000)));
            assert!(queue.numbers().to_string().ends_with(", 0.990 s late, at most 1.000 s"));
            assert!(queue.poll_expired(&mut Context::from_waker(&waker())).is_ready());
            assert_eq!((queue.numbers().late, queue.numbers().latest), (ms(0), ms(1_000)));
        });
    });
}

/// A queue, its live entries with their deadlines, and how late one was at most.
struct Watched {
    queue: DelayQueue<()>,
    live: Vec<(Key, Instant)>,
    cancelled: usize,
    latest: Duration,
}

impl Watched {
    async fn call(&mut self, dice: &mut Dice) {
        let handle = self.queue.handle();
        let ahead = drawn(dice);
        let at = dice.below(self.live.len() as u64 + 1) as usize;
        match (dice.below(8), self.live.get_mut(at)) {
            (0..=2, _) => {
                let key = self.queue.insert((), ahead);
                self.live.push((key, self.queue.deadline(&key)));
            }
            (3, Some((key, deadline))) => *deadline = handle.extend(key, ahead).expect("a live entry"),
            (4, Some((key, _))) if ahead > ms(90) => {
                assert!(handle.cancel(key).is_ok());
                self.live.remove(at);
                self.cancelled += 1;
            }
            (5, _) => advance(ms(ahead.as_millis() as u64 / 2)).await,
            _ => self.poll(),
        }
    }

    fn poll(&mut self) {
        self.cancelled = 0; // each poll frees their places first
        if let Poll::Ready(Some(out)) = self.queue.poll_expired(&mut Context::from_waker(&waker())) {
            self.latest = self.latest.max(out.deadline().elapsed());
            self.live.retain(|(key, _)| *key != out.key());
        }
    }

    fn look(&mut self) {
        let (numbers, late) = (self.queue.numbers(), late(self.live.iter().map(|entry| entry.1)));
        self.latest = self.latest.max(late);
        assert_eq!((numbers.waiting, numbers.cancelled), (self.live.len(), self.cancelled));
        assert_eq!((numbers.late, numbers.latest, numbers.handles), (late, self.latest, 0));
    }
}

#[test]
fn the_numbers_of_a_queue_are_exact() {
    ends(|| {
        for seed in 1..=20 {
            paused().block_on(async {
                let mut dice = Dice(0x9e37_79b9_7f4a_7c15 ^ seed << 7);
                let queue = DelayQueue::new();
                let mut watched = Watched { queue, live: Vec::new(), cancelled: 0, latest: ms(0) };
                watched.queue.set_budget(u32::MAX);
                for _ in 0..1_000 {
                    watched.look();
                    watched.call(&mut dice).await;
                }
            });
        }
    });
}

/// Of ten entries handles cancel four, and what frees their places is no poll: `free` does it and leaves the six.
fn counted_after(free: fn(&mut DelayQueue<usize>)) -> (String, usize) {
    paused().block_on(async {
        let mut queue = DelayQueue::new();
        let handle = queue.handle();
        let wakes = Arc::<Wakes>::default();
        for _ in 0..1_000 {
            let keys: Vec<Key> = (0..10).map(|at| queue.insert(at, ms(60_000))).collect();
            keys[..4].iter().for_each(|key| assert!(handle.cancel(key).is_ok()));
            free(&mut queue);
            for key in &keys[4..] {
                queue.try_remove(key);
            }
        }
        let keys: Vec<Key> = (0..500).map(|at| queue.insert(at, ms(60_000))).collect();
        let shown = queue.numbers().to_string();
        let mut woken = 0;
        for key in &keys[..400] {
            assert!(queue.poll_expired(&mut Context::from_waker(&Waker::from(wakes.clone()))).is_pending());
            wakes.take();
            queue.remove(key);
            woken += wakes.take();
        }
        (shown, woken)
    })
}

const CLEAR_AND_SHRINK: fn(&mut DelayQueue<usize>) = |queue| {
    queue.clear();
    queue.shrink_to_fit();
};

/// A count that is wrong for good tells a queue of live entries to be one of cancelled ones, and each remove wakes the task.
#[test]
fn what_is_freed_without_a_poll_counts_no_more() {
    ends(|| {
        let compact: fn(&mut DelayQueue<usize>) = |queue| queue.compact();
        for free in [compact, |queue| queue.clear(), CLEAR_AND_SHRINK] {
            let shown = "500 waiting, 0 cancelled, 0 slots worn, 1 handles, 0.000 s late, at most 0.000 s";
            assert_eq!(counted_after(free), (shown.to_string(), 0));
        }
    });
}
