//! Random calls on this queue and on tokio_util's, in paused time: every answer and every wake compared.
//!
//! A task waits on each queue and polls it as it is woken, and only then; so an entry that comes out of one queue and not of
//! the other in the same step is a wake that was lost. tokio_util 0.7.3 itself loses that of a reset to a moment that is
//! over, and tells the end of a queue late that a remove emptied. There ours is woken, and the peer is polled by hand.

mod common;

use common::{paused, Dice};
use std::collections::HashMap;
use std::sync::atomic::{AtomicBool, Ordering::SeqCst};
use std::sync::Arc;
use std::task::{Context, Poll, Wake, Waker};
use std::time::Duration;
use tokio::time::{sleep, Instant};

const CALLS: usize = 200_000;

#[derive(Default)]
struct Flag(AtomicBool);

impl Wake for Flag {
    fn wake(self: Arc<Self>) {
        self.0.store(true, SeqCst);
    }
}

/// A queue with a task that waits on it: `$name` has the same calls over either crate.
macro_rules! side {
    ($name:ident, $module:path) => {
        mod $name {
            use super::*;
            use $module as peer;

            pub struct Side {
                pub queue: peer::DelayQueue<u64>,
                flag: Arc<Flag>,
            }

            impl Side {
                pub fn new() -> Side {
                    let flag = Arc::<Flag>::default();
                    flag.0.store(true, SeqCst);
                    Side { queue: peer::DelayQueue::new(), flag }
                }

                pub fn is_woken(&self) -> bool {
                    self.flag.0.load(SeqCst)
                }

                /// Polls until nothing comes out: the values with their deadlines, and whether the queue was empty.
                pub fn poll(&mut self) -> (Vec<(Instant, u64, peer::Key)>, bool) {
                    self.flag.0.store(false, SeqCst);
                    let waker = Waker::from(self.flag.clone());
                    let mut outs = Vec::new();
                    loop {
                        match self.queue.poll_expired(&mut Context::from_waker(&waker)) {
                            Poll::Ready(Some(out)) => outs.push((out.deadline(), *out.get_ref(), out.key())),
                            Poll::Ready(None) => return (outs, true),
                            Poll::Pending => return (outs, false),
                        }
                    }
                }
            }
        }
    };
}

side!(ours, hontkhale_tokio::delay_queue);
side!(peers, tokio_util::time::delay_queue);

/// An entry that is in both queues.
struct Entry {
    ours: hontkhale_tokio::delay_queue::Key,
    peers: tokio_util::time::delay_queue::Key,
    when: Instant,
}

struct Both {
    dice: Dice,
    ours: ours::Side,
    peers: peers::Side,
    /// The entries by their values, and the values in a row to draw from.
    entries: HashMap<u64, Entry>,
    values: Vec<u64>,
    next: u64,
    /// Whether the peer may have lost a wake since its last poll.
    peer_may_sleep_on: bool,
    counts: Counts,
}

#[derive(Debug, Default)]
struct Counts {
    calls: usize,
    outs: usize,
    wakes: usize,
    peer_wakes: usize,
    lost_by_peer: usize,
    late_ends_of_peer: usize,
}

impl Both {
    fn new(seed: u64) -> Both {
        Both {
            dice: Dice(seed),
            ours: ours::Side::new(),
            peers: peers::Side::new(),
            entries: HashMap::new(),
            values: Vec::new(),
            next: 0,
            peer_may_sleep_on: false,
            counts: Counts::default(),
        }
    }

    /// A moment near and far, with parts of a millisecond; some are over.
    fn moment(&mut self) -> Instant {
        let now = Instant::now();
        let micros = match self.dice.below(10) {
            0 => return now.checked_sub(Duration::from_micros(self.dice.below(50_000))).unwrap_or(now),
            1 => return now,
            2..=5 => self.dice.below(100_000),
            6..=8 => self.dice.below(5_000_000),
            _ => self.dice.below(500_000_000),
        };
        now + Duration::from_micros(micros)
    }

    fn draw(&mut self) -> Option<u64> {
        match self.values.len() as u64 {
            0 => None,
            many => Some(self.values[self.dice.below(many) as usize]),
        }
    }

    fn forget(&mut self, value: u64) -> Entry {
        let at = self.values.iter().position(|&it| it == value).expect("a value that is in");
        self.values.swap_remove(at);
        self.entries.remove(&value).expect("an entry that is in")
    }

    fn call(&mut self) {
        self.counts.calls += 1;
        match self.dice.below(100) {
            0..=39 => self.insert(),
            40..=64 => self.reset(),
            65..=84 => self.remove(),
            85..=93 => self.read(),
            94..=95 => self.compact(),
            96 => {
                let more = self.dice.below(100) as usize;
                self.ours.queue.reserve(more);
                self.peers.queue.reserve(more);
                assert!(self.ours.queue.capacity() >= self.ours.queue.len() + more);
            }
            97 => {
                self.ours.queue.shrink_to_fit();
                self.peers.queue.shrink_to_fit();
            }
            _ if self.dice.below(40) == 0 => {
                self.ours.queue.clear();
                self.peers.queue.clear();
                self.entries.clear();
                self.values.clear();
                self.peer_may_sleep_on = true;
            }
            _ => {}
        }
        assert_eq!(self.ours.queue.len(), self.peers.queue.len());
        assert_eq!(self.ours.queue.is_empty(), self.peers.queue.is_empty());
        assert!(self.ours.queue.capacity() >= self.ours.queue.len());
    }

    fn insert(&mut self) {
        let (value, when) = (self.next, self.moment());
        self.next += 1;
        let (ours, peers) = if self.dice.below(2) == 0 {
            (self.ours.queue.insert_at(value, when), self.peers.queue.insert_at(value, when))
        } else {
            let timeout = when.saturating_duration_since(Instant::now());
            (self.ours.queue.insert(value, timeout), self.peers.queue.insert(value, timeout))
        };
        self.entries.insert(value, Entry { ours, peers, when });
        self.values.push(value);
    }

    fn reset(&mut self) {
        let when = self.moment();
        if let Some(value) = self.draw() {
            let entry = self.entries.get_mut(&value).unwrap();
            self.ours.queue.reset_at(&entry.ours, when);
            self.peers.queue.reset_at(&entry.peers, when);
            entry.when = when;
            self.peer_may_sleep_on |= when <= Instant::now();
        }
    }

    fn remove(&mut self) {
        if let Some(value) = self.draw() {
            let entry = self.forget(value);
            let ours = self.ours.queue.remove(&entry.ours);
            let peers = self.peers.queue.remove(&entry.peers);
            assert_eq!((*ours.get_ref(), ours.key()), (value, entry.ours));
            assert_eq!(ours.into_inner(), peers.into_inner());
            assert!(self.ours.queue.try_remove(&entry.ours).is_none());
            self.peer_may_sleep_on |= self.entries.is_empty();
        }
    }

    fn read(&mut self) {
        if let Some(value) = self.draw() {
            let entry = &self.entries[&value];
            let deadline = self.ours.queue.deadline(&entry.ours);
            let rounding = deadline.saturating_duration_since(entry.when);
            assert!(deadline >= entry.when && (rounding < Duration::from_millis(1) || deadline <= Instant::now()));
        }
        let peeked = self.ours.queue.peek().map(|key| self.ours.queue.deadline(&key));
        let first = self.entries.values().map(|entry| self.ours.queue.deadline(&entry.ours)).min();
        assert_eq!(peeked, first);
    }

    fn compact(&mut self) {
        self.ours.queue.compact();
        self.peers.queue.compact();
        assert!(self.ours.queue.capacity() <= 4 * self.ours.queue.len());
        assert_eq!(self.peers.queue.capacity(), self.peers.queue.len());
    }

    /// Each task polls if it was woken. What comes out has to be the same; the deadlines too, but where they were over when
    /// they were set.
    fn tasks(&mut self) {
        let (ours_woken, peers_woken) = (self.ours.is_woken(), self.peers.is_woken());
        self.counts.wakes += usize::from(ours_woken);
        self.counts.peer_wakes += usize::from(peers_woken);
        let ours = if ours_woken { self.ours.poll() } else { Default::default() };
        let peek = |at: &(Vec<(Instant, u64, _)>, bool)| at.0.iter().map(|it| it.1).collect::<Vec<u64>>();
        let mut seen = peek(&ours);
        let in_order = ours.0.windows(2).all(|pair| pair[0].0 <= pair[1].0);
        assert!(in_order, "out of order: {:?}", ours.0);
        let peers = if peers_woken || self.peer_may_sleep_on { self.peers.poll() } else { Default::default() };
        self.counts.lost_by_peer += usize::from(!peers_woken && !peers.0.is_empty());
        self.peer_may_sleep_on = false;
        let mut due: Vec<u64> = peers.0.iter().map(|it| it.1).collect();
        seen.sort_unstable();
        due.sort_unstable();
        assert_eq!(seen, due, "woken: {} and {}", ours_woken, peers_woken);
        self.counts.outs += seen.len();
        let deadlines: HashMap<u64, Instant> = peers.0.iter().map(|it| (it.1, it.0)).collect();
        for (deadline, value, key) in ours.0 {
            let entry = self.forget(value);
            assert_eq!(key, entry.ours);
            let peer = deadlines[&value];
            let is_late = deadline.max(peer).saturating_duration_since(entry.when) >= Duration::from_millis(1);
            assert!(deadline == peer || is_late, "{deadline:?} and {peer:?}");
            assert!(deadline <= Instant::now());
        }
        if ours_woken && peers_woken {
            assert_eq!(ours.1, self.ours.queue.is_empty());
            assert!(ours.1 || !peers.1, "the peer is at its end");
            self.counts.late_ends_of_peer += usize::from(ours.1 && !peers.1);
        }
    }
}

#[test]
fn every_answer_and_wake_is_the_peers() {
    common::ends(compare);
}

fn compare() {
    let runtime = paused();
    let mut all = Counts::default();
    for seed in 1..=8 {
        let counts = runtime.block_on(tokio::task::unconstrained(async move {
            let mut both = Both::new(seed << 32 | 0x9e37_79b9);
            both.tasks();
            while both.counts.calls < CALLS / 8 {
                for _ in 0..both.dice.below(12) {
                    both.call();
                    if both.dice.below(2) == 0 {
                        both.tasks();
                    }
                }
                both.tasks();
                let step = [0, 1, 1, 2, 7, 60, 900][both.dice.below(7) as usize];
                if step > 0 {
                    sleep(Duration::from_millis(step)).await;
                }
                both.tasks();
            }
            both.counts
        }));
        all.calls += counts.calls;
        all.outs += counts.outs;
        all.wakes += counts.wakes;
        all.peer_wakes += counts.peer_wakes;
        all.lost_by_peer += counts.lost_by_peer;
        all.late_ends_of_peer += counts.late_ends_of_peer;
    }
    println!("{all:?}");
    assert!(all.calls >= CALLS && all.outs > CALLS / 10);
}
