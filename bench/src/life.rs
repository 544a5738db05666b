//! `peers life ENTRIES SHARDS`: lives in one `DelayQueue`, each an insert by a moment and its receive, while so many entries stand.
//! `peers life-beside ENTRIES ROUNDS`: the same beside the best heap behind a lock, by a line for each as the goals have it.

use std::hint::black_box;
use std::sync::atomic::{AtomicU64, Ordering::Relaxed};
use std::sync::OnceLock;
use std::time::{Duration, Instant};

use hontkhale::DelayQueue;

use crate::best::BestHeap;
use crate::goals::print_line;
use crate::plan::{SplitMix64, SEED};
use crate::queue::{Locked, Queue};
use crate::rows::reading;

/// How many ticks ahead deadlines are at most.
const SPAN: u64 = 10_000;
/// How many lives are timed at least.
const LIVES: usize = 20_000;

static START: OnceLock<Instant> = OnceLock::new();
static PASSED: AtomicU64 = AtomicU64::new(0);

/// The clock of the queue and of the program, which the program moves on.
fn now() -> Instant {
    *START.get_or_init(Instant::now) + Duration::from_millis(PASSED.load(Relaxed))
}

/// What is inserted by moments, and reads the clock as it is asked for what is due.
trait ByMoments {
    fn insert(&self, when: Instant);
    fn receive(&self) -> Option<u64>;
}

impl ByMoments for DelayQueue<u64> {
    #[inline(always)]
    fn insert(&self, when: Instant) {
        black_box(self.insert_at(1, when).is_ok());
    }

    #[inline(always)]
    fn receive(&self) -> Option<u64> {
        self.try_recv().ok().map(|expired| expired.value)
    }
}

/// Whoever uses it makes ticks of moments by hand.
impl<const PAUSES: bool> ByMoments for Locked<BestHeap, PAUSES> {
    #[inline(always)]
    fn insert(&self, when: Instant) {
        let length = since_start(when);
        let tick = length.as_secs() * 1_000 + u64::from(length.subsec_nanos().div_ceil(1_000_000));
        black_box(self.with(|heap| heap.insert(1, tick)));
    }

    #[inline(always)]
    fn receive(&self) -> Option<u64> {
        let length = since_start(now());
        let tick = length.as_secs() * 1_000 + u64::from(length.subsec_millis());
        self.with(|heap| heap.poll(tick)).map(|out| BestHeap::value(&out))
    }
}

fn since_start(when: Instant) -> Duration {
    when.saturating_duration_since(*START.get_or_init(Instant::now))
}

fn insert(queue: &impl ByMoments, draws: &mut SplitMix64) {
    queue.insert(now() + Duration::from_millis(1 + draws.below(SPAN)));
}

/// Lives until that many are over: what is due comes out, and as many go in.
fn live(queue: &impl ByMoments, draws: &mut SplitMix64, entries: usize, lives: usize) -> usize {
    let (step, mut lived) = ((SPAN / entries as u64).max(1), 0);
    while lived < lives {
        PASSED.fetch_add(step, Relaxed);
        let before = lived;
        while let Some(value) = queue.receive() {
            black_box(value);
            lived += 1;
        }
        (before..lived).for_each(|_| insert(queue, draws));
    }
    lived
}

/// What timed lives took in nanoseconds, and how many they were. Three generations come and go before the time.
fn timed(queue: &impl ByMoments, entries: usize) -> (u128, usize) {
    let mut draws = SplitMix64::new(SEED);
    (0..entries).for_each(|_| insert(queue, &mut draws));
    live(queue, &mut draws, entries, 3 * entries);
    let since = reading();
    let lived = live(queue, &mut draws, entries, entries.max(LIVES));
    ((reading() - since).as_nanos(), lived)
}

fn made(shards: usize) -> DelayQueue<u64> {
    DelayQueue::builder().shards(shards).read_clock(now).build()
}

pub fn print(entries: usize, shards: usize) {
    let (nanos, lived) = timed(&made(shards), entries);
    println!("queue life/{shards} {entries} 1 1 {nanos} {lived}");
}

pub fn print_beside(entries: usize, rounds: usize) {
    let mut sides = [("queue-at", Vec::new()), ("heap-best-locked", Vec::new()), ("heap-best-paused", Vec::new())];
    for _ in 0..rounds {
        for (side, taken) in &mut sides {
            let (nanos, lived) = match *side {
                "queue-at" => timed(&made(1), entries),
                "heap-best-locked" => timed(&Locked::<_>::new(BestHeap::new(entries)), entries),
                _ => timed(&Locked::<_, true>::new(BestHeap::new(entries)), entries),
            };
            taken.push(nanos as f64 / lived as f64);
        }
    }
    for (side, taken) in sides {
        print_line("life", side, entries, 1, taken);
    }
}
