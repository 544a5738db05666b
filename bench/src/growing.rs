//! `peers growing ENTRIES ROUNDS`: the calls of a queue of one owner that grows and shrinks, over a store that tells when, while
//! so many entries stand, and what they take of memory. The queue stands with the tests of the crate, which drive it too.

// Its tests ask for more.
#[allow(dead_code)]
#[rustfmt::skip]
#[path = "../../rust/hontkhale/tests/growing/queue.rs"]
mod queue;

use std::hint::black_box;
use std::time::{Duration, Instant};

use hontkhale::parts::owner::{CoreError, Key, Turn, CAPACITY_LIMIT, LAST_STAMP};

use crate::plan::{SplitMix64, SEED};
use queue::{Growing, Sizes};

/// How many ticks ahead deadlines are at most.
const SPAN: u64 = 10_000;

/// How many deadlines are drawn before the time: a power of two, so that to go round takes no division.
const AHEAD: usize = 1 << 16;

/// The steps of a piece of a poll.
const PIECE: u32 = 64;

/// How many inserts are made from one `maintain` to the next.
const MAINTAINED: usize = 512;

/// How many calls of a row are timed that leave the queue as it is, or nearly so.
const CALLS: usize = 20_000;

const SIZES: Sizes = Sizes { least: 64, most: CAPACITY_LIMIT, last_stamp: LAST_STAMP };

/// A queue in which so many entries stand, and what is drawn for it.
struct Load {
    queue: Growing<u64>,
    now: u64,
    /// Drawn before the time: how far the deadlines are.
    ahead: Vec<u64>,
    drawn: usize,
}

impl Load {
    fn new() -> Load {
        let mut draws = SplitMix64::new(SEED);
        let ahead = (0..AHEAD).map(|_| 1 + draws.draw() % SPAN).collect();
        Load { queue: Growing::new(SIZES), now: 0, ahead, drawn: 0 }
    }

    fn filled(entries: usize) -> (Load, Vec<Key>) {
        let mut load = Load::new();
        let keys = (0..entries).map(|_| load.insert()).collect();
        (load, keys)
    }

    #[inline(always)]
    fn when(&mut self) -> u64 {
        self.drawn += 1;
        self.now + self.ahead[self.drawn % AHEAD]
    }

    #[inline(always)]
    fn insert(&mut self) -> Key {
        let when = self.when();
        if self.drawn.is_multiple_of(MAINTAINED) {
            self.queue.maintain();
        }
        match self.queue.insert(1, when) {
            Ok(key) => key,
            Err((error, _)) => panic!("{error}"),
        }
    }

    /// Lives of so many entries: what is due comes out, and as many go in.
    fn live(&mut self, entries: usize, lives: usize, poll: impl Poll) {
        let step = (SPAN / entries as u64).max(1);
        let mut lived = 0;
        while lived < lives {
            self.now += step;
            let before = lived;
            while let Ok(Turn::Out(expired)) = poll(&mut self.queue, self.now) {
                black_box(expired);
                lived += 1;
            }
            for _ in before..lived {
                black_box(self.insert());
            }
        }
    }
}

/// A poll of a queue at a tick.
trait Poll: Fn(&mut Growing<u64>, u64) -> Result<Turn<u64>, CoreError> {}

impl<P: Fn(&mut Growing<u64>, u64) -> Result<Turn<u64>, CoreError>> Poll for P {}

/// A row: what is timed, and how many calls that is.
type Row = (&'static str, fn(usize) -> (Duration, usize));

const ROWS: [Row; 7] = [
    ("loop", loops),
    ("life", |entries| lives(entries, |queue, tick| queue.poll(tick))),
    ("life-in-pieces", |entries| lives(entries, |queue, tick| queue.poll_in_pieces(tick, PIECE))),
    ("rest", rests),
    ("insert", inserts),
    ("reset", |entries| calls(entries, |load, key| load.resets(key))),
    ("remove", |entries| calls(entries, |load, key| load.removes(key))),
];

impl Load {
    #[inline(always)]
    fn resets(&mut self, key: &Key) {
        let when = self.when();
        black_box(self.queue.reset(&key.entry(), when).is_ok());
    }

    #[inline(always)]
    fn removes(&mut self, key: &Key) {
        black_box(self.queue.remove(&key.entry()).is_ok());
    }
}

fn timed(operations: usize, calls: impl FnOnce()) -> (Duration, usize) {
    let since = Instant::now();
    calls();
    (since.elapsed(), operations)
}

/// Three generations of entries come and go before the time.
fn lives(entries: usize, poll: impl Poll) -> (Duration, usize) {
    let (mut load, _) = Load::filled(entries);
    load.live(entries, 3 * entries, &poll);
    let count = entries.max(CALLS);
    timed(count, || load.live(entries, count, poll))
}

/// What the program itself takes of a life: the same loop over no queue, in which two entries in `SPAN` come out a tick.
fn loops(entries: usize) -> (Duration, usize) {
    let mut load = Load::new();
    let step = (SPAN / entries as u64).max(1);
    let due = (2 * step as usize * entries / SPAN as usize).max(1);
    let count = entries.max(CALLS);
    timed(count, || {
        for _ in 0..count / due {
            load.now += step;
            for expired in 0..black_box(due) {
                black_box(expired);
            }
            for _ in 0..black_box(due) {
                black_box((1, load.when(), load.drawn.is_multiple_of(MAINTAINED)));
            }
        }
    })
}

/// Polls with nothing due, in the cores that growing has left.
fn rests(entries: usize) -> (Duration, usize) {
    let (mut load, _) = Load::filled(entries);
    timed(CALLS, || {
        for _ in 0..CALLS {
            black_box(load.queue.poll(black_box(0)).is_ok());
        }
    })
}

fn inserts(entries: usize) -> (Duration, usize) {
    let (mut load, _) = Load::filled(entries);
    let count = entries.min(CALLS);
    timed(count, || {
        for _ in 0..count {
            black_box(load.insert());
        }
    })
}

/// Calls of entries in a drawn order.
fn calls(entries: usize, call: impl Fn(&mut Load, &Key)) -> (Duration, usize) {
    let (mut load, keys) = Load::filled(entries);
    let count = entries.min(CALLS);
    let keys: Vec<Key> = SplitMix64::new(SEED).shuffled(entries).into_iter().take(count).map(|at| keys[at]).collect();
    timed(count, || keys.iter().for_each(|key| call(&mut load, key)))
}

/// How long an insert takes while the queue grows to so many entries: the longest of the least of some runs of each.
fn longest_insert(entries: usize, runs: usize) -> u64 {
    let mut least = vec![u64::MAX; entries];
    for _ in 0..runs {
        let mut load = Load::new();
        for (number, least) in least.iter_mut().enumerate() {
            if number % MAINTAINED == 0 {
                load.queue.maintain();
            }
            let when = load.when();
            let since = Instant::now();
            let key = load.queue.insert(1, when);
            *least = (*least).min(since.elapsed().as_nanos() as u64);
            assert!(key.is_ok());
        }
    }
    least.into_iter().max().unwrap_or(0)
}

/// Prints for each row and round the nanoseconds and the calls; how many cores the growing leaves; and of several runs the
/// nanoseconds of the longest insert.
pub fn print_rounds(entries: usize, rounds: usize) {
    for round in 1..=rounds {
        for (name, row) in ROWS {
            let (spent, operations) = row(entries);
            println!("growing {name} {entries} 1 {round} {} {operations}", spent.as_nanos());
        }
    }
    println!("growing cores {entries} 1 {rounds} 0 {}", Load::filled(entries).0.queue.count());
    if rounds > 1 {
        println!("growing longest-insert {entries} 1 {rounds} {} 1", longest_insert(entries, rounds));
    }
}
