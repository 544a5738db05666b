//! `peers fair ENTRIES ROUNDS`: what another thread's calls wait while a full slot is polled in pieces, for the lock as it is and
//! for ways to be fair that need no other lock. README.md says the runs in words.

use std::hint;
use std::sync::atomic::{AtomicBool, AtomicU64, Ordering};
use std::sync::{Mutex, MutexGuard};
use std::thread::{self, Thread};
use std::time::{Duration, Instant};

use hontkhale::parts::owner::{shared_queue, DelayCore, Keeper, Piece, Turn};

use crate::beside::{DEADLINE, LATER, OPENS};
use crate::through::print_by_name;

type Core = DelayCore<u64, Keeper>;

/// The steps of a piece.
pub const STEPS: u32 = 64;

/// The free slots of a queue that is polled.
pub const FREE: usize = 64;

/// How often a poller looks whether someone still waits, and a caller whether the lock is free, before each goes on.
const LOOKS: usize = 1_000;

/// How often a poller yields where someone waits.
const YIELDS: usize = 32;

/// How long a poller parks where nobody unparks it.
const PARKED: Duration = Duration::from_micros(100);

/// The nanoseconds between the calls of a calm thread.
pub const CALM: u64 = 20_000;

/// What a poller and a caller do beside taking the lock.
#[derive(Clone, Copy, Debug, PartialEq, Eq)]
enum Way {
    /// One poll under one lock.
    Whole,
    /// The lock alone.
    Lock,
    /// The poller yields after each piece.
    Yield,
    /// Each who wants the lock draws a ticket before, and takes the lock in the order of the tickets.
    Ticket,
    /// A caller that finds the lock held counts itself as waiting; the poller looks between pieces for a bounded while until nobody
    /// waits.
    Count,
    /// As `Count`, but the poller yields between its looks.
    CountYield,
    /// As `Count`, but the poller parks, and who waited unparks it.
    CountPark,
    /// As `Count`, but a caller tries the lock for a bounded while before it waits for it.
    CountTry,
    /// As `CountTry`, without a count: the poller takes its next piece at once.
    Try,
    /// As `CountTry`, and the poller tries the lock for a bounded while too: neither sleeps but for a third who holds it long.
    CountBoth,
}

const WAYS: [(&str, Way); 10] = [
    ("whole", Way::Whole),
    ("lock", Way::Lock),
    ("yield", Way::Yield),
    ("ticket", Way::Ticket),
    ("count", Way::Count),
    ("count-yield", Way::CountYield),
    ("count-park", Way::CountPark),
    ("count-try", Way::CountTry),
    ("try", Way::Try),
    ("count-both", Way::CountBoth),
];

/// How a queue lies behind its lock.
trait Kept: Send {
    fn new(core: Core) -> Self;
    fn core(&mut self) -> &mut Core;
}

/// Right behind the lock's word, in its line: who looks at the lock takes the line from who works under it.
struct Near(Core);

/// In lines of its own.
#[repr(align(128))]
struct Apart(Core);

impl Kept for Near {
    fn new(core: Core) -> Near {
        Near(core)
    }

    fn core(&mut self) -> &mut Core {
        &mut self.0
    }
}

impl Kept for Apart {
    fn new(core: Core) -> Apart {
        Apart(core)
    }

    fn core(&mut self) -> &mut Core {
        &mut self.0
    }
}

/// A queue behind a lock, with the words of all ways.
#[repr(align(128))]
struct Shard<K> {
    queue: Mutex<K>,
    waiting: AtomicU64,
    drawn: AtomicU64,
    served: AtomicU64,
}

impl<K: Kept> Shard<K> {
    /// A queue with some free slots, since one wears where the poller waits long. Its entries all lie in one slot of the wheel.
    fn filled(entries: usize) -> Shard<K> {
        let mut queue = shared_queue(entries).expect("a queue of that capacity");
        for value in FREE.min(entries / 2)..entries {
            let value = value as u64;
            queue.insert(value, DEADLINE).map_err(|refused| refused.0).expect("a slot is free");
        }
        let [waiting, drawn, served] = [0, 0, 0].map(AtomicU64::new);
        Shard { queue: Mutex::new(K::new(queue)), waiting, drawn, served }
    }

    fn lock(&self) -> MutexGuard<'_, K> {
        self.queue.lock().expect("no call panics under the lock")
    }

    /// Makes a call under the lock, in the order of the tickets.
    fn in_turn<R>(&self, call: impl FnOnce(&mut Core) -> R) -> R {
        let mine = self.drawn.fetch_add(1, Ordering::SeqCst);
        let mut looks = 0;
        while self.served.load(Ordering::SeqCst) != mine {
            looks += 1;
            if looks < LOOKS {
                hint::spin_loop();
            } else {
                thread::yield_now();
            }
        }
        let answer = call(self.lock().core());
        self.served.store(mine + 1, Ordering::SeqCst);
        answer
    }

    /// The lock, where it gets free within a bounded while.
    fn tried(&self, looks: usize) -> Option<MutexGuard<'_, K>> {
        for _ in 0..looks {
            if let Ok(guard) = self.queue.try_lock() {
                return Some(guard);
            }
            hint::spin_loop();
        }
        None
    }

    /// Makes a caller's call under the lock.
    fn call<R>(&self, way: Way, poller: &Thread, call: impl FnOnce(&mut Core) -> R) -> R {
        match way {
            Way::Whole | Way::Lock | Way::Yield => call(self.lock().core()),
            Way::Ticket => self.in_turn(call),
            Way::Try => call(self.tried(LOOKS).unwrap_or_else(|| self.lock()).core()),
            Way::Count | Way::CountYield | Way::CountPark | Way::CountTry | Way::CountBoth => {
                if let Some(mut guard) = self.tried(1) {
                    return call(guard.core());
                }
                self.waiting.fetch_add(1, Ordering::SeqCst);
                let looks = if matches!(way, Way::CountTry | Way::CountBoth) { LOOKS } else { 0 };
                let answer = call(self.tried(looks).unwrap_or_else(|| self.lock()).core());
                self.waiting.fetch_sub(1, Ordering::SeqCst);
                if way == Way::CountPark {
                    poller.unpark();
                }
                answer
            }
        }
    }

    /// One piece, or the whole poll: whether it has come to the end.
    fn is_at_end(&self, way: Way) -> bool {
        let piece = |queue: &mut Core| match way {
            Way::Whole => queue.poll(OPENS).map(Piece::Answer),
            _ => queue.poll_some(OPENS, STEPS),
        };
        let answer = match way {
            Way::Ticket => self.in_turn(piece),
            Way::CountBoth => piece(self.tried(LOOKS).unwrap_or_else(|| self.lock()).core()),
            _ => piece(self.lock().core()),
        };
        match answer.expect("the tick is in range") {
            Piece::Answer(Turn::Out(_)) => panic!("nothing is due yet"),
            Piece::Answer(_) => true,
            _ => false,
        }
    }

    /// What a poller does after a piece.
    fn give_way(&self, way: Way) {
        let waits = || self.waiting.load(Ordering::SeqCst) > 0;
        match way {
            Way::Whole | Way::Lock | Way::Ticket | Way::Try => {}
            Way::Yield => thread::yield_now(),
            Way::Count | Way::CountTry | Way::CountBoth => {
                (0..LOOKS).take_while(|_| waits()).for_each(|_| hint::spin_loop())
            }
            Way::CountYield => (0..YIELDS).take_while(|_| waits()).for_each(|_| thread::yield_now()),
            Way::CountPark => {
                if waits() {
                    thread::park_timeout(PARKED);
                }
            }
        }
    }
}

/// How another thread calls.
#[derive(Clone, Copy, Debug, PartialEq, Eq)]
pub enum Pace {
    /// No calls, so that the poll alone is timed.
    Absent,
    /// A call after the other.
    Rushed,
    /// A call every `CALM` nanoseconds.
    Calm,
}

pub const PACES: [(&str, Pace); 3] = [("absent", Pace::Absent), ("rushed", Pace::Rushed), ("calm", Pace::Calm)];

/// What came of some rounds: what each call of the other thread took, and each round's poll with all its pieces.
#[derive(Default)]
pub struct Told {
    pub calls: Vec<u64>,
    pub polls: Vec<u64>,
}

/// One round on a fresh queue: the poll begins once the other thread is under way, and the calls end with the poll.
fn run<K: Kept>(entries: usize, way: Way, pace: Pace, told: &mut Told) {
    let shard = Shard::<K>::filled(entries);
    let (begun, polled) = (AtomicBool::new(false), AtomicBool::new(false));
    let poller = thread::current();
    thread::scope(|scope| {
        let caller = scope.spawn(|| call_until(&shard, way, pace, &poller, &begun, &polled));
        while !begun.load(Ordering::SeqCst) {
            hint::spin_loop();
        }
        let since = Instant::now();
        while !shard.is_at_end(way) {
            shard.give_way(way);
        }
        told.polls.push(since.elapsed().as_nanos() as u64);
        polled.store(true, Ordering::SeqCst);
        told.calls.extend(caller.join().expect("the other thread ends"));
    });
}

/// Inserts an entry and removes it until the other thread has polled: what each of these calls took.
fn call_until<K: Kept>(
    shard: &Shard<K>,
    way: Way,
    pace: Pace,
    poller: &Thread,
    begun: &AtomicBool,
    polled: &AtomicBool,
) -> Vec<u64> {
    let mut taken = Vec::with_capacity(100_000);
    let mut next = Instant::now();
    begun.store(pace == Pace::Absent, Ordering::SeqCst);
    while pace != Pace::Absent && !polled.load(Ordering::SeqCst) {
        let since = Instant::now();
        let key = shard.call(way, poller, |queue| queue.insert(0, LATER).map_err(|refused| refused.0));
        let inserted = Instant::now();
        let key = key.expect("a slot is free");
        shard.call(way, poller, |queue| queue.remove(&key.entry()).expect("the entry is live"));
        if begun.swap(true, Ordering::SeqCst) {
            taken.extend([inserted - since, inserted.elapsed()].map(|call| call.as_nanos() as u64));
        }
        if pace == Pace::Calm {
            next += Duration::from_nanos(CALM);
            next = next.max(Instant::now());
            while Instant::now() < next && !polled.load(Ordering::SeqCst) {
                hint::spin_loop();
            }
        }
    }
    taken
}

/// The least number that so many of 1,000 are at most; of sorted ones.
fn share(sorted: &[u64], of_thousand: usize) -> u64 {
    let place = (sorted.len() * of_thousand).div_ceil(1_000).saturating_sub(1);
    sorted.get(place).copied().unwrap_or(0)
}

/// Prints a line for each way and each pace: the number of calls, what half, 99%, 99.9% and all of them take at most, and the median
/// of the polls.
pub fn print_ways(entries: usize, rounds: usize) {
    print_kept::<Near>("near", entries, rounds);
    print_kept::<Apart>("apart", entries, rounds);
    print_by_name(entries, rounds);
}

/// Prints the line of a way and a pace.
pub fn print_told(name: &str, row: &str, entries: usize, rounds: usize, mut told: Told) {
    told.calls.sort_unstable();
    told.polls.sort_unstable();
    let [half, most, nearly, every] = [500, 990, 999, 1_000].map(|of| share(&told.calls, of));
    let (calls, polls) = (told.calls.len(), share(&told.polls, 500));
    println!("{name} {row} {entries} 2 {rounds} {calls} {half} {most} {nearly} {every} {polls}");
}

fn print_kept<K: Kept>(kept: &str, entries: usize, rounds: usize) {
    for (pace_name, pace) in PACES {
        let mut all = WAYS.map(|_| Told::default());
        for _ in 0..rounds {
            for ((_, way), told) in WAYS.iter().zip(&mut all) {
                run::<K>(entries, *way, pace, told);
            }
        }
        for ((name, _), told) in WAYS.iter().zip(all) {
            print_told(name, &format!("fair-{kept}-{pace_name}"), entries, rounds, told);
        }
    }
    print_alone::<K>(kept);
}

/// The calls that are timed where nobody else calls.
pub const ALONE: u32 = 1_000_000;

/// Prints for each way what a call takes where nobody else calls: half of an insert and a remove.
fn print_alone<K: Kept>(kept: &str) {
    for (name, way) in WAYS {
        let shard = Shard::<K>::filled(1_000);
        let poller = thread::current();
        let mut least = u64::MAX;
        for _ in 0..5 {
            let since = Instant::now();
            for _ in 0..ALONE / 10 {
                let key = shard.call(way, &poller, |queue| queue.insert(0, LATER).map_err(|refused| refused.0));
                let key = key.expect("a slot is free");
                shard.call(way, &poller, |queue| queue.remove(&key.entry()).expect("the entry is live"));
            }
            least = least.min(since.elapsed().as_nanos() as u64);
        }
        println!("{name} fair-{kept}-alone 1000 1 5 {} {:.1}", ALONE / 10, least as f64 / f64::from(ALONE / 10) / 2.0);
    }
}

#[cfg(test)]
mod tests {
    use super::*;

    /// Each way comes to the end of the poll and answers every call beside it.
    #[test]
    fn each_way_polls_to_the_end() {
        for (_, way) in WAYS {
            for (_, pace) in PACES {
                let mut told = Told::default();
                run::<Apart>(1_000, way, pace, &mut told);
                assert_eq!(told.polls.len(), 1, "{way:?}");
            }
        }
    }

    /// No two threads are in a call at once, and none is left out, whatever they do before the lock.
    #[test]
    fn each_way_excludes_the_others() {
        const THREADS: u64 = 3;
        const CALLS: u64 = 200;
        for (_, way) in WAYS {
            let shard = Shard::<Near>::filled(1_000);
            let poller = thread::current();
            let most = AtomicU64::new(0);
            let within = AtomicU64::new(0);
            thread::scope(|scope| {
                for _ in 0..THREADS {
                    scope.spawn(|| {
                        for _ in 0..CALLS {
                            shard.call(way, &poller, |_| {
                                most.fetch_max(within.fetch_add(1, Ordering::SeqCst), Ordering::SeqCst);
                                within.fetch_sub(1, Ordering::SeqCst);
                            });
                        }
                    });
                }
            });
            assert_eq!(most.load(Ordering::SeqCst), 0, "{way:?}");
            assert_eq!(shard.waiting.load(Ordering::SeqCst), 0, "{way:?}");
        }
    }

    #[test]
    fn a_share_is_the_least_that_holds() {
        let sorted: Vec<u64> = (1..=1_000).collect();
        assert_eq!([500, 990, 999, 1_000].map(|of| share(&sorted, of)), [500, 990, 999, 1_000]);
        assert_eq!(share(&[], 500), 0);
        assert_eq!(share(&[7], 1), 7);
    }
}
