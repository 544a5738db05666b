//! `peers queue ENTRIES THREADS ROUNDS`: the crate's `DelayQueue` beside what it is made of and beside its peers, in one table of
//! the median nanoseconds an operation. So many entries are in all shards together.

use std::sync::mpsc::channel;
use std::thread;
use std::time::{Duration, Instant};

use hontkhale::DelayQueue;

use crate::best::BestHeap;
use crate::erased_shards::ErasedShards;
use crate::product::{By, Product, Standing};
use crate::queue::Sharded;
use crate::rows::{Clock, NoClock};
use crate::shards::{Begun, Gone, Shards};
use crate::{mine_of, peers_of, rounds_of_shards, Asked, Clocks, PausedClock, Timed, TurnedWithin};

const ROWS: [&str; 12] = [
    "insert",
    "extend",
    "reset",
    "remove",
    "poll",
    "poll-burst",
    "insert+poll",
    "heartbeat",
    "churn",
    "fixed",
    "zipf",
    "requests",
];
const PEERS: [&str; 2] = ["heap-best-locked", "delay-queue-locked"];
/// How often a receiver is woken.
const WAKES: usize = 300;

fn median(mut taken: Vec<f64>) -> f64 {
    taken.sort_by(f64::total_cmp);
    taken[taken.len() / 2]
}

pub fn print(entries: usize, threads: usize, rounds: usize) {
    let shards = threads.max(2).max(entries.div_ceil(60_000));
    let timed = |row: &str| Timed::read(&format!("{row}/{shards}")).expect("a row of shards");
    let peers = [mine_of(timed("insert")), &PEERS[..]].concat();
    println!("{entries} entries in {shards} shards, {threads} threads: nanoseconds an operation\n");
    println!("| | {} |\n|---|{}", peers.join(" | "), "--:|".repeat(peers.len()));
    for row in ROWS {
        let row_name = format!("{row}/{shards}");
        let asked =
            Asked { row_name, timed: timed(row), entries: entries / shards, threads, rounds, peers: Vec::new() };
        let known = peers_of(asked.timed, asked.entries);
        let cells = peers.iter().map(|peer| match known.contains(peer) {
            true => format!("{:.1}", time_of(&asked, peer)),
            false => String::new(),
        });
        println!("| {row} | {} |", cells.collect::<Vec<_>>().join(" | "));
    }
    let handed = [
        hand_over(&Standing::new(), entries, threads, rounds),
        median((0..rounds).map(|_| handed(&ErasedShards::new(shards, entries), &NoClock, entries, threads)).collect()),
        median((0..rounds).map(|_| handed(&heaps(shards, entries), &NoClock, entries, threads)).collect()),
    ];
    let [queue, bare, heap] = handed.map(|cell| format!("{cell:.1}"));
    println!("\nInserted by {threads} threads and taken out by another: queue {queue}, shards {bare}, heap-best-locked {heap}");
    println!("An insert that is due wakes a receiver in {:.0}, an `unpark` in {:.0}", wakes(), unparks());
}

fn time_of(asked: &Asked, peer: &str) -> f64 {
    let (paused, standing) = (PausedClock::new(), Standing::new());
    let clocks = Clocks { paused: &paused, within: TurnedWithin(&paused), standing: &standing };
    let mut round = rounds_of_shards(asked, peer, &clocks);
    let taken = (0..asked.rounds).map(|_| {
        let sample = round();
        sample.spent.as_nanos() as f64 / sample.operations as f64
    });
    median(taken.collect())
}

fn heaps(shards: usize, entries: usize) -> Shards<BestHeap> {
    Shards::new((0..shards).map(|_| BestHeap::new(entries)))
}

fn hand_over(clock: &Standing, entries: usize, threads: usize, rounds: usize) -> f64 {
    let queue = Product::new(clock, threads.max(2), By::Duration, 0);
    median((0..rounds).map(|_| handed(&queue, clock, entries, threads)).collect())
}

/// What it takes from the first insert to the last take an entry, where so many threads insert what is due at once, and another
/// takes it out.
fn handed<S: Sharded>(queue: &S, clock: &dyn Clock, entries: usize, threads: usize) -> f64 {
    const TICK: u64 = 1_000;
    clock.moment(TICK);
    let (each, shards) = (entries / threads, queue.shards());
    let since = Instant::now();
    thread::scope(|scope| {
        for thread in 0..threads {
            scope.spawn(move || {
                for value in 0..each {
                    let begun = Begun { shard: (thread + value) % shards, value: value as u64, deadline: TICK };
                    queue.insert(&begun);
                }
            });
        }
        let mut gone = Gone::default();
        while gone.outs < (each * threads) as u64 {
            (0..shards).for_each(|shard| queue.poll_all(shard, TICK, &mut gone));
        }
    });
    since.elapsed().as_nanos() as f64 / (each * threads) as f64
}

/// Nanoseconds from an insert that is due to the receiver, which slept until a later one.
pub fn wakes() -> f64 {
    let queue = DelayQueue::new();
    let (tell, told) = channel();
    let receiver = queue.clone();
    let receives = thread::spawn(move || {
        while receiver.recv().is_some() {
            tell.send(Instant::now()).expect("somebody asks");
        }
    });
    queue.insert((), Duration::from_secs(1_000)).expect("memory");
    let taken = (0..WAKES).map(|_| {
        thread::sleep(Duration::from_millis(1));
        let since = Instant::now();
        queue.insert((), Duration::ZERO).expect("memory");
        (told.recv().expect("it is woken") - since).as_nanos() as f64
    });
    let taken = median(taken.collect());
    queue.close();
    receives.join().expect("the receiver ends");
    taken
}

/// The same by a bare `unpark`.
pub fn unparks() -> f64 {
    let (tell, told) = channel();
    let sleeps = thread::spawn(move || {
        for _ in 0..WAKES {
            thread::park();
            tell.send(Instant::now()).expect("somebody asks");
        }
    });
    let taken = (0..WAKES).map(|_| {
        thread::sleep(Duration::from_millis(1));
        let since = Instant::now();
        sleeps.thread().unpark();
        (told.recv().expect("it is woken") - since).as_nanos() as f64
    });
    let taken = median(taken.collect());
    sleeps.join().expect("the sleeper ends");
    taken
}
