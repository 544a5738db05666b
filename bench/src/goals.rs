//! `peers goals ENTRIES THREADS ROUNDS`: what the goals of the crate's `DelayQueue` compare, in turns. Each line has a goal, a side,
//! the entries of all shards, the threads, and of the rounds the median and the least nanoseconds an operation. `peers memory ENTRIES`
//! prints in the same way how many bytes of the process an entry takes, and what stays once all came out.

use std::fs;
use std::time::Duration;

use hontkhale::{DelayQueue, ManualClock};

use crate::plan::BURST;
use crate::product::Standing;
use crate::table::{unparks, wakes};
use crate::{rounds_of, Asked, Clocks, PausedClock, Timed, TurnedWithin};

const BARE: &str = "rust-checked-shards";
/// A goal, the row in which it is timed, and its sides. In the first row each thread has entries of its own.
const CALLS: [(&str, &str, &[&str]); 5] = [
    ("extend", "own-extend", &[BARE, "shards-at", "shards-now", "queue-at", "queue"]),
    ("insert", "insert", &[BARE, "shards-at", "shards-now", "queue-at", "queue", "queue-reserved"]),
    ("reset", "reset", &[BARE, "shards-at", "shards-now", "queue-at", "queue", "queue-reserved"]),
    ("remove", "remove", &[BARE, "queue-at", "queue-reserved"]),
    ("recv_many", "poll-burst", &[BARE, "shards-at", "queue-at", "queue-reserved"]),
];
const TIMEOUTS: &[&str] = &["delay-queue-locked", "adapter-handle"];
/// How often the wakes are taken, of which each is a median of many.
const WAKES: usize = 3;

/// Prints what the rounds of a goal's side took.
pub fn print_line(goal: &str, side: &str, entries: usize, threads: usize, mut taken: Vec<f64>) {
    taken.sort_by(f64::total_cmp);
    let (median, least) = (taken[taken.len() / 2], taken[0]);
    println!("{goal}\t{side}\t{entries}\t{threads}\t{median:.2}\t{least:.2}");
}

pub fn print(entries: usize, threads: usize, rounds: usize) {
    let line = |goal: &str, side: &str, taken| print_line(goal, side, entries, threads, taken);
    for (goal, row, sides) in CALLS {
        let row_name = format!("{row}/{threads}");
        for (side, taken) in in_turns(row_name, entries / threads, threads, rounds, sides) {
            line(goal, side, taken);
        }
    }
    // Several threads extend beside the owner's polls.
    let row = if threads == 1 { "mixed" } else { "callers" };
    for (side, taken) in in_turns(row.to_string(), entries, threads, rounds, TIMEOUTS) {
        line("timeouts", side, taken);
    }
    if threads > 1 {
        line("wake", "unpark", (0..WAKES).map(|_| unparks()).collect());
        line("wake", "queue", (0..WAKES).map(|_| wakes()).collect());
    }
}

/// The nanoseconds an operation of each round, by the side. The first side goes first in every other round.
fn in_turns(
    row_name: String,
    entries: usize,
    threads: usize,
    rounds: usize,
    sides: &[&'static str],
) -> Vec<(&'static str, Vec<f64>)> {
    let timed = Timed::read(&row_name).expect("a row");
    let asked = Asked { row_name, timed, entries, threads, rounds, peers: Vec::new() };
    let own: Vec<_> = sides.iter().map(|_| (PausedClock::new(), Standing::new())).collect();
    let clocks: Vec<_> =
        own.iter().map(|(paused, standing)| Clocks { paused, within: TurnedWithin(paused), standing }).collect();
    let sides = sides.iter().zip(&clocks);
    let mut sides: Vec<_> = sides.map(|(side, clocks)| (*side, rounds_of(&asked, side, clocks), Vec::new())).collect();
    for _ in 0..rounds {
        for (_, round, taken) in &mut sides {
            let sample = round();
            taken.push(sample.spent.as_nanos() as f64 / sample.operations as f64);
        }
        sides.reverse();
    }
    if rounds % 2 == 1 {
        sides.reverse();
    }
    sides.into_iter().map(|(side, _, taken)| (side, taken)).collect()
}

/// The bytes of the process that are in memory.
fn resident() -> f64 {
    let pages = fs::read_to_string("/proc/self/statm").expect("a kernel that tells");
    let pages = pages.split(' ').nth(1).and_then(|pages| pages.parse::<f64>().ok());
    pages.expect("a number of pages") * 4_096.0
}

/// A queue that grows from nothing until so many entries live, and gives its memory back as they come out.
pub fn print_memory(entries: usize) {
    let clock = ManualClock::new();
    let mut row = Vec::with_capacity(BURST);
    let before = resident();
    let queue = DelayQueue::builder().clock(&clock).build();
    for value in 0..entries as u64 {
        let after = Duration::from_millis(1 + value * 7_919 % 60_000);
        queue.insert(value, after).map_err(|refused| refused.kind()).expect("memory");
    }
    let full = (resident() - before) / entries as f64;
    clock.advance(Duration::from_secs(100));
    let mut left = entries;
    while left > 0 {
        left -= queue.recv_many(&mut row, BURST);
        row.clear();
    }
    let stays = (resident() - before) / entries as f64;
    // Beside the value, which takes 8 of them.
    println!("memory\tentry\t{entries}\t1\t{0:.2}\t{0:.2}", full - 8.0);
    println!("memory\tstays\t{entries}\t1\t{0:.2}\t{0:.2}", 100.0 * stays / full);
}
