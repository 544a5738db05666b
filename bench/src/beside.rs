//! `peers beside ENTRIES ROUNDS`: a thread polls a full slot of a shard, whole or in pieces, while another inserts there. README.md
//! says the runs in words.

use std::hint;
use std::sync::atomic::{AtomicBool, Ordering};
use std::thread;
use std::time::Instant;

use hontkhale::parts::owner::{Piece, Turn};
use hontkhale::parts::shards::{QueueConfig, SharedDelayQueue};

/// The steps of a piece, by the names of the ways to poll.
const WAYS: [(&str, Option<u32>); 4] =
    [("whole", None), ("pieces-16", Some(16)), ("pieces-64", Some(64)), ("pieces-256", Some(256))];

/// The tick at whose poll the slot of all entries opens, and a deadline in it: the slots there have 4,096 ticks.
pub const OPENS: u64 = 4_096 * 16;
pub const DEADLINE: u64 = OPENS + 2_048;

/// The deadline of what the other thread inserts.
pub const LATER: u64 = 1 << 30;

/// The nanoseconds of a run: the poller's longest call and all of them, and beside it the longest insert or remove, whichever
/// met a longer poll; and how many inserts there were.
#[derive(Clone, Copy, Debug)]
pub struct Beside {
    pub longest_poll: u64,
    pub polls: u64,
    pub longest_beside: u64,
    pub inserts: u64,
}

/// Prints a line for each way to poll and each round.
pub fn print_rounds(entries: usize, rounds: usize) {
    for round in 1..=rounds {
        for (name, most) in WAYS {
            let Beside { longest_poll, polls, longest_beside, inserts } = run(entries, most);
            println!("{name} beside {entries} 2 {round} {longest_poll} {polls} {longest_beside} {inserts}");
        }
    }
}

/// A queue of one shard with one free slot, whose other entries all lie in one slot of the wheel.
fn filled(entries: usize) -> SharedDelayQueue<u64> {
    let queue = SharedDelayQueue::new(QueueConfig::of(1, entries)).expect("a queue of that capacity");
    for value in 1..entries as u64 {
        queue.insert_or_drop(0, value, DEADLINE).expect("a slot is free");
    }
    queue
}

/// The inserts that the other thread makes first, so that it is under way when the poll begins; they aren't counted.
const FIRST: u64 = 100;

/// One run on a fresh queue. The poll begins once the other thread is under way, and the inserts end with the poll.
pub fn run(entries: usize, most: Option<u32>) -> Beside {
    let queue = filled(entries);
    let (begun, polled) = (AtomicBool::new(false), AtomicBool::new(false));
    thread::scope(|scope| {
        let inserter = scope.spawn(|| insert_until(&queue, &begun, &polled));
        let (longest_poll, polls) = poll(&queue, most, &begun);
        polled.store(true, Ordering::SeqCst);
        let (longest_beside, inserts) = inserter.join().expect("the other thread ends");
        Beside { longest_poll, polls, longest_beside, inserts }
    })
}

/// One call of a poll, whole or of so many steps: whether it has come to the end.
fn is_at_end(queue: &SharedDelayQueue<u64>, most: Option<u32>) -> bool {
    let answer = match most {
        None => queue.poll(0, OPENS).map(Piece::Answer),
        Some(most) => queue.poll_some(0, OPENS, most),
    };
    match answer.expect("the tick is in range") {
        Piece::Answer(Turn::Out(_)) => panic!("nothing is due yet"),
        Piece::Answer(_) => true,
        _ => false,
    }
}

/// Polls to the end, and lets others run between the calls: the longest call, and all of them.
fn poll(queue: &SharedDelayQueue<u64>, most: Option<u32>, begun: &AtomicBool) -> (u64, u64) {
    while !begun.load(Ordering::SeqCst) {
        hint::spin_loop();
    }
    let (mut longest, mut all) = (0, 0);
    loop {
        let since = Instant::now();
        let ended = is_at_end(queue, most);
        let spent = since.elapsed().as_nanos() as u64;
        longest = longest.max(spent);
        all += spent;
        if ended {
            return (longest, all);
        }
        thread::yield_now();
    }
}

/// Inserts an entry and removes it until the other thread has polled: the longest of these calls, and the number of inserts.
fn insert_until(queue: &SharedDelayQueue<u64>, begun: &AtomicBool, polled: &AtomicBool) -> (u64, u64) {
    for value in 0..FIRST {
        let key = queue.insert_or_drop(0, value, LATER).expect("a slot is free");
        queue.remove(&key.entry()).expect("the entry is live");
    }
    begun.store(true, Ordering::SeqCst);
    let (mut longest, mut inserts) = (0, 0);
    while !polled.load(Ordering::SeqCst) {
        let since = Instant::now();
        let key = queue.insert_or_drop(0, inserts, LATER).expect("a slot is free");
        let inserted = Instant::now();
        queue.remove(&key.entry()).expect("the entry is live");
        let calls = [inserted - since, inserted.elapsed()];
        longest = calls.iter().fold(longest, |longest, call| longest.max(call.as_nanos() as u64));
        inserts += 1;
    }
    (longest, inserts)
}

#[cfg(test)]
mod tests {
    use super::*;

    /// The slot is full, so a whole poll is one call, and pieces are as many as their steps say at the least.
    #[test]
    fn a_full_slot_is_polled_in_pieces() {
        let entries = 1_000;
        for (_, most) in WAYS {
            let queue = filled(entries);
            let mut calls = 1;
            while !is_at_end(&queue, most) {
                calls += 1;
            }
            assert!(calls >= most.map_or(1, |most| (entries - 1) / most as usize), "{most:?} took {calls} calls");
            assert_eq!(calls == 1, most.is_none());
            run(entries, most);
        }
    }
}
