//! What another thread's inserts and removes by name wait while a full slot is polled by name, of the shared queue: whole, in
//! pieces one after the other, and by the call that gives way between its pieces. The rows stand beside those of `fair.rs`, whose
//! paces they have.

use std::hint;
use std::num::NonZeroU32;
use std::sync::atomic::{AtomicBool, Ordering};
use std::thread;
use std::time::{Duration, Instant};

use hontkhale::parts::owner::{Piece, Turn};
use hontkhale::parts::shards::{QueueConfig, SharedDelayQueue};

use crate::beside::{DEADLINE, LATER, OPENS};
use crate::fair::{print_told, Pace, Told, ALONE, CALM, FREE, PACES, STEPS};

/// What the rows are called.
const ROW: &str = "fair-name";

type Queue = SharedDelayQueue<u64>;

const IN_RANGE: &str = "the shard and the tick are in range";

/// How the slot is polled.
#[derive(Clone, Copy, Debug)]
enum Way {
    Whole,
    /// In pieces, each of which takes the lock at once.
    Pieces,
    /// In pieces, between which the poller gives way.
    Through,
}

const WAYS: [(&str, Way); 3] = [("whole", Way::Whole), ("pieces", Way::Pieces), ("through", Way::Through)];

/// A queue whose first shard has some free slots, since one wears where the poller waits long. Its entries all lie in one slot.
fn filled(entries: usize) -> Queue {
    let queue = Queue::new(QueueConfig::of(1, entries)).expect("a queue of that capacity");
    for value in FREE.min(entries / 2)..entries {
        queue.insert_or_drop(0, value as u64, DEADLINE).expect("a slot is free");
    }
    queue
}

/// Polls to the end: the slot opens, and nothing is due yet.
fn poll(queue: &Queue, way: Way) {
    let steps = NonZeroU32::new(STEPS).expect("there are steps");
    let turn = match way {
        Way::Whole => queue.poll(0, OPENS).expect(IN_RANGE),
        Way::Through => queue.poll_through(0, OPENS, steps).expect(IN_RANGE),
        Way::Pieces => loop {
            if let Piece::Answer(turn) = queue.poll_some(0, OPENS, STEPS).expect(IN_RANGE) {
                break turn;
            }
        },
    };
    assert!(matches!(turn, Turn::Waiting { .. }), "the slot opens and nothing is due yet");
}

/// One round on a fresh queue: the poll begins once the other thread is under way, and the calls end with the poll.
fn run(entries: usize, way: Way, pace: Pace, told: &mut Told) {
    let queue = filled(entries);
    let (begun, polled) = (AtomicBool::new(false), AtomicBool::new(false));
    thread::scope(|scope| {
        let caller = scope.spawn(|| call_until(&queue, pace, &begun, &polled));
        while !begun.load(Ordering::SeqCst) {
            hint::spin_loop();
        }
        let since = Instant::now();
        poll(&queue, way);
        told.polls.push(since.elapsed().as_nanos() as u64);
        polled.store(true, Ordering::SeqCst);
        told.calls.extend(caller.join().expect("the other thread ends"));
    });
}

/// Inserts an entry and removes it until the other thread has polled: what each of these calls took.
fn call_until(queue: &Queue, pace: Pace, begun: &AtomicBool, polled: &AtomicBool) -> Vec<u64> {
    let mut taken = Vec::with_capacity(100_000);
    let mut next = Instant::now();
    begun.store(pace == Pace::Absent, Ordering::SeqCst);
    while pace != Pace::Absent && !polled.load(Ordering::SeqCst) {
        let since = Instant::now();
        let entry = queue.insert_or_drop(0, 0, LATER).expect("a slot is free").entry();
        let inserted = Instant::now();
        queue.remove(&entry).expect("the entry is live");
        if begun.swap(true, Ordering::SeqCst) {
            taken.extend([inserted - since, inserted.elapsed()].map(|call| call.as_nanos() as u64));
        }
        if pace == Pace::Calm {
            next = (next + Duration::from_nanos(CALM)).max(Instant::now());
            while Instant::now() < next && !polled.load(Ordering::SeqCst) {
                hint::spin_loop();
            }
        }
    }
    taken
}

/// Prints a line for each way and each pace, as `fair::print_ways` does.
pub fn print_by_name(entries: usize, rounds: usize) {
    for (pace_name, pace) in PACES {
        let mut all = WAYS.map(|_| Told::default());
        for _ in 0..rounds {
            for ((_, way), told) in WAYS.iter().zip(&mut all) {
                run(entries, *way, pace, told);
            }
        }
        for ((name, _), told) in WAYS.iter().zip(all) {
            print_told(name, &format!("{}-{pace_name}", ROW), entries, rounds, told);
        }
    }
    print_alone();
}

/// Prints what a call by name takes where nobody else calls: half of an insert and a remove. It is one for all ways.
fn print_alone() {
    let queue = filled(1_000);
    let mut least = u64::MAX;
    for _ in 0..5 {
        let since = Instant::now();
        for _ in 0..ALONE / 10 {
            let entry = queue.insert_or_drop(0, 0, LATER).expect("a slot is free").entry();
            queue.remove(&entry).expect("the entry is live");
        }
        least = least.min(since.elapsed().as_nanos() as u64);
    }
    for (name, _) in WAYS {
        println!("{name} {}-alone 1000 1 5 {} {:.1}", ROW, ALONE / 10, least as f64 / f64::from(ALONE / 10) / 2.0);
    }
}

#[cfg(test)]
mod tests {
    use super::*;

    /// Each way comes to the end of the poll beside each pace.
    #[test]
    fn each_way_by_name_polls_to_the_end() {
        for (_, way) in WAYS {
            for (_, pace) in PACES {
                let mut told = Told::default();
                run(1_000, way, pace, &mut told);
                assert_eq!(told.polls.len(), 1, "{way:?}");
            }
        }
    }
}
