//! One thread polls a shard in pieces, and another inserts into it meanwhile, or extends and cancels what hangs there.

use super::join;
use super::numbers::ROUNDS;
use super::Fail;
use hontkhale::parts::owner::{Key, Piece, Turn};
use hontkhale::parts::shards::{Handle, QueueConfig, SharedDelayQueue};
use std::hint;
use std::sync::atomic::{AtomicBool, Ordering};

type Boxes = SharedDelayQueue<Box<u64>>;

const ENTRIES: u64 = 200;

// No entry takes more steps than a level each and one more, and no arrival comes without one.
const MOST_WORKING: u64 = 20 * ENTRIES;

// What a thread saw that polls in pieces.
#[derive(Clone, Copy)]
struct Came {
    outs: u64,
    sum: u64,
    working: u64,
}

// Inserts the values from `first` on by name, in the order of their deadlines from 5000 on.
fn fill(queue: &Boxes, first: u64) -> u64 {
    let mut accepted = 0u64;
    for value in first..first + ENTRIES / 2 {
        if queue.insert(1, Box::new(value), value + 5000).is_ok() {
            accepted += 1;
        }
    }
    accepted
}

// Polls by one step a call, until all entries came or it was told Working too often.
fn drain(queue: &Boxes) -> Came {
    let mut came = Came {
        outs: 0,
        sum: 0,
        working: 0,
    };
    for _ in 0..100_000_000u64 {
        match queue.poll_some(1, 10_000, 1) {
            Ok(Piece::Working) => came.working = came.working.saturating_add(1),
            Ok(Piece::Answer(Turn::Out(out))) => {
                came.outs += 1;
                came.sum += *out.value;
            }
            Ok(Piece::Answer(_)) => {}
            Err(_) => return came,
        }
        if came.outs == ENTRIES || came.working > MOST_WORKING {
            return came;
        }
    }
    came
}

fn beside(queue: &Boxes) -> (Came, u64) {
    join(|| drain(queue), || fill(queue, ENTRIES / 2))
}

fn all_come(queue: &Boxes) -> Result<(), Fail> {
    assert_eq!(fill(queue, 0), 100, "insert");
    let (came, accepted) = beside(queue);
    assert_eq!(accepted, 100, "insert");
    assert_eq!((came.outs, came.sum), (200, 19_900), "poll_some");
    assert!(came.working <= MOST_WORKING, "{}", came.working);
    let tally = queue.tally(1)?;
    let counted = (tally.inserted, tally.expired, tally.linked);
    assert_eq!(counted, (200, 200, 0), "tally");
    assert!(queue.audit().is_ok(), "audit");
    Ok(())
}

// Each entry ends once: so many came, their values add up, and the shard counted each once.
// promise: shards.pieces-give
#[test]
fn a_thread_inserts_between_pieces() -> Result<(), Fail> {
    for _ in 0..ROUNDS {
        all_come(&SharedDelayQueue::new(QueueConfig::of(2, 256))?)?;
    }
    Ok(())
}

// The slot of a level above the lowest in which all entries wait, and how much later an extended one comes.
const OPENS: u64 = 4096;
const LATER: u64 = 1000;

// What came out of pieces of so many steps: how many came, and how many of them at an extended deadline.
fn drain_by(queue: &Boxes, steps: u32) -> (u64, u64) {
    let (mut outs, mut extended) = (0, 0);
    for _ in 0..100_000_000u64 {
        match queue.poll_some(0, 10_000, steps) {
            Ok(Piece::Working) => {}
            Ok(Piece::Answer(Turn::Out(out))) => {
                outs += 1;
                extended += u64::from(out.deadline >= OPENS + LATER);
            }
            Ok(Piece::Answer(Turn::Waiting { .. })) => {}
            Ok(Piece::Answer(Turn::Idle)) | Err(_) => return (outs, extended),
        }
    }
    (outs, extended)
}

// Extends each third entry, cancels the next of three, and leaves the last: how many it extended and cancelled.
fn change(handle: &mut Handle, keys: &[Key]) -> (u64, u64) {
    let (mut extends, mut cancels) = (0, 0);
    for three in keys.chunks(3) {
        extends += u64::from(handle.extend(&three[0], OPENS + LATER).is_ok());
        cancels += u64::from(three.get(1).is_some_and(|key| handle.cancel(key).is_ok()));
    }
    (extends, cancels)
}

// Between its look and its step a piece may meet an entry that was just extended or cancelled: it ends once all the same.
fn all_end_once(steps: u32) -> Result<(), Fail> {
    let queue: Boxes = SharedDelayQueue::new(QueueConfig::of(1, 256))?;
    let mut keys = Vec::new();
    for value in 0..ENTRIES {
        keys.push(queue.insert_or_drop(0, Box::new(value), OPENS + value % 2)?);
    }
    let (mut handle, begun) = (queue.handle()?, AtomicBool::new(false));
    let polled = || {
        begun.store(true, Ordering::SeqCst);
        drain_by(&queue, steps)
    };
    let changed = || {
        while !begun.load(Ordering::SeqCst) {
            hint::spin_loop();
        }
        change(&mut handle, &keys)
    };
    let ((outs, late), (extends, cancels)) = join(polled, changed);
    assert_eq!((outs + cancels, late), (ENTRIES, extends), "steps {steps}");
    assert_eq!(handle.give_back(), cancels, "give_back");
    let totals = queue.audit()?;
    let counted = (totals.expired, totals.cancelled, totals.live);
    assert_eq!(counted, (outs, cancels, 0), "audit");
    Ok(())
}

// promise: shards.pieces-give
#[test]
fn a_thread_extends_and_cancels_between_pieces() -> Result<(), Fail> {
    for _ in 0..ROUNDS {
        for steps in [1, 2, 3, 64] {
            all_end_once(steps)?;
        }
    }
    Ok(())
}
