//! A handle that extends, a handle that cancels and a poller, each in a thread of its own.

use super::join;
use super::numbers::{fill, Gate, Numbers, ENTRIES, ONE_AND_FOUR, ROUNDS};
use super::Fail;
use hontkhale::parts::owner::{Key, Turn};
use hontkhale::parts::shards::{Handle, QueueConfig, SharedDelayQueue, Totals};

// The tick at which each entry is due, extended or not.
const LATE: u64 = 2000;

// The deadline that a call answered, by the deadline that the entry was inserted with.
type Answers = [Option<u64>; ENTRIES + 1];

const NONE: Answers = [None; ENTRIES + 1];

// The key of the entry that was inserted with that deadline.
fn key_of(keys: &[Key], deadline: usize) -> Option<&Key> {
    keys.get(deadline.checked_sub(1)?)
}

// Extends each entry of an even deadline by 1,000.
fn extend_even(handle: &mut Handle, keys: &[Key], gate: &Gate, answers: &mut Answers) -> Option<()> {
    if !gate.pass(3) {
        return None;
    }
    for deadline in 1..=ENTRIES {
        if deadline % 2 == 0 {
            let key = key_of(keys, deadline)?;
            answers[deadline] = handle.extend(key, deadline as u64 + 1000).ok();
        }
    }
    Some(())
}

// Cancels each entry whose deadline is a multiple of 5.
fn cancel_fifths(handle: &mut Handle, keys: &[Key], gate: &Gate, answers: &mut Answers) -> Option<()> {
    if !gate.pass(3) {
        return None;
    }
    for deadline in 1..=ENTRIES {
        if deadline % 5 == 0 {
            answers[deadline] = handle.cancel(key_of(keys, deadline)?).ok();
        }
    }
    Some(())
}

// Polls a shard late until nothing is linked. None where it doesn't come to that, or an entry comes out too early.
fn poll_shard(queue: &Numbers, shard: usize, answers: &mut Answers) -> Option<()> {
    // Each poll takes an entry out, or ends the loop.
    for _ in 0..=ENTRIES {
        match queue.poll(shard, LATE).ok()? {
            Turn::Out(entry) if entry.value <= ENTRIES && entry.deadline <= entry.noted => {
                answers[entry.value] = Some(entry.deadline);
            }
            Turn::Idle => return Some(()),
            Turn::Out(_) | Turn::Waiting { .. } => return None,
        }
    }
    None
}

fn poll_all(queue: &Numbers, gate: &Gate, answers: &mut Answers) -> Option<()> {
    if !gate.pass(3) {
        return None;
    }
    for shard in 0..queue.shards() {
        poll_shard(queue, shard, answers)?;
    }
    Some(())
}

// Each thread's answers: those of the extends, the cancels and the polls.
struct Told {
    extended: Answers,
    cancelled: Answers,
    expired: Answers,
}

// Whether each of the three threads came to its end.
fn race(
    queue: &Numbers,
    handles: (&mut Handle, &mut Handle),
    keys: &[Key],
    told: &mut Told,
) -> ((Option<()>, Option<()>), Option<()>) {
    let gate = Gate::new();
    let (extender, canceller) = handles;
    let gate = &gate;
    let (extended, cancelled) = (&mut told.extended, &mut told.cancelled);
    let expired = &mut told.expired;
    join(
        || {
            join(
                || extend_even(extender, keys, gate, extended),
                || cancel_fifths(canceller, keys, gate, cancelled),
            )
        },
        || poll_all(queue, gate, expired),
    )
}

// An entry whose extend was accepted is due at what was asked. One whose cancel was accepted gave up the deadline at
// which it was due, and did not come out; each other one came out then.
fn agree(told: &Told) {
    for deadline in 1..=ENTRIES {
        let own = deadline as u64;
        let due = match told.extended[deadline] {
            Some(later) => later,
            None => own,
        };
        let answers = match told.cancelled[deadline] {
            Some(_) => (None, Some(due)),
            None => (Some(due), None),
        };
        let ends = (told.expired[deadline], told.cancelled[deadline]);
        assert!(due == own || due == own + 1000, "{deadline}");
        assert_eq!(ends, answers, "{deadline}");
    }
}

// The audit of the queue's 200 entries, of which so many were cancelled.
fn totals(cancelled: u64) -> Totals {
    Totals {
        inserted: 200,
        expired: 200u64.saturating_sub(cancelled),
        removed: 0,
        cancelled,
        live: 0,
    }
}

// One race over a full queue, and what is left of it.
fn races(queue: &Numbers, keys: &[Key]) -> Result<(), Fail> {
    let mut told = Told {
        extended: NONE,
        cancelled: NONE,
        expired: NONE,
    };
    let mut extender = queue.handle()?;
    let mut canceller = queue.handle()?;
    let handles = (&mut extender, &mut canceller);
    let ends = race(queue, handles, keys, &mut told);
    assert_eq!(ends, ((Some(()), Some(())), Some(())), "threads");
    let cancels = told.cancelled.iter().flatten().count() as u64;
    let given = (extender.give_back(), canceller.give_back());
    assert_eq!(given, (0, cancels), "give_back");
    assert_eq!(queue.audit(), Ok(totals(cancels)), "audit");
    agree(&told);
    Ok(())
}

fn races_afresh(config: QueueConfig) -> Result<(), Fail> {
    let queue = SharedDelayQueue::new(config)?;
    let keys = fill(&queue)?;
    races(&queue, &keys)
}

// promise: shards.200-entries
#[test]
fn extends_cancels_and_polls() -> Result<(), Fail> {
    for config in ONE_AND_FOUR {
        for _ in 0..ROUNDS {
            races_afresh(*config)?;
        }
    }
    Ok(())
}
