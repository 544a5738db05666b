//! A handle that cancels all, beside a thread that clears, sweeps or resets.

use super::join;
use super::numbers::{fill, Gate, Numbers, ONE_AND_FOUR, ROUNDS, TURNS};
use super::Fail;
use hontkhale::parts::owner::Key;
use hontkhale::parts::shards::{Handle, QueueConfig, QueueError, SharedDelayQueue, Totals};

// How many cancels of those keys are accepted. None where no other thread comes.
fn cancel_all(handle: &mut Handle, keys: &[Key], gate: &Gate) -> Option<u64> {
    if !gate.pass(2) {
        return None;
    }
    let mut cancelled = 0u64;
    for key in keys {
        if handle.cancel(key).is_ok() {
            cancelled += 1;
        }
    }
    Some(cancelled)
}

// How many entries of all shards a clear ends as removed.
fn clear_all(queue: &Numbers, gate: &Gate) -> Option<u64> {
    if !gate.pass(2) {
        return None;
    }
    let mut removed = 0u64;
    for shard in 0..queue.shards() {
        removed = removed.saturating_add(queue.clear(shard).ok()? as u64);
    }
    Some(removed)
}

fn is_empty(queue: &Numbers, shard: usize) -> Result<bool, QueueError> {
    queue.lend(shard, |state| state.is_empty())
}

// Sweeps each shard until nothing is linked there, and answers how many entries were reaped.
fn sweep_all(queue: &Numbers, gate: &Gate) -> Option<u64> {
    if !gate.pass(2) {
        return None;
    }
    let mut reaped = 0u64;
    for shard in 0..queue.shards() {
        reaped += sweep_until_empty(queue, shard)?;
    }
    Some(reaped)
}

fn sweep_until_empty(queue: &Numbers, shard: usize) -> Option<u64> {
    let mut reaped = 0u64;
    for _ in 0..TURNS {
        reaped = reaped.saturating_add(queue.sweep(shard).ok()? as u64);
        if is_empty(queue, shard).ok()? {
            return Some(reaped);
        }
    }
    None
}

// How many entries are reset to a later deadline.
fn reset_all(queue: &Numbers, keys: &[Key], gate: &Gate) -> Option<u64> {
    if !gate.pass(2) {
        return None;
    }
    let mut renewed = 0u64;
    for key in keys {
        if queue.reset(&key.entry(), 1000).is_ok() {
            renewed += 1;
        }
    }
    Some(renewed)
}

// The totals of 200 entries, of which none came out.
fn totals(removed: u64, cancelled: u64, live: u64) -> Totals {
    Totals {
        inserted: 200,
        expired: 0,
        removed,
        cancelled,
        live,
    }
}

// What is done to the entries beside the handle.
#[derive(Clone, Copy)]
enum Other {
    Clears,
    Sweeps,
    Resets,
}

impl Other {
    fn works(self, queue: &Numbers, keys: &[Key], gate: &Gate) -> Option<u64> {
        match self {
            Other::Clears => clear_all(queue, gate),
            Other::Sweeps => sweep_all(queue, gate),
            Other::Resets => reset_all(queue, keys, gate),
        }
    }

    // How many calls of both are accepted, how many of the other's, and the totals behind them. A sweep reaps each
    // cancelled entry; else one call is accepted for each entry.
    fn outcome(self, cancelled: u64, others: u64) -> (u64, u64, Totals) {
        match self {
            Other::Clears => (200, others, totals(others, cancelled, 0)),
            Other::Sweeps => (400, 200, totals(0, 200, 0)),
            Other::Resets => (200, others, totals(0, cancelled, others)),
        }
    }
}

// What the handle and the other thread answer.
fn race(queue: &Numbers, handle: &mut Handle, keys: &[Key], other: Other) -> (Option<u64>, Option<u64>) {
    let gate = Gate::new();
    let gate = &gate;
    join(|| cancel_all(handle, keys, gate), || other.works(queue, keys, gate))
}

// A race over a full queue, and what is left of it.
fn races(queue: &Numbers, keys: &[Key], other: Other) -> Result<(), Fail> {
    let mut handle = queue.handle()?;
    let (cancelled, others) = race(queue, &mut handle, keys, other);
    assert_eq!(Some(handle.give_back()), cancelled, "give_back");
    let (Some(cancelled), Some(others)) = (cancelled, others) else {
        return Err(Fail::from("a thread gave up"));
    };
    let accepted = cancelled.saturating_add(others);
    let answers = (accepted, others, queue.audit()?);
    assert_eq!(answers, other.outcome(cancelled, others), "race");
    Ok(())
}

fn races_afresh(config: QueueConfig, other: Other) -> Result<(), Fail> {
    let queue = SharedDelayQueue::new(config)?;
    let keys = fill(&queue)?;
    races(&queue, &keys, other)
}

fn rounds(other: Other) -> Result<(), Fail> {
    for config in ONE_AND_FOUR {
        for _ in 0..ROUNDS {
            races_afresh(*config, other)?;
        }
    }
    Ok(())
}

// promise: shards.entry-ends
#[test]
fn cancels_against_clear() -> Result<(), Fail> {
    rounds(Other::Clears)
}

// promise: shards.entry-ends
#[test]
fn cancels_against_sweep() -> Result<(), Fail> {
    rounds(Other::Sweeps)
}

// Of an entry's reset and the cancel by its first key one is accepted: a cancelled entry isn't reset, and the key of a
// reset one is stale.
// promise: shards.entry-ends
#[test]
fn cancels_against_resets() -> Result<(), Fail> {
    rounds(Other::Resets)
}
