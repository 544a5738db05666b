//! A refused handle gives back what it was issued.

use crate::tests::kit::Fail;
use super::play::Letters;
use super::same;
use crate::shards::{QueueConfig, QueueError, SharedDelayQueue};
use crate::words::{Caller, WordsError};

fn is_at_the_limit(queue: &Letters) {
    let too_many = QueueError::TooManyHandles { limit: 1024 };
    same("handle", queue.handle().err(), Some(too_many));
}

/// The callers of a shard that are out.
pub fn out(queue: &Letters, shard: usize) -> Result<u64, QueueError> {
    queue.lend(shard, |state| state.out())
}

// What a shard answers that is asked for a caller.
fn issued(
    queue: &Letters,
    shard: usize,
) -> Result<Result<Caller, WordsError>, QueueError> {
    queue.lend(shard, |state| state.issue())
}

// Issues so many callers in a shard and gives each back.
fn issue_callers(queue: &Letters, shard: usize, count: u64) -> Result<(), Fail> {
    for _ in 0..count {
        let _cancels = issued(queue, shard)??.give_back();
    }
    Ok(())
}

// Whether a shard issues no caller more.
fn issues_nothing(queue: &Letters, shard: usize) -> Result<bool, QueueError> {
    Ok(issued(queue, shard)?.is_err())
}

// Of three shards, each of which has one caller out.
fn refused_handles_give_back(queue: &Letters) {
    for _ in 1..1024 {
        is_at_the_limit(queue);
    }
    for shard in 0..3 {
        same(shard, out(queue, shard), Ok(1));
    }
    same("issue", issues_nothing(queue, 0), Ok(true));
}

fn refuses_handles(queue: &Letters) -> Result<(), Fail> {
    let handle = queue.handle()?;
    let filled = issue_callers(queue, 2, 1023);
    refused_handles_give_back(queue);
    same("give_back", handle.give_back(), 0);
    same("audit", queue.audit().is_ok(), true);
    filled
}

// Fails where a refused `handle` keeps what it issued (handle_keeps_what_it_issued): what it issued in the shards
// before stays counted as issued, but isn't out.
// promise: shards.callers-issued
#[test]
fn refused_handle_gives_back() -> Result<(), Fail> {
    let queue: Letters = SharedDelayQueue::new(QueueConfig::of(3, 1))?;
    refuses_handles(&queue)
}
