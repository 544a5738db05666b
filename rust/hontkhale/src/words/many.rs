//! A poll that takes out many entries, as the queues of shards make it under one lock.

use crate::core::{CoreError, DelayCore, Expired, Turn};
use crate::ticks::LAST_TICK;
use crate::words::keeper::Keeper;
use alloc::vec::Vec;

/// What a poll for many entries returns.
#[derive(Clone, Copy, Debug, PartialEq, Eq)]
pub enum ManyTurn {
    /// The row is full: more may be due.
    More,
    /// No more is due: there is nothing to do before the tick `next`.
    Waiting {
        /// The next wake of the wheel, a tick of one millisecond.
        next: u64,
    },
    /// Nothing is linked any more.
    Idle,
}

/// Polls at a tick of one millisecond until the row is full, or nothing is due. What comes out is put behind what
/// stands in the row, in order: as many as it has free room for. It takes no memory. A full row takes nothing out,
/// and no tick is noted then.
///
/// # Errors
/// TickTooLarge beyond the last tick. Nothing changes then.
#[inline]
pub fn poll_into<T>(
    queue: &mut DelayCore<T, Keeper>,
    tick: u64,
    row: &mut Vec<Expired<T>>,
) -> Result<ManyTurn, CoreError> {
    if tick > LAST_TICK {
        return Err(CoreError::TickTooLarge { limit: LAST_TICK });
    }
    for _place in row.len()..row.capacity() {
        match queue.poll_deferring(tick) {
            Ok(Turn::Out(expired)) => row.push(expired),
            Ok(Turn::Waiting { next }) => return Ok(ManyTurn::Waiting { next }),
            Ok(Turn::Idle) => return Ok(ManyTurn::Idle),
            Err(_) => unreachable!(),
        }
    }
    Ok(ManyTurn::More)
}
