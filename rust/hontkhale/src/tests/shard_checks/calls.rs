//! Calls that several files of tests make, each held against its answer.

use super::play::Letters;
use super::same;
use crate::core::Turn;
use crate::shards::{Handle, QueueError, SharedDelayQueue, Totals};
use crate::ticks::Key;
use std::fmt::Debug;

/// What a poll answers: the key, the value and the deadline of an entry that came out, or the tick that is waited
/// for. Neither is told where nothing is linked.
pub type Told<T> = (Option<(Key, T, u64)>, Option<u64>);

pub fn told<T: Copy>(turn: Turn<T>) -> Told<T> {
    match turn {
        Turn::Out(out) => (Some((out.key, out.value, out.deadline)), None),
        Turn::Waiting { next } => (None, Some(next)),
        Turn::Idle => (None, None),
    }
}

pub fn polls<T: Copy + PartialEq + Debug>(
    queue: &SharedDelayQueue<T>,
    (shard, tick): (usize, u64),
    answer: Result<Told<T>, QueueError>,
) {
    same("poll", queue.poll(shard, tick).map(told), answer);
}

pub fn insert(
    queue: &Letters,
    route: u64,
    value: char,
    when: u64,
) -> Result<Key, QueueError> {
    match queue.insert(route, value, when) {
        Ok(key) => Ok(key),
        Err((error, _)) => Err(error),
    }
}

/// The one handle that is out is given back, and an audit tells the totals then.
pub fn ends<T>(
    queue: &SharedDelayQueue<T>,
    handle: Handle,
    totals: Totals,
) {
    same("give_back", handle.give_back(), totals.cancelled);
    same("audit", queue.audit(), Ok(totals));
}
