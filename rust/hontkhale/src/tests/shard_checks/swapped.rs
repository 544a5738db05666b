//! What happens where a closure of `lend` swaps the states of two shards. It types. A call by name then waits for
//! ever where the state behind its lock is that of another shard.

use crate::tests::kit::Fail;
use super::calls::{ends, insert, polls};
use super::play::Letters;
use super::same;
use crate::core::{CoreError, Look};
use crate::shards::{Handle, HandlesOut, QueueConfig, QueueError, SharedDelayQueue, Totals};
use crate::ticks::Key;
use std::mem;

// Swaps the states of a shard of one queue and a shard of another.
fn swap(
    (one, shard): (&Letters, usize),
    (other, place): (&Letters, usize),
) -> Result<(), QueueError> {
    one.lend(shard, |state| {
        other.lend(place, |with| mem::swap(state, with))
    })?
}

// What an audit of a fresh queue tells.
const FRESH: Totals = Totals {
    inserted: 0,
    expired: 0,
    removed: 0,
    cancelled: 0,
    live: 0,
};

// What the one queue tells of an entry that stands in the other now, and what their audits tell.
fn stands_in_the_other(one: &Letters, other: &Letters, key: &Key) {
    let missing = QueueError::Core(CoreError::Missing);
    same("deadline", one.deadline(&key.entry()), Err(missing));
    same("deadline", other.deadline(&key.entry()), Ok(50));
    same("audit", one.audit(), Ok(FRESH));
    same("audit", other.audit(), Err(HandlesOut { out: 1 }));
}

fn go_on_swapped(
    one: &Letters,
    other: &Letters,
    handle: &mut Handle,
) -> Result<(), QueueError> {
    let key = insert(one, 0, 'a', 10)?;
    swap((one, 0), (other, 0))?;
    same("extend", handle.extend(&key, 50), Ok(50));
    stands_in_the_other(one, other, &key);
    polls(other, (0, 50), Ok((Some((key, 'a', 50)), None)));
    same("look", handle.look(&key), Ok(Look::LookExpired(50)));
    Ok(())
}

fn swaps_with_another(one: &Letters, other: &Letters) -> Result<(), Fail> {
    let mut handle = one.handle()?;
    go_on_swapped(one, other, &mut handle)?;
    let totals = Totals {
        inserted: 1,
        expired: 1,
        ..FRESH
    };
    ends(other, handle, totals);
    Ok(())
}

// A handle goes with the state that issued its callers: it reaches the entries where that state stands now. So one
// queue's audit tells totals while its handle is out, and the other's counts a handle that it never gave.
// promise: shards.made-very
#[test]
fn swapped_with_another_queue() -> Result<(), Fail> {
    let one: Letters = SharedDelayQueue::new(QueueConfig::of(1, 4))?;
    let other: Letters = SharedDelayQueue::new(QueueConfig::of(1, 4))?;
    swaps_with_another(&one, &other)
}

// Swaps the first two of three shards. The handle cancels the entry of one, and the queue goes on with the third.
fn goes_on(
    queue: &Letters,
    handle: &mut Handle,
) -> Result<(), QueueError> {
    let key = insert(queue, 0, 'a', 10)?;
    let third = insert(queue, 2, 'b', 20)?;
    swap((queue, 0), (queue, 1))?;
    same("extend", handle.extend(&key, 50), Ok(50));
    same("cancel", handle.cancel(&key), Ok(50));
    same("deadline", queue.deadline(&third.entry()), Ok(20));
    polls(queue, (3, 50), Err(QueueError::Unknown));
    Ok(())
}

fn swaps_within(queue: &Letters) -> Result<(), Fail> {
    let mut handle = queue.handle()?;
    goes_on(queue, &mut handle)?;
    same("give_back", handle.give_back(), 1);
    Ok(())
}

// Within one queue calls that name one of the two shards wait for ever from then on, so none answers of another
// shard. A handle takes no lock: it goes on, and so do the calls that name a third shard.
// promise: shards.made-very
#[test]
fn swapped_within_a_queue() -> Result<(), Fail> {
    let queue: Letters = SharedDelayQueue::new(QueueConfig::of(3, 1))?;
    swaps_within(&queue)
}

// Swaps the states of two shards, of which the first has an entry, and swaps them back.
fn swap_and_swap_back(queue: &Letters) {
    let seen = queue.lend(0, |state| {
        queue.lend(1, |with| {
            mem::swap(state, with);
            let seen = (state.shard(), state.len(), with.shard(), with.len());
            mem::swap(state, with);
            seen
        })
    });
    same("lend", seen, Ok(Ok((1, 0, 0, 1))));
}

fn swaps_there_and_back(queue: &Letters) -> Result<(), Fail> {
    let key = insert(queue, 0, 'a', 10)?;
    swap_and_swap_back(queue);
    same("deadline", queue.deadline(&key.entry()), Ok(10));
    polls(queue, (0, 10), Ok((Some((key, 'a', 10)), None)));
    polls(queue, (1, 10), Ok((None, None)));
    Ok(())
}

// Where the closure swaps the states back, calls go on as before.
// promise: shards.made-very
#[test]
fn swapped_there_and_back() -> Result<(), Fail> {
    let queue: Letters = SharedDelayQueue::new(QueueConfig::of(2, 1))?;
    swaps_there_and_back(&queue)
}
