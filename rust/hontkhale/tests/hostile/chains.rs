//! Threads that wait for one another's extends.

use super::join;
use super::numbers::{insert, pause, Gate, Numbers, ONE_AND_FOUR, TURNS};
use super::Fail;
use hontkhale::parts::owner::{Key, Look};
use hontkhale::parts::shards::{Handle, QueueError, SharedDelayQueue};

// The extends of each of the two threads at an entry.
const LINKS: u64 = 200;

// Looks until an entry is live at a deadline. False where it gives up.
fn sees(handle: &mut Handle, key: &Key, deadline: u64) -> bool {
    for turn in 0..TURNS {
        if handle.look(key) == Ok(Look::StillLive(deadline)) {
            return true;
        }
        pause(turn);
    }
    false
}

fn extends(handle: &mut Handle, key: &Key, deadline: u64) -> bool {
    handle.extend(key, deadline) == Ok(deadline)
}

// Goes first in a chain of extends: extends to 50 and waits for 60, then to 70 and waits for 80, and so on.
fn goes_first(handle: &mut Handle, key: &Key, links: u64) -> bool {
    let mut deadline = 50u64;
    for _ in 0..links {
        let next = deadline + 10;
        if !extends(handle, key, deadline) || !sees(handle, key, next) {
            return false;
        }
        deadline = next + 10;
    }
    true
}

// Goes second: waits for 50 and extends to 60, then waits for 70 and extends to 80, and so on.
fn goes_second(handle: &mut Handle, key: &Key, links: u64) -> bool {
    let mut deadline = 50u64;
    for _ in 0..links {
        let next = deadline + 10;
        if !sees(handle, key, deadline) || !extends(handle, key, next) {
            return false;
        }
        deadline = next + 10;
    }
    true
}

fn both_go(first: &mut Handle, second: &mut Handle, key: &Key, links: u64) -> (bool, bool) {
    join(|| goes_first(first, key, links), || goes_second(second, key, links))
}

fn chain(queue: &Numbers, shard: usize, links: u64) -> Result<(), Fail> {
    let key = insert(queue, shard, 10)?;
    let mut first = queue.handle()?;
    let mut second = queue.handle()?;
    let went = both_go(&mut first, &mut second, &key, links);
    assert_eq!(went, (true, true), "{shard}");
    Ok(())
}

fn chains(queue: &Numbers, links: u64) -> Result<(), Fail> {
    for shard in 0..queue.shards() {
        chain(queue, shard, links)?;
    }
    Ok(())
}

// A body that runs the two threads one after the other gives up.
// promise: shards.two-handles
#[test]
fn chain_of_extends() -> Result<(), Fail> {
    for config in ONE_AND_FOUR {
        chains(&SharedDelayQueue::new(*config)?, LINKS)?;
    }
    Ok(())
}

// Holds a shard's lock until a handle's calls there are answered. False where it gives up.
fn holds(queue: &Numbers, shard: usize, held: &Gate, answered: &Gate) -> Result<bool, QueueError> {
    queue.lend(shard, |_state| {
        held.come();
        answered.opens_at(1)
    })
}

// Makes each of a handle's calls while the key's shard is held. No `Wait` in its signature: it takes no lock.
fn calls(handle: &mut Handle, key: &Key, held: &Gate, answered: &Gate) -> bool {
    let is_answered = held.opens_at(1)
        && handle.extend(key, 50) == Ok(50)
        && handle.look(key) == Ok(Look::StillLive(50))
        && handle.cancel(key) == Ok(50);
    if is_answered {
        answered.come();
    }
    is_answered
}

fn calls_beside_holder(queue: &Numbers, handle: &mut Handle, key: &Key) -> (Result<bool, QueueError>, bool) {
    let (held, answered) = (Gate::new(), Gate::new());
    let (held, answered) = (&held, &answered);
    let shard = key.entry().shard() as usize;
    join(
        || holds(queue, shard, held, answered),
        || calls(handle, key, held, answered),
    )
}

fn in_each_shard(queue: &Numbers) -> Result<(), Fail> {
    let mut handle = queue.handle()?;
    for shard in 0..queue.shards() {
        let key = insert(queue, shard, 10)?;
        let answers = calls_beside_holder(queue, &mut handle, &key);
        assert_eq!(answers, (Ok(true), true), "{shard}");
    }
    assert_eq!(handle.give_back(), queue.shards() as u64, "give_back");
    Ok(())
}

// An extend that takes the shard's lock (extend_takes_lock) gets no answer here: `calls` has no `Wait` to give it, and
// one that found a lock elsewhere would wait for the holder, which waits for the answer and gives up.
// promise: shards.two-handles
#[test]
fn handle_calls_while_the_shard_is_held() -> Result<(), Fail> {
    for config in ONE_AND_FOUR {
        in_each_shard(&SharedDelayQueue::new(*config)?)?;
    }
    Ok(())
}
