//! A slot whose stamps come to their end.

use super::numbers::{insert, made, Numbers};
use super::Fail;
use hontkhale::parts::owner::{CallError, CoreError, Key, Look, Turn};
use hontkhale::parts::shards::{Handle, QueueConfig, QueueError, ShardState};

// What a new entry is refused with where the one slot is worn.
const FULL: QueueError = QueueError::Core(CoreError::Full { linked: 0, worn: 1 });

const WORN: QueueError = QueueError::Core(CoreError::Worn);

// One shard of one slot.
fn config(last_stamp: u32) -> QueueConfig {
    QueueConfig {
        shards: 1,
        capacity: 1,
        last_stamp,
    }
}

// The key and the deadline of what comes out at a tick.
fn out_at(queue: &Numbers, tick: u64) -> Option<(Key, u64)> {
    match queue.poll(0, tick) {
        Ok(Turn::Out(out)) => Some((out.key, out.deadline)),
        _ => None,
    }
}

// The last of two stamps is out, and the slot is worn.
fn wears_out(queue: &Numbers, handle: &mut Handle) -> Result<(), Fail> {
    let first = insert(queue, 0, 1)?;
    assert_eq!(first.stamp(), 1, "first stamp");
    assert_eq!(out_at(queue, 1), Some((first, 1)), "first poll");
    let second = insert(queue, 0, 2)?;
    assert_eq!(second.stamp(), 2, "second stamp");
    assert_eq!(queue.reset(&second.entry(), 5), Err(WORN), "reset");
    assert_eq!(out_at(queue, 2), Some((second, 2)), "second poll");
    assert_eq!(insert(queue, 0, 3), Err(FULL), "insert");
    let stale = CallError::Stale { seen: 2 };
    assert_eq!(handle.extend(&first, 99), Err(stale), "extend by the first");
    let how = Look::LookExpired(2);
    let ended = CallError::Ended { how };
    assert_eq!(handle.extend(&second, 99), Err(ended), "extend by the second");
    Ok(())
}

// promise: shards.keys-entries
#[test]
fn keys_of_a_worn_slot() -> Result<(), Fail> {
    let (queue, mut handle) = made(config(2))?;
    wears_out(&queue, &mut handle)
}

fn resets(shard: &mut ShardState<usize>, key: Key, times: u32) -> Result<Key, CoreError> {
    let entry = key.entry();
    let mut last = key;
    for _ in 0..times {
        last = shard.reset(&entry, 10)?;
    }
    Ok(last)
}

// Resets an entry to tick 10 again and again, under one lock. The last key.
fn reset_often(queue: &Numbers, key: Key, times: u32) -> Result<Key, QueueError> {
    let mut shard = queue.enter(0)?;
    Ok(resets(&mut shard, key, times)?)
}

// The key of the same entry at another stamp.
fn at_stamp(key: &Key, stamp: u32) -> Key {
    Key::new(key.entry(), stamp)
}

// Of three stamps the slot's own is accepted, the one before is stale and the one behind is unknown.
fn tries_keys(handle: &mut Handle, key: &Key) {
    let stamp = key.stamp();
    let before = at_stamp(key, stamp.saturating_sub(1));
    let behind = at_stamp(key, stamp.saturating_add(1));
    let stale = CallError::Stale { seen: stamp };
    let unknown = CallError::Unknown;
    assert_eq!(handle.extend(&before, 20), Err(stale), "extend before");
    assert_eq!(handle.cancel(&before), Err(stale), "cancel before");
    assert_eq!(handle.look(&before), Err(stale), "look before");
    assert_eq!(handle.extend(&behind, 20), Err(unknown), "extend behind");
    assert_eq!(handle.cancel(&behind), Err(unknown), "cancel behind");
    assert_eq!(handle.look(&behind), Err(unknown), "look behind");
    assert_eq!(handle.look(key), Ok(Look::StillLive(10)), "look");
    assert_eq!(handle.extend(key, 20), Ok(20), "extend");
}

// The key of the last stamp, where each of the last 1,000 is tried.
fn tries_stamps(queue: &Numbers, handle: &mut Handle) -> Result<Key, Fail> {
    let first = insert(queue, 0, 10)?;
    let mut key = reset_often(queue, first, 1_047_575)?;
    for stamp in 1_047_576..1_048_575 {
        assert_eq!(key.stamp(), stamp, "stamp");
        tries_keys(handle, &key);
        key = queue.reset(&key.entry(), 10)?;
    }
    assert_eq!(key.stamp(), 1_048_575, "last stamp");
    tries_keys(handle, &key);
    Ok(key)
}

fn is_worn(queue: &Numbers, handle: &mut Handle, key: &Key) {
    assert_eq!(queue.reset(&key.entry(), 10), Err(WORN), "reset");
    assert_eq!(handle.look(key), Ok(Look::StillLive(20)), "look");
    assert_eq!(out_at(queue, 20), Some((*key, 20)), "poll");
    assert_eq!(insert(queue, 0, 30), Err(FULL), "insert");
}

// 1,047,575 resets of one entry come to the first of its slot's last 1,000 stamps. At the last one it can't be reset
// any more, and when it is out its slot is never used again.
// promise: shards.slot-last
#[test]
fn last_thousand_stamps() -> Result<(), Fail> {
    let (queue, mut handle) = made(QueueConfig::of(1, 1))?;
    let key = tries_stamps(&queue, &mut handle)?;
    is_worn(&queue, &mut handle, &key);
    Ok(())
}

// How the entry ends that has its slot's last stamp.
#[derive(Clone, Copy)]
enum Ending {
    ComesOut,
    IsRemoved,
    IsCancelled,
    IsCleared,
}

impl Ending {
    // Ends a live entry of tick 10. False where it ends otherwise.
    fn ends(self, queue: &Numbers, handle: &mut Handle, key: &Key) -> bool {
        match self {
            Ending::ComesOut => out_at(queue, 10) == Some((*key, 10)),
            Ending::IsRemoved => match queue.remove(&key.entry()) {
                Ok(removed) => removed.key == *key,
                Err(_) => false,
            },
            Ending::IsCancelled => handle.cancel(key).is_ok() && queue.sweep(0) == Ok(1),
            Ending::IsCleared => queue.clear(0) == Ok(1),
        }
    }
}

// By what call an entry ends, and how it looks then by its key.
const ENDINGS: &[(&str, Ending, Look)] = &[
    ("poll", Ending::ComesOut, Look::LookExpired(10)),
    ("remove", Ending::IsRemoved, Look::LookRemoved(10)),
    ("cancel", Ending::IsCancelled, Look::LookCancelled),
    ("clear", Ending::IsCleared, Look::LookRemoved(10)),
];

fn ends_worn(queue: &Numbers, handle: &mut Handle, row: &(&str, Ending, Look)) -> Result<(), Fail> {
    let (call, ending, how) = *row;
    let first = insert(queue, 0, 10)?;
    let key = reset_often(queue, first, 2)?;
    assert_eq!(queue.reset(&key.entry(), 10), Err(WORN), "{call}");
    assert!(ending.ends(queue, handle, &key), "{call}");
    let ended = CallError::Ended { how };
    assert_eq!(handle.look(&key), Ok(how), "{call}");
    assert_eq!(handle.extend(&key, 30), Err(ended), "{call}");
    assert_eq!(handle.cancel(&key), Err(ended), "{call}");
    assert_eq!(insert(queue, 0, 30), Err(FULL), "{call}");
    Ok(())
}

// promise: shards.slot-last
#[test]
fn worn_however_it_ended() -> Result<(), Fail> {
    for row in ENDINGS {
        let (queue, mut handle) = made(config(3))?;
        ends_worn(&queue, &mut handle, row)?;
    }
    Ok(())
}
