//! Keys that no queue gave out, and keys of another queue.

use super::numbers::{fill, insert, made, Numbers, ONE_AND_FOUR};
use super::Fail;
use hontkhale::parts::owner::{CallError, CoreError, EntryId, Key, Look, Turn, LAST_STAMP, LAST_TICK};
use hontkhale::parts::shards::{Handle, QueueConfig, QueueError, SharedDelayQueue, Totals};

const GREATEST: u32 = 4294967295;

// What is forged of a key: the numbers of its own, and those near and far from the limits. Among them are numbers that
// are its own once they are cut to the bits that a key or a word has for them.
const SHARDS: &[u32] = &[0, 1, 2, 3, 4, 64, 257, GREATEST];

const INDEXES: &[u32] = &[0, 1, 2, 3, 4, 65535, 65536, GREATEST];

const STAMPS: &[u32] = &[0, 1, 2, LAST_STAMP, LAST_STAMP + 2, GREATEST];

const BIRTHS: &[u32] = &[0, 1, 2, LAST_STAMP + 2, GREATEST];

// A handle's calls by a key are unknown. An extend beyond the last tick is refused as too far before that.
fn is_unknown(handle: &mut Handle, key: &Key) {
    let unknown = CallError::Unknown;
    let too_far = CallError::TooFar { limit: LAST_TICK };
    assert_eq!(handle.look(key), Err(unknown), "look {key:?}");
    assert_eq!(handle.cancel(key), Err(unknown), "cancel {key:?}");
    assert_eq!(handle.extend(key, 50), Err(unknown), "extend {key:?}");
    assert_eq!(
        handle.extend(key, LAST_TICK + 1),
        Err(too_far),
        "extend {key:?} too far"
    );
}

// The calls that take a lock refuse an entry with that error.
fn is_refused(queue: &Numbers, entry: &EntryId, error: QueueError) {
    assert_eq!(queue.reset(entry, 50), Err(error), "reset {entry:?}");
    assert_eq!(queue.deadline(entry), Err(error), "deadline {entry:?}");
    assert_eq!(queue.remove(entry).err(), Some(error), "remove {entry:?}");
}

fn tries_key(handle: &mut Handle, own: &Key, key: &Key) {
    let (entry, other) = (own.entry(), key.entry());
    if (other.shard(), other.index(), key.stamp()) == (1, entry.index(), 1) {
        assert_eq!(handle.look(key), Ok(Look::StillLive(10)), "look");
    } else {
        is_unknown(handle, key);
    }
}

fn tries_keys_of_slot(handle: &mut Handle, own: &Key, shard: u32, index: u32) {
    for stamp in STAMPS {
        for born in BIRTHS {
            let key = Key::new(EntryId::new(shard, index, *born), *stamp);
            tries_key(handle, own, &key);
        }
    }
}

fn tries_keys(queue: &Numbers, handle: &mut Handle) -> Result<(), Fail> {
    let own = insert(queue, 1, 10)?;
    for shard in SHARDS {
        for index in INDEXES {
            tries_keys_of_slot(handle, &own, *shard, *index);
        }
    }
    assert_eq!(queue.deadline(&own.entry()), Ok(10), "deadline");
    Ok(())
}

// Each key that isn't the entry's own is refused, and the entry stays as it was. Calls without a lock don't look at the
// birth stamp.
// promise: shards.keys-entries
#[test]
fn forged_keys_through_a_handle() -> Result<(), Fail> {
    let (queue, mut handle) = made(QueueConfig::of(4, 4))?;
    tries_keys(&queue, &mut handle)
}

fn tries_entry(queue: &Numbers, own: &EntryId, entry: &EntryId) {
    if entry == own {
        assert_eq!(queue.deadline(entry), Ok(10), "deadline");
    } else if entry.shard() < 4 {
        is_refused(queue, entry, QueueError::Core(CoreError::Missing));
    } else {
        is_refused(queue, entry, QueueError::Unknown);
    }
}

fn tries_entries(queue: &Numbers) -> Result<(), Fail> {
    let own = insert(queue, 1, 10)?.entry();
    for shard in SHARDS {
        for index in INDEXES {
            for born in BIRTHS {
                tries_entry(queue, &own, &EntryId::new(*shard, *index, *born));
            }
        }
    }
    assert_eq!(queue.deadline(&own), Ok(10), "deadline");
    Ok(())
}

// promise: shards.keys-entries
#[test]
fn forged_entries_of_the_queue() -> Result<(), Fail> {
    tries_entries(&SharedDelayQueue::new(QueueConfig::of(4, 4))?)
}

fn are_unknown(queue: &Numbers, handle: &mut Handle, keys: &[Key]) {
    let missing = QueueError::Core(CoreError::Missing);
    for key in keys {
        assert_eq!(key.stamp(), 1, "stamp");
        is_unknown(handle, key);
        is_refused(queue, &key.entry(), missing);
    }
}

// Calls by keys of another queue leave a fresh one as it was.
fn knows_none(fresh: &Numbers, keys: &[Key]) -> Result<(), Fail> {
    let mut handle = fresh.handle()?;
    are_unknown(fresh, &mut handle, keys);
    assert_eq!(handle.give_back(), 0, "give_back");
    let nothing = Totals {
        inserted: 0,
        expired: 0,
        removed: 0,
        cancelled: 0,
        live: 0,
    };
    assert_eq!(fresh.audit(), Ok(nothing), "audit");
    Ok(())
}

fn made_alike(config: QueueConfig) -> Result<(), Fail> {
    let other = SharedDelayQueue::new(config)?;
    let keys = fill(&other)?;
    knows_none(&SharedDelayQueue::new(config)?, &keys)
}

// The keys of a full queue are unknown to a fresh one that was made alike.
// promise: shards.keys-entries
#[test]
fn keys_of_another_queue() -> Result<(), Fail> {
    for config in ONE_AND_FOUR {
        made_alike(*config)?;
    }
    Ok(())
}

fn is_idle(queue: &Numbers, shard: usize, tick: u64) -> bool {
    matches!(queue.poll(shard, tick), Ok(Turn::Idle))
}

fn inserts_and_cancels(queue: &Numbers, handle: &mut Handle, shard: usize) -> Result<(), Fail> {
    assert!(is_idle(queue, shard, 5), "first poll");
    let key = insert(queue, shard, 5)?;
    assert_eq!(handle.cancel(&key), Ok(5), "cancel");
    assert!(is_idle(queue, shard, 5), "last poll");
    assert_eq!(queue.lend(shard, |state| state.len()), Ok(0), "len");
    assert_eq!(queue.next_wake(shard), Ok(None), "next_wake");
    let tally = queue.tally(shard)?;
    assert_eq!((tally.inserted, tally.cancelled, tally.linked), (1, 1, 0), "tally");
    Ok(())
}

// An entry that is due when it is put in, and cancelled before the next poll, leaves nothing linked.
// promise: shards.keys-entries
#[test]
fn poll_insert_cancel_poll() -> Result<(), Fail> {
    for config in ONE_AND_FOUR {
        let (queue, mut handle) = made(*config)?;
        for shard in 0..config.shards {
            inserts_and_cancels(&queue, &mut handle, shard)?;
        }
    }
    Ok(())
}
