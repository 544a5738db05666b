//! What a crowd's threads are told of the stamps of a queue's slots, and what they count.

use hontkhale::parts::owner::{EntryId, Key};
use hontkhale::parts::shards::QueueConfig;

const SHARDS: usize = 4;

const CAPACITY: usize = 64;

// Slots wear out while the crowd is at work.
const LAST: u32 = 1000;

/// The slots of all shards.
pub const SLOTS: usize = SHARDS * CAPACITY;

pub fn config() -> QueueConfig {
    QueueConfig {
        shards: SHARDS,
        capacity: CAPACITY,
        last_stamp: LAST,
    }
}

/// The key of a slot's stamp, by the slot's place among those of all shards. Calls by key don't look at the birth
/// stamp.
pub fn key_at(place: usize, stamp: u32) -> Key {
    let (shard, index) = (place / CAPACITY % SHARDS, place % CAPACITY);
    Key::new(EntryId::new(shard as u32, index as u32, 1), stamp)
}

// Where a key's stamp stands in a record.
fn place_of(key: &Key) -> usize {
    let entry = key.entry();
    let slot = (entry.shard() as usize)
        .saturating_mul(CAPACITY)
        .saturating_add(entry.index() as usize);
    slot.saturating_mul(LAST as usize + 1)
        .saturating_add(key.stamp() as usize)
}

/// What is told of one stamp of one slot.
#[derive(Clone, Copy, Default, Debug, PartialEq, Eq)]
pub struct Fate {
    /// The greatest deadline that a call was promised.
    promised: u64,
    /// The deadline at which it ended.
    ended: u64,
    /// How often it ended: by a poll, a remove or a cancel.
    ends: u64,
}

impl Fate {
    // It ended at most once, and not before what was promised.
    fn is_kept(&self) -> bool {
        self.ends == 0 || (self.ends == 1 && self.promised <= self.ended)
    }
}

/// The fate of each stamp of each slot.
pub struct Fates {
    fates: Vec<Fate>,
}

impl Fates {
    pub fn new() -> Fates {
        Fates {
            fates: vec![Fate::default(); SLOTS * (LAST as usize + 1)],
        }
    }

    /// A call answered that the key's entry is live until a deadline, or until a later one.
    pub fn promise(&mut self, key: &Key, deadline: u64) {
        if let Some(fate) = self.fates.get_mut(place_of(key)) {
            fate.promised = fate.promised.max(deadline);
        }
    }

    /// A call answered that the key's entry ended at a deadline.
    pub fn end(&mut self, key: &Key, deadline: u64) {
        if let Some(fate) = self.fates.get_mut(place_of(key)) {
            fate.ended = deadline;
            fate.ends += 1;
        }
    }

    /// Adds what another thread was told.
    pub fn add(&mut self, other: &Fates) {
        for (fate, theirs) in self.fates.iter_mut().zip(other.fates.iter()) {
            fate.promised = fate.promised.max(theirs.promised);
            fate.ended = fate.ended.max(theirs.ended);
            fate.ends += theirs.ends;
        }
    }

    /// Whether a slot came to its last stamp.
    pub fn reach_the_last_stamp(&self) -> bool {
        for place in 0..SLOTS {
            if let Some(fate) = self.fates.get(place_of(&key_at(place, LAST))) {
                if fate.promised > 0 {
                    return true;
                }
            }
        }
        false
    }

    /// No stamp ended twice, or before what was promised of it.
    pub fn are_kept(&self) -> bool {
        self.fates.iter().all(|fate| fate.is_kept())
    }
}

/// How many calls of a thread were accepted.
#[derive(Clone, Copy, Default, Debug, PartialEq, Eq)]
pub struct Counts {
    pub inserted: u64,
    pub expired: u64,
    pub removed: u64,
    pub cancelled: u64,
    /// Extends.
    pub extended: u64,
    /// Answers that no state of the queue explains.
    pub odd: u64,
}

impl Counts {
    pub fn add(&mut self, other: &Counts) {
        self.inserted += other.inserted;
        self.expired += other.expired;
        self.removed += other.removed;
        self.cancelled += other.cancelled;
        self.extended += other.extended;
        self.odd += other.odd;
    }
}

/// Adds one.
pub fn count(counted: &mut u64) {
    *counted += 1;
}
