//! The live names of a script, kept by the delay queue of one owner.

use crate::core::{CoreConfig, DelayCore, Turn, VecWords};
use crate::memory::{AllocError, TryPush};
use crate::replay::name::Name;
use crate::replay::names::Names;
use crate::replay::session::Lease;
use crate::ticks::{Key, LAST_STAMP};
use alloc::vec::Vec;

/// Why a name's deadline stays: the name isn't live, or what was asked is beyond the limit.
#[derive(Clone, Copy, Debug, PartialEq, Eq)]
pub enum Refusal {
    Missing,
    TooFar,
}

type Queue = DelayCore<Name, VecWords>;

// Sweeps a queue that is full, though fewer names are live than it has slots.
fn make_room(queue: &mut Queue) {
    // requires length (live_of (machine queue.old).table) < length queue.old.slots.rows
    if queue.len() == queue.capacity() {
        queue.sweep();
    }
}

// Links a new name where there is room.
fn link(queue: &mut Queue, name: Name, when: u64) -> Key {
    // requires count_by is_held queue.old.slots.rows < length queue.old.slots.rows
    // requires (i : ℕ) → (table_at (machine queue.old) i).stamp < queue.old.slots.last_stamp
    // requires when ≤ LAST_TICK
    match queue.insert(name, when) {
        Ok(key) => key,
        Err(_) => unreachable!(),
    }
}

fn reset_at(queue: &mut Queue, key: &Key, when: u64) -> Key {
    // requires IsSomeKey queue.old key.now
    // requires (i : ℕ) → (table_at (machine queue.old) i).stamp < queue.old.slots.last_stamp
    // requires when ≤ LAST_TICK
    match queue.reset(&key.entry(), when) {
        Ok(key) => key,
        Err(_) => unreachable!(),
    }
}

fn extend_at(queue: &mut Queue, key: &Key, when: u64) -> u64 {
    // requires IsSomeKey queue.old key.now
    // requires when ≤ LAST_TICK
    match queue.extend(key, when) {
        Ok(deadline) => deadline,
        Err(_) => unreachable!(),
    }
}

fn cancel_at(queue: &mut Queue, key: &Key) -> u64 {
    // requires IsSomeKey queue.old key.now
    match queue.cancel(key) {
        Ok(deadline) => deadline,
        Err(_) => unreachable!(),
    }
}

fn remove_at(queue: &mut Queue, key: &Key) -> u64 {
    // requires IsSomeKey queue.old key.now
    match queue.remove(&key.entry()) {
        Ok(removed) => removed.deadline,
        Err(_) => unreachable!(),
    }
}

/// How a live name ends: by whoever holds it, or by the queue's owner.
#[derive(Clone, Copy)]
pub enum Ending {
    Cancelled,
    Removed,
}

fn end_at(queue: &mut Queue, key: &Key, ending: Ending) -> u64 {
    // requires IsSomeKey queue.old key.now
    match ending {
        Ending::Cancelled => cancel_at(queue, key),
        Ending::Removed => remove_at(queue, key),
    }
}

fn deadline_at(queue: &mut Queue, key: &Key) -> u64 {
    // requires IsSomeKey queue.old key.now
    match queue.deadline(&key.entry()) {
        Ok(deadline) => deadline,
        Err(_) => unreachable!(),
    }
}

// One poll: a name that is due at `now` leaves the queue, or none is due.
fn expire_one(queue: &mut Queue, now: u64) -> Option<Lease> {
    // requires now ≤ LAST_TICK
    // requires queue.old.noted ≤ now
    match queue.poll(now) {
        Ok(Turn::Out(expired)) => Some(Lease {
            name: expired.value,
            deadline: expired.deadline,
        }),
        Ok(Turn::Waiting { .. }) => None,
        Ok(Turn::Idle) => None,
        Err(_) => unreachable!(),
    }
}

// The key of a live name that may get such a deadline, or why it may not.
fn key_within(names: &Names, name: &Name, when: u64, limit: u64) -> Result<Key, Refusal> {
    let Some(key) = names.get(name) else {
        return Err(Refusal::Missing);
    };
    if when > limit {
        return Err(Refusal::TooFar);
    }
    Ok(key)
}

/// The live names of a script: a queue of them, and a key for each.
///
/// Each call takes constant time, but for a sweep of a full queue and a clear, which look at every slot, and for a
/// tick. Between two sweeps at least half as many names are inserted as there are slots: an entry is cancelled only
/// where at most half of them have live names, and a sweep comes only where none is free. Nothing is ever worn: a
/// stamp is given by an insert or a reset alone, and a script has fewer lines than a slot has stamps.
pub struct Leases {
    queue: Queue,
    names: Names,
    given: u32,
}

impl Leases {
    /// No live names, and room for so many.
    pub fn new(capacity: usize) -> Result<Leases, AllocError> {
        // requires 0 < capacity
        // requires capacity ≤ CAPACITY_LIMIT
        let Ok(words) = VecWords::new(capacity) else {
            return Err(AllocError);
        };
        let config = CoreConfig {
            shard: 0,
            capacity,
            last_stamp: LAST_STAMP,
        };
        let Ok(queue) = DelayCore::new(config, words) else {
            return Err(AllocError);
        };
        Ok(Leases {
            queue,
            names: Names::new(),
            given: 0,
        })
    }

    /// The number of live names.
    pub fn len(&self) -> usize {
        self.names.len()
    }

    /// How many names may be live.
    pub fn capacity(&self) -> usize {
        self.queue.capacity()
    }

    /// The greatest tick so far, which the wheel's tick is not after.
    pub fn noted(&self) -> u64 {
        self.queue.noted()
    }

    pub fn is_live(&self, name: &Name) -> bool {
        self.names.get(name).is_some()
    }

    /// Makes a new name live, and answers its deadline: the greater of what is asked and the tick.
    pub fn insert(&mut self, name: Name, when: u64) -> Result<u64, AllocError> {
        // requires has_name name self.old.live ≡ false
        // requires length self.old.live < self.old.capacity
        // requires when ≤ LAST_TICK
        // requires self.old.given < LAST_STAMP
        self.names.make_room()?;
        make_room(&mut self.queue);
        let deadline = when.max(self.queue.tick());
        let twin = name.twin();
        let key = link(&mut self.queue, name, when);
        self.names.put(twin, key);
        self.given += 1;
        Ok(deadline)
    }

    /// Gives a live name another deadline: the greater of what is asked, at most the limit, and the noted tick.
    pub fn reset(&mut self, name: &Name, when: u64, limit: u64) -> Result<u64, Refusal> {
        // requires limit ≤ LAST_TICK
        // requires self.old.given < LAST_STAMP
        let key = key_within(&self.names, name, when, limit)?;
        let deadline = when.max(self.queue.noted());
        let next = reset_at(&mut self.queue, &key, deadline);
        self.names.put(name.twin(), next);
        self.given += 1;
        Ok(deadline)
    }

    /// Raises a live name's deadline to what is asked, at most the limit.
    pub fn extend(&mut self, name: &Name, when: u64, limit: u64) -> Result<u64, Refusal> {
        // requires limit ≤ LAST_TICK
        let key = key_within(&self.names, name, when, limit)?;
        Ok(extend_at(&mut self.queue, &key, when))
    }

    /// Ends a live name as its holder does, and answers its deadline.
    ///
    /// A cancelled entry keeps its slot until a sweep. Where more than half of the slots have live names it is
    /// removed instead, or a script that stays near its capacity would pay a sweep for each insert.
    pub fn cancel(&mut self, name: &Name) -> Option<u64> {
        let is_crowded = self.names.len() > self.queue.capacity() / 2;
        self.end(name, if is_crowded { Ending::Removed } else { Ending::Cancelled })
    }

    /// Ends a live name as its owner does, and answers its deadline.
    pub fn remove(&mut self, name: &Name) -> Option<u64> {
        self.end(name, Ending::Removed)
    }

    fn end(&mut self, name: &Name, ending: Ending) -> Option<u64> {
        let key = self.names.get(name)?;
        let deadline = end_at(&mut self.queue, &key, ending);
        self.names.remove(name);
        Some(deadline)
    }

    /// The deadline of a live name.
    pub fn deadline(&mut self, name: &Name) -> Option<u64> {
        let key = self.names.get(name)?;
        Some(deadline_at(&mut self.queue, &key))
    }

    /// Ends all live names, and answers how many there were.
    pub fn clear(&mut self) -> usize {
        let count = self.names.len();
        self.queue.clear();
        self.names.clear();
        count
    }

    // One name that is due at `now` expires, or none is due.
    fn expire(&mut self, now: u64) -> Option<Lease> {
        // requires now ≤ LAST_TICK
        // requires self.old.noted ≤ now
        let lease = expire_one(&mut self.queue, now)?;
        self.names.remove(&lease.name);
        Some(lease)
    }

    /// The names that are due at `now` expire, and come in order.
    pub fn tick(&mut self, now: u64) -> Result<Vec<Lease>, AllocError> {
        // requires now ≤ LAST_TICK
        // requires self.old.noted ≤ now
        let mut due = Vec::new();
        while let Some(lease) = self.expire(now) {
            due.try_push(lease)?;
        }
        due.sort_unstable();
        Ok(due)
    }
}
