//! The keys: names with values in shards, and one delay queue that has the deadline of each name that expires.
//!
//! A name goes to a shard by its hash. Whoever changes a shard's names holds the shard to write. Whoever reads holds it to
//! read, and asks the queue for the deadline, which takes no lock. A key is told to be gone only after its entry came out
//! of the queue, so that no extend brings back what was seen to be gone.

mod claims;
mod place;
mod shard;
mod walk;

pub use claims::{Claim, Claimed, Turn};
pub use place::Place;
pub use shard::Record;
#[cfg(test)]
pub use shard::SMALL_TABLE;
pub use walk::Held;

use crate::clock::{Clock, Tick};
use crate::lock;
use crate::room::Room;
use claims::Claims;
use hontkhale::{Builder, DelayQueue, Expired, InsertErrorKind, Key, KeyError, Receiver};
use shard::{Shard, Writer};
use std::alloc::{handle_alloc_error, Layout};
use std::collections::hash_map::RandomState;
use std::hash::{BuildHasher, Hasher};
use std::sync::{Arc, Mutex};
use std::task::Poll;

pub const SHARDS: usize = 64;
/// The threads that take off what is due.
pub const KEEPERS: usize = 2;
/// How many keys a keeper takes off before whoever waits for it goes on.
const TAKEN_AT_ONCE: usize = 64;
/// The shards of the queue, each behind a lock of its own.
const QUEUE_SHARDS: usize = 16;

pub type Name = Arc<[u8]>;
pub type Value = Arc<[u8]>;

/// Why a key isn't written.
#[derive(Clone, Copy, Debug, PartialEq, Eq)]
pub enum NoRoom {
    /// The keys have as many bytes as they may.
    Memory,
    /// The process holds as much as it may, the holes that are between the keys among it.
    Process,
    /// As many keys expire as may.
    Deadlines,
}

/// What becomes of the deadline of a key that is set.
#[derive(Clone, Copy, Debug, PartialEq, Eq)]
pub enum Lifetime {
    Endless,
    Kept,
    Until(Tick),
}

#[derive(Clone, Copy, Debug, PartialEq, Eq)]
pub enum Life {
    Endless,
    Until(Tick),
}

pub struct Keyspace {
    shards: Vec<Shard>,
    /// The deadlines, each with its name.
    queue: DelayQueue<Name>,
    hasher: RandomState,
    pub room: Arc<Room>,
    claims: Claims,
    /// Who takes entries out of the queue, and then their names off: each keeper, and after them anybody else.
    takers: [Mutex<()>; KEEPERS + 1],
    pub clock: Clock,
}

impl Keyspace {
    /// Room for so many keys that expire, and for their bytes.
    pub fn new(keys: usize, room: Room) -> Result<Keyspace, InsertErrorKind> {
        Keyspace::of(keys, room, DelayQueue::builder())
    }

    fn of(keys: usize, room: Room, queue: Builder<Name>) -> Result<Keyspace, InsertErrorKind> {
        let (clock, room) = (Clock::new(), Arc::new(room));
        let queue = queue.max_entries(keys).shards(QUEUE_SHARDS).ticks_from(clock.begun).build();
        queue.reserve(keys)?;
        Ok(Keyspace {
            shards: (0..SHARDS).map(|_| Shard::new(&room)).collect(),
            queue,
            hasher: RandomState::new(),
            room,
            claims: Claims::default(),
            takers: Default::default(),
            clock,
        })
    }

    fn hash(&self, name: &[u8]) -> u64 {
        let mut hasher = self.hasher.build_hasher();
        hasher.write(name);
        hasher.finish()
    }

    pub fn shard_of(&self, name: &[u8]) -> usize {
        (self.hash(name) >> 32) as usize % SHARDS
    }

    /// The deadline of an entry, none where it is over.
    pub fn deadline(&self, entry: &Key) -> Option<Tick> {
        match self.queue.deadline(entry) {
            Ok(deadline) => Some(self.clock.tick(deadline)),
            // A thread takes some at its first look at a part of the queue.
            Err(KeyError::NoMemory) => handle_alloc_error(Layout::new::<Key>()),
            Err(_) => None,
        }
    }

    /// Raises the deadline of a live entry, and answers the one in force.
    pub fn extend(&self, entry: &Key, when: Tick) -> Option<Tick> {
        let in_force = self.queue.extend_at(entry, self.clock.moment(when)).ok()?;
        Some(self.clock.tick(in_force))
    }

    /// How long a record lives, none where it is over.
    fn life(&self, record: &Record, now: Tick) -> Option<Life> {
        match record.entry {
            None => Some(Life::Endless),
            Some(entry) => self.deadline(&entry).filter(|deadline| now < *deadline).map(Life::Until),
        }
    }

    /// Reads a live key, while others may read its shard too.
    pub fn view<O>(&self, name: &[u8], read: impl FnOnce(&Record, Life) -> O) -> Option<O> {
        let (shard, now) = (self.shard_of(name), self.clock.now());
        let names = self.shards[shard].read();
        let record = names.records.get(name)?;
        if let Some(life) = self.life(record, now) {
            return Some(read(record, life));
        }
        drop(names);
        let mut names = self.shards[shard].write();
        let life = self.settle(&mut names, name, now)?;
        names.records.get(name).map(|record| read(record, life))
    }

    /// How long a key lives whose shard is held. Where its deadline is over it is taken off, unless it was extended meanwhile.
    fn settle(&self, names: &mut Writer<'_>, name: &[u8], now: Tick) -> Option<Life> {
        let record = names.records.get(name)?;
        if let Some(life) = self.life(record, now) {
            return Some(life);
        }
        let entry = record.entry?;
        names.begin_end();
        let is_extended = matches!(self.queue.remove_if_due(&entry), Ok(None));
        let life = self.deadline(&entry).filter(|_| is_extended).map(Life::Until);
        if life.is_none() {
            names.expire(name);
        }
        life
    }

    /// Changes a key, or makes it, while nobody else reads or changes its shard.
    pub fn change<O>(&self, name: &[u8], change: impl FnOnce(&mut Place<'_, '_>) -> O) -> O {
        let mut names = self.shards[self.shard_of(name)].write();
        // What is over by the time that it waited isn't set.
        let now = self.clock.now();
        let life = self.settle(&mut names, name, now);
        change(&mut Place { keyspace: self, names: &mut names, name, now, life })
    }

    pub fn receiver(&self) -> Receiver<Name> {
        self.queue.receiver()
    }

    /// Takes off some of what comes out, and tells whether more may.
    pub fn take_off(&self, keeper: usize, mut next: impl FnMut() -> Poll<Option<Expired<Name>>>) -> bool {
        let _taker = lock(&self.takers[keeper]);
        for _ in 0..TAKEN_AT_ONCE {
            match next() {
                Poll::Ready(Some(out)) => self.lose(&out),
                _ => return false,
            }
        }
        true
    }

    /// Takes off every key that is due by now. Those that others take out of the queue meanwhile are off too then.
    fn take_off_all(&self) {
        let taker = lock(&self.takers[KEEPERS]);
        self.queue.try_iter().for_each(|out| self.lose(&out));
        drop(taker);
        self.takers[..KEEPERS].iter().for_each(|it| drop(lock(it)));
    }

    /// Takes off the name of an entry that came out, unless it has another one since. The memory is given back once the
    /// shard is let go.
    fn lose(&self, out: &Expired<Name>) {
        let mut names = self.shards[self.shard_of(&out.value)].write();
        let is_its = names.records.get(&out.value).is_some_and(|it| it.entry == Some(out.key));
        let _gone = is_its.then(|| names.expire(&out.value));
        drop(names);
    }

    /// Takes all keys out, while nobody reads or changes any.
    pub fn clear(&self) {
        let mut all: Vec<_> = self.shards.iter().map(Shard::write).collect();
        all.iter().for_each(|names| names.begin_end());
        let old: Vec<_> = all.iter_mut().map(|names| names.clear()).collect();
        self.queue.clear();
        drop(all);
        drop(old);
    }
}

#[cfg(test)]
impl Keyspace {
    /// Each slot of whose queue is worn after so many entries.
    pub fn worn_after(last_stamp: u32, keys: usize, room: Room) -> Keyspace {
        Keyspace::of(keys, room, DelayQueue::builder().last_stamp(last_stamp)).unwrap()
    }

    /// Calls `f` while the shard of a name is locked.
    pub fn while_held(&self, name: &[u8], f: impl FnOnce()) {
        let _names = self.shards[self.shard_of(name)].write();
        f();
    }

    /// For how many keys the tables have room.
    pub fn table_room(&self) -> usize {
        self.shards.iter().map(|it| it.read().records.capacity()).sum()
    }
}
