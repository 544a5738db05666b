//! A shard: names with their values, and the entry of the queue that has the deadline of each that expires.

use super::{Name, Value};
use crate::room::Room;
use hontkhale::Key;
use indexmap::IndexMap;
use std::ops::{Deref, DerefMut};
use std::sync::atomic::{AtomicBool, AtomicUsize, Ordering::SeqCst};
use std::sync::{Arc, PoisonError, RwLock, RwLockReadGuard, RwLockWriteGuard};

/// A shard's table with room for so many keys keeps it.
pub const SMALL_TABLE: usize = 64;
/// What a key takes beside its name and its value: its place in the table, a counter at each of both, and what the
/// allocator keeps for itself.
const PER_KEY: usize = 192;

pub struct Record {
    pub value: Value,
    /// The entry of the queue that has its deadline, where it expires.
    pub entry: Option<Key>,
}

pub struct Names {
    /// The last of them takes the place of one that is taken off.
    pub(super) records: IndexMap<Name, Record>,
    pub(super) bytes: usize,
    pub(super) room: Arc<Room>,
    /// The keys that were taken off at their deadlines.
    pub(super) expired: u64,
}

/// A shard behind its lock. It begins at a pair of cache lines of its own, so that no lock shares a line with another.
#[repr(align(128))]
pub struct Shard {
    names: RwLock<Names>,
    count: AtomicUsize,
    /// Whether the entry of a name that counts may be out of the queue.
    is_ending: AtomicBool,
}

/// A shard's names, held to write. Their number is told at the end.
pub struct Writer<'a> {
    names: RwLockWriteGuard<'a, Names>,
    shard: &'a Shard,
}

impl Shard {
    pub fn new(room: &Arc<Room>) -> Shard {
        let names = Names { records: IndexMap::new(), bytes: 0, room: room.clone(), expired: 0 };
        Shard { names: RwLock::new(names), count: AtomicUsize::new(0), is_ending: AtomicBool::new(false) }
    }

    pub fn read(&self) -> RwLockReadGuard<'_, Names> {
        self.names.read().unwrap_or_else(PoisonError::into_inner)
    }

    pub fn write(&self) -> Writer<'_> {
        Writer { names: self.names.write().unwrap_or_else(PoisonError::into_inner), shard: self }
    }

    /// How many names it has. It waits for its lock only where one of them ends.
    pub fn count(&self) -> usize {
        if self.is_ending.load(SeqCst) {
            return self.read().records.len();
        }
        self.count.load(SeqCst)
    }
}

impl Writer<'_> {
    /// An entry may be taken out of the queue from here on, whose name counts until this is let go.
    pub(super) fn begin_end(&self) {
        self.shard.is_ending.store(true, SeqCst);
    }
}

impl Deref for Writer<'_> {
    type Target = Names;

    fn deref(&self) -> &Names {
        &self.names
    }
}

impl DerefMut for Writer<'_> {
    fn deref_mut(&mut self) -> &mut Names {
        &mut self.names
    }
}

impl Drop for Writer<'_> {
    fn drop(&mut self) {
        self.shard.count.store(self.names.records.len(), SeqCst);
        self.shard.is_ending.store(false, SeqCst);
    }
}

impl Names {
    /// Takes all keys out, and answers what has to be dropped.
    pub(super) fn clear(&mut self) -> IndexMap<Name, Record> {
        self.room.give_back(std::mem::take(&mut self.bytes));
        std::mem::take(&mut self.records)
    }

    /// Takes off a key whose entry came out. The memory is given back where the answer is dropped.
    pub(super) fn expire(&mut self, name: &[u8]) -> Option<Record> {
        let record = self.take_off(name)?;
        self.expired += 1;
        Some(record)
    }

    /// Takes off a record, whose entry stays.
    pub(super) fn take_off(&mut self, name: &[u8]) -> Option<Record> {
        let record = self.records.swap_remove(name)?;
        let bytes = size(name, &record.value);
        self.bytes -= bytes;
        self.room.give_back(bytes);
        // A table that is all but empty gives its room back. That moves the few that are left.
        let count = self.records.len();
        if self.records.capacity() > SMALL_TABLE.max(8 * count) {
            self.records.shrink_to(2 * count);
        }
        Some(record)
    }
}

pub fn size(name: &[u8], value: &[u8]) -> usize {
    name.len() + value.len() + PER_KEY
}
