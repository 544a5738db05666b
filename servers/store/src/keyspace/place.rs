//! A key by its name, while its shard is held: what it is, and what becomes of it.

use super::shard::{size, Record, Writer};
use super::{Keyspace, Life, Lifetime, Name, NoRoom, Value};
use crate::clock::Tick;
use hontkhale::{Key, KeyError};

/// A name in its shard, which is held: a live key, or a place for one.
pub struct Place<'a, 'b> {
    pub(super) keyspace: &'a Keyspace,
    pub(super) names: &'a mut Writer<'b>,
    pub(super) name: &'a [u8],
    pub now: Tick,
    /// How long the key lives, none where there is no such key.
    pub life: Option<Life>,
}

impl Place<'_, '_> {
    pub fn value(&self) -> Option<&Value> {
        self.names.records.get(self.name).map(|record| &record.value)
    }

    /// Sets the key, or takes it off where it would be over. Nothing is changed where it is refused.
    pub fn set(&mut self, value: &[u8], lifetime: Lifetime) -> Result<(), NoRoom> {
        if matches!(lifetime, Lifetime::Until(when) if when <= self.now) {
            self.remove();
            return Ok(());
        }
        let held = self.value().map_or(0, |old| size(self.name, old));
        let wanted = size(self.name, value);
        self.names.room.take(held, wanted)?;
        let done = self.put(value, lifetime);
        match done {
            Ok(()) => self.names.bytes = self.names.bytes - held + wanted,
            Err(_) => self.names.room.undo(held, wanted),
        }
        done
    }

    fn put(&mut self, value: &[u8], lifetime: Lifetime) -> Result<(), NoRoom> {
        let old = self.names.records.get_key_value(self.name);
        let (name, old) = old.map_or_else(|| (self.name.into(), None), |it| (it.0.clone(), it.1.entry));
        let entry = match (lifetime, old) {
            (Lifetime::Kept, old) => old,
            (Lifetime::Endless, old) => {
                self.drop_entry(old);
                None
            }
            (Lifetime::Until(when), None) => Some(self.insert(&name, when)?),
            (Lifetime::Until(when), Some(old)) => match self.postpone(&old, when)? {
                // It came to its deadline just now. It was set before.
                None => Some(self.insert(&name, when)?),
                entry => entry,
            },
        };
        self.names.records.insert(name, Record { value: value.into(), entry });
        Ok(())
    }

    /// Gives a live key a deadline, or takes it off where that is over. False where there is none, or it came to its own
    /// deadline just now.
    pub fn expire(&mut self, when: Tick) -> Result<bool, NoRoom> {
        if when <= self.now {
            return Ok(self.remove());
        }
        let Some((name, record)) = self.names.records.get_key_value(self.name) else { return Ok(false) };
        let (name, old) = (name.clone(), record.entry);
        let entry = match old {
            None => Some(self.insert(&name, when)?),
            Some(old) => self.postpone(&old, when)?,
        };
        if entry.is_none() {
            self.names.expire(&name);
        } else if let Some(record) = self.names.records.get_mut(self.name) {
            record.entry = entry;
        }
        Ok(entry.is_some())
    }

    /// Gives an entry another deadline, and answers its key; none where it is over.
    fn postpone(&self, old: &Key, when: Tick) -> Result<Option<Key>, NoRoom> {
        // An extend wears no slot. One that was later already, by another client too, isn't made earlier by it.
        if self.keyspace.extend(old, when) == Some(when) {
            return Ok(Some(*old));
        }
        match self.keyspace.queue.reset_at(old, self.keyspace.clock.moment(when)) {
            Ok(entry) => Ok(Some(entry)),
            Err(KeyError::Ended) => Ok(None),
            Err(_) => Err(NoRoom::Deadlines),
        }
    }

    fn insert(&self, name: &Name, when: Tick) -> Result<Key, NoRoom> {
        let moment = self.keyspace.clock.moment(when);
        self.keyspace.queue.insert_at(name.clone(), moment).map_err(|_| NoRoom::Deadlines)
    }

    /// Takes the deadline off a live key. False where it has none, or came to it just now.
    pub fn persist(&mut self) -> bool {
        let Some(Record { entry: Some(entry), .. }) = self.names.records.get(self.name) else { return false };
        let is_live = self.drop_entry(Some(*entry));
        match self.names.records.get_mut(self.name) {
            Some(record) if is_live => record.entry = None,
            _ => drop(self.names.expire(self.name)),
        }
        is_live
    }

    /// Takes the key off. False where there is none.
    pub fn remove(&mut self) -> bool {
        let Some(record) = self.names.take_off(self.name) else { return false };
        self.drop_entry(record.entry);
        true
    }

    /// False where the entry came out just now, or there is none.
    fn drop_entry(&self, entry: Option<Key>) -> bool {
        self.names.begin_end();
        entry.is_some_and(|entry| self.keyspace.queue.remove(&entry).is_ok())
    }
}

#[cfg(test)]
impl Place<'_, '_> {
    /// Whether somebody has taken the entry out of the queue that has its deadline.
    pub fn is_out(&self) -> bool {
        let record = self.names.records.get(self.name);
        record.and_then(|it| it.entry).is_some_and(|entry| self.keyspace.deadline(&entry).is_none())
    }
}
