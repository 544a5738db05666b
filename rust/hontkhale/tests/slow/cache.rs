//! A slow model of an expiring cache, for the tests: a list of entries and a list of free stamps, searched at each
//! call.
//!
//! It is written from what the calls promise and shares no code with the cache. Which free slot a put takes is left
//! open: the model takes one of the greatest stamp that is left, so the tests see to it that the free slots are alike
//! or far from worn.

use hontkhale::parts::owner::CoreError;

/// The last tick, as the tests' tables have it.
pub const LAST: u64 = 4398046511103;

/// What is kept at a key.
#[derive(Clone, Copy)]
pub struct Entry {
    pub key: u64,
    pub value: u64,
    pub deadline: u64,
    stamp: u32,
}

/// The model of a cache.
pub struct SlowCache {
    last_stamp: u32,
    capacity: usize,
    pub moment: u64,
    pub entries: Vec<Entry>,
    free: Vec<u32>,
}

/// Why a put is refused, or the value that was there.
pub type PutAnswer = Result<Option<u64>, CoreError>;

impl SlowCache {
    pub fn new(capacity: usize, last_stamp: u32) -> SlowCache {
        SlowCache {
            last_stamp,
            capacity,
            moment: 0,
            entries: Vec::with_capacity(capacity),
            free: vec![0; capacity],
        }
    }

    fn place(&self, key: u64) -> Option<usize> {
        self.entries.iter().position(|entry| entry.key == key)
    }

    fn at(&self, key: u64) -> Option<Entry> {
        for entry in &self.entries {
            if entry.key == key {
                return Some(*entry);
            }
        }
        None
    }

    /// The value that is seen at a key.
    pub fn get(&self, key: u64, now: u64) -> Option<u64> {
        let entry = self.at(key)?;
        if now.max(self.moment) < entry.deadline {
            Some(entry.value)
        } else {
            None
        }
    }

    /// How many keys are seen, and the sum of their values.
    pub fn seen(&self, now: u64) -> (usize, u64) {
        let (mut count, mut sum) = (0usize, 0u64);
        for entry in &self.entries {
            if now.max(self.moment) < entry.deadline {
                count = count.saturating_add(1);
                sum = sum.saturating_add(entry.value);
            }
        }
        (count, sum)
    }

    /// The least deadline.
    pub fn next_deadline(&self) -> Option<u64> {
        self.entries.iter().map(|entry| entry.deadline).min()
    }

    // An entry leaves, and its slot keeps its stamp.
    fn leave(&mut self, place: usize) -> Option<Entry> {
        if place >= self.entries.len() {
            return None;
        }
        let entry = self.entries.swap_remove(place);
        self.free.push(entry.stamp);
        Some(entry)
    }

    /// What `take` answers.
    pub fn take(&mut self, key: u64, now: u64) -> Option<u64> {
        self.get(key, now)?;
        let entry = self.leave(self.place(key)?)?;
        Some(entry.value)
    }

    // Why a tick or a deadline is refused, or the moment and the deadline.
    fn range(&self, ttl: u64, now: u64) -> Result<(u64, u64), CoreError> {
        if now > LAST {
            return Err(CoreError::TickTooLarge { limit: LAST });
        }
        let moment = now.max(self.moment);
        let deadline = moment.saturating_add(ttl);
        if deadline > LAST {
            return Err(CoreError::TooFar { limit: LAST });
        }
        Ok((moment, deadline))
    }

    // Gives the key that is there another value and deadline, under its slot's next stamp.
    fn write(&mut self, key: u64, value: u64, deadline: u64) -> bool {
        for entry in self.entries.iter_mut() {
            if entry.key == key && entry.stamp < self.last_stamp {
                entry.value = value;
                entry.deadline = deadline;
                entry.stamp = entry.stamp.saturating_add(1);
                return true;
            }
        }
        false
    }

    /// What `renew` answers.
    pub fn renew(&mut self, key: u64, ttl: u64, now: u64) -> Result<u64, CoreError> {
        let (moment, deadline) = self.range(ttl, now)?;
        let Some(value) = self.get(key, now) else {
            return Err(CoreError::Missing);
        };
        if !self.write(key, value, deadline) {
            return Err(CoreError::Worn);
        }
        self.moment = moment;
        Ok(deadline)
    }

    // Sets the moment and drops what is due then.
    fn pass(&mut self, moment: u64) -> usize {
        self.moment = moment;
        let before = self.entries.len();
        for place in (0..before).rev() {
            let is_due = match self.entries.get(place) {
                Some(entry) => entry.deadline <= moment,
                None => false,
            };
            if is_due {
                self.leave(place);
            }
        }
        before.saturating_sub(self.entries.len())
    }

    /// What `purge` answers.
    pub fn purge(&mut self, now: u64) -> Result<usize, CoreError> {
        let (moment, _) = self.range(0, now)?;
        Ok(self.pass(moment))
    }

    /// What a refresh does: each entry has the first stamp of its slot, and each free slot none.
    pub fn refresh(&mut self) {
        for entry in self.entries.iter_mut() {
            entry.stamp = 1;
        }
        for stamp in self.free.iter_mut() {
            *stamp = 0;
        }
    }

    // The greatest stamp that a free slot has, where one is left behind it; it isn't free then.
    fn take_stamp(&mut self) -> Option<u32> {
        let last = self.last_stamp;
        let stamp = self.free.iter().copied().filter(|stamp| *stamp < last).max()?;
        let place = self.free.iter().position(|free| *free == stamp)?;
        if place < self.free.len() {
            self.free.swap_remove(place);
        }
        Some(stamp)
    }

    /// What `put` answers.
    pub fn put(&mut self, key: u64, value: u64, ttl: u64, now: u64) -> PutAnswer {
        let (moment, deadline) = self.range(ttl, now)?;
        self.pass(moment);
        if let Some(entry) = self.at(key) {
            if self.write(key, value, deadline) {
                return Ok(Some(entry.value));
            }
            return Err(CoreError::Worn);
        }
        let Some(stamp) = self.take_stamp() else {
            let linked = self.entries.len();
            let worn = self.capacity.saturating_sub(linked);
            return Err(CoreError::Full { linked, worn });
        };
        self.entries.push(Entry {
            key,
            value,
            deadline,
            stamp: stamp.saturating_add(1),
        });
        Ok(None)
    }
}
