//! What one shard's queue answers, by a map of its slots. It is given each call and each answer, and compares.

use super::value::Value;
use hontkhale::parts::owner::{
    CallError, CoreError, EntryId, Expired, Key, Look, ReapError, Swept, Tally, Turn, LAST_TICK,
};
use std::collections::BTreeMap;

/// An entry that is linked: its birth stamp and its value.
#[derive(Clone, Copy)]
struct Linked {
    born: u32,
    value: u64,
}

/// A slot that was used.
#[derive(Clone, Copy)]
pub struct Slot {
    stamp: u32,
    shown: Look,
    linked: Option<Linked>,
}

impl Slot {
    /// The deadline in force of a live entry.
    fn live(&self) -> Option<u64> {
        match self.shown {
            Look::StillLive(deadline) => Some(deadline),
            _ => None,
        }
    }
}

/// The words of a row of slots, as callers see them.
#[derive(Clone)]
pub struct Row {
    /// The number that a key has to carry, where it is looked at.
    number: Option<u32>,
    capacity: usize,
    slots: BTreeMap<u32, Slot>,
}

impl Row {
    fn new(number: Option<u32>, capacity: usize) -> Self {
        Row {
            number,
            capacity,
            slots: BTreeMap::new(),
        }
    }

    /// The slot that a key may name.
    fn named(&self, key: &Key) -> Result<Slot, CallError> {
        if self.number.is_some_and(|number| number != key.entry().shard()) {
            return Err(CallError::Unknown);
        }
        let slot = self.slots.get(&key.entry().index());
        match slot.filter(|slot| 0 < key.stamp() && key.stamp() <= slot.stamp) {
            None => Err(CallError::Unknown),
            Some(slot) if key.stamp() < slot.stamp => Err(CallError::Stale { seen: slot.stamp }),
            Some(slot) => Ok(*slot),
        }
    }

    pub fn look(&self, key: &Key) -> Result<Look, CallError> {
        Ok(self.named(key)?.shown)
    }

    fn live(&self, key: &Key) -> Result<u64, CallError> {
        let slot = self.named(key)?;
        slot.live().ok_or(CallError::Ended { how: slot.shown })
    }

    fn show(&mut self, index: u32, shown: Look) {
        self.slots.get_mut(&index).expect("a used slot").shown = shown;
    }

    pub fn extend(&mut self, key: &Key, when: u64) -> Result<u64, CallError> {
        if when > LAST_TICK {
            return Err(CallError::TooFar { limit: LAST_TICK });
        }
        let deadline = self.live(key)?.max(when);
        self.show(key.entry().index(), Look::StillLive(deadline));
        Ok(deadline)
    }

    pub fn cancel(&mut self, key: &Key) -> Result<u64, CallError> {
        let deadline = self.live(key)?;
        self.show(key.entry().index(), Look::LookCancelled);
        Ok(deadline)
    }
}

/// The model of a shard's queue.
#[derive(Clone)]
pub struct Shard {
    pub number: u32,
    last_stamp: u32,
    pub tick: u64,
    pub noted: u64,
    pub row: Row,
    inserted: u64,
    expired: u64,
    removed: u64,
    reaped: u64,
}

impl Shard {
    pub fn new(number: u32, capacity: usize, last_stamp: u32) -> Self {
        Shard {
            number,
            last_stamp,
            tick: 0,
            noted: 0,
            row: Row::new(Some(number), capacity),
            inserted: 0,
            expired: 0,
            removed: 0,
            reaped: 0,
        }
    }

    /// Its callers don't look at a key's number.
    pub fn whatever_the_number(mut self) -> Self {
        self.row.number = None;
        self
    }

    /// The slots that hold an entry, with their indexes.
    fn linked(&self) -> impl Iterator<Item = (u32, &Slot, Linked)> {
        self.row
            .slots
            .iter()
            .filter_map(|(index, slot)| Some((*index, slot, slot.linked?)))
    }

    pub fn len(&self) -> usize {
        self.linked().count()
    }

    pub fn worn(&self) -> usize {
        let is_worn = |slot: &&Slot| slot.linked.is_none() && slot.stamp == self.last_stamp;
        self.row.slots.values().filter(is_worn).count()
    }

    pub fn tally(&self) -> Tally {
        Tally {
            inserted: self.inserted,
            expired: self.expired,
            removed: self.removed,
            cancelled: self.reaped,
            linked: self.len() as u64,
            moves: 0,
        }
    }

    /// The live entries.
    pub fn live(&self) -> u64 {
        self.linked().filter(|(_, slot, _)| slot.live().is_some()).count() as u64
    }

    /// The live entries' keys of the present stamps, deadlines and values, by their indexes.
    pub fn entries(&self) -> Vec<(Key, u64, u64)> {
        let entry = |(index, slot, linked): (u32, &Slot, Linked)| {
            let entry = EntryId::new(self.number, index, linked.born);
            Some((Key::new(entry, slot.stamp), slot.live()?, linked.value))
        };
        self.linked().filter_map(entry).collect()
    }

    /// The entries that were cancelled and aren't reaped.
    pub fn cancelled(&self) -> Vec<EntryId> {
        let is_cancelled = |(_, slot, _): &(u32, &Slot, Linked)| slot.live().is_none();
        let name = |(index, _, linked): (u32, &Slot, Linked)| EntryId::new(self.number, index, linked.born);
        self.linked().filter(is_cancelled).map(name).collect()
    }

    /// The names of all that is linked.
    pub fn names(&self) -> Vec<EntryId> {
        self.linked()
            .map(|(index, _, linked)| EntryId::new(self.number, index, linked.born))
            .collect()
    }

    fn least_deadline(&self) -> Option<u64> {
        self.linked().filter_map(|(_, slot, _)| slot.live()).min()
    }

    fn find(&self, entry: &EntryId) -> Option<(u32, Slot, Linked)> {
        let slot = self.row.slots.get(&entry.index())?;
        let linked = slot.linked.filter(|linked| linked.born == entry.born())?;
        (entry.shard() == self.number).then_some((entry.index(), *slot, linked))
    }

    /// The value of an entry.
    pub fn value(&self, entry: &EntryId) -> Option<u64> {
        Some(self.find(entry)?.2.value)
    }

    fn find_live(&self, entry: &EntryId) -> Result<(u32, Slot, Linked, u64), CoreError> {
        let (index, slot, linked) = self.find(entry).ok_or(CoreError::Missing)?;
        let deadline = slot.live().ok_or(CoreError::WasCancelled)?;
        Ok((index, slot, linked, deadline))
    }

    // Ends what a slot holds, shown so from now on.
    fn vacate(&mut self, index: u32, shown: Look) {
        let slot = self.row.slots.get_mut(&index).expect("a used slot");
        slot.shown = shown;
        slot.linked = None;
    }

    /// An insert was answered so.
    pub fn inserted(&mut self, value: u64, when: u64, answer: Result<Key, CoreError>) {
        let (linked, worn) = (self.len(), self.worn());
        if when > LAST_TICK {
            assert_eq!(answer, Err(CoreError::TooFar { limit: LAST_TICK }));
        } else if linked + worn == self.row.capacity {
            assert_eq!(answer, Err(CoreError::Full { linked, worn }));
        } else {
            self.link(value, when, answer.expect("a slot is free"));
        }
    }

    fn link(&mut self, value: u64, when: u64, key: Key) {
        let index = key.entry().index();
        assert!((index as usize) < self.row.capacity, "{key:?}");
        let before = self.row.slots.get(&index);
        assert!(before.is_none_or(|slot| slot.linked.is_none()), "{key:?} is in use");
        let stamp = before.map_or(0, |slot| slot.stamp) + 1;
        assert!(stamp <= self.last_stamp, "{key:?} is worn");
        assert_eq!(key, Key::new(EntryId::new(self.number, index, stamp), stamp));
        let linked = Some(Linked { born: stamp, value });
        let shown = Look::StillLive(when.max(self.tick));
        self.row.slots.insert(index, Slot { stamp, shown, linked });
        self.inserted += 1;
    }

    pub fn reset(&mut self, entry: &EntryId, when: u64) -> Result<Key, CoreError> {
        if when > LAST_TICK {
            return Err(CoreError::TooFar { limit: LAST_TICK });
        }
        let (index, slot, linked, _) = self.find_live(entry)?;
        if slot.stamp == self.last_stamp {
            return Err(CoreError::Worn);
        }
        let stamp = slot.stamp + 1;
        let shown = Look::StillLive(when.max(self.tick));
        self.row.slots.insert(
            index,
            Slot {
                stamp,
                shown,
                linked: Some(linked),
            },
        );
        Ok(Key::new(*entry, stamp))
    }

    /// The key, the deadline and the value of what is removed.
    pub fn remove(&mut self, entry: &EntryId) -> Result<(Key, u64, u64), CoreError> {
        let (index, slot, linked, deadline) = self.find_live(entry)?;
        self.vacate(index, Look::LookRemoved(deadline));
        self.removed += 1;
        Ok((Key::new(*entry, slot.stamp), deadline, linked.value))
    }

    pub fn deadline(&self, entry: &EntryId) -> Result<u64, CoreError> {
        Ok(self.find_live(entry)?.3)
    }

    // Reaps these slots' cancelled entries.
    fn reap_where(&mut self, is_meant: impl Fn(u32) -> bool) -> usize {
        let cancelled = self.cancelled();
        let reaped = cancelled.iter().map(EntryId::index).filter(|index| is_meant(*index));
        let reaped: Vec<u32> = reaped.collect();
        for index in &reaped {
            self.vacate(*index, Look::LookCancelled);
        }
        self.reaped += reaped.len() as u64;
        reaped.len()
    }

    pub fn sweep(&mut self) -> usize {
        self.reap_where(|_| true)
    }

    pub fn sweep_some(&mut self, from: usize, count: usize) -> Swept {
        let end = from.saturating_add(count);
        let reaped = self.reap_where(|index| (from..end).contains(&(index as usize)));
        Swept {
            reaped,
            next: Some(end).filter(|end| *end < self.row.capacity),
        }
    }

    pub fn reap(&mut self, entry: &EntryId) -> Result<(), ReapError> {
        let (index, slot, _) = self.find(entry).ok_or(ReapError::Missing)?;
        if slot.live().is_some() {
            return Err(ReapError::Live);
        }
        self.reap_where(|other| other == index);
        Ok(())
    }

    pub fn clear(&mut self) -> usize {
        let live = self.entries();
        for (key, deadline, _) in &live {
            self.vacate(key.entry().index(), Look::LookRemoved(*deadline));
        }
        self.removed += live.len() as u64;
        self.sweep();
        live.len()
    }

    /// A poll notes a tick, or is refused by it.
    pub fn note(&mut self, tick: u64) -> Result<(), CoreError> {
        if tick > LAST_TICK {
            return Err(CoreError::TickTooLarge { limit: LAST_TICK });
        }
        self.noted = self.noted.max(tick);
        Ok(())
    }

    /// A poll reaped those entries on its way.
    pub fn reaped_on_the_way(&mut self, is_missing: impl FnMut(&EntryId) -> bool) {
        let mut is_missing = is_missing;
        for entry in self.cancelled() {
            if is_missing(&entry) {
                self.reap_where(|index| index == entry.index());
            }
        }
    }

    /// A poll, whose tick was noted and whose reaped entries are known, was answered so.
    pub fn answered(&mut self, turn: &Turn<Value>) {
        match turn {
            Turn::Out(expired) => self.came_out(expired),
            Turn::Waiting { next } => self.waits(*next),
            Turn::Idle => self.idles(),
        }
    }

    /// Nothing is due before that tick.
    pub fn waits(&mut self, next: u64) {
        let least = self.least_deadline();
        assert!(self.noted < next && self.len() > 0, "it waits until {next}");
        assert!(
            least.is_none_or(|deadline| next <= deadline),
            "{next} is after {least:?}"
        );
        self.tick = self.noted;
    }

    /// Nothing is linked.
    pub fn idles(&mut self) {
        assert_eq!(self.len(), 0, "it idles");
        self.tick = self.noted;
    }

    /// An entry came out.
    pub fn came_out(&mut self, expired: &Expired<Value>) {
        let key = expired.key;
        let (index, slot, linked) = self.find(&key.entry()).expect("a linked entry");
        assert_eq!(key.stamp(), slot.stamp);
        assert_eq!(expired.value.number(), linked.value);
        assert_eq!(slot.live(), Some(expired.deadline));
        assert_eq!(
            self.least_deadline(),
            Some(expired.deadline),
            "{key:?} isn't the soonest"
        );
        assert_eq!(expired.noted, self.noted);
        assert!(expired.deadline <= self.noted, "{key:?} is early");
        self.vacate(index, Look::LookExpired(expired.deadline));
        self.expired += 1;
        self.tick = self.tick.max(expired.deadline);
    }

    /// A poll in pieces made all of its steps, and the wheel stands at that tick.
    pub fn works(&mut self, tick: u64) {
        let least = self.least_deadline().unwrap_or(LAST_TICK);
        assert!(self.tick <= tick && tick <= self.noted.min(least), "it works at {tick}");
        self.tick = tick;
    }
}
