//! What a row of cores has to answer, by a map from each slot that any core ever had to what is known of it.

use hontkhale::parts::owner::{CallError, CoreError, EntryId, Key, Look, LAST_TICK};
use std::collections::BTreeMap;

/// What a slot holds.
#[derive(Clone, Copy, Debug, PartialEq)]
pub struct Held {
    pub born: u32,
    pub value: u64,
    /// Whether it was put in at a tick that was noted already, so that it was due at once.
    pub is_late: bool,
    /// The deadline that its entry gave up, where it was cancelled.
    pub gave_up: Option<u64>,
}

/// A slot: the stamp of its word and what that shows, what it holds, and the value that waits for its drop there.
#[derive(Clone, Copy, Debug, Default, PartialEq)]
pub struct Slot {
    pub stamp: u32,
    pub shows: Option<Look>,
    pub held: Option<Held>,
    pub deferred: Option<u64>,
}

/// A slot's core and its index there.
pub type Place = (u32, u32);

/// The slots of all cores, which of the cores are in the row, in its order, and which of these is open.
#[derive(Debug, Default)]
pub struct Model {
    pub slots: BTreeMap<Place, Slot>,
    pub last_stamps: BTreeMap<u32, u32>,
    pub row: Vec<u32>,
    pub open: Option<u32>,
    pub noted: u64,
}

/// The place of an entry.
pub fn place_of(entry: EntryId) -> Place {
    (entry.shard(), entry.index())
}

impl Slot {
    fn is_free(&self, last_stamp: u32) -> bool {
        self.held.is_none() && self.stamp < last_stamp
    }

    /// The deadline in force of what it holds, none where that was cancelled.
    pub fn deadline(&self) -> Option<u64> {
        match (self.held, self.shows) {
            (Some(_), Some(Look::StillLive(deadline))) => Some(deadline),
            _ => None,
        }
    }
}

impl Model {
    /// A core is made, of which no slot was ever used.
    pub fn make(&mut self, core: u32, capacity: u32, last_stamp: u32) {
        self.last_stamps.insert(core, last_stamp);
        self.slots
            .extend((0..capacity).map(|index| ((core, index), Slot::default())));
    }

    pub fn slots_of(&self, core: u32) -> impl Iterator<Item = (Place, Slot)> + '_ {
        self.slots
            .range((core, 0)..=(core, u32::MAX))
            .map(|(place, slot)| (*place, *slot))
    }

    /// The slots of the cores that are in the row.
    pub fn slots_in(&self) -> impl Iterator<Item = (Place, Slot)> + '_ {
        self.row.iter().flat_map(|&core| self.slots_of(core))
    }

    pub fn linked(&self, core: u32) -> usize {
        self.slots_of(core).filter(|it| it.1.held.is_some()).count()
    }

    pub fn worn(&self, core: u32) -> usize {
        let last = self.last_stamps[&core];
        self.slots_of(core)
            .filter(|it| it.1.held.is_none() && it.1.stamp == last)
            .count()
    }

    pub fn free(&self, core: u32) -> Vec<Slot> {
        let last = self.last_stamps[&core];
        self.slots_of(core)
            .map(|it| it.1)
            .filter(|it| it.is_free(last))
            .collect()
    }

    /// Whether nothing is linked in a core, and no value waits there.
    pub fn is_foldable(&self, core: u32) -> bool {
        self.slots_of(core)
            .all(|it| it.1.held.is_none() && it.1.deferred.is_none())
    }

    /// The least deadline of a live entry of the row, and of one that wasn't late.
    pub fn least_deadlines(&self) -> [Option<u64>; 2] {
        let is_late = |slot: &Slot| slot.held.is_some_and(|held| held.is_late);
        let least = |slots: &mut dyn Iterator<Item = Slot>| slots.filter_map(|slot| slot.deadline()).min();
        let slots = || self.slots_in().map(|it| it.1);
        [least(&mut slots()), least(&mut slots().filter(|slot| !is_late(slot)))]
    }

    pub fn is_idle(&self) -> bool {
        self.row.iter().all(|&core| self.linked(core) == 0)
    }

    /// How many values wait for their drop in the row.
    pub fn deferred(&self) -> usize {
        self.slots_in().filter(|it| it.1.deferred.is_some()).count()
    }

    /// The keys of the live entries of the row.
    pub fn live(&self) -> Vec<Key> {
        let key = |((core, index), slot): (Place, Slot)| {
            let born = slot.deadline().and(slot.held)?.born;
            Some(Key::new(EntryId::new(core, index, born), slot.stamp))
        };
        self.slots_in().filter_map(key).collect()
    }

    /// The names of the entries that are linked in the row and were cancelled.
    pub fn cancelled(&self) -> Vec<EntryId> {
        self.slots_in()
            .filter_map(|((core, index), slot)| {
                let held = slot.held?;
                held.gave_up.map(|_| EntryId::new(core, index, held.born))
            })
            .collect()
    }

    /// Why an insert is refused, none where it isn't.
    pub fn refuses_insert(&self, when: u64) -> Option<CoreError> {
        if when > LAST_TICK {
            return Some(CoreError::TooFar { limit: LAST_TICK });
        }
        let Some(open) = self.open else {
            return Some(CoreError::Full { linked: 0, worn: 0 });
        };
        self.free(open).is_empty().then(|| CoreError::Full {
            linked: self.linked(open),
            worn: self.worn(open),
        })
    }

    /// The slot that holds an entry of the row, or why a call by its name is refused.
    pub fn named(&self, entry: EntryId) -> Result<(Slot, u64), CoreError> {
        let slot = self
            .slots
            .get(&place_of(entry))
            .filter(|_| self.row.contains(&entry.shard()));
        let Some((slot, held)) = slot.and_then(|slot| slot.held.map(|held| (slot, held))) else {
            return Err(CoreError::Missing);
        };
        if held.born != entry.born() {
            return Err(CoreError::Missing);
        }
        slot.deadline()
            .map(|deadline| (*slot, deadline))
            .ok_or(CoreError::WasCancelled)
    }

    /// What a look by a key shows, whether its core is in the row, folded or gone.
    pub fn look(&self, key: Key) -> Result<Look, CallError> {
        let Some(slot) = self.slots.get(&place_of(key.entry())) else {
            return Err(CallError::Unknown);
        };
        match slot.shows {
            Some(shows) if slot.stamp == key.stamp() => Ok(shows),
            _ if slot.stamp > key.stamp() => Err(CallError::Stale { seen: slot.stamp }),
            _ => Err(CallError::Unknown),
        }
    }

    /// The deadline that an extend or a cancel by a key finds, or why it is refused.
    pub fn called(&self, key: Key) -> Result<u64, CallError> {
        match self.look(key)? {
            Look::StillLive(deadline) => Ok(deadline),
            how => Err(CallError::Ended { how }),
        }
    }

    pub fn slot(&mut self, entry: EntryId) -> &mut Slot {
        self.slots.get_mut(&place_of(entry)).expect("a slot that is known")
    }

    /// An entry has that deadline from now on, by an insert or a reset, or by an extend.
    pub fn due_at(&mut self, entry: EntryId, deadline: u64, is_extended: bool) {
        let noted = self.noted;
        let slot = self.slot(entry);
        slot.shows = Some(Look::StillLive(deadline));
        let held = slot.held.as_mut().expect("an entry that is linked");
        held.is_late = deadline <= noted && (held.is_late || !is_extended);
    }

    /// An entry leaves its slot, whose word shows from then on how it ended. The number of its value.
    pub fn ends(&mut self, entry: EntryId, how: Look) -> u64 {
        let slot = self.slot(entry);
        slot.shows = Some(how);
        slot.held.take().expect("an entry that is linked").value
    }

    /// An entry's slot is freed, and its value waits for its drop there.
    pub fn defers(&mut self, place: Place) {
        let slot = self.slots.get_mut(&place).expect("a slot that is known");
        let held = slot.held.take().expect("an entry that is linked");
        let before = slot.deferred.replace(held.value);
        assert_eq!(before, None, "a slot has two values");
        if let Some(Look::StillLive(deadline)) = slot.shows {
            slot.shows = Some(Look::LookRemoved(deadline));
        }
    }
}
