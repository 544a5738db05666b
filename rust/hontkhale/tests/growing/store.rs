//! A store under drawn calls, and what each has to answer, by a map from each id that a user has to what is known of its entry.

use super::draw::Draw;
use super::value::{Living, Value};
use hontkhale::parts::growing::{Cores, Moved, NextDeadline, SizedStore, TakeError};
use hontkhale::parts::owner::{
    CoreConfig, CoreError, DelayCore, EntryId, Expired, Keeper, Key, OpenWords, Piece, ReapError, Turn, LAST_TICK,
};
use std::collections::{BTreeMap, BTreeSet};
use std::mem::replace;

/// What is known of an entry that is in the store.
#[derive(Clone, Copy)]
struct Known {
    value: u64,
    /// None where it was cancelled.
    deadline: Option<u64>,
    place: EntryId,
    stamp: u32,
}

/// The parts of an id, in the order of cores and slots.
type Id = (u32, u32, u32);

type Core = DelayCore<Value, Keeper>;

/// The most slots of a core.
const SLOTS: usize = 4;

pub struct Run {
    store: SizedStore<Value, Keeper>,
    entries: BTreeMap<Id, Known>,
    /// The ids that were given, the last one last.
    given: Vec<EntryId>,
    ways: BTreeMap<u32, (OpenWords, u32)>,
    deferred: BTreeSet<u64>,
    noted: u64,
    /// How many cancels were accepted.
    cancels: u64,
    pub draw: Draw,
    living: Living,
    values: u64,
    numbers: u32,
}

fn id_of(entry: &EntryId) -> Id {
    (entry.shard(), entry.index(), entry.born())
}

fn entry_of(id: &Id) -> EntryId {
    EntryId::new(id.0, id.1, id.2)
}

/// How many slots are free in which no value waits, where values wait in free slots first.
fn room_of(core: &Core) -> usize {
    (core.capacity() - core.len() - core.worn()).saturating_sub(core.deferred())
}

/// Whether nothing is in a core, not even a value that waits.
fn has_drained(core: &Core) -> bool {
    core.is_empty() && core.deferred() == 0
}

impl Run {
    pub fn new(seed: u64) -> Run {
        Run {
            store: SizedStore::new(1).expect("a store of no cores"),
            entries: BTreeMap::new(),
            given: Vec::new(),
            ways: BTreeMap::new(),
            deferred: BTreeSet::new(),
            noted: 0,
            cancels: 0,
            draw: Draw::new(seed),
            living: Living::default(),
            values: 0,
            numbers: 0,
        }
    }

    /// A tick near the noted one, or now and then one beyond the last.
    fn tick(&mut self) -> u64 {
        match self.draw.below(40) {
            0 => LAST_TICK + 1 + self.draw.below(3),
            1 => self.draw.below(self.noted + 1),
            2 => self.noted + self.draw.of_bits(30),
            _ => self.noted + self.draw.of_bits(9),
        }
    }

    /// The id of an entry that is in, or one that was given, mostly one of the last; or the place of a moved one.
    fn id(&mut self) -> Option<EntryId> {
        if self.draw.one_in(20) {
            let places: Vec<_> = self.entries.values().map(|known| known.place).collect();
            return (!places.is_empty()).then(|| self.draw.one_of(&places));
        }
        if !self.entries.is_empty() && self.draw.one_in(2) {
            let at = self.draw.below(self.entries.len() as u64) as usize;
            return self.entries.keys().nth(at).map(entry_of);
        }
        let back = self.draw.below(self.given.len().min(8) as u64) as usize;
        self.given.iter().rev().nth(back).copied()
    }

    /// What is known of a live entry, or why a call by its id is refused.
    fn live(&self, entry: &EntryId) -> Result<(Known, u64), CoreError> {
        let known = self.entries.get(&id_of(entry)).ok_or(CoreError::Missing)?;
        known
            .deadline
            .map(|deadline| (*known, deadline))
            .ok_or(CoreError::WasCancelled)
    }

    fn cores(&self) -> &Cores<Value, Keeper> {
        self.store.store().cores()
    }

    fn each_core(&self) -> impl Iterator<Item = &Core> {
        (0..self.cores().count()).filter_map(|place| self.cores().get(place))
    }

    fn open_core(&self) -> Option<&Core> {
        self.cores().get(self.cores().opened())
    }

    /// The number of the open core.
    fn opened(&self) -> Option<u32> {
        self.open_core().map(Core::shard)
    }

    /// Why the open core takes no entry, none where it does.
    fn is_full(&self) -> Option<CoreError> {
        let Some(open) = self.open_core() else {
            return Some(CoreError::Full { linked: 0, worn: 0 });
        };
        let (linked, worn) = (open.len(), open.worn());
        (linked + worn == open.capacity()).then_some(CoreError::Full { linked, worn })
    }

    /// An entry came into the open core, by that key at that place. What waited in its slot came out beside.
    fn comes(&mut self, key: Key, place: EntryId, value: u64, when: u64, beside: Option<Value>) {
        if let Some(beside) = beside {
            assert!(self.deferred.remove(&beside.number()), "a value that didn't wait");
        }
        assert_eq!(Some(place.shard()), self.opened());
        let known = Known {
            value,
            deadline: Some(when),
            place,
            stamp: key.stamp(),
        };
        self.entries.insert(id_of(&key.entry()), known);
        self.has_deadline(key.entry(), when);
    }

    /// The entry's deadline is `when`, or one up to the noted tick where that is sooner.
    fn has_deadline(&mut self, entry: EntryId, when: u64) {
        let deadline = self.store.deadline(&entry).expect("a live entry");
        let most = when.max(self.noted);
        assert!(when <= deadline && deadline <= most, "{deadline} for {when}");
        let known = self.entries.get_mut(&id_of(&entry)).expect("an entry that is in");
        known.deadline = Some(deadline);
        assert_eq!(self.store.store().place(&entry), Some(known.place));
        assert_eq!(self.store.store().get(&entry).map(Value::number), Some(known.value));
    }

    fn leaves(&mut self, entry: &EntryId) -> Known {
        self.entries.remove(&id_of(entry)).expect("an entry that is in")
    }

    pub fn insert(&mut self) {
        let when = self.tick();
        self.values += 1;
        let known = match when > LAST_TICK {
            true => Some(CoreError::TooFar { limit: LAST_TICK }),
            false => self.is_full(),
        };
        let next = self.store.store().next_key();
        let (answer, beside) = self.store.insert(self.living.value(self.values), when);
        match answer {
            Ok(key) => {
                assert_eq!(known, None);
                assert_eq!(next, beside.is_none().then_some(key));
                let is_new = !self.given.contains(&key.entry());
                assert!(is_new && self.entries.values().all(|it| it.place != key.entry()));
                self.given.push(key.entry());
                self.comes(key, key.entry(), self.values, when, beside);
            }
            Err((error, value)) => assert_eq!((Some(error), value.number()), (known, self.values)),
        }
    }

    pub fn remove(&mut self) {
        let Some(entry) = self.id() else { return };
        let known = self.live(&entry);
        let answer = self.store.remove(&entry);
        assert_eq!(answer.as_ref().err(), known.as_ref().err());
        if let (Ok(removed), Ok((known, deadline))) = (answer, known) {
            assert_eq!(
                (removed.key, removed.deadline),
                (Key::new(entry, known.stamp), deadline)
            );
            assert_eq!(removed.value.number(), known.value);
            self.leaves(&entry);
            self.is_gone(&entry);
        }
    }

    pub fn remove_if_due(&mut self) {
        let Some(entry) = self.id() else { return };
        let (known, tick) = (self.live(&entry), self.tick());
        let answer = self.store.remove_if_due(&entry, tick);
        assert_eq!(answer.as_ref().err(), known.as_ref().err());
        let (Ok(answer), Ok((known, deadline))) = (answer, known) else {
            return;
        };
        assert_eq!(answer.is_some(), deadline <= tick);
        match answer {
            Some(removed) => {
                let told = (removed.key, removed.deadline, removed.value.number());
                assert_eq!(told, (Key::new(entry, known.stamp), deadline, known.value));
                self.leaves(&entry);
                self.is_gone(&entry);
            }
            None => assert_eq!(self.store.deadline(&entry), Ok(deadline)),
        }
    }

    /// No call finds an entry that left, and its note went with it.
    fn is_gone(&mut self, entry: &EntryId) {
        assert_eq!(self.store.deadline(entry), Err(CoreError::Missing));
        assert!(self.store.store().get(entry).is_none());
        assert_eq!(self.store.store().place(entry), Some(*entry));
    }

    pub fn reset(&mut self) {
        let Some(entry) = self.id() else { return };
        let when = self.tick();
        let (known, full) = (self.live(&entry), self.is_full());
        let (answer, beside) = self.store.reset(&entry, when);
        let is_worn = |known: &Known| known.stamp == self.ways[&known.place.shard()].1;
        let error = match &known {
            _ if when > LAST_TICK => Some(CoreError::TooFar { limit: LAST_TICK }),
            Ok((known, _)) => full.filter(|_| is_worn(known)),
            Err(error) => Some(*error),
        };
        assert_eq!(answer.as_ref().err(), error.as_ref());
        let (Ok(key), Ok((known, _))) = (answer, &known) else {
            return assert!(beside.is_none());
        };
        assert_eq!(key.entry(), entry);
        if is_worn(known) {
            let place = self.store.store().place(&entry).expect("where it is");
            self.comes(key, place, known.value, when, beside);
        } else {
            assert_eq!((key.stamp(), beside.is_none()), (known.stamp + 1, true));
            self.entries.get_mut(&id_of(&entry)).expect("it is in").stamp += 1;
            self.has_deadline(entry, when);
        }
    }

    pub fn relocate(&mut self) {
        let Some(entry) = self.id() else { return };
        let tick = self.tick();
        let next = self.draw.one_of(&[
            NextDeadline::Same,
            NextDeadline::At(tick),
            NextDeadline::SameIfAfter(tick),
        ]);
        let (known, full) = (self.live(&entry), self.is_full());
        let is_too_far = matches!(next, NextDeadline::At(_)) && tick > LAST_TICK;
        let error = match (&known, full) {
            // It is looked first whether a place has another's entry.
            _ if self.store.store().place(&entry).is_none() => Some(CoreError::Missing),
            _ if is_too_far => Some(CoreError::TooFar { limit: LAST_TICK }),
            (_, Some(full)) => Some(full),
            (known, None) => known.as_ref().err().copied(),
        };
        let (answer, beside) = self.store.relocate(&entry, next);
        assert_eq!(answer.as_ref().err(), error.as_ref());
        let (Ok(moved), Ok((known, deadline))) = (answer, known) else {
            return assert!(beside.is_none());
        };
        match moved {
            Moved::To { key, deadline: told } => {
                let wanted = if let NextDeadline::At(tick) = next {
                    tick
                } else {
                    deadline
                };
                assert_eq!((key.entry(), told), (entry, wanted));
                let place = self.store.store().place(&entry).expect("where it is");
                self.comes(key, place, known.value, told, beside);
            }
            Moved::Out(removed) => {
                assert!(matches!(next, NextDeadline::SameIfAfter(tick) if deadline <= tick));
                assert_eq!((removed.key.entry(), removed.value.number()), (entry, known.value));
                self.leaves(&entry);
                self.is_gone(&entry);
            }
        }
    }

    pub fn deadline(&mut self) {
        if let Some(entry) = self.id() {
            self.deadline_of(entry);
        }
    }

    fn deadline_of(&mut self, entry: EntryId) {
        let known = self.live(&entry).map(|it| it.1);
        assert_eq!(self.store.deadline(&entry), known);
        let value = self.entries.get(&id_of(&entry)).map(|it| it.value);
        assert_eq!(self.store.store().get(&entry).map(Value::number), value);
    }

    /// A change of an entry's value where it is.
    pub fn with_value(&mut self) {
        let Some(entry) = self.id() else { return };
        self.values += 1;
        let next = self.living.value(self.values);
        let was = self.store.with_value(&entry, |value| replace(value, next).number());
        let known = self.entries.get_mut(&id_of(&entry));
        assert_eq!(was, known.map(|it| replace(&mut it.value, self.values)));
        self.deadline_of(entry);
    }

    /// An extend or a cancel at the entry's place.
    pub fn step(&mut self) {
        let (Some(entry), when) = (self.id(), self.noted + self.draw.of_bits(9)) else {
            return;
        };
        let Ok((known, deadline)) = self.live(&entry) else {
            return;
        };
        let (words, key) = (&self.ways[&known.place.shard()].0, Key::new(known.place, known.stamp));
        let after = if self.draw.one_in(3) {
            assert_eq!(words.cancel(&key), Ok(deadline));
            self.cancels += 1;
            None
        } else {
            assert_eq!(words.extend(&key, when), Ok(deadline.max(when)));
            Some(deadline.max(when))
        };
        self.entries.get_mut(&id_of(&entry)).expect("it is in").deadline = after;
    }

    pub fn reap(&mut self) {
        let Some(entry) = self.id() else { return };
        let known = match self.live(&entry) {
            Ok(_) => Err(ReapError::Live),
            Err(CoreError::WasCancelled) => Ok(()),
            Err(_) => Err(ReapError::Missing),
        };
        assert_eq!(self.store.reap(&entry), known);
        if known.is_ok() {
            let value = self.leaves(&entry).value;
            self.deferred.insert(value);
            self.is_gone(&entry);
        }
    }

    /// A poll, whole or by so many steps.
    pub fn poll(&mut self) {
        let tick = self.tick();
        let answer = match self.draw.below(12) {
            most if most < 6 => self.store.poll_some(tick, most as u32),
            _ => self.store.poll(tick),
        };
        if tick > LAST_TICK {
            return assert_eq!(answer.err(), Some(CoreError::TickTooLarge { limit: LAST_TICK }));
        }
        self.noted = self.noted.max(tick);
        match answer.expect("a tick up to the last") {
            Piece::Answer(Turn::Out(expired)) => self.came_out(expired),
            Piece::Answer(Turn::Waiting { .. } | Turn::Idle) => {
                assert!(self
                    .entries
                    .values()
                    .all(|it| it.deadline.is_none_or(|at| at > self.noted)));
            }
            Piece::Working => {}
        }
        self.find_reaped();
    }

    fn came_out(&mut self, expired: Expired<Value>) {
        let entry = expired.key.entry();
        let (known, deadline) = self.live(&entry).expect("a live entry");
        assert!(deadline <= self.noted, "an entry comes out early");
        assert_eq!((expired.key.stamp(), expired.deadline), (known.stamp, deadline));
        assert_eq!(expired.value.number(), known.value);
        self.leaves(&entry);
        self.is_gone(&entry);
    }

    /// Finds which of the cancelled entries were reaped.
    fn find_reaped(&mut self) {
        let cancelled = self.entries.iter().filter(|it| it.1.deadline.is_none());
        let cancelled: Vec<_> = cancelled.map(|it| entry_of(it.0)).collect();
        for entry in cancelled {
            match self.store.deadline(&entry) {
                Err(CoreError::Missing) => {
                    let value = self.leaves(&entry).value;
                    self.deferred.insert(value);
                }
                answer => assert_eq!(answer, Err(CoreError::WasCancelled)),
            }
        }
    }

    /// The hint isn't after the deadline of a live entry, and neither is it once the only core was looked at.
    pub fn hint(&mut self) {
        if self.draw.one_in(4) {
            self.store.note_next();
        }
        let hint = self.store.hint();
        assert!(self.entries.values().all(|it| it.deadline.is_none_or(|at| hint <= at)));
    }

    pub fn take_deferred(&mut self) {
        match self.store.take_deferred() {
            Some(value) => assert!(self.deferred.remove(&value.number()), "a value that didn't wait"),
            None => assert!(self.deferred.is_empty()),
        }
    }

    /// A place in the row, and the number of the core there.
    fn place(&mut self) -> (usize, Option<u32>) {
        let place = self.draw.below(self.cores().count() as u64 + 1) as usize;
        (place, self.cores().get(place).map(Core::shard))
    }

    /// Some looks for cancelled entries, or as many as are enough to free each. A look takes in all slots of a core, as
    /// it has few; and some slots may be counted still of a core that was taken out.
    pub fn sweep(&mut self) {
        let enough = self.cores().count() + SLOTS + 1;
        let most = self.draw.one_of(&[1, 2, enough]);
        let is_done = !(0..most).all(|_| self.store.sweep(self.cancels));
        self.find_reaped();
        assert!(is_done || most < enough, "a sweep has no end");
        assert!(!is_done || self.entries.values().all(|it| it.deadline.is_some()));
        // Nothing that is live was freed.
        assert_eq!(self.each_core().map(Core::len).sum::<usize>(), self.entries.len());
    }

    /// A core names its entries by the ids that their users have.
    pub fn names(&mut self) {
        let ((place, core), from, count) = (self.place(), self.draw.below(5), self.draw.below(5));
        let slots = from as u32..(from + count) as u32;
        let there = self.entries.iter().filter(|it| Some(it.1.place.shard()) == core);
        let there: Vec<_> = there.map(|it| (it.1.place.index(), entry_of(it.0))).collect();
        let first = self.store.store().first_in(place);
        let is_there = first.is_some_and(|first| there.iter().any(|it| it.1 == first));
        assert_eq!((first.is_some(), is_there), (!there.is_empty(), !there.is_empty()));
        let known = there.iter().filter(|it| slots.contains(&it.0)).min_by_key(|it| it.0);
        let answer = self.store.store().entry_from(place, from as usize, count as usize);
        assert_eq!(answer, known.map(|it| it.1));
    }

    fn core_of(&mut self, number: u32, last_stamp: u32) -> Core {
        let capacity = 1 + self.draw.below(SLOTS as u64) as usize;
        let mut keeper = Keeper::new(capacity).expect("a keeper");
        let words = keeper.open().expect("open words");
        self.ways.entry(number).or_insert((words, last_stamp));
        let config = CoreConfig {
            shard: number,
            capacity,
            last_stamp,
        };
        DelayCore::new(config, keeper).map_err(|it| it.0).expect("a core")
    }

    /// Another core comes, of 1 to 4 slots and 1 to 3 stamps.
    pub fn exchange(&mut self) {
        if self.cores().count() as u64 > self.draw.below(8) {
            return;
        }
        self.numbers += 1;
        let last_stamp = 1 + self.draw.below(3) as u32;
        let core = self.core_of(self.numbers, last_stamp);
        assert!(self.store.reserve(1).is_ok());
        self.bring(core);
    }

    /// A core comes, mostly where none is open. It stands last, and is open where the open one has no room; else that one
    /// may stay open.
    fn bring(&mut self, core: Core) {
        if !self.draw.one_in(4) {
            self.close();
        }
        let (number, open) = (Some(core.shard()), self.opened());
        let has_room = self.open_core().is_some_and(|core| room_of(core) > 0);
        assert!(self.store.bring(core).is_ok());
        assert_eq!(self.each_core().last().map(Core::shard), number);
        assert!(self.opened() == number || has_room && self.opened() == open);
    }

    pub fn close(&mut self) {
        self.store.close();
        assert_eq!(self.opened(), None);
    }

    /// The open core stays open where it has room. Else the one with the most room is open, of those that are half free
    /// or of all.
    pub fn find_room(&mut self) {
        let (any_will_do, open) = (self.draw.one_in(2), self.opened());
        let had = self.open_core().map_or(0, room_of);
        let may_open = |core: &&Core| any_will_do || core.capacity() / 2 <= room_of(core);
        let most = self.each_core().filter(may_open).map(room_of).max().unwrap_or(0);
        assert_eq!(self.store.finds_room(any_will_do), had > 0 || most > 0);
        if had > 0 || most == 0 {
            return assert_eq!(self.opened(), open);
        }
        let opened = self.open_core().filter(may_open);
        assert_eq!(opened.map(room_of), Some(most));
        assert!(self.store.store().next_key().is_some(), "a value is in the way");
    }

    /// A core of fresh words doesn't come in under a number that the id of a moved entry has.
    pub fn take_refused(&mut self) {
        let is_moved = |it: &(&Id, &Known)| entry_of(it.0) != it.1.place;
        let Some(number) = self.entries.iter().find(is_moved).map(|it| it.0 .0) else {
            return;
        };
        let core = self.core_of(number, 1);
        let known = (self.cores().count(), self.opened());
        let refused = self.store.bring(core).map_err(|it| (it.0, it.1.shard()));
        assert_eq!(refused, Err((TakeError::UsedNumber, number)));
        assert_eq!((self.cores().count(), self.opened()), known);
    }

    /// The numbers of the cores that have drained, but for the open one.
    fn drained(&self) -> Vec<u32> {
        let drained = |core: &&Core| has_drained(core) && Some(core.shard()) != self.opened();
        self.each_core().filter(drained).map(Core::shard).collect()
    }

    /// Takes a core out that has drained, and isn't needed.
    pub fn take_needless(&mut self) {
        let (open, drained) = (self.opened(), self.drained());
        let answer = self.store.take_needless();
        if answer.is_none() {
            // One that is worn is never needed.
            let is_worn = |core: &Core| drained.contains(&core.shard()) && 2 * core.worn() > core.capacity();
            assert!(!self.each_core().any(is_worn), "a worn core stays");
        }
        self.took_out(answer, &drained, open);
    }

    /// The same, needed or not.
    pub fn take_drained(&mut self) {
        let (open, drained) = (self.opened(), self.drained());
        let answer = self.store.take_drained();
        assert_eq!(answer.is_none(), drained.is_empty());
        self.took_out(answer, &drained, open);
    }

    /// A core that was taken out is dropped, or brought in again.
    fn took_out(&mut self, core: Option<Core>, drained: &[u32], open: Option<u32>) {
        assert_eq!(self.opened(), open);
        let Some(core) = core else { return };
        assert!(has_drained(&core) && drained.contains(&core.shard()));
        assert!(self.each_core().all(|it| it.shard() != core.shard()));
        if self.draw.one_in(2) {
            self.bring(core);
        }
    }

    /// All that is left comes out. Then all that waits is dropped, and no value lives.
    pub fn ends(mut self) {
        while let Some(last) = self.entries.values().filter_map(|it| it.deadline).max() {
            self.noted = self.noted.max(last);
            if let Ok(Piece::Answer(Turn::Out(expired))) = self.store.poll(last) {
                self.came_out(expired);
            }
        }
        let lives = self.living.count();
        let waits = self.deferred.len() + self.entries.len();
        drop(self.store);
        assert_eq!((lives, self.living.count()), (waits as u64, 0));
    }
}
