//! The queue without its clock: hontkhale's proved store of one owner, and what its handles need of it, in ticks of one
//! millisecond.
//!
//! An entry stays at its place until it ends, but that `compact` or a worn slot moves it.
//! No value is dropped while a lock is held, nor where a key is in hand that its panic would take along: the value of a cancelled
//! entry stays in its slot until a poll drops it.

use crate::key::{Expired, Key, Name, MOST_CORES};
use crate::shared::Shared;
use hontkhale::parts::directory::Clerk;
use hontkhale::parts::growing::{Cores, Folds, SizedStore};
use hontkhale::parts::owner::{self, CallError, CoreError, DelayCore, EntryId, Keeper, Look, OpenWords, Removed};
use std::sync::mpsc::{channel, Receiver};
use std::sync::{Arc, Mutex};

mod polls;
mod room;

/// After each tick.
pub(crate) const NEVER: u64 = u64::MAX;

type Core<T> = DelayCore<T, Keeper>;
/// The key of an entry that a call of the store gave another stamp.
type Renamed = Result<owner::Key, CoreError>;

pub(crate) struct Entries<T> {
    pub shared: Arc<Shared>,
    store: SizedStore<T, Keeper>,
    folds: Folds<Keeper>,
    clerk: Clerk<OpenWords>,
    /// What handles cancelled, and how many of their notes were heeded.
    cancelled: Mutex<Receiver<Key>>,
    heeded: usize,
    /// Whether values of cancelled entries may wait for their drop.
    has_freed: bool,
    /// How many entries came in, less those that came out or were removed: the cancelled ones count.
    left: usize,
    /// The slots that are asked for and not yet in a core.
    promised: usize,
    /// What is put in comes out no earlier: the deadline of what came out last, or the tick up to which nothing was left.
    tick: u64,
    /// Nothing comes out before this tick.
    hint: u64,
    last_stamp: u32,
    /// Whether there was ever a handle, and whether handles find an entry by a name that isn't its first one.
    has_handles: bool,
    has_names: bool,
    /// The key of what comes out next, since it was asked for, and its deadline.
    peeked: Mutex<Option<(Key, u64)>>,
}

impl<T> Entries<T> {
    /// Room for so many entries, whose slots have so many stamps.
    pub fn new(capacity: usize, last_stamp: u32) -> Entries<T> {
        let clerk = Clerk::new(MOST_CORES).expect("memory for a queue");
        let (tell, cancelled) = channel();
        let mut entries = Entries {
            shared: Arc::new(Shared::new(clerk.directory().clone(), tell)),
            store: SizedStore::new(room::FIRST_SLOTS).expect("a store of no cores"),
            folds: Folds::new(),
            clerk,
            cancelled: Mutex::new(cancelled),
            heeded: 0,
            has_freed: false,
            left: 0,
            promised: 0,
            tick: 0,
            hint: NEVER,
            last_stamp,
            has_handles: false,
            has_names: false,
            peeked: Mutex::default(),
        };
        entries.add_slots(capacity);
        entries
    }

    /// From here on handles find each entry, also one that hasn't its first name any more.
    pub fn share(&mut self) {
        if self.has_handles {
            return;
        }
        self.has_handles = true;
        let entries = (0..self.cores().count()).flat_map(|place| self.linked(place));
        let renamed = entries.filter_map(|(place, entry)| {
            let (name, first) = (self.look(&place)?.0, Name::of(&entry, entry.born()));
            (name != first).then_some((first, name))
        });
        self.shared.names().extend(renamed);
        self.has_names = !self.shared.names().is_empty();
    }

    #[inline]
    fn key(&self, entry: &EntryId) -> Key {
        Key { queue: self.shared.number, name: Name::of(entry, entry.born()) }
    }

    /// The id under which the store has the entry of a key, none where the key is another queue's.
    #[inline]
    fn entry(&self, key: &Key) -> Option<EntryId> {
        (key.queue == self.shared.number).then(|| key.name.entry())
    }

    /// Puts a value in, whose deadline isn't beyond the last tick.
    #[inline(always)]
    pub fn insert(&mut self, value: T, when: u64) -> Key {
        let when = when.max(self.tick);
        self.note_deadline(when);
        if !self.store.finds_room(true) {
            self.grow();
        }
        self.left += 1;
        match self.store.insert(value, when) {
            // A value may come out that has no drop.
            (Ok(key), _) => self.key(&key.entry()),
            _ => unreachable!("there is a free slot"),
        }
    }

    /// Gives the entry of a key another deadline, which isn't beyond the last tick.
    #[inline]
    pub fn reset(&mut self, key: &Key, when: u64) -> Result<(), CoreError> {
        let when = when.max(self.tick);
        let entry = self.entry(key).ok_or(CoreError::Missing)?;
        let reset = if !self.has_handles {
            self.store.reset_in_place(&entry, when).map(drop)
        } else if self.store.deadline(&entry)? > when {
            self.rename(key, |store| store.reset_in_place(&entry, when))
        } else {
            // A deadline that isn't sooner is an extend, after which the entry has the same name.
            self.shared.step(key, |words, key| words.extend(key, when)).map(drop).ok_or(CoreError::Missing)
        };
        match reset {
            Err(CoreError::Worn) => self.reset_elsewhere(key, when)?,
            others => others?,
        }
        self.note_deadline(when);
        Ok(())
    }

    /// The same of an entry whose slot has no stamp left: it goes to one of the open core.
    #[cold]
    #[inline(never)]
    fn reset_elsewhere(&mut self, key: &Key, when: u64) -> Result<(), CoreError> {
        if !self.store.finds_room(true) {
            self.grow();
        }
        self.rename(key, |store| store.reset(&key.name.entry(), when).0)
    }

    /// Makes a call of the store after which an entry has another stamp, or another place under the same user's key. A handle that
    /// finds the first one ended waits until the next is noted.
    fn rename(&mut self, key: &Key, call: impl FnOnce(&mut SizedStore<T, Keeper>) -> Renamed) -> Result<(), CoreError> {
        let mut names = self.shared.names();
        let renamed = call(&mut self.store)?;
        if self.has_handles {
            let place = self.store.store().place(&key.name.entry());
            names.extend(place.map(|place| (key.name, Name::of(&place, renamed.stamp()))));
            self.has_names = true;
        }
        Ok(())
    }

    /// Takes the entry of a key out, none where there is none.
    #[inline]
    pub fn remove(&mut self, key: &Key) -> Option<Expired<T>> {
        let removed = self.store.remove(&self.entry(key)?).ok()?;
        Some(self.removed(*key, removed))
    }

    /// Notes that an entry was taken out, and tells it as its user knows it.
    #[inline(always)]
    fn removed(&mut self, key: Key, removed: Removed<T>) -> Expired<T> {
        self.note_out(&key);
        Expired { key, data: removed.value, tick: removed.deadline, clock: self.shared.clock }
    }

    /// Notes that an entry came out or was removed.
    #[inline(always)]
    fn note_out(&mut self, key: &Key) {
        self.left -= 1;
        if self.has_names {
            self.forget_name(key);
        }
    }

    #[cold]
    fn forget_name(&mut self, key: &Key) {
        let mut names = self.shared.names();
        names.remove(&key.name);
        self.has_names = !names.is_empty();
    }

    /// The deadline in force of the entry of a key.
    pub fn deadline(&self, key: &Key) -> Option<u64> {
        let entry = self.entry(key)?;
        // The slot may have another entry by now.
        self.store.store().get(&entry)?;
        Some(self.look(&self.store.store().place(&entry)?)?.1)
    }

    /// The name of the live entry that is at a place, and its deadline in force.
    fn look(&self, place: &EntryId) -> Option<(Name, u64)> {
        let words = self.shared.words.get(place.shard())?;
        let mut name = Name::of(place, place.born());
        let mut look = words.look(&name.key());
        if let Err(CallError::Stale { seen }) = look {
            name = Name::of(place, seen);
            look = words.look(&name.key());
        }
        match look {
            Ok(Look::StillLive(deadline)) => Some((name, deadline)),
            _ => None,
        }
    }

    /// The entries of a core, those among them that were cancelled and not yet freed: where each is, and the id that its user has.
    fn linked(&self, core: usize) -> impl Iterator<Item = (EntryId, EntryId)> + '_ {
        let mut slot = 0;
        std::iter::from_fn(move || self.next_linked(core, &mut slot))
    }

    /// The first of them from a slot on, behind which the slot is then.
    fn next_linked(&self, core: usize, slot: &mut usize) -> Option<(EntryId, EntryId)> {
        let place = self.cores().get(core)?.entry_from(*slot, usize::MAX)?;
        *slot = place.index() as usize + 1;
        Some((place, self.store.store().entry_from(core, *slot - 1, 1)?))
    }

    #[inline(always)]
    fn cores(&self) -> &Cores<T, Keeper> {
        self.store.store().cores()
    }

    /// Each core, by its place.
    fn each_core(&self) -> impl Iterator<Item = &Core<T>> {
        (0..self.cores().count()).filter_map(|place| self.cores().get(place))
    }

    /// The entries, those among them that were cancelled and not yet freed.
    pub fn len(&self) -> usize {
        self.each_core().map(DelayCore::len).sum()
    }

    /// The entries that handles cancelled and that weren't freed yet.
    pub fn cancelled(&self) -> usize {
        let len = self.len();
        (len + self.shared.cancels()).saturating_sub(self.left)
    }
}
