//! A store as its users see it: they know an entry by the id that it came in with, wherever it is. It keeps itself at
//! the right size, and knows a tick before which nothing in it is due.
//!
//! Whoever shares a store behind a lock tells others this tick, the *hint*, so that they take the lock only if
//! something may be due. It is never later than the deadline of a live entry: an insert and a reset lower it, and a
//! poll that finds nothing due sets it anew.

use crate::core::{CoreError, DelayCore, Expired, Piece, ReapError, Removed, Swept, Turn, Words};
use crate::growing::cores::{missing_at, wake_of, Cores, TakeError};
use crate::growing::moving::{Moved, NextDeadline};
use crate::growing::notes::Notes;
use crate::growing::sizing::{has_open_room, is_look, may_shrink, slots, Sizing};
use crate::growing::NEVER;
use crate::memory::AllocError;
use crate::ticks::{EntryId, Key};

/// What a [`SizedStore`] holds, to be read: its cores, and a note of where each moved entry is.
pub struct Store<T, W: Words> {
    pub(crate) cores: Cores<T, W>,
    pub(crate) notes: Notes,
}

// A key of a place, as its user has it.
fn key_as(user: &EntryId, key: Key) -> Key {
    Key::new(*user, key.stamp())
}

// What was taken out, as its user knows it.
fn removed_as<T>(user: &EntryId, removed: Removed<T>) -> Removed<T> {
    let Removed { key, deadline, value } = removed;
    Removed {
        key: key_as(user, key),
        deadline,
        value,
    }
}

// What came out, as its user knows it.
fn expired_as<T>(user: &EntryId, expired: Expired<T>) -> Expired<T> {
    let Expired {
        key,
        deadline,
        noted,
        value,
    } = expired;
    Expired {
        key: key_as(user, key),
        deadline,
        noted,
        value,
    }
}

// Notes what became of a user's entry that was moved from a place, and tells it as its user knows it.
fn note_moved<T>(notes: &mut Notes, user: &EntryId, place: &EntryId, moved: Moved<T>) -> Moved<T> {
    // requires HasNoteRoom notes.old
    // requires IfTo moved (λ key _. with_id notes.old.users key.entry ≡ None)
    match moved {
        Moved::To { key, deadline } => {
            notes.note(user, &key.entry());
            let renamed = key_as(user, key);
            Moved::To { key: renamed, deadline }
        }
        Moved::Out(removed) => {
            let _ = notes.forget(place);
            Moved::Out(removed_as(user, removed))
        }
    }
}

// The same of the answer of a move.
fn note_answer<T>(
    notes: &mut Notes,
    user: &EntryId,
    place: &EntryId,
    answer: Result<Moved<T>, CoreError>,
) -> Result<Moved<T>, CoreError> {
    // requires HasNoteRoom notes.old
    // requires IfOk answer (λ moved. IfTo moved (λ key _. with_id notes.old.users key.entry ≡ None))
    match answer {
        Ok(moved) => Ok(note_moved(notes, user, place, moved)),
        Err(error) => Err(error),
    }
}

// Takes away the note of what a poll took out, and tells it as its user knows it.
#[inline(always)]
fn note_out<T>(notes: &mut Notes, made: Result<Piece<T>, CoreError>) -> Result<Piece<T>, CoreError> {
    match made {
        Ok(Piece::Answer(Turn::Out(expired))) => {
            let place = expired.key.entry();
            let user = notes.user(&place);
            let _ = notes.forget(&place);
            let expired = expired_as(&user, expired);
            Ok(Piece::Answer(Turn::Out(expired)))
        }
        answer => answer,
    }
}

// Whether a slot has no stamp left for another key.
fn is_worn(error: CoreError) -> bool {
    match error {
        CoreError::Worn => true,
        _ => false,
    }
}

// The key of an entry that is in again.
fn moved_key<T>(moved: Moved<T>) -> Key {
    // requires IfCameOut moved (λ _. ⊥)
    match moved {
        Moved::To { key, deadline: _ } => key,
        Moved::Out(_) => unreachable!(),
    }
}

// The key that a move tells, if it isn't refused and the entry is in again.
fn key_told<T>(answer: Result<Moved<T>, CoreError>) -> Result<Key, CoreError> {
    // requires IfOk answer (λ moved. IfCameOut moved (λ _. ⊥))
    match answer {
        Ok(moved) => Ok(moved_key(moved)),
        Err(error) => Err(error),
    }
}

impl<T, W: Words> Store<T, W> {
    /// Takes a core in, which is open from then on. The one that was open drains. It takes memory for the list of cores
    /// alone.
    ///
    /// # Errors
    /// The core comes back, and nothing changes. In this order:
    /// - `UsedNumber` if a moved entry is known by an id of that number with a stamp that the core may give anew.
    /// - `StillLinked` if an entry is linked in the core.
    /// - `UsedNumber` if a core of the store has its number, or it is the last one of all.
    /// - `NoMemory` if memory is refused.
    #[allow(clippy::result_large_err)]
    pub(crate) fn take_in(&mut self, core: DelayCore<T, W>) -> Result<(), (TakeError, DelayCore<T, W>)> {
        if !self.notes.are_past_in(&core) {
            return Err((TakeError::UsedNumber, core));
        }
        self.cores.take_in(core)
    }

    // Takes the core at a place out, which has drained.
    pub(crate) fn take_at(&mut self, place: usize) -> DelayCore<T, W> {
        // requires (c : Core T W) × HasDrained self.old.cores place c
        self.cores.take_at(place)
    }
}

impl<T, W: Words> Store<T, W> {
    /// Returns the cores, to be read.
    #[inline(always)]
    pub fn cores(&self) -> &Cores<T, W> {
        &self.cores
    }

    /// Returns where an entry is: the id under which its core has it, its own if it wasn't moved. It doesn't look
    /// whether the entry is still there, and returns none if no entry of the store has that id for its user.
    #[inline]
    pub fn place(&self, entry: &EntryId) -> Option<EntryId> {
        self.notes.place(entry)
    }

    /// Returns the value of an entry. It returns none if the entry isn't in the store any more, or never was. A
    /// cancelled entry has its value until it is freed. Constant time.
    pub fn get(&self, entry: &EntryId) -> Option<&T> {
        let place = self.notes.place(entry)?;
        let core = self.cores.of(&place)?;
        core.get(&place)
    }

    /// Returns the key that an insert may give next: that of a free slot of the open core in which no value waits for
    /// its drop. It returns none if no core is open, or no such slot is left. Constant time.
    pub fn next_key(&self) -> Option<Key> {
        self.cores.next_key()
    }

    /// Returns the id of the entry that is scheduled first in the core at a place, possibly a cancelled one. It returns
    /// none if no entry is linked there, or there is no such place.
    pub fn first_in(&self, place: usize) -> Option<EntryId> {
        let core = self.cores.get(place)?;
        let key = core.peek()?;
        let user = self.notes.user(&key.entry());
        Some(user)
    }

    /// Returns the id of the entry that stands first in `count` slots from `from` on of the core at a place, live or
    /// cancelled. It returns none if none stands there, or there is no such place.
    pub fn entry_from(&self, place: usize, from: usize, count: usize) -> Option<EntryId> {
        let core = self.cores.get(place)?;
        let entry = core.entry_from(from, count)?;
        let user = self.notes.user(&entry);
        Some(user)
    }

    /// Opens the core at a place, so that inserts go there from now on. It returns whether there is such a place.
    pub(crate) fn open(&mut self, place: usize) -> bool {
        self.cores.open(place)
    }

    /// Reaps each linked entry that is found cancelled at `count` slots from `from` on of the core at a place, and
    /// tells the slot to go on from. It returns none where there is no such place. No value is dropped: each waits
    /// until it is taken out. The notes stay.
    pub(crate) fn sweep_some(&mut self, place: usize, from: usize, count: usize) -> Option<Swept> {
        self.cores.sweep_some(place, from, count)
    }
}

/// A delay queue of one owner that grows and shrinks, and moves entries from core to core. An entry keeps the id that
/// its key had when it came in.
///
/// A call by an entry's id looks for its note in a map, and for its core as [`Cores`] does. What it costs, as it is
/// told with the call, is in that core.
pub struct SizedStore<T, W: Words> {
    pub(crate) store: Store<T, W>,
    sizing: Sizing,
    hint: u64,
}

// Notes the tick that a poll waits for as the hint, which stays if more may be due.
#[inline(always)]
fn note_hint<T>(hint: &mut u64, made: &Result<Piece<T>, CoreError>) {
    match made {
        Ok(Piece::Answer(Turn::Waiting { next })) => *hint = *next,
        Ok(Piece::Answer(Turn::Idle)) => *hint = NEVER,
        _ => {}
    }
}

// Lowers the hint to a deadline that was accepted.
#[inline(always)]
fn note_due(hint: &mut u64, when: u64, is_accepted: bool) {
    if is_accepted {
        *hint = (*hint).min(when);
    }
}

// Lowers the hint to the deadline that an accepted move asked for.
fn note_asked<T>(hint: &mut u64, next: NextDeadline, made: &Result<Moved<T>, CoreError>) {
    if let (NextDeadline::At(when), Ok(_)) = (next, made) {
        *hint = (*hint).min(when);
    }
}

impl<T, W: Words> SizedStore<T, W> {
    /// Returns the hint: a tick of one millisecond that is not after the deadline of any live entry.
    #[inline(always)]
    pub fn hint(&self) -> u64 {
        self.hint
    }

    /// Returns the store, to be read.
    #[inline(always)]
    pub fn store(&self) -> &Store<T, W> {
        &self.store
    }

    /// Returns what is known of its size, to be read.
    #[inline(always)]
    pub fn sizing(&self) -> &Sizing {
        &self.sizing
    }

    /// Notes that there may be something to do for its size.
    pub fn note_work(&mut self) {
        self.sizing.note_work();
    }

    /// Keeps memory for so many entries for good.
    pub fn keep(&mut self, entries: usize) {
        self.sizing.keep(entries);
    }
}

impl<T, W: Words> SizedStore<T, W> {
    /// A store of no cores, whose smallest core is to have so many slots. Nothing is due in it ever.
    ///
    /// # Errors
    /// If the allocator isn't cloned.
    pub fn new(least: usize) -> Result<SizedStore<T, W>, AllocError> {
        let notes = Notes::new()?;
        let cores = Cores::new();
        Ok(SizedStore {
            store: Store { cores, notes },
            sizing: Sizing::new(least),
            hint: NEVER,
        })
    }
}

// Calls on entries: each is one call of the store, and the hint follows.
impl<T, W: Words> SizedStore<T, W> {
    /// Puts `value` in, to come out at the tick `when` of one millisecond, and returns its key. No value is dropped:
    /// one that waits for its drop in the slot that the entry takes comes out beside the key. Constant time, and no
    /// memory is taken.
    ///
    /// # Errors
    /// `value` comes back. In this order:
    /// - `TooFar` if `when` is beyond the last tick.
    /// - `Full` if no core is open, or the open one has no slot free.
    #[inline(always)]
    pub fn insert(&mut self, value: T, when: u64) -> (Result<Key, (CoreError, T)>, Option<T>) {
        let answer = self.store.cores.insert(value, when);
        note_due(&mut self.hint, when, answer.0.is_ok());
        answer
    }

    /// Takes a live entry out, and returns its value with its key and its current deadline, a tick of one millisecond.
    /// Constant time, and no memory is taken.
    ///
    /// # Errors
    /// In this order:
    /// - `Missing` if the entry isn't in the store any more, or never was.
    /// - `WasCancelled` if the entry was cancelled.
    #[inline(always)]
    pub fn remove(&mut self, entry: &EntryId) -> Result<Removed<T>, CoreError> {
        let Some(place) = self.store.notes.place(entry) else {
            return Err(CoreError::Missing);
        };
        let removed = match self.store.cores.remove(&place) {
            Ok(removed) => removed,
            Err(error) => return Err(error),
        };
        let _ = self.store.notes.forget(&place);
        Ok(removed_as(entry, removed))
    }

    /// Takes a live entry out if its current deadline isn't after `tick`, both of one millisecond, and returns its
    /// value with its key and that deadline. It returns none if the deadline is later: the entry stays where it is,
    /// with its key. Constant time, and no memory is taken.
    ///
    /// # Errors
    /// In this order:
    /// - `Missing` if the entry isn't in the store any more, or never was.
    /// - `WasCancelled` if the entry was cancelled.
    pub fn remove_if_due(&mut self, entry: &EntryId, tick: u64) -> Result<Option<Removed<T>>, CoreError> {
        let Some(place) = self.store.notes.place(entry) else {
            return Err(CoreError::Missing);
        };
        let removed = match self.store.cores.remove_if_due(&place, tick) {
            Ok(Some(removed)) => removed,
            Ok(None) => return Ok(None),
            Err(error) => return Err(error),
        };
        let _ = self.store.notes.forget(&place);
        Ok(Some(removed_as(entry, removed)))
    }

    /// Returns the current deadline of a live entry, a tick of one millisecond. Constant time.
    ///
    /// # Errors
    /// In this order:
    /// - `Missing` if the entry isn't in the store any more, or never was.
    /// - `WasCancelled` if the entry was cancelled.
    pub fn deadline(&mut self, entry: &EntryId) -> Result<u64, CoreError> {
        let Some(place) = self.store.notes.place(entry) else {
            return Err(CoreError::Missing);
        };
        self.store.cores.deadline(&place)
    }

    /// Gives a live entry the deadline `when`, a tick of one millisecond, sooner or later than the one that it has, and
    /// returns its new key. It stays where it is. Constant time, and no memory is taken.
    ///
    /// # Errors
    /// In this order:
    /// - `TooFar` if `when` is beyond the last tick.
    /// - `Missing` if the entry isn't in the store any more, or never was.
    /// - `WasCancelled` if the entry was cancelled.
    /// - `Worn` if the entry's slot has no stamp left for another key.
    #[inline(always)]
    pub fn reset_in_place(&mut self, entry: &EntryId, when: u64) -> Result<Key, CoreError> {
        let Some(place) = self.store.notes.place(entry) else {
            return Err(missing_at(when));
        };
        let key = match self.store.cores.reset(&place, when) {
            Ok(key) => key,
            Err(error) => return Err(error),
        };
        self.hint = self.hint.min(when);
        Ok(key_as(entry, key))
    }

    /// Gives a live entry the deadline `when`, a tick of one millisecond, sooner or later than the one that it has, and
    /// returns its new key. Where its slot has no stamp left for another key, it goes on in the open core. No value is
    /// dropped: one that waits for its drop in the slot that the entry takes then comes out beside the key. Constant
    /// time. No memory is taken, but for a note where the entry goes on.
    ///
    /// # Errors
    /// In this order:
    /// - `TooFar` if `when` is beyond the last tick.
    /// - `Missing` if the entry isn't in the store any more, or never was.
    /// - `WasCancelled` if the entry was cancelled.
    /// - `NoMemory` if the entry has to go on in the open core, and memory for its note is refused.
    /// - `Full` if it has to, and no core is open, or the open one has no free slot.
    pub fn reset(&mut self, entry: &EntryId, when: u64) -> (Result<Key, CoreError>, Option<T>) {
        let Some(place) = self.store.notes.place(entry) else {
            return (Err(missing_at(when)), None);
        };
        let error = match self.store.cores.reset(&place, when) {
            Ok(key) => {
                self.hint = self.hint.min(when);
                return (Ok(key_as(entry, key)), None);
            }
            Err(error) => error,
        };
        if !is_worn(error) {
            return (Err(error), None);
        }
        let (moved, beside) = self.relocate(entry, NextDeadline::At(when));
        (key_told(moved), beside)
    }

    /// Takes a live entry out of its core and puts it into the open one, with its value and with the deadline that
    /// `next` makes of the one that it has as it is taken out. The entry keeps its id, and its key goes on with the
    /// stamp that is returned. No value is dropped: one that waits for its drop in the slot that the entry takes comes
    /// out beside the answer, and none beside any answer but `To`. Constant time in each core, and memory for one note
    /// is taken.
    ///
    /// # Errors
    /// Nothing is taken out. In this order:
    /// - `NoMemory` if memory for the note is refused.
    /// - `TooFar` if a deadline is asked for that is beyond the last tick.
    /// - `Full` if no core is open, or the open one has no free slot. It has the open core's numbers.
    /// - `Missing` if the entry isn't in the store any more, or never was.
    /// - `WasCancelled` if the entry was cancelled.
    #[inline]
    pub fn relocate(&mut self, entry: &EntryId, next: NextDeadline) -> (Result<Moved<T>, CoreError>, Option<T>) {
        let Some(place) = self.store.notes.place(entry) else {
            return (Err(CoreError::Missing), None);
        };
        if self.store.notes.reserve().is_err() {
            return (Err(CoreError::NoMemory), None);
        }
        let (answer, beside) = self.store.cores.relocate(&place, next);
        let answer = note_answer(&mut self.store.notes, entry, &place, answer);
        note_asked(&mut self.hint, next, &answer);
        (answer, beside)
    }

    /// Reaps the entry of that id where it is found cancelled. Its value isn't dropped: it waits until it is taken out.
    ///
    /// # Errors
    /// `Missing` where no entry of that id is linked; `Live` where it is found live.
    pub fn reap(&mut self, entry: &EntryId) -> Result<(), ReapError> {
        let Some(place) = self.store.notes.place(entry) else {
            return Err(ReapError::Missing);
        };
        if let Err(error) = self.store.cores.reap(&place) {
            return Err(error);
        }
        let _ = self.store.notes.forget(&place);
        Ok(())
    }

    /// Calls a closure with the value of an entry, which it may change where it is, and returns what it returns. It
    /// returns none, and doesn't call it, if the entry isn't in the store any more, or never was. A cancelled entry has
    /// its value until it is freed.
    pub fn with_value<R, F: FnOnce(&mut T) -> R>(&mut self, entry: &EntryId, call: F) -> Option<R> {
        // requires F.IsAlwaysCallable call
        let place = self.store.notes.place(entry)?;
        self.store.cores.with_value(&place, call)
    }

    /// Takes out a freed value that waits for its drop. It returns none if no value waits.
    pub fn take_deferred(&mut self) -> Option<T> {
        self.store.cores.take_deferred()
    }

    /// Notes a tick, of one millisecond, and polls one core: it takes out one entry whose deadline in force is reached
    /// by the greatest tick noted, or tells when to come again, or that another core may have more. No value is
    /// dropped: that of each cancelled entry which it reaps waits until it is taken out.
    ///
    /// # Errors
    /// `TickTooLarge` beyond the last tick, which is not noted then.
    #[inline(always)]
    pub fn poll(&mut self, tick: u64) -> Result<Piece<T>, CoreError> {
        let made = self.store.cores.poll(tick);
        let answer = note_out(&mut self.store.notes, made);
        note_hint(&mut self.hint, &answer);
        answer
    }

    /// The same by at most `most` steps, each in constant time. So it also tells where it made them all, and more may
    /// be left.
    ///
    /// # Errors
    /// `TickTooLarge` beyond the last tick, which is not noted then.
    #[inline(always)]
    pub fn poll_some(&mut self, tick: u64, most: u32) -> Result<Piece<T>, CoreError> {
        let made = self.store.cores.poll_some(tick, most);
        let answer = note_out(&mut self.store.notes, made);
        note_hint(&mut self.hint, &answer);
        answer
    }

    /// Looks when the next entry is due, if there is one core, so that whoever finds nothing due needs no lock to tell.
    /// Of several cores that takes as long as a poll.
    #[inline(always)]
    pub fn note_next(&mut self) {
        if self.store.cores().count() != 1 {
            return;
        }
        let Some(core) = self.store.cores().get(0) else {
            return;
        };
        self.hint = wake_of(core).unwrap_or(NEVER);
    }

    /// Has others come at once, whatever is due: a value waits for its drop.
    pub fn call_others(&mut self) {
        self.hint = 0;
    }
}

// Takes a core in. It is open where it is needed.
#[allow(clippy::result_large_err)]
fn take_in<T, W: Words>(
    store: &mut Store<T, W>,
    core: DelayCore<T, W>,
    is_needed: bool,
) -> Result<(), (TakeError, DelayCore<T, W>)> {
    let opened = store.cores().opened();
    if let Err(refused) = store.take_in(core) {
        return Err(refused);
    }
    if is_needed {
        return Ok(());
    }
    let _ = store.open(opened);
    Ok(())
}

// Its size.
impl<T, W: Words> SizedStore<T, W> {
    /// Whether a slot is free for an insert: in the open core, or in another one of which half is free, or, where any
    /// will do, in any. That one is open then. No value that waits for its drop is in the way.
    #[inline(always)]
    pub fn finds_room(&mut self, any_will_do: bool) -> bool {
        if has_open_room(self.store.cores()) {
            return true;
        }
        self.sizing.opens_another(&mut self.store, any_will_do)
    }

    /// Takes memory for `cores` more in the list of cores, and for one note.
    ///
    /// # Errors
    /// If memory is refused.
    pub fn reserve(&mut self, cores: usize) -> Result<(), AllocError> {
        self.store.cores.reserve(cores)?;
        self.store.notes.reserve()
    }

    /// Closes the open core: inserts are refused until `finds_room` opens one, or one comes in.
    pub fn close(&mut self) {
        self.store.cores.close();
    }

    /// Takes a core in that was made: it is open from now on where the open one is to be exchanged or has no room, and
    /// waits else until it is needed.
    ///
    /// # Errors
    /// The core comes back, and nothing changes in the store. In this order:
    /// - `UsedNumber` if a moved entry is known by an id of that number with a stamp that the core may give anew.
    /// - `StillLinked` if an entry is linked in the core.
    /// - `UsedNumber` if a core of the store has its number, or it is the last one of all.
    /// - `NoMemory` if memory is refused.
    #[allow(clippy::result_large_err)]
    pub fn bring(&mut self, core: DelayCore<T, W>) -> Result<(), (TakeError, DelayCore<T, W>)> {
        let is_needed = !has_open_room(self.store.cores()) || self.sizing.is_to_be_exchanged(self.store.cores());
        let taken = take_in(&mut self.store, core, is_needed);
        let all = slots(self.store.cores());
        self.sizing.sweep.restart(all);
        self.sizing.note_work();
        taken
    }

    /// Takes a core out that has drained and isn't needed soon. Folded, it keeps its words alone.
    pub fn take_needless(&mut self) -> Option<DelayCore<T, W>> {
        self.sizing.has_work = false;
        let at = self.sizing.needless(self.store.cores())?;
        // The cores get other places.
        let all = slots(self.store.cores());
        self.sizing.sweep.restart(all);
        let core = self.store.take_at(at);
        Some(core)
    }

    /// Takes a core out that has drained: it isn't the open one, and holds nothing, not even a value that waits for its
    /// drop. It may be needed soon. Folded, it keeps its words alone.
    pub fn take_drained(&mut self) -> Option<DelayCore<T, W>> {
        let all = slots(&self.store.cores);
        let core = self.store.cores.take_drained();
        if core.is_some() {
            self.sizing.sweep.restart(all);
        }
        core
    }

    /// Frees cancelled entries at the next slots, 256 at most, unless each was looked at since the last of so many
    /// cancels. It tells whether it looked at some. No value is dropped: each waits until it is taken out.
    pub fn sweep(&mut self, cancels: u64) -> bool {
        self.sizing.begin_way(self.store.cores(), cancels);
        if self.sizing.sweep.left == 0 {
            self.sizing.note_swept(&self.store, cancels);
            return false;
        }
        self.sizing.sweep_some(&mut self.store);
        self.sizing.note_swept(&self.store, cancels);
        true
    }

    /// Notes that an entry left its core, and that so many are left.
    #[inline(always)]
    pub fn note_left(&mut self, left: u64) {
        if !is_look(left) {
            return;
        }
        if !may_shrink(self.store.cores()) {
            return;
        }
        self.sizing.look_after(&self.store);
    }
}
