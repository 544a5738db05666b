//! Where moved entries are, by the ids that their users have.

use crate::core::{DelayCore, Words};
use crate::hasher::NumberHash;
use crate::index::{nth, nth_mut};
use crate::memory::AllocError;
use crate::ticks::EntryId;
use std::collections::HashMap;

// The numbers of an id.
fn numbers_of(id: &EntryId) -> (u32, u32, u32) {
    (id.shard(), id.index(), id.born())
}

// Whether the id of those numbers isn't ahead in a core, if it has the core's number.
fn is_past_in<T, W: Words>(numbers: &(u32, u32, u32), core: &DelayCore<T, W>) -> bool {
    if numbers.0 != core.shard() {
        return true;
    }
    core.is_past(&EntryId::new(numbers.0, numbers.1, numbers.2))
}

// How many marks a table has.
const MARKS: usize = 128;

// The mark of an id.
#[inline(always)]
fn note_mark(id: &EntryId) -> usize {
    id.index() as usize % MARKS
}

// Ids, each with another.
pub(crate) struct PairTable {
    map: HashMap<(u32, u32, u32), EntryId, NumberHash>,
    // Which marks ids have that have another, and perhaps more: so of most that have none it is told without the map.
    marks: [bool; 128],
}

impl PairTable {
    // No ids.
    pub(crate) fn new() -> PairTable {
        PairTable {
            map: HashMap::default(),
            marks: [false; 128],
        }
    }

    // Whether no id has another.
    #[inline]
    fn is_empty(&self) -> bool {
        self.map.is_empty()
    }

    // What an id has with it.
    #[inline]
    pub(crate) fn find(&self, id: &EntryId) -> Option<EntryId> {
        if !*nth(&self.marks, note_mark(id)) {
            return None;
        }
        self.look_up(id)
    }

    // The same by the map. Most calls don't come here.
    #[inline(never)]
    fn look_up(&self, id: &EntryId) -> Option<EntryId> {
        self.map.get(&numbers_of(id)).copied()
    }

    // Whether no id is ahead in a core of its number.
    fn are_past_in<T, W: Words>(&self, core: &DelayCore<T, W>) -> bool {
        for numbers in self.map.keys() {
            if !is_past_in(numbers, core) {
                return false;
            }
        }
        true
    }

    // Takes memory for one more.
    pub(crate) fn reserve(&mut self) -> Result<(), AllocError> {
        Ok(self.map.try_reserve(1)?)
    }

    // Gives an id another.
    pub(crate) fn put(&mut self, id: &EntryId, other: EntryId) {
        // requires 0 < self.old.room
        *nth_mut(&mut self.marks, note_mark(id)) = true;
        self.map.insert(numbers_of(id), other);
    }

    // Takes from an id what it has.
    #[inline(never)]
    pub(crate) fn take(&mut self, id: &EntryId) {
        self.remove(id);
        if self.is_empty() {
            self.marks = [false; 128];
        }
    }

    // Takes away what is noted of an id. Its mark stays, as other ids may have it.
    fn remove(&mut self, id: &EntryId) {
        let _ = self.map.remove(&numbers_of(id));
    }
}

// Takes from an id what it has, where there is such an id.
fn take_where_some(table: &mut PairTable, id: Option<EntryId>) {
    let Some(id) = id else {
        return;
    };
    table.take(&id);
}

/// The notes of a store: where its moved entries are, by the ids that their users have.
pub(crate) struct Notes {
    // By a user's id, the place.
    places: PairTable,
    // By a place, the user's id.
    users: PairTable,
}

impl Notes {
    /// No notes. They take no memory yet.
    ///
    /// # Errors
    /// If the allocator isn't cloned.
    pub fn new() -> Result<Notes, AllocError> {
        Ok(Notes {
            places: PairTable::new(),
            users: PairTable::new(),
        })
    }

    /// The place that a user's id means: its own, where nothing is noted; none, where another's entry is there.
    #[inline]
    pub fn place(&self, user: &EntryId) -> Option<EntryId> {
        if self.places.is_empty() {
            return Some(*user);
        }
        let Some(place) = self.places.find(user) else {
            let None = self.users.find(user) else {
                return None;
            };
            return Some(*user);
        };
        Some(place)
    }

    /// The id that the user of a place has: its own, where nothing is noted.
    #[inline]
    pub fn user(&self, place: &EntryId) -> EntryId {
        if self.places.is_empty() {
            return *place;
        }
        let Some(user) = self.users.find(place) else {
            return *place;
        };
        user
    }

    /// Whether no id of a note, a user's or a place's, is ahead of its slot's stamp in a core of its number.
    pub fn are_past_in<T, W: Words>(&self, core: &DelayCore<T, W>) -> bool {
        self.places.are_past_in(core) && self.users.are_past_in(core)
    }

    /// Takes memory for one note more.
    ///
    /// # Errors
    /// If memory is refused.
    pub fn reserve(&mut self) -> Result<(), AllocError> {
        self.places.reserve()?;
        self.users.reserve()
    }

    /// Notes that a user's entry is at that place.
    pub fn note(&mut self, user: &EntryId, place: &EntryId) {
        // requires HasNoteRoom self.old
        // requires with_id self.old.users place.now ≡ None
        let left = self.places.find(user);
        take_where_some(&mut self.users, left);
        self.places.put(user, *place);
        self.users.put(place, *user);
    }

    /// Takes away the note of a place, and returns its user's id, none where nothing was noted.
    #[inline]
    pub fn forget(&mut self, place: &EntryId) -> Option<EntryId> {
        if self.places.is_empty() {
            return None;
        }
        let user = self.users.find(place)?;
        self.places.take(&user);
        self.users.take(place);
        Some(user)
    }
}
