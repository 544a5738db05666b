//! How a store keeps the right size.
//!
//! The open core is exchanged where it is full, where more than half of its slots are worn, and where an eighth of it
//! is used: the next one has room for twice what is there. The one before drains: what is in it stays, and ends there.
//! Once nothing is in it, it is folded. Its words stay, so its keys are refused for good, and the next core of its size
//! goes on with them. The few entries that are left of one are moved into the open one. A core that was made ahead is
//! empty until it is opened.
//!
//! The numbers here are a policy: any others would keep what the calls of a [`Store`] promise.

use crate::core::{DelayCore, Words};
use crate::growing::cores::{is_foldable, Cores};
use crate::growing::store::Store;
use crate::growing::sweeping::Sweep;
use crate::growing::NEVER;
use crate::ticks::{EntryId, CAPACITY_LIMIT};

/// The most cores of a store. A call by an entry's id compares its number with that of each.
pub const CORES: usize = 64;

/// Each so many ends it is looked whether the cores are of the right size, and at each of the last few: to look takes
/// longer the more cores there are.
const LOOKS: u64 = 128;

const LAST: u64 = 16;

/// Keeps a store at the right size.
#[derive(Clone, Copy, Debug)]
pub struct Sizing {
    // The slots of the smallest core.
    least: usize,
    // For how many entries memory is kept for good.
    kept: usize,
    // Whether there may be something to do.
    pub(crate) has_work: bool,
    // The number of cancels since which there is nothing to do, and else `NEVER`.
    pub(crate) quiet_since: u64,
    pub(crate) sweep: Sweep,
}

// How many slots are free in which no value waits for its drop, at least: values that wait in worn slots count as if
// they waited in free ones.
#[inline(always)]
fn free<T, W: Words>(core: &DelayCore<T, W>) -> usize {
    let unused = core.capacity() - core.len() - core.worn();
    unused.saturating_sub(core.deferred())
}

// Whether such a slot is in the open core.
#[inline(always)]
pub(crate) fn has_open_room<T, W: Words>(cores: &Cores<T, W>) -> bool {
    let Some(core) = cores.get(cores.opened()) else {
        return false;
    };
    free(core) > 0
}

// A core's place, and how many slots are free there.
#[derive(Clone, Copy)]
struct Room {
    place: usize,
    free: usize,
}

// Whether a core may be opened for an insert: half of it is free, or any will do.
fn may_open<T, W: Words>(core: &DelayCore<T, W>, any_will_do: bool) -> bool {
    any_will_do || core.capacity() / 2 <= free(core)
}

// The one of two cores with more free slots, where the second may be opened.
fn roomier<T, W: Words>(cores: &Cores<T, W>, so_far: Room, place: usize, any_will_do: bool) -> Room {
    let Some(core) = cores.get(place) else {
        return so_far;
    };
    let room = free(core);
    if room < so_far.free {
        return so_far;
    }
    if may_open(core, any_will_do) {
        return Room { place, free: room };
    }
    so_far
}

// The core that has the most free slots of those that may be opened; none are free where there is no such one.
fn roomiest<T, W: Words>(cores: &Cores<T, W>, any_will_do: bool) -> Room {
    let mut roomiest = Room { place: 0, free: 0 };
    for at in 0..cores.count() {
        roomiest = roomier(cores, roomiest, at, any_will_do);
    }
    roomiest
}

// Whether more than half of a core's slots are worn.
fn is_worn<T, W: Words>(core: &DelayCore<T, W>) -> bool {
    core.worn() > core.capacity() / 2
}

// Whether an eighth of a core is used at most.
#[inline(always)]
fn is_small<T, W: Words>(core: &DelayCore<T, W>) -> bool {
    core.len() <= core.capacity() / 8
}

// How many slots there are, worn ones among them.
pub(crate) fn slots<T, W: Words>(cores: &Cores<T, W>) -> usize {
    let mut slots = 0usize;
    for at in 0..cores.count() {
        if let Some(core) = cores.get(at) {
            slots = slots.saturating_add(core.capacity());
        }
    }
    slots
}

// How many entries are linked, of which some may be cancelled.
fn linked<T, W: Words>(cores: &Cores<T, W>) -> usize {
    let mut linked = 0usize;
    for at in 0..cores.count() {
        if let Some(core) = cores.get(at) {
            linked = linked.saturating_add(core.len());
        }
    }
    linked
}

// Whether a sixteenth of a core is used at most that isn't open.
fn is_nearly_drained<T, W: Words>(cores: &Cores<T, W>, place: usize) -> bool {
    if place == cores.opened() {
        return false;
    }
    let Some(core) = cores.get(place) else {
        return false;
    };
    core.len() <= core.capacity() / 16
}

// The entry that such a core names as scheduled first.
fn straggler_in<T, W: Words>(store: &Store<T, W>, place: usize) -> Option<EntryId> {
    if !is_nearly_drained(store.cores(), place) {
        return None;
    }
    store.first_in(place)
}

// Whether a core will do where one of so many slots is wanted: one of half the size, or of twice, will.
fn will_do<T, W: Words>(core: &DelayCore<T, W>, wanted: usize) -> bool {
    wanted / 2 <= core.capacity() && core.capacity() / 2 <= wanted
}

// Whether half of the open core is free.
fn is_open_half_free<T, W: Words>(cores: &Cores<T, W>) -> bool {
    let Some(open) = cores.get(cores.opened()) else {
        return false;
    };
    free(open) >= open.capacity() / 2
}

// Whether a sixteenth of a core is free in which no value waits: the next one is made meanwhile.
fn is_roomy<T, W: Words>(core: &DelayCore<T, W>) -> bool {
    free(core) > core.capacity() / 16
}

// Whether the next core is to be made ahead: none has a sixteenth of its slots free.
fn is_nearly_full<T, W: Words>(cores: &Cores<T, W>) -> bool {
    for at in 0..cores.count() {
        if let Some(core) = cores.get(at) {
            if is_roomy(core) {
                return false;
            }
        }
    }
    true
}

impl Sizing {
    /// Keeps stores whose smallest core has so many slots.
    pub const fn new(least: usize) -> Sizing {
        Sizing {
            least,
            kept: 0,
            has_work: false,
            quiet_since: 0,
            sweep: Sweep::new(),
        }
    }

    /// The number of cancels since which there is nothing to do, and else `u64::MAX`.
    #[inline(always)]
    pub fn quiet_since(&self) -> u64 {
        self.quiet_since
    }

    /// Whether there may be something to do.
    #[inline(always)]
    pub fn has_work(&self) -> bool {
        self.has_work
    }

    /// Notes that there may be something to do.
    #[cold]
    pub fn note_work(&mut self) {
        self.has_work = true;
        self.quiet_since = NEVER;
    }

    // Opens another core in which a slot is free for an insert, where one may be opened.
    #[cold]
    pub(crate) fn opens_another<T, W: Words>(&mut self, store: &mut Store<T, W>, any_will_do: bool) -> bool {
        let room = roomiest(store.cores(), any_will_do);
        if room.free == 0 {
            return false;
        }
        self.note_work();
        store.open(room.place)
    }

    // The slots of the next core: twice as many as there are entries.
    fn next_capacity<T, W: Words>(&self, cores: &Cores<T, W>) -> usize {
        let twice = linked(cores).saturating_mul(2).min(CAPACITY_LIMIT);
        twice.next_power_of_two().max(self.least).min(CAPACITY_LIMIT)
    }

    // Whether an eighth of the open core is used at most, and a smaller one would do.
    fn is_too_large<T, W: Words>(&self, cores: &Cores<T, W>) -> bool {
        let Some(open) = cores.get(cores.opened()) else {
            return false;
        };
        if self.kept > 0 || !is_small(open) {
            return false;
        }
        self.next_capacity(cores) <= open.capacity() / 4
    }

    // Whether the open core is to be exchanged though it isn't full.
    pub(crate) fn is_to_be_exchanged<T, W: Words>(&self, cores: &Cores<T, W>) -> bool {
        let Some(open) = cores.get(cores.opened()) else {
            return false;
        };
        is_worn(open) || self.is_too_large(cores)
    }

    /// The slots of a core that is to be made for an insert that finds no room. None where there are as many cores as
    /// may be.
    pub fn capacity_for_insert<T, W: Words>(&self, store: &Store<T, W>) -> Option<usize> {
        let cores = store.cores();
        if cores.count() >= CORES {
            return None;
        }
        Some(self.next_capacity(cores))
    }

    /// The slots of a core that is to be made though an insert has room.
    pub fn capacity_ahead<T, W: Words>(&self, store: &Store<T, W>) -> Option<usize> {
        let cores = store.cores();
        let is_ahead = self.kept == 0 && is_nearly_full(cores);
        if cores.opened() >= cores.count() || !(is_ahead || self.is_to_be_exchanged(cores)) {
            return None;
        }
        self.capacity_for_insert(store)
    }

    // Whether an empty core isn't needed soon: it is worn, or there is memory enough without it.
    fn is_needless<T, W: Words>(&self, cores: &Cores<T, W>, core: &DelayCore<T, W>) -> bool {
        if is_worn(core) {
            return true;
        }
        if self.kept > 0 {
            return slots(cores).saturating_sub(core.capacity()) >= self.kept;
        }
        !will_do(core, self.next_capacity(cores)) || is_open_half_free(cores)
    }

    // Whether the core at a place has drained, and isn't needed soon.
    fn is_needless_at<T, W: Words>(&self, cores: &Cores<T, W>, place: usize) -> bool {
        if place == cores.opened() {
            return false;
        }
        let Some(core) = cores.get(place) else {
            return false;
        };
        is_foldable(core) && self.is_needless(cores, core)
    }

    // The place of such a core.
    pub(crate) fn needless<T, W: Words>(&self, cores: &Cores<T, W>) -> Option<usize> {
        for at in 0..cores.count() {
            if self.is_needless_at(cores, at) {
                return Some(at);
            }
        }
        None
    }

    // Whether there is such a core.
    fn has_needless<T, W: Words>(&self, cores: &Cores<T, W>) -> bool {
        match self.needless(cores) {
            Some(_) => true,
            None => false,
        }
    }

    // Whether the open core is too large, or some core isn't needed.
    fn is_to_shrink<T, W: Words>(&self, cores: &Cores<T, W>) -> bool {
        self.is_too_large(cores) || self.has_needless(cores)
    }

    /// Returns an entry that may be moved into the open core, so that its own one drains: the one that is scheduled
    /// first in a core that isn't open and of which a sixteenth is used at most. It returns none if none is in such a
    /// core.
    pub fn straggler<T, W: Words>(&self, store: &Store<T, W>) -> Option<EntryId> {
        for at in 0..store.cores().count() {
            if let Some(entry) = straggler_in(store, at) {
                return Some(entry);
            }
        }
        None
    }

    fn has_straggler<T, W: Words>(&self, store: &Store<T, W>) -> bool {
        match self.straggler(store) {
            Some(_) => true,
            None => false,
        }
    }

    /// Whether something is to be done, beside a sweep.
    pub fn is_busy<T, W: Words>(&self, store: &Store<T, W>) -> bool {
        if self.has_work {
            return true;
        }
        if self.has_straggler(store) {
            return true;
        }
        self.has_needless(store.cores())
    }

    #[cold]
    pub(crate) fn look_after<T, W: Words>(&mut self, store: &Store<T, W>) {
        if self.is_to_shrink(store.cores()) {
            self.note_work();
            return;
        }
        if self.quiet_since == NEVER {
            return;
        }
        if self.has_straggler(store) {
            // It is moved once there is time.
            self.quiet_since = NEVER;
        }
    }

    /// Keeps memory for so many entries for good.
    pub fn keep(&mut self, entries: usize) {
        self.kept = self.kept.max(entries);
    }

    /// Whether memory is kept for good.
    pub fn is_kept(&self) -> bool {
        self.kept > 0
    }
}

// Whether it is looked at the cores as an entry left, and so many are left.
#[inline(always)]
pub(crate) fn is_look(left: u64) -> bool {
    left < LAST || left % LOOKS == 0
}

// Whether there may be less to keep: there are several cores, or an eighth of the one is used at most.
#[inline(always)]
pub(crate) fn may_shrink<T, W: Words>(cores: &Cores<T, W>) -> bool {
    if cores.count() > 1 {
        return true;
    }
    let Some(open) = cores.get(cores.opened()) else {
        return false;
    };
    is_small(open)
}
