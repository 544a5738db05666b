//! How cancelled entries are freed where there is time: a few slots of a core at once, round and round.

use crate::core::{Swept, Words};
use crate::growing::cores::Cores;
use crate::growing::sizing::{slots, Sizing};
use crate::growing::store::Store;
use crate::growing::NEVER;

/// How many slots are looked at at once.
const SLOTS: usize = 256;

/// How far the way through the slots is.
#[derive(Clone, Copy, Debug)]
pub(crate) struct Sweep {
    place: usize,
    slot: usize,
    // The accepted cancels as the way began, and how many slots are left on it.
    cancels: u64,
    pub(crate) left: usize,
}

// The slot to go on from, none where the core is done.
fn next_of(swept: Option<Swept>) -> Option<usize> {
    match swept {
        Some(swept) => swept.next,
        None => None,
    }
}

impl Sweep {
    pub const fn new() -> Sweep {
        Sweep {
            place: 0,
            slot: 0,
            cancels: 0,
            left: 0,
        }
    }

    // Begins the way anew, on which so many slots are.
    pub fn restart(&mut self, slots: usize) {
        self.place = 0;
        self.slot = 0;
        self.left = slots;
    }

    // Goes on to a slot of the core of that many slots, or to the next core, of which there are so many.
    fn go_on(&mut self, next: Option<usize>, capacity: usize, cores: usize) {
        let end = next.unwrap_or(capacity);
        let looked_at = end.saturating_sub(self.slot).max(1);
        self.left = self.left.saturating_sub(looked_at);
        self.slot = next.unwrap_or(0);
        if next.is_none() {
            let following = self.place.saturating_add(1);
            self.place = if following < cores { following } else { 0 };
        }
    }
}

impl Sizing {
    // Begins the way anew where other cancels are told than before: all slots are on it again.
    pub(crate) fn begin_way<T, W: Words>(&mut self, cores: &Cores<T, W>, cancels: u64) {
        if self.sweep.cancels != cancels {
            self.sweep.cancels = cancels;
            self.sweep.left = slots(cores);
        }
    }

    // Notes whether there is nothing more to do since so many cancels.
    pub(crate) fn note_swept<T, W: Words>(&mut self, store: &Store<T, W>, cancels: u64) {
        self.quiet_since = if self.is_quiet(store) { cancels } else { NEVER };
    }

    fn is_quiet<T, W: Words>(&self, store: &Store<T, W>) -> bool {
        self.sweep.left == 0 && !self.is_busy(store)
    }

    // Sweeps the next slots of the way.
    pub(crate) fn sweep_some<T, W: Words>(&mut self, store: &mut Store<T, W>) {
        let cores = store.cores().count();
        let Some(core) = store.cores().get(self.sweep.place) else {
            self.sweep.go_on(None, 0, cores);
            return;
        };
        let capacity = core.capacity();
        if core.is_empty() {
            self.sweep.go_on(None, capacity, cores);
            return;
        }
        let swept = store.sweep_some(self.sweep.place, self.sweep.slot, SLOTS);
        self.sweep.go_on(next_of(swept), capacity, cores);
    }
}
