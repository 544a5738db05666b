//! Room for entries: cores that are made, opened, emptied and folded.

use super::{Core, Entries};
use crate::budget::Budget;
use hontkhale::parts::growing::{Moved, NextDeadline};
use hontkhale::parts::owner::{CoreConfig, DelayCore, Keeper, CAPACITY_LIMIT};

/// The slots of the first core.
pub(super) const FIRST_SLOTS: usize = 64;
/// As many cores as a queue may have at a time.
const CORES: usize = 65_536;
const MEMORY: &str = "memory for more entries";

/// How many slots a core has for so many entries: up to an eighth more, so that folded ones are of few sizes and are used again.
fn rounded(slots: usize) -> usize {
    let part = (slots.next_power_of_two() / 16).max(1);
    part * slots.div_ceil(part)
}

impl<T> Entries<T> {
    /// Makes a core, since none has a free slot in which no value waits for its drop: those that have drained are worn, and go.
    #[cold]
    pub(super) fn grow(&mut self) {
        self.fold_drained();
        let slots = if self.promised > 0 { self.promised.min(CAPACITY_LIMIT) } else { self.next_slots() };
        self.add_core(slots);
        self.promised = self.promised.saturating_sub(slots);
    }

    /// How many slots the next core has, by the entries that there are: twice the last one's where no slot is worn.
    fn next_slots(&self) -> usize {
        (self.len() + 1).next_power_of_two().clamp(FIRST_SLOTS, CAPACITY_LIMIT)
    }

    /// Adds a core for the first of so many slots, and notes the others: their cores are added as they are needed.
    ///
    /// # Panics
    /// Where there can't be so many, before any memory is taken; where memory is refused.
    pub(super) fn add_slots(&mut self, slots: usize) {
        let most = (CORES - self.cores().count()).saturating_mul(CAPACITY_LIMIT);
        assert!(self.promised <= most && slots <= most - self.promised, "capacity overflow");
        let first = slots.min(CAPACITY_LIMIT);
        if first < slots {
            // It is given back untouched: what the others will take can be had now.
            Vec::<(Option<T>, [u64; 6])>::new().try_reserve_exact(slots).expect(MEMORY);
        }
        if first > 0 {
            self.add_core(first);
            self.promised += slots - first;
        }
    }

    /// Adds a core of so many slots, which is open then where no slot of the open one is free, or that is worn or too large.
    fn add_core(&mut self, slots: usize) {
        assert!(self.cores().count() < CORES, "max entries exceeded");
        let slots = rounded(slots);
        let mut core = match self.folds.take(slots) {
            Some(folded) => folded.unfold().expect(MEMORY),
            None => self.fresh_core(slots),
        };
        // What is put in is scheduled from here on.
        let _idle = core.poll_deferring(self.tick);
        self.store.bring(core).map_err(|(refused, _)| refused).expect(MEMORY);
    }

    fn fresh_core(&mut self, slots: usize) -> Core<T> {
        let mut keeper = Keeper::new(slots).expect(MEMORY);
        let words = keeper.open().expect(MEMORY);
        let config = CoreConfig { shard: self.clerk.given(), capacity: slots, last_stamp: self.last_stamp };
        let core = DelayCore::new(config, keeper).map_err(|(refused, _)| refused).expect(MEMORY);
        self.clerk.add(words).map_err(|(refused, _)| refused).expect(MEMORY);
        core
    }

    /// Folds the cores that have drained and aren't open. A worn one goes.
    fn fold_drained(&mut self) {
        while let Some(core) = self.store.take_drained() {
            let Ok(folded) = core.fold() else { return };
            if 2 * folded.worn() <= folded.capacity() {
                // Where memory is refused it goes.
                let _ = self.folds.keep(folded);
            }
        }
    }

    /// The slots that aren't worn, those among them whose cores are yet to be added.
    pub fn capacity(&self) -> usize {
        self.promised + self.each_core().map(|core| core.capacity() - core.worn()).sum::<usize>()
    }

    /// The worn slots.
    pub fn worn(&self) -> usize {
        self.each_core().map(DelayCore::worn).sum()
    }

    /// Makes room for so many more entries.
    pub fn reserve(&mut self, additional: usize) {
        let free = self.capacity() - self.len();
        if free < additional {
            self.add_slots((additional - free).max(self.next_slots()));
        }
    }

    /// Takes every entry out. Where a value's drop panics, the entries that are left stay as they are.
    pub fn clear(&mut self) {
        self.heed_news(&mut Budget::of(u32::MAX));
        for core in 0..self.cores().count() {
            let mut slot = 0;
            while let Some((_, entry)) = self.next_linked(core, &mut slot) {
                if self.remove(&self.key(&entry)).is_none() {
                    // A handle has cancelled it just now.
                    let _ = self.store.reap(&entry);
                }
            }
        }
    }

    /// Lets the empty cores go, the open one too: the next insert opens the core that has the most room.
    pub fn shrink_to_fit(&mut self) {
        self.promised = 0;
        // One that has entries stays open: else the next insert might go to a core that drains.
        if self.cores().get(self.cores().opened()).is_some_and(DelayCore::is_empty) {
            self.store.close();
        }
        self.fold_drained();
        self.shared.names().shrink_to_fit();
    }

    /// Moves the entries of cores of which less than a quarter is used to new ones of no more slots than they need. To move those of
    /// a fuller core would take as much memory, for where they are now, as it gives back.
    pub fn compact(&mut self) {
        self.heed_news(&mut Budget::of(u32::MAX));
        let is_sparse = |core: &&Core<T>| !core.is_empty() && 4 * core.len() < core.capacity();
        let mut sparse: Vec<&Core<T>> = self.each_core().filter(is_sparse).collect();
        // What gives back the most for an entry that is moved goes first.
        sparse.sort_by_key(|core| CAPACITY_LIMIT * core.len() / core.capacity());
        let mut entries = sparse.iter().map(|core| core.len()).sum();
        let numbers: Vec<u32> = sparse.into_iter().map(DelayCore::shard).collect();
        if !numbers.is_empty() {
            self.store.close();
        }
        for number in numbers {
            let Some(core) = self.each_core().position(|core| core.shard() == number) else { continue };
            let mut slot = 0;
            while let Some((_, entry)) = self.next_linked(core, &mut slot) {
                if self.store.store().next_key().is_none() {
                    self.add_core(CAPACITY_LIMIT.min(entries));
                }
                // A handle may have cancelled it meanwhile.
                let _ = self.rename(&self.key(&entry), |store| match store.relocate(&entry, NextDeadline::Same).0? {
                    Moved::To { key, .. } => Ok(key),
                    Moved::Out(_) => unreachable!("it has the same deadline"),
                });
                entries = entries.saturating_sub(1).max(1);
            }
            self.fold_drained();
        }
        self.shrink_to_fit();
    }
}
