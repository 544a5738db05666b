//! A queue of one owner that grows and shrinks: a store, and when its cores come and go as the store's sizing tells. The
//! tests drive it, and so does the bench.
//!
//! Inserts go into the open core. Once that is full, another one that is at most half full is opened, and else the next
//! one comes in, which has room for twice what lives. `maintain` does what may wait: it makes the next core ahead, exchanges
//! one that is too large or worn, and folds those that have drained and aren't needed.

use hontkhale::parts::growing::{Folds, SizedStore, TakeError};
use hontkhale::parts::owner::{
    numbered_queue, CoreConfig, CoreError, DelayCore, EntryId, Keeper, Key, Piece, Removed, Turn,
};

type Core<T> = DelayCore<T, Keeper>;

/// How many slots a core has, and how many stamps each of them.
#[derive(Clone, Copy, Debug)]
pub struct Sizes {
    pub least: usize,
    pub most: usize,
    pub last_stamp: u32,
}

#[derive(Debug)]
pub struct Growing<T> {
    sizes: Sizes,
    store: SizedStore<T, Keeper>,
    folds: Folds<Keeper>,
    numbers: u32,
}

impl<T> Growing<T> {
    pub fn new(sizes: Sizes) -> Growing<T> {
        Growing {
            sizes,
            store: SizedStore::new(sizes.least).expect("a store of no cores"),
            folds: Folds::new(),
            numbers: 0,
        }
    }

    /// How many entries there are, live or cancelled and not yet freed.
    pub fn len(&self) -> usize {
        let cores = self.store.store().cores();
        let each = (0..cores.count()).filter_map(|place| cores.get(place));
        each.map(DelayCore::len).sum()
    }

    /// How many cores there are.
    pub fn count(&self) -> usize {
        self.store.store().cores().count()
    }

    /// A core of so many slots: a folded one, where there is one that isn't worn, or a new one.
    fn made(&mut self, capacity: usize) -> Result<Core<T>, CoreError> {
        let noted = self.store.store().cores().noted();
        if let Some(mut folded) = self.folds.take(capacity) {
            folded.come_to(noted)?;
            return folded.unfold().map_err(|folded| {
                // it is lost where there is no memory for the list either
                let _ = self.folds.keep(folded);
                CoreError::NoMemory
            });
        }
        let shard = self.numbers;
        let mut core = numbered_queue(CoreConfig {
            shard,
            capacity,
            last_stamp: self.sizes.last_stamp,
        })?;
        core.poll(noted)?;
        self.numbers += 1;
        Ok(core)
    }

    /// A core of so many slots comes in, or is folded where it may not.
    fn bring(&mut self, capacity: usize) -> Result<(), CoreError> {
        let core = self.made(capacity.min(self.sizes.most))?;
        self.store.bring(core).map_err(|(error, core)| {
            assert_eq!(error, TakeError::NoMemory);
            self.fold(core);
            CoreError::NoMemory
        })
    }

    /// Puts a value in.
    ///
    /// # Errors
    /// The value comes back, where the tick is beyond the last, memory is refused, or there are as many cores as may be.
    #[inline(always)]
    pub fn insert(&mut self, value: T, when: u64) -> Result<Key, (CoreError, T)> {
        match self.store.insert(value, when) {
            (Ok(key), _) => Ok(key),
            (Err((error, value)), _) => self.insert_anew(error, value, when),
        }
    }

    #[cold]
    #[inline(never)]
    fn insert_anew(&mut self, error: CoreError, value: T, when: u64) -> Result<Key, (CoreError, T)> {
        if !matches!(error, CoreError::Full { .. }) {
            return Err((error, value));
        }
        if !self.store.finds_room(false) {
            let capacity = self.store.sizing().capacity_for_insert(self.store.store());
            if let Err(error) = capacity.ok_or(error).and_then(|capacity| self.bring(capacity)) {
                return Err((error, value));
            }
        }
        self.store.insert(value, when).0
    }

    #[inline(always)]
    pub fn remove(&mut self, entry: &EntryId) -> Result<Removed<T>, CoreError> {
        self.store.remove(entry)
    }

    #[inline(always)]
    pub fn reset(&mut self, entry: &EntryId, when: u64) -> Result<Key, CoreError> {
        self.store.reset_in_place(entry, when)
    }

    /// A whole poll of each core that is due, until one gives an entry or nothing is due.
    #[inline(always)]
    pub fn poll(&mut self, tick: u64) -> Result<Turn<T>, CoreError> {
        loop {
            if let Piece::Answer(turn) = self.store.poll(tick)? {
                return Ok(turn);
            }
        }
    }

    /// The same by pieces of so many steps.
    #[inline(always)]
    pub fn poll_in_pieces(&mut self, tick: u64, most: u32) -> Result<Turn<T>, CoreError> {
        loop {
            if let Piece::Answer(turn) = self.store.poll_some(tick, most)? {
                return Ok(turn);
            }
        }
    }

    /// Does what may wait. It keeps what it can't do for want of memory.
    #[inline(never)]
    pub fn maintain(&mut self) {
        while let Some(value) = self.store.take_deferred() {
            drop(value);
        }
        while let Some(core) = self.store.take_needless() {
            self.fold(core);
        }
        if let Some(capacity) = self.store.sizing().capacity_ahead(self.store.store()) {
            let _ = self.bring(capacity);
        }
    }

    /// A core is kept without its slots, unless it is more than half worn.
    fn fold(&mut self, core: Core<T>) {
        let is_worn = 2 * core.worn() > core.capacity();
        let Ok(folded) = core.fold() else { return };
        if !is_worn {
            let _ = self.folds.keep(folded);
        }
    }
}
