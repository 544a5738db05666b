//! How the shards come to the right size: cores are made, exchanged and folded, a part at a time, by whoever has time.

use crate::core::{CoreConfig, DelayCore};
use crate::delay_queue::dropping::go_on;
use crate::delay_queue::errors::InsertErrorKind;
use crate::delay_queue::receive::ROUND;
use crate::delay_queue::shard::{least, Core, Seen, Shard};
use crate::delay_queue::shared::Shared;
use crate::growing::CORES;
use crate::memory::AllocError;
use crate::ticks::CAPACITY_LIMIT;
use crate::words::directory::Clerk;
use crate::words::{Keeper, OpenWords};

/// How many parts of a shard's slots are looked at for cancelled entries before it grows.
const SWEEPS: usize = 8;
/// How many steps are made at a time of what keeps a shard of the right size.
const STEPS: usize = 8;

/// An empty core that was made for a shard, and is to be taken into it.
struct Made<T> {
    at: usize,
    core: Core<T>,
    /// Its words where they are new, and aren't in the directory yet.
    words: Option<OpenWords>,
}

impl<T> Shard<T> {
    /// The capacity of a core that is to be made though an insert has room, once so many cancels were accepted. None is made for
    /// cancelled entries: where they are the most, they are freed once there is no room.
    fn wanted(&self, cancels: u64) -> Option<usize> {
        let cancelled = cancels.saturating_sub(self.freed()) as usize;
        let ahead = self.entries.sizing().capacity_ahead(self.entries.store());
        ahead.filter(|_| 2 * cancelled <= self.linked())
    }
}

impl<T> Shared<T> {
    /// An empty core for a shard, in which entries are filed from the present tick on. Where it is a new one it has the number,
    /// of which the next is one more. No lock of a shard is held.
    fn make(&self, number: &mut u32, at: usize, capacity: usize, now: u64) -> Result<Made<T>, AllocError> {
        let folded = self.lock(at).folds.take(capacity);
        let (mut core, words) = match folded.map(|folded| folded.unfold::<T>()) {
            Some(Ok(core)) => (core, None),
            Some(Err(folded)) => {
                let _ = self.lock(at).folds.keep(folded);
                return Err(AllocError);
            }
            None => {
                let mut keeper = Keeper::new(capacity).map_err(|_| AllocError)?;
                let words = keeper.open().map_err(|_| AllocError)?;
                let config = CoreConfig {
                    shard: *number,
                    capacity,
                    last_stamp: self.last_stamp,
                };
                *number = number.checked_add(1).ok_or(AllocError)?;
                (DelayCore::new(config, keeper).map_err(|_| AllocError)?, Some(words))
            }
        };
        let _idle = core.poll_deferring(now);
        Ok(Made { at, core, words })
    }

    /// Takes a core that was made into its shard, in which there is a place for it. Its words are in the directory then.
    fn bring(&self, clerk: &mut Clerk<OpenWords>, made: Made<T>) -> Result<(), AllocError> {
        let Made { at, core, words } = made;
        let mut new = 0;
        if let Some(words) = words {
            // They are found by its number.
            if core.shard() != clerk.given() || clerk.add(words).is_err() {
                return Err(AllocError);
            }
            new = core.capacity();
        }
        let mut shard = self.lock(at);
        shard.words += new;
        // One that is refused goes.
        let _ = shard.entries.bring(core);
        Ok(())
    }

    /// Makes a core for a shard of as many slots as are wanted there once nobody else makes one, and tells whether some were.
    fn make_wanted(
        &self,
        at: usize,
        wanted: impl FnOnce(&mut Shard<T>) -> Result<Option<usize>, InsertErrorKind>,
    ) -> Result<bool, InsertErrorKind> {
        let now = self.common.time.tick();
        let mut clerk = self.makes.lock();
        let mut shard = self.lock(at);
        let Some(capacity) = wanted(&mut shard)? else {
            return Ok(false);
        };
        let reserved = shard.entries.reserve(1);
        drop(shard);
        reserved
            .and_then(|()| self.make(&mut clerk.given(), at, capacity, now))
            .and_then(|made| self.bring(&mut clerk, made))
            .map_err(|_| InsertErrorKind::NoMemory)?;
        Ok(true)
    }

    /// Makes room in a shard for an insert, unless another thread has. `Full` where it has as many cores as it may have.
    pub fn grow(&self, at: usize) -> Result<(), InsertErrorKind> {
        let wanted = |shard: &mut Shard<T>| {
            if shard.entries.finds_room(false) {
                return Ok(None);
            }
            let capacity = shard.entries.sizing().capacity_for_insert(shard.entries.store());
            capacity.map(Some).ok_or(InsertErrorKind::Full)
        };
        self.make_wanted(at, wanted).map(drop)
    }

    /// A bounded part of what keeps a shard of the right size. Where memory is refused it is done later. It tells whether more
    /// may be left, but for entries that are to be moved.
    #[cold]
    pub fn maintain(&self, at: usize) -> bool {
        // To fold a core, or to make one, takes the longest: it is done once.
        let mut is_done = false;
        for _ in 0..STEPS {
            // A program's clock isn't read under a lock.
            let now = self.common.time.tick();
            let wanted = |shard: &Shard<T>| shard.wanted(self.common.seen[at].cancels());
            let mut shard = self.lock(at);
            let drained = if is_done { None } else { shard.entries.take_needless() };
            let is_making = !is_done && drained.is_none() && wanted(&shard).is_some();
            let is_moving = drained.is_none() && !is_making && shard.move_straggler(now);
            go_on(shard.end());
            match drained {
                Some(core) => self.fold(at, core),
                None if is_moving => continue,
                // Another thread may have made it meanwhile.
                None if is_making && self.make_wanted(at, |shard| Ok(wanted(shard))) == Ok(true) => {}
                None => break,
            }
            is_done = true;
        }
        // What is moved is moved on by a receiver that has time.
        if is_done {
            self.lock(at).entries.note_work();
        }
        is_done
    }

    /// Folds a core that has drained, and keeps it unless it is worn.
    fn fold(&self, at: usize, core: Core<T>) {
        let Ok(folded) = core.fold() else { return };
        if 2 * folded.worn() <= folded.capacity() {
            let kept = self.lock(at).folds.keep(folded);
            // Where memory is refused it goes.
            drop(kept);
        }
    }

    /// Frees what was cancelled in a shard, by a bounded number of slots, and drops the values. Where a drop panics the entry
    /// that wants room isn't in yet, and no key of it is lost.
    pub fn free_cancelled(&self, at: usize) {
        let cancels = self.common.seen[at].cancels();
        (0..SWEEPS).all(|_| self.lock(at).sweep(cancels));
        while self.drop_some(ROUND) {}
    }

    /// A bounded part of what is done where nothing is due: cancelled entries are freed and their values dropped, and the shards
    /// brought to the right size. It tells whether more is to be done before a receiver sleeps.
    pub fn maintain_all(&self) -> bool {
        let has_more = !self.common.seen.iter().all(Seen::is_quiet) && self.bring_to_size();
        self.drop_some(ROUND) || has_more
    }

    /// Looks for cancelled entries in one of the shards, and brings each to the right size, up to one of which more is left.
    #[cold]
    fn bring_to_size(&self) -> bool {
        let count = self.common.seen.len();
        let from = (self.common.time.tick() % count as u64) as usize;
        let mut is_swept = false;
        for at in (from..count).chain(0..from) {
            let mut shard = self.lock(at);
            is_swept = is_swept || shard.sweep(self.common.seen[at].cancels());
            let is_busy = shard.entries.sizing().is_busy(shard.entries.store());
            drop(shard);
            if is_busy && self.maintain(at) {
                return true;
            }
        }
        false
    }

    /// Makes room for so many entries, and keeps it.
    pub fn reserve(&self, entries: usize) -> Result<(), InsertErrorKind> {
        let shards = self.common.seen.len();
        if entries > self.common.most.min(shards * CORES * CAPACITY_LIMIT) {
            return Err(InsertErrorKind::Full);
        }
        let (share, now) = (entries.div_ceil(shards), self.common.time.tick());
        let (mut clerk, mut made) = (self.makes.lock(), Vec::new());
        let reserved = self.make_up_to(share, now, clerk.given(), &mut made);
        for made in made {
            match reserved {
                Ok(()) => _ = self.bring(&mut clerk, made),
                // What was folded is so again. New ones go.
                Err(AllocError) if made.words.is_none() => self.fold(made.at, made.core),
                Err(AllocError) => {}
            }
        }
        reserved.map_err(|_| InsertErrorKind::NoMemory)?;
        self.locked().for_each(|mut shard| shard.entries.keep(share));
        Ok(())
    }

    /// Makes cores until each shard has slots for so many entries once they are brought there, and places for their words. The
    /// new ones have the numbers from `first` on.
    fn make_up_to(&self, share: usize, now: u64, first: u32, made: &mut Vec<Made<T>>) -> Result<(), AllocError> {
        let mut number = first;
        for at in 0..self.shards.len() {
            let mut shard = self.lock(at);
            let mut lacks = share.saturating_sub(shard.slots());
            shard.entries.reserve(lacks.div_ceil(CAPACITY_LIMIT))?;
            drop(shard);
            while lacks > 0 {
                made.try_reserve(1)?;
                let capacity = lacks.next_power_of_two().clamp(least::<T>(), CAPACITY_LIMIT);
                made.push(self.make(&mut number, at, capacity, now)?);
                lacks = lacks.saturating_sub(capacity);
            }
        }
        (first..number).try_for_each(|number| self.common.words.make_row(number))
    }
}
