//! A row of shards behind locks: the locks, who waits for them, and what is done once one is free.
//!
//! A front, as `SharedDelayQueue`, has a `Row` of its own shards, and says in `impl Shard` what a call asks of one. A
//! call by name of a front is then three lines:
//!
//! ```ignore
//! let mut shard = self.row.lock(rt, place);
//! let (reaped, pending) = shard.watched.sweep();
//! self.row.leave(rt, place, shard, pending, false);
//! ```
//!
//! `lock` compares once whether the shard stands at the place, and waits for ever where another was put there. `leave`
//! lets the lock go, wakes who has left, and drops what is deferred; `unlock` is for what drops nothing. A value's drop
//! is a user's code: it may call the queue, and it may panic. So it runs while the lock is free, and where it panics
//! the shard is whole.

use crate::core::{CoreConfig, CoreError, DelayCore};
use crate::index::nth;
use crate::locks::{Mutex, MutexGuard};
use crate::memory::{room_for, AllocError};
use crate::shards::parking::parked::{PendingWake, Until};
use crate::words::{locked_shards, Keeper};
use alloc::vec::Vec;
use core::hint::spin_loop;
use core::sync::atomic::{AtomicU64, Ordering};

// How often a poller looks whether someone waits still before it goes on.
const LOOKS: u32 = 1_000;

// How often who finds a lock held tries it before it sleeps until the lock is free. A thread that sleeps is woken in
// far more time than a piece takes.
const TRIES: u32 = 32;

// How long who finds a lock held pauses before its first try, and before any: each pause is twice the one before. Each
// try takes the lock's cache line from the thread that holds the lock, and that thread is slower for it. So the tries
// get rarer, the longer the lock is held.
const FIRST_PAUSE: u32 = 4;

const LONGEST_PAUSE: u32 = 256;

/// What a call asks of a shard behind its lock.
pub trait Shard {
    /// The values of its entries.
    type Value;

    /// What its poller waits for.
    type Next: Until;

    /// Whether it stands at a place of so many.
    fn stands_at(&self, place: usize, places: usize) -> bool;

    /// How many values are deferred: those that were freed and aren't dropped yet. Constant time.
    fn deferred(&self) -> usize;

    /// Takes out the value that is deferred where the next insert's entry goes, if one is.
    fn take_displaced(&mut self) -> Option<Self::Value>;

    /// Takes out a value for the thread that drops what is deferred, as `WatchedCore::take_one`.
    fn take_one(&mut self, is_mine: &mut bool) -> Option<Self::Value>;

    /// Ends the dropping before its time, as `WatchedCore::end_dropping`.
    fn end_dropping(&mut self, is_mine: &mut bool);
}

/// How many threads wait for the lock of a shard. No contract speaks of the number: whoever reads a wrong one waits a
/// little longer, or a little less.
///
/// It stands in cache lines of its own, so whoever looks at it takes none from who works under the lock.
#[derive(Debug)]
pub struct Waiting {
    threads: AtomicU64,
    _room: [u64; 15],
}

impl Waiting {
    fn nobody() -> Waiting {
        Waiting {
            threads: AtomicU64::new(0),
            _room: [0; 15],
        }
    }

    /// Takes a lock. Who finds it held is counted until it has it.
    #[inline(always)]
    pub fn taken<'q, S>(&self, lock: &'q Mutex<S>) -> MutexGuard<'q, S> {
        match lock.try_lock() {
            Some(guard) => guard,
            None => self.waited_for(lock),
        }
    }

    #[cold]
    fn waited_for<'q, S>(&self, lock: &'q Mutex<S>) -> MutexGuard<'q, S> {
        self.threads.fetch_add(1, Ordering::SeqCst);
        let guard = match tried(lock) {
            Some(guard) => guard,
            None => lock.lock(),
        };
        self.threads.fetch_sub(1, Ordering::SeqCst);
        guard
    }

    /// Looks for a bounded while until nobody waits.
    pub fn give_way(&self) {
        for _ in 0..LOOKS {
            if self.threads.load(Ordering::SeqCst) == 0 {
                return;
            }
            spin_loop();
        }
    }
}

// The lock, where it gets free within a bounded while.
fn tried<S>(lock: &Mutex<S>) -> Option<MutexGuard<'_, S>> {
    let mut pause = FIRST_PAUSE;
    for _ in 0..TRIES {
        for _ in 0..pause {
            spin_loop();
        }
        if let Some(guard) = lock.try_lock() {
            return Some(guard);
        }
        pause = pause.saturating_mul(2).min(LONGEST_PAUSE);
    }
    None
}

/// Shards behind locks. To a contract it is how many.
#[derive(Debug)]
pub struct Row<S> {
    shards: Vec<Mutex<S>>,
    // Of each shard, who waits for its lock.
    waiting: Vec<Waiting>,
}

impl<S> Row<S> {
    /// How many there are.
    #[inline]
    pub fn len(&self) -> usize {
        self.shards.len()
    }

    /// Gives way to whoever waits for the lock of the shard at a place: it looks for a bounded while until nobody does,
    /// and returns at once where nobody does. A place out of range has no lock.
    pub fn give_way(&self, place: usize) {
        if place < self.shards.len() {
            let waiting = nth(&self.waiting, place);
            waiting.give_way();
        }
    }
}

impl<S> Row<S> {
    /// An empty row with room for one of each shard's.
    pub fn room_for_each<X>(&self) -> Result<Vec<X>, AllocError> {
        room_for(self.shards.len())
    }
}

impl<S> Row<S> {
    /// A row of these shards, of whose locks nobody waits for one.
    ///
    /// # Errors
    /// `AllocError` if memory is refused.
    pub fn new(shards: Vec<Mutex<S>>) -> Result<Row<S>, AllocError> {
        let mut waiting = room_for(shards.len())?;
        for _shard in 0..shards.len() {
            waiting.push(Waiting::nobody());
        }
        Ok(Row { shards, waiting })
    }

    /// A row of so many shards, made of queues with nothing in them, of which each has its place for its number.
    ///
    /// # Errors
    /// `NoMemory` if memory is refused.
    pub fn of_queues<T>(shards: usize, capacity: usize, last_stamp: u32) -> Result<Row<S>, CoreError>
    where
        S: From<DelayCore<T, Keeper>>,
    {
        // requires shards < 2 ^ 32
        // requires IsConfig capacity last_stamp capacity
        let config = CoreConfig {
            shard: 0,
            capacity,
            last_stamp,
        };
        match locked_shards(shards as u32, config) {
            Ok(shards) => Ok(Row::new(shards)?),
            Err(_) => Err(CoreError::NoMemory),
        }
    }
}

impl<S: Shard> Row<S> {
    /// The shard at a place, with its lock held. Whether it stands there is compared once.
    #[inline(always)]
    pub fn lock(&self, place: usize) -> MutexGuard<'_, S> {
        // requires place < self.now
        let waiting = nth(&self.waiting, place);
        let shard = waiting.taken(nth(&self.shards, place));
        if !shard.stands_at(place, self.shards.len()) {
            // Whoever had the shard in hand put another here. This thread holds the lock, so it sleeps here.
            panic!("the state of another shard was put here");
        }
        shard
    }
}

/// Lets a shard's lock go, and then wakes who has left: whoever is woken may call the queue at once. Answers how many
/// values are deferred.
#[inline(always)]
pub fn unlock<S: Shard>(shard: MutexGuard<'_, S>, pending: PendingWake<S::Next>) -> usize {
    let deferred = shard.deferred();
    drop(shard);
    pending.wake();
    deferred
}

// The one impl of a row that says that a value may be dropped. It does so while no lock is held.
impl<S: Shard> Row<S> {
    /// The shard at a place, with its lock held, where no value waits for its drop in the slot that the next insert
    /// fills. One that waits there is taken out, and dropped while the lock is free: a drop that panics then loses no
    /// key. Whether the shard stands at the place is compared each time that its lock is taken.
    #[inline(always)]
    pub fn lock_with_room(&self, place: usize) -> MutexGuard<'_, S> {
        // requires place < self.now
        loop {
            let mut shard = self.lock(place);
            let Some(displaced) = shard.take_displaced() else {
                return shard;
            };
            drop(shard);
            drop(displaced);
        }
    }

    /// Ends a call on the shard at a place: lets its lock go, wakes who has left, and then drops what is deferred
    /// there. Where an entry came out nothing is dropped, since a drop that panics would lose it: a later call does so.
    #[inline(always)]
    pub fn leave(&self, place: usize, shard: MutexGuard<'_, S>, pending: PendingWake<S::Next>, is_out: bool) {
        let deferred = unlock(shard, pending);
        if !is_out {
            self.drop_deferred(place, deferred);
        }
    }

    /// Drops what is deferred in the shard at a place, where the caller has left so many there: nothing is done where
    /// it has left none, or where there is no such place.
    #[inline(always)]
    pub fn drop_deferred(&self, place: usize, most: usize) {
        if most > 0 && place < self.len() {
            self.drop_all_deferred(place);
        }
    }

    // Drops it until nothing is left, where no thread does so already.
    #[inline(never)]
    fn drop_all_deferred(&self, place: usize) {
        // requires place < self.now
        let mut dropper = Dropper {
            row: self,
            place,
            is_at_it: false,
        };
        loop {
            let taken = self.lock(place).take_one(&mut dropper.is_at_it);
            let Some(value) = taken else {
                return;
            };
            drop(value);
        }
    }
}

// The thread that drops what is deferred in a shard, one value at a time, while the lock is free. Where a value's drop
// panics, others may do it from then on.
struct Dropper<'q, S: Shard> {
    row: &'q Row<S>,
    place: usize,
    is_at_it: bool,
}

impl<S: Shard> Drop for Dropper<'_, S> {
    fn drop(&mut self) {
        if self.is_at_it && self.place < self.row.len() {
            let mut shard = self.row.lock(self.place);
            shard.end_dropping(&mut self.is_at_it);
        }
    }
}
