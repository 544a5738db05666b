//! A queue over shared words, and the poller that waits for it: the calls that may take the poller out, and wake
//! nobody.
//!
//! It stands behind a lock, and whoever is woken may call the queue at once. So each call hands over who leaves by it,
//! and that one is woken once the lock is free.

use crate::core::{CoreError, DelayCore, Expired, Piece, ReapError, Removed, Swept, Turn};
use crate::shards::parking::parked::{keep_until, Parked, PendingWake, Until};
use crate::ticks::{EntryId, Key};
use crate::words::{poll_into, Keeper, ManyTurn};
use alloc::vec::Vec;

// What an insert gives: its key, or why it is refused and the value.
type Inserted<T> = Result<Key, (CoreError, T)>;

/// A queue over words that callers share, and the poller that is parked there.
pub struct WatchedCore<T, N = u64> {
    /// The queue.
    pub core: DelayCore<T, Keeper>,
    /// Who waits for it; none where nobody does.
    pub parked: Option<Parked<N>>,
    /// Whether a thread drops what the queue has deferred. A value's drop is a user's code: it may call the queue, and
    /// defer more there. So one thread at a time drops them, while the lock is free, and whoever finds it at work
    /// leaves its own to it. However many values call the queue where they are dropped, their drops don't nest.
    pub is_dropping: bool,
}

/// Takes the poller out where it may not wait on, with the queue as it is now. Where none is parked, which is so in
/// most calls, the next wake isn't asked for.
#[inline(always)]
pub fn keep_or_leave<T, N: Until>(core: &DelayCore<T, Keeper>, parked: &mut Option<Parked<N>>) -> PendingWake<N> {
    if parked.is_some() {
        keep_until(parked, core.next_wake())
    } else {
        PendingWake { poller: None }
    }
}

impl<T, N> WatchedCore<T, N> {
    /// A queue for which nobody waits.
    pub fn new(core: DelayCore<T, Keeper>) -> WatchedCore<T, N> {
        WatchedCore {
            core,
            parked: None,
            is_dropping: false,
        }
    }
}

impl<T, N: Until> WatchedCore<T, N> {
    /// Puts `value` in, to come out at `when` or at the queue's tick, and returns its key. If it is refused, the
    /// value comes back and nothing changes. Beside it comes who has left, and the value that waited for its drop in
    /// the entry's slot, which is to be dropped once the lock is free: none if it was taken out before.
    #[inline(always)]
    pub fn insert(&mut self, value: T, when: u64) -> (Inserted<T>, PendingWake<N>, Option<T>) {
        // requires MayWait N.lasts self.old.core self.old.parked
        let (answer, displaced) = self.core.insert_deferring(value, when);
        match answer {
            Ok(key) => (Ok(key), keep_or_leave(&self.core, &mut self.parked), displaced),
            Err(refused) => (Err(refused), PendingWake { poller: None }, displaced),
        }
    }

    /// Gives a live entry another deadline, and returns its new key, with who has left by it.
    #[inline(always)]
    pub fn reset(&mut self, entry: &EntryId, when: u64) -> (Result<Key, CoreError>, PendingWake<N>) {
        let answer = self.core.reset(entry, when);
        (answer, keep_or_leave(&self.core, &mut self.parked))
    }

    /// Takes a live entry out, and returns it, with who has left by it.
    #[inline(always)]
    pub fn remove(&mut self, entry: &EntryId) -> (Result<Removed<T>, CoreError>, PendingWake<N>) {
        let answer = self.core.remove(entry);
        (answer, keep_or_leave(&self.core, &mut self.parked))
    }

    /// Notes a tick and takes one entry out that is due, or tells when to come again, with who has left by it. No
    /// value is dropped.
    #[inline(always)]
    pub fn poll(&mut self, tick: u64) -> (Result<Turn<T>, CoreError>, PendingWake<N>) {
        let answer = self.core.poll_deferring(tick);
        (answer, keep_or_leave(&self.core, &mut self.parked))
    }

    /// Notes a tick and does at most `most` steps of a poll, with who has left by it. No value is dropped.
    #[inline]
    pub fn poll_some(&mut self, tick: u64, most: u32) -> (Result<Piece<T>, CoreError>, PendingWake<N>) {
        let answer = self.core.poll_some_deferring(tick, most);
        (answer, keep_or_leave(&self.core, &mut self.parked))
    }

    /// Notes a tick and polls where none is parked, so nobody leaves: whole, or by at most `most` steps. No value is
    /// dropped.
    #[inline]
    pub fn poll_unparked(&mut self, tick: u64, most: Option<u32>) -> Result<Piece<T>, CoreError> {
        // requires self.old.parked ≡ None
        match most {
            Some(steps) => self.core.poll_some_deferring(tick, steps),
            None => Ok(Piece::Answer(self.core.poll_deferring(tick)?)),
        }
    }

    /// Notes a tick and appends what is due to `row`, as far as it has room, with who has left by it. No value is
    /// dropped.
    #[inline]
    pub fn poll_many(&mut self, tick: u64, row: &mut Vec<Expired<T>>) -> (Result<ManyTurn, CoreError>, PendingWake<N>) {
        let answer = poll_into(&mut self.core, tick, row);
        (answer, keep_or_leave(&self.core, &mut self.parked))
    }

    /// Reaps all cancelled entries, and returns how many, with who has left by it. No value is dropped.
    pub fn sweep(&mut self) -> (usize, PendingWake<N>) {
        let reaped = self.core.sweep_deferring();
        (reaped, keep_or_leave(&self.core, &mut self.parked))
    }

    /// Reaps the cancelled entries at `count` slots from `from` on, with who has left by it. No value is dropped.
    pub fn sweep_some(&mut self, from: usize, count: usize) -> (Swept, PendingWake<N>) {
        let swept = self.core.sweep_some_deferring(from, count);
        (swept, keep_or_leave(&self.core, &mut self.parked))
    }

    /// Reaps an entry if it was cancelled, with who has left by it. No value is dropped.
    pub fn reap(&mut self, entry: &EntryId) -> (Result<(), ReapError>, PendingWake<N>) {
        let answer = self.core.reap_deferring(entry);
        (answer, keep_or_leave(&self.core, &mut self.parked))
    }

    /// Takes all entries out, and returns how many live ones were removed, with who has left by it. No value is
    /// dropped.
    pub fn clear(&mut self) -> (usize, PendingWake<N>) {
        let removed = self.core.clear_deferring();
        (removed, keep_or_leave(&self.core, &mut self.parked))
    }
}

impl<T, N> WatchedCore<T, N> {
    /// Takes out a value for a thread that drops it once the lock is free, and then calls again. `is_mine` is false at
    /// its first call, and tells whether it is at it. None where no more are deferred, and it is over; or where
    /// another thread is at it, or this one further up: it drops these too.
    pub fn take_one(&mut self, is_mine: &mut bool) -> Option<T> {
        if self.is_dropping && !*is_mine {
            return None;
        }
        let value = self.core.take_deferred();
        self.is_dropping = value.is_some();
        *is_mine = self.is_dropping;
        value
    }

    /// Ends it before its time, where a value's drop panics. A later call drops what is left.
    pub fn end_dropping(&mut self, is_mine: &mut bool) {
        self.is_dropping = false;
        *is_mine = false;
    }
}
