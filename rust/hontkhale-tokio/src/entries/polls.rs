//! What comes out, and what comes out next.

use super::{Entries, NEVER};
use crate::budget::Budget;
use crate::key::{Expired, Key};
#[cfg(test)]
use crate::tests;
use hontkhale::parts::owner::{self, CoreError, EntryId, Piece};
use std::sync::PoisonError;

impl<T> Entries<T> {
    /// Makes at most so many steps of a poll of the store. What came out is noted by `note_expired`, and that nothing did by
    /// `wake`.
    #[inline(always)]
    pub fn poll(&mut self, reached: u64, most: u32) -> Result<Piece<T>, CoreError> {
        #[cfg(test)]
        tests::asked();
        self.store.poll_some(reached, most)
    }

    /// The same of a whole poll: where no limit is wanted it takes fewer instructions for each entry that moves.
    #[inline(always)]
    pub fn poll_whole(&mut self, reached: u64) -> Result<Piece<T>, CoreError> {
        #[cfg(test)]
        tests::asked();
        self.store.poll(reached)
    }

    /// Notes what came out of the store.
    #[inline]
    pub fn note_expired(&mut self, out: &owner::Expired<T>) {
        self.tick = out.deadline;
        self.note_out(&self.key(&out.key.entry()));
    }

    /// The same as its user knows it.
    #[inline(always)]
    pub fn expired(&self, out: owner::Expired<T>) -> Expired<T> {
        let (key, tick, clock) = (self.key(&out.key.entry()), out.deadline, self.shared.clock);
        Expired { key, data: out.value, tick, clock }
    }

    /// Notes that the store rests, and gives the tick at which there is something to do, none where no entry is left. The store
    /// names the start of a slot where the hint is exact; and of several cores it may name a tick though what was to come then has
    /// left.
    #[inline]
    pub fn wake(&mut self, reached: u64) -> Option<u64> {
        self.tick = self.tick.max(reached);
        let mut wake = self.store.hint();
        if wake < NEVER && self.cores().count() > 1 {
            let least = self.cores().next_wake().unwrap_or(NEVER);
            wake = if least > reached { least } else { wake };
        }
        self.hint = self.hint.max(wake);
        (wake < NEVER).then_some(self.hint)
    }

    /// Whether the entry is due that a peek named.
    #[inline]
    pub fn has_peeked(&mut self, reached: u64) -> bool {
        self.peeked.get_mut().unwrap_or_else(PoisonError::into_inner).is_some_and(|(_, deadline)| deadline <= reached)
    }

    /// Takes the entry out that a peek named and that is due, if it has the deadline yet that the peek saw: then it comes first. Of
    /// entries of one millisecond the store might give another.
    #[cold]
    pub fn take_peeked(&mut self) -> Option<Expired<T>> {
        let (key, deadline) = self.peeked.get_mut().unwrap_or_else(PoisonError::into_inner).take()?;
        #[cfg(test)]
        tests::after_look();
        // A handle may extend it until it is taken out, and then it stays.
        let removed = self.store.remove_if_due(&key.name.entry(), deadline).ok()??;
        self.tick = self.tick.max(deadline);
        Some(self.removed(key, removed))
    }

    /// Whether a core has a step to make before a tick.
    pub fn has_step_before(&self, tick: u64) -> bool {
        #[cfg(test)]
        tests::asked();
        self.cores().next_wake().is_some_and(|next| next < tick)
    }

    /// Whether handles left something for the owner.
    #[inline]
    pub fn has_news(&self) -> bool {
        self.shared.cancels() != self.heeded || self.has_freed
    }

    /// Frees what handles cancelled, and drops the values. False where the budget is spent before.
    #[inline]
    pub fn heed_news(&mut self, budget: &mut Budget) -> bool {
        !self.has_news() || self.heed(budget)
    }

    /// Where the budget is spent, or a value's drop panics, the next poll goes on.
    #[cold]
    fn heed(&mut self, budget: &mut Budget) -> bool {
        self.drop_freed();
        while budget.has_step() {
            let cancelled = self.cancelled.get_mut().unwrap_or_else(PoisonError::into_inner);
            let Ok(key) = cancelled.try_recv() else { return true };
            budget.take(1);
            self.heeded += 1;
            if self.has_names {
                self.forget_name(&key);
            }
            // A poll may have freed it where it was due.
            let _ = self.store.reap(&key.name.entry());
            self.has_freed = true;
            self.drop_freed();
        }
        false
    }

    /// Drops the values of entries that were freed. Where a drop panics the others stay, for the next call.
    fn drop_freed(&mut self) {
        while self.has_freed {
            let value = self.store.take_deferred();
            self.has_freed = value.is_some();
        }
    }

    /// The key of the entry that comes out next, and the deadline that it was seen to have, the least of all.
    pub fn first(&self) -> Option<(Key, u64)> {
        let mut peeked = self.peeked.lock().unwrap_or_else(PoisonError::into_inner);
        let is_first = |(key, deadline): &(Key, u64)| self.deadline(key) == Some(*deadline);
        // Nothing sooner was put in since, and no deadline was lowered.
        if !peeked.as_ref().is_some_and(is_first) {
            let firsts = (0..self.cores().count()).filter_map(|core| self.first_in(core));
            let first = firsts.min_by_key(|(_, deadline)| *deadline);
            *peeked = first.map(|(entry, deadline)| (self.key(&entry), deadline));
        }
        #[cfg(test)]
        tests::after_look();
        *peeked
    }

    /// The entry of a core that has the least deadline, and that deadline.
    fn first_in(&self, core: usize) -> Option<(EntryId, u64)> {
        let queue = self.cores().get(core)?;
        let place = queue.peek()?.entry();
        match self.look(&place) {
            // It is scheduled first, and none has a deadline before the tick at which it is scheduled.
            Some((_, deadline)) if queue.filed(&place) == Some(deadline) => {
                Some((self.store.store().first_in(core)?, deadline))
            }
            // A handle extended or cancelled it, or a slot is gone through whose entries are scheduled at its start.
            _ => {
                let live = self.linked(core).filter_map(|(place, entry)| Some((entry, self.look(&place)?.1)));
                live.min_by_key(|(_, deadline)| *deadline)
            }
        }
    }

    /// Notes that an entry has a deadline, which may come before the one that the last peek named.
    #[inline]
    pub(super) fn note_deadline(&mut self, when: u64) {
        self.hint = self.hint.min(when);
        let peeked = self.peeked.get_mut().unwrap_or_else(PoisonError::into_inner);
        if peeked.is_some_and(|(_, deadline)| when < deadline) {
            *peeked = None;
        }
    }
}
