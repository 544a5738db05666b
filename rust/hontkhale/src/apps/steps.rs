//! What the calls of a cache are made of, each exact.

use crate::apps::cache::TtlCache;
use crate::apps::kept::Kept;
use crate::apps::moves::unless_it_panics;
use crate::apps::stock::replace_at;
use crate::core::CoreError;
use core::hash::{BuildHasher, Hash};
use std::collections::hash_map::Entry;

impl<K: Eq + Hash, V, S: BuildHasher> TtlCache<K, V, S> {
    // Sets the moment.
    pub(crate) fn pass(&mut self, moment: u64) {
        // requires self.old.moment ≤ moment
        // requires moment ≤ LAST_TICK
        self.moment = moment;
    }

    // Takes out one entry that is due at the moment, if there is one.
    pub(crate) fn take_due(&mut self) -> Option<(K, V)> {
        loop {
            let key = self.timers.stop_due(self.moment)?;
            // Where the cache couldn't be mended for want of memory, a key may still be missing.
            if let Some((_own, kept)) = unless_it_panics(self, |cache| cache.stock.remove_entry(&key)) {
                return Some((key, kept.value));
            }
        }
    }

    // Drops all that is due at the moment, and answers how much.
    pub(crate) fn drop_due(&mut self) -> usize {
        let mut dropped = 0usize;
        while let Some(_due) = self.take_due() {
            dropped += 1;
        }
        dropped
    }

    // Whether a key is kept, seen or due.
    pub(crate) fn holds(&self, key: &K) -> bool {
        self.stock.contains_key(key)
    }

    // Puts a value at a key that is kept; hands it back where the slot has no stamp left.
    pub(crate) fn replace(&mut self, key: &K, value: V, when: u64) -> Result<V, V> {
        // requires IsKept K.eq self.old key.now
        // requires self.old.moment ≤ when
        // requires when ≤ LAST_TICK
        let Some(kept) = self.stock.get_mut(key) else {
            unreachable!();
        };
        match self.timers.restart(&kept.key, when) {
            Some(next) => Ok(replace_at(kept, value, when, next)),
            None => Err(value),
        }
    }

    // Puts a key that isn't kept at a free slot.
    pub(crate) fn add(&mut self, key: K, value: V, when: u64) -> Result<(), (CoreError, K, V)>
    where
        K: Clone,
    {
        // requires IsAbsent K.eq self.old key
        // requires (k : K) → K.is_clone key k → K.eq key k ≡ true
        // requires self.old.moment ≤ when
        // requires when ≤ LAST_TICK
        let (linked, worn) = (self.timers.len(), self.timers.worn());
        if linked + worn == self.timers.capacity() {
            return Err((CoreError::Full { linked, worn }, key, value));
        }
        let copy = key.clone();
        if unless_it_panics(self, |cache| cache.stock.try_reserve(1)).is_err() {
            return Err((CoreError::NoMemory, key, value));
        }
        // The key is hashed here, and not once its timer runs: its hash may panic.
        let place = self.stock.entry(key);
        let timer = self.timers.start(copy, when);
        let kept = Kept {
            value,
            deadline: when,
            key: timer,
        };
        match place {
            Entry::Vacant(place) => {
                place.insert(kept);
            }
            Entry::Occupied(mut place) => {
                place.insert(kept);
            }
        }
        Ok(())
    }
}
