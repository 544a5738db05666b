//! A thread of a crowd that has a handle, and was given no key.

use super::draw::Draw;
use super::fates::{count, key_at, Counts, Fates, SLOTS};
use hontkhale::parts::owner::CallError;
use hontkhale::parts::shards::Handle;
use std::sync::atomic::AtomicU64;
use std::sync::atomic::Ordering::SeqCst;

/// Extends and cancels by keys that it makes up. That a key is stale tells it the slot's stamp.
pub struct Stranger<'q> {
    handle: Handle,
    /// The tick of this moment.
    now: &'q AtomicU64,
    draw: Draw,
    /// The stamp of each slot, as it was last seen.
    stamps: Vec<u32>,
    fates: Fates,
    counts: Counts,
}

impl<'q> Stranger<'q> {
    pub fn new(handle: Handle, now: &'q AtomicU64, seed: u64) -> Stranger<'q> {
        Stranger {
            handle,
            now,
            draw: Draw::new(seed),
            stamps: vec![1; SLOTS],
            fates: Fates::new(),
            counts: Counts::default(),
        }
    }

    /// Makes so many calls, and gives its handle back. What it was told by them, and what it counted.
    pub fn work(mut self, calls: u64) -> (Fates, Counts) {
        for _ in 0..calls / 2 {
            if self.look_and_call().is_none() {
                count(&mut self.counts.odd);
            }
        }
        let cancels = self.handle.give_back();
        if cancels != self.counts.cancelled {
            count(&mut self.counts.odd);
        }
        (self.fates, self.counts)
    }

    // Looks at a slot, and then extends or cancels what is there: mostly by the stamp that it saw. None where an answer
    // is one that it can't have.
    fn look_and_call(&mut self) -> Option<()> {
        let place = self.draw.below(SLOTS as u64) as usize;
        let stamp = self.look(place)?;
        let stamp = match self.draw.below(16) {
            0 => stamp.saturating_add(1),
            1 => stamp.saturating_sub(1),
            _ => stamp,
        };
        if self.draw.below(8) == 0 {
            self.cancel(place, stamp)
        } else {
            self.extend(place, stamp)
        }
    }

    // The stamp that a slot has; 1 where it was never used.
    fn look(&mut self, place: usize) -> Option<u32> {
        let known = self.stamps.get_mut(place)?;
        match self.handle.look(&key_at(place, *known)) {
            Ok(_) => {}
            Err(CallError::Stale { seen }) if seen > *known => *known = seen,
            Err(CallError::Unknown) if *known == 1 => {}
            Err(_) => return None,
        }
        Some(*known)
    }

    fn extend(&mut self, place: usize, stamp: u32) -> Option<()> {
        let key = key_at(place, stamp);
        let when = self.now.load(SeqCst).saturating_add(self.draw.below(256));
        match self.handle.extend(&key, when) {
            Ok(deadline) if deadline >= when => {
                count(&mut self.counts.extended);
                self.fates.promise(&key, deadline);
                Some(())
            }
            Ok(_) | Err(CallError::TooFar { .. }) => None,
            Err(_) => Some(()),
        }
    }

    fn cancel(&mut self, place: usize, stamp: u32) -> Option<()> {
        let key = key_at(place, stamp);
        match self.handle.cancel(&key) {
            Ok(deadline) => {
                count(&mut self.counts.cancelled);
                self.fates.end(&key, deadline);
                Some(())
            }
            Err(CallError::TooFar { .. }) => None,
            Err(_) => Some(()),
        }
    }
}
