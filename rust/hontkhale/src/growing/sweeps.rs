//! Calls that free cancelled entries.

use crate::core::{DelayCore, ReapError, Swept, Words};
use crate::growing::cores::Cores;
use crate::index::nth_mut;
use crate::ticks::EntryId;

// Reaps the entry of that name in a core.
fn reap_from<T, W: Words>(core: &mut DelayCore<T, W>, entry: &EntryId) -> Result<(), ReapError> {
    core.reap_deferring(entry)
}

impl<T, W: Words> Cores<T, W> {
    /// Reaps the entry of that name where it is found cancelled. Its value isn't dropped: it waits until it is taken
    /// out.
    ///
    /// # Errors
    /// `Missing` where no entry of that name is linked; `Live` where it is found live.
    pub fn reap(&mut self, entry: &EntryId) -> Result<(), ReapError> {
        let Some(at) = self.place_of(entry.shard()) else {
            return Err(ReapError::Missing);
        };
        reap_from(nth_mut(&mut self.cores, at), entry)
    }

    /// Reaps each linked entry that is found cancelled at `count` slots from `from` on of the core at a place, and
    /// tells the slot to go on from. It returns none where there is no such place. No value is dropped: each waits
    /// until it is taken out.
    pub fn sweep_some(&mut self, place: usize, from: usize, count: usize) -> Option<Swept> {
        if place >= self.cores.len() {
            return None;
        }
        let swept = nth_mut(&mut self.cores, place).sweep_some_deferring(from, count);
        Some(swept)
    }
}
