//! Folded cores, which keep their words until a core of their size is wanted again.

use crate::core::{Folded, Words};
use crate::index::nth;
use alloc::vec::Vec;

/// Cores that are folded.
pub struct Folds<W: Words> {
    folded: Vec<Folded<W>>,
}

impl<W: Words> Folds<W> {
    /// None yet.
    pub fn new() -> Folds<W> {
        Folds { folded: Vec::new() }
    }

    /// Keeps a folded core.
    ///
    /// # Errors
    /// It comes back, and nothing changes, if memory is refused.
    pub fn keep(&mut self, folded: Folded<W>) -> Result<(), Folded<W>> {
        if self.folded.try_reserve(1).is_err() {
            return Err(folded);
        }
        self.folded.push(folded);
        Ok(())
    }

    // The place of a folded core of that many slots.
    fn place_of(&self, capacity: usize) -> Option<usize> {
        for at in 0..self.folded.len() {
            if nth(&self.folded, at).capacity() == capacity {
                return Some(at);
            }
        }
        None
    }

    /// Takes out a folded core of that many slots, none where there is no such one.
    pub fn take(&mut self, capacity: usize) -> Option<Folded<W>> {
        let at = self.place_of(capacity)?;
        let folded = self.folded.remove(at);
        Some(folded)
    }
}
