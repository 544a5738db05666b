//! A row of words, each in one number of 8 bytes.

use crate::index::{nth, nth_mut};
use crate::memory::{filled, AllocError};
use crate::ticks::{live_at, pack, unpack, Parts};
use alloc::vec::Vec;

/// A row of words.
pub struct PackedRow {
    words: Vec<u64>,
}

impl PackedRow {
    /// A row of words that were never used.
    pub fn new(capacity: usize) -> Result<PackedRow, AllocError> {
        let words = filled(0, capacity)?;
        Ok(PackedRow { words })
    }

    /// The number of words.
    #[inline]
    pub fn len(&self) -> usize {
        self.words.len()
    }

    /// The parts of a word.
    #[inline]
    pub fn get(&self, index: usize) -> Parts {
        // requires index < length self.now
        unpack(*nth(&self.words, index))
    }

    /// Writes the word of parts.
    #[inline]
    pub fn set(&mut self, index: usize, parts: Parts) {
        // requires index < length self.old
        // requires parts.stamp ≤ LAST_STAMP
        // requires parts.field ≤ LAST_TICK
        *nth_mut(&mut self.words, index) = pack(parts);
    }

    /// The deadline of a word that is live at a stamp.
    #[inline]
    pub fn live_at(&self, index: usize, stamp: u32) -> Option<u64> {
        // requires index < length self.now
        // requires stamp ≤ LAST_STAMP
        live_at(*nth(&self.words, index), stamp)
    }
}
