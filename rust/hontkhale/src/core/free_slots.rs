//! The free indexes of a row of slots, and those whose slots have a value that was freed and isn't dropped yet.
//!
//! The indexes that were freed last stand on a small stack and are given first: their rows are still near. All others
//! are bits of words, with a bit of a summary for each word that isn't 0, and are given in rising order from where
//! the last was given, so that a fill walks through the memory in its order. The stack also serves a queue that is
//! nearly full, where the few free bits would lie far apart.
//!
//! A value's drop is a user's code: it may take long, call the queue or panic, so it runs only where a call is done
//! with the queue. Until then the value stays in its slot: a row of its own would take as much memory again as all
//! values do, and to move a value there and back would cost what its drop is put off for. A slot that waits for its
//! drop may be filled again where no slot is free; the value then goes out beside the new one. These slots are bits of
//! words too, with a count of them. Each call takes constant time.

use crate::index::{nth, nth_mut};
use crate::memory::{filled, room_for, AllocError};
use alloc::vec::Vec;

// How many of the indexes that were freed last stand on the stack.
const RECENT: usize = 64;

// The bits of a word.
const BITS: usize = 64;

// A bit for each of 1,024 words.
type Summary = [u64; 16];

/// Which indexes are free.
pub struct FreeSlots {
    pub(crate) recent: Vec<u16>,
    pub(crate) bits: Vec<u64>,
    pub(crate) summary: Summary,
    /// The word that gave the last index.
    current: usize,
}

/// A word that the summary has a bit for: in rising order from `from`, and then again from the first.
// Called once a word, so it stays out of its callers' loops.
#[inline(never)]
fn next_word(summary: &Summary, from: usize) -> Option<usize> {
    // requires from < 1024
    let group = from / BITS;
    let ahead = *nth(summary, group) >> (from % BITS);
    if ahead != 0 {
        return Some(from + ahead.trailing_zeros() as usize);
    }
    for turn in 0..16 {
        let next = (group + 1 + turn) % 16;
        let word = *nth(summary, next);
        if word != 0 {
            return Some(BITS * next + word.trailing_zeros() as usize);
        }
    }
    None
}

// A word of bits that isn't 0: the one that gave the last index, or the next that the summary knows.
#[inline]
fn filled_word(bits: &[u64], summary: &Summary, last: usize) -> Option<usize> {
    // requires last < length bits.now
    // requires length bits.now ≤ 1024
    // requires IsSummed bits.now summary.now
    if *nth(bits, last) != 0 {
        Some(last)
    } else {
        next_word(summary, last)
    }
}

// Sets the bit of an index, and its word's in the summary where it is the word's first.
#[inline]
fn set_bit(bits: &mut [u64], summary: &mut Summary, index: usize) {
    // requires index < 64 * length bits.old
    // requires length bits.old ≤ 1024
    // requires IsSummed bits.old summary.old
    let word = index / BITS;
    let held = *nth(bits, word);
    *nth_mut(bits, word) = held | 1 << (index % BITS);
    if held == 0 {
        *nth_mut(summary, word / BITS) |= 1 << (word % BITS);
    }
}

// Whether the bit of an index is set.
#[inline]
fn has_bit(bits: &[u64], index: usize) -> bool {
    // requires index < 64 * length bits.now
    *nth(bits, index / BITS) >> (index % BITS) & 1 == 1
}

// Clears the bit of an index, and its word's in the summary where it was the word's only one.
#[inline]
fn clear_bit(bits: &mut [u64], summary: &mut Summary, index: usize) {
    // requires index < 64 * length bits.old
    // requires length bits.old ≤ 1024
    // requires bit_of bits.old index ≡ 1
    // requires IsSummed bits.old summary.old
    let word = index / BITS;
    let left = *nth(bits, word) & !(1 << (index % BITS));
    *nth_mut(bits, word) = left;
    if left == 0 {
        *nth_mut(summary, word / BITS) &= !(1 << (word % BITS));
    }
}

// The index of the lowest bit of a word that isn't 0.
#[inline]
fn lowest_bit(bits: &[u64], word: usize) -> usize {
    // requires word < length bits.now
    // requires length bits.now ≤ 1024
    // requires 0 < slice_index bits.now word
    let held = *nth(bits, word);
    BITS * word + held.trailing_zeros() as usize
}

// Clears the lowest bit of a word that isn't 0, and the word's bit in the summary where it was its only one.
#[inline]
fn take_bit(bits: &mut [u64], summary: &mut Summary, word: usize) -> usize {
    // requires word < length bits.old
    // requires length bits.old ≤ 1024
    // requires 0 < slice_index bits.old word
    // requires IsSummed bits.old summary.old
    let held = *nth(bits, word);
    let bit = held.trailing_zeros() as usize;
    let left = held & !(1 << bit);
    *nth_mut(bits, word) = left;
    if left == 0 {
        *nth_mut(summary, word / BITS) &= !(1 << (word % BITS));
    }
    BITS * word + bit
}

impl FreeSlots {
    /// Room for the indexes below `capacity`, of which none is free, and for at most 64 more.
    pub fn new(capacity: usize) -> Result<FreeSlots, AllocError> {
        // requires capacity ≤ CAPACITY_LIMIT
        let recent = room_for(RECENT)?;
        let words = capacity.saturating_sub(1) / BITS + 1;
        let bits = filled(0, words)?;
        Ok(FreeSlots {
            recent,
            bits,
            summary: [0; 16],
            current: 0,
        })
    }
}

impl FreeSlots {
    /// Frees an index, to be given in its order.
    #[inline]
    pub fn set(&mut self, index: usize) {
        // requires index < room_of self.old
        // requires free_times self.old index ≡ 0
        set_bit(self.bits.as_mut_slice(), &mut self.summary, index);
    }

    /// Frees an index, to be given soon.
    #[inline(always)]
    pub fn give(&mut self, index: usize) {
        // requires index < room_of self.old
        // requires free_times self.old index ≡ 0
        if self.recent.len() < RECENT {
            self.recent.push(index as u16);
        } else {
            self.set(index);
        }
    }

    /// The index that the next fill takes, where one is free.
    #[inline]
    pub fn next(&self) -> Option<usize> {
        if let Some(top) = self.recent.last() {
            return Some(*top as usize);
        }
        let word = filled_word(&self.bits, &self.summary, self.current)?;
        Some(lowest_bit(&self.bits, word))
    }

    /// Takes the index of the next fill: a free one, and only where none is free one whose value waits for its drop.
    #[inline(always)]
    pub fn take(&mut self, deferred: &mut DeferredDrops) -> Option<usize> {
        if let Some(top) = self.recent.pop() {
            return Some(top as usize);
        }
        let Some(word) = filled_word(&self.bits, &self.summary, self.current) else {
            return deferred.take();
        };
        self.current = word;
        Some(take_bit(self.bits.as_mut_slice(), &mut self.summary, word))
    }
}

/// The slots whose value waits for its drop.
pub struct DeferredDrops {
    pub(crate) bits: Vec<u64>,
    pub(crate) summary: Summary,
    /// The word that gave the last slot.
    current: usize,
    pub(crate) count: usize,
}

impl DeferredDrops {
    /// Room for the slots below `capacity`, of which none waits, and for at most 64 more.
    pub fn new(capacity: usize) -> Result<DeferredDrops, AllocError> {
        // requires capacity ≤ CAPACITY_LIMIT
        let words = capacity.saturating_sub(1) / 64 + 1;
        let bits = filled(0, words)?;
        Ok(DeferredDrops {
            bits,
            summary: [0; 16],
            current: 0,
            count: 0,
        })
    }

    /// How many slots wait.
    #[inline(always)]
    pub fn count(&self) -> usize {
        self.count
    }

    /// From now on a slot waits.
    pub fn add(&mut self, index: usize) {
        // requires index < defers_room self.old
        if has_bit(&self.bits, index) {
            return;
        }
        set_bit(self.bits.as_mut_slice(), &mut self.summary, index);
        self.count += 1;
    }

    /// A slot waits no more. It returns whether it did.
    pub fn remove(&mut self, index: usize) -> bool {
        // requires index < defers_room self.old
        if !has_bit(&self.bits, index) {
            return false;
        }
        clear_bit(self.bits.as_mut_slice(), &mut self.summary, index);
        self.count -= 1;
        true
    }

    /// Takes out a slot that waits; none comes exactly where the count is 0.
    pub fn take(&mut self) -> Option<usize> {
        let word = filled_word(&self.bits, &self.summary, self.current)?;
        self.current = word;
        let index = take_bit(self.bits.as_mut_slice(), &mut self.summary, word);
        self.count -= 1;
        Some(index)
    }
}
