//! A table of words that threads share: a keeper, its callers and whoever has its open words; or those who write the hints of a
//! queue's shards, and its receivers.
//!
//! All steps are sequentially consistent, but those of a keeper that is alone. Until it has issued a caller or opened its words
//! nobody else has them, and its stores and settling exchanges are plain: `Relaxed`, which takes no fence. No step can tell the
//! difference. The keeper makes its steps by `&mut`, so they come one after the other, whichever threads it goes through. A caller,
//! or the open words, goes to another thread by something that synchronizes, as a spawn or a lock does, and it is made after all
//! plain steps: so each step by it finds what they left, or something later. A caller that was given back, and open words that
//! were dropped, still count.

use crate::index::nth;
use crate::memory::{room_for, AllocError};
use alloc::vec::Vec;
use core::sync::atomic::AtomicU64;
use core::sync::atomic::Ordering::{Relaxed, SeqCst};

#[derive(Debug)]
pub(crate) struct Table {
    words: Vec<AtomicU64>,
}

impl Table {
    /// A table of so many words of that value.
    pub(crate) fn of_words(count: usize, value: u64) -> Result<Table, AllocError> {
        let mut words = room_for(count)?;
        words.resize_with(count, || AtomicU64::new(value));
        Ok(Table { words })
    }

    #[inline(always)]
    pub(crate) fn load(&self, index: usize) -> u64 {
        made(Made::Load);
        nth(&self.words, index).load(SeqCst)
    }

    /// Loads the words from one on, each so far behind the one before, and gives the index of the first of the least, where that is
    /// below a number. Behind an atomic load the compiler looks up the row anew, unless one loop goes through it.
    #[cfg(feature = "std")]
    #[inline(always)]
    pub(crate) fn first_below(&self, from: usize, apart: usize, bound: u64) -> Option<usize> {
        let (row, mut index) = (&self.words[..], from);
        let (mut least, mut first) = (bound, from);
        while let Some(word) = row.get(index) {
            made(Made::Load);
            let found = word.load(SeqCst);
            if found < least {
                (least, first) = (found, index);
            }
            index += apart;
        }
        (least < bound).then_some(first)
    }

    #[cfg(feature = "std")]
    #[inline(always)]
    pub(crate) fn store(&self, index: usize, new: u64) {
        made(Made::Step);
        nth(&self.words, index).store(new, SeqCst);
    }

    /// The same; a plain step unless others have the words.
    #[inline(always)]
    pub(crate) fn store_as(&self, is_shared: bool, index: usize, new: u64) {
        made(Made::Step);
        let word = nth(&self.words, index);
        if is_shared {
            word.store(new, SeqCst);
        } else {
            seldom();
            word.store(new, Relaxed);
        }
    }

    /// Writes `new` where `old` stands, and answers what it found.
    #[inline(always)]
    pub(crate) fn compare_exchange(&self, index: usize, old: u64, new: u64) -> u64 {
        made(Made::Step);
        match nth(&self.words, index).compare_exchange(old, new, SeqCst, SeqCst) {
            Ok(found) | Err(found) => found,
        }
    }

    /// The same, for a word that is mostly found as it is expected. A plain step unless others have the words.
    #[inline(always)]
    pub(crate) fn compare_exchange_once(&self, is_shared: bool, index: usize, old: u64, new: u64) -> u64 {
        made(Made::Step);
        let word = nth(&self.words, index);
        if is_shared {
            return match word.compare_exchange(old, new, SeqCst, SeqCst) {
                Ok(_) => old,
                Err(found) => {
                    seldom();
                    found
                }
            };
        }
        seldom();
        let found = word.load(Relaxed);
        if found != old {
            return found;
        }
        word.store(new, Relaxed);
        old
    }

    #[inline(always)]
    pub(crate) fn fetch_max(&self, index: usize, new: u64) -> u64 {
        made(Made::Step);
        nth(&self.words, index).fetch_max(new, SeqCst)
    }

    #[inline(always)]
    pub(crate) fn fetch_add(&self, index: usize, more: u64) -> u64 {
        made(Made::Step);
        nth(&self.words, index).fetch_add(more, SeqCst)
    }
}

/// What a function of a table makes of a word.
enum Made {
    Load,
    /// Any that may change the word.
    Step,
}

#[cfg(not(all(test, feature = "std", feature = "all-parts")))]
#[inline(always)]
fn made(_: Made) {}

#[cfg(all(test, feature = "std", feature = "all-parts"))]
use counted::made;

#[cfg(all(test, feature = "std", feature = "all-parts"))]
pub(crate) mod counted {
    use super::Made;
    use std::cell::Cell;

    std::thread_local! {
        static MADE: Cell<(usize, usize)> = const { Cell::new((0, 0)) };
    }

    /// Counts it, for tests of what a call makes.
    pub(super) fn made(what: Made) {
        MADE.with(|made| {
            let (loads, steps) = made.get();
            made.set(match what {
                Made::Load => (loads + 1, steps),
                Made::Step => (loads, steps + 1),
            });
        });
    }

    /// What a call answers, and how many loads and how many other steps of tables' words it made in this thread.
    pub(crate) fn counting<R>(call: impl FnOnce() -> R) -> (R, (usize, usize)) {
        let before = MADE.with(Cell::get);
        let answer = call();
        let (loads, steps) = MADE.with(Cell::get);
        (answer, (loads - before.0, steps - before.1))
    }
}

/// Tells the compiler that what follows is seldom, so that the other way needs no jump.
#[cold]
#[inline(always)]
fn seldom() {}
