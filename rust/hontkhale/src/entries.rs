//! The live entries of one owner's queue, as std's iterators have it.

use crate::core::{DelayCore, Entries, LiveEntry, VecWords};
use core::iter::FusedIterator;

impl<'q, T> IntoIterator for &'q DelayCore<T, VecWords> {
    type Item = LiveEntry<'q, T>;
    type IntoIter = Entries<'q, T>;

    fn into_iter(self) -> Entries<'q, T> {
        self.entries()
    }
}

impl<T> FusedIterator for Entries<'_, T> {}
