//! A map and its timers come together again: by fresh timers, and where a key's code panicked between the two.
//!
//! No call of this module hashes, compares or clones a key.

use crate::apps::cache::TtlCache;
use crate::apps::stock::Stock;
use crate::apps::timers::Timers;
use core::hash::{BuildHasher, Hash};
use core::mem;

/// Moves the timer of each key of the map to a fresh one, at the deadline that the map has.
pub(crate) fn move_all<K, V, S>(stock: &mut Stock<K, V, S>, worn: &mut Timers<K>, fresh: &mut Timers<K>) {
    for kept in stock.values_mut() {
        if let Some(key) = worn.stop(&kept.key) {
            kept.key = fresh.start(key, kept.deadline);
        }
    }
}

/// What a call gives. Where a key's code panics in it, the cache is mended as the panic goes on.
pub(crate) fn unless_it_panics<K: Eq + Hash, V, S: BuildHasher, R>(
    cache: &mut TtlCache<K, V, S>,
    call: impl FnOnce(&mut TtlCache<K, V, S>) -> R,
) -> R {
    let mending = Mending(cache);
    let result = call(&mut *mending.0);
    mem::forget(mending);
    result
}

struct Mending<'a, K: Eq + Hash, V, S: BuildHasher>(&'a mut TtlCache<K, V, S>);

impl<K: Eq + Hash, V, S: BuildHasher> Drop for Mending<'_, K, V, S> {
    /// Drops what is kept without a timer, and the timers of keys that the map has lost.
    fn drop(&mut self) {
        let TtlCache { stock, timers, .. } = &mut *self.0;
        stock.retain(|_, kept| timers.is_set(&kept.key));
        if stock.len() < timers.len() {
            if let Ok(mut fresh) = timers.anew() {
                move_all(stock, timers, &mut fresh);
                *timers = fresh;
            }
        }
    }
}
