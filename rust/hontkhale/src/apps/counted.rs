//! A cache that counts how often it saw what it was asked for.

use crate::apps::cache::TtlCache;
use crate::apps::memo::MemoAnswer;
use core::hash::{BuildHasher, Hash};
use std::collections::hash_map::RandomState;

/// A cache that counts its look-ups: a hit if a value was seen, and else a miss.
///
/// ```
/// use hontkhale::parts::cache::{CountedCache, TtlCache};
///
/// let mut cache = CountedCache::new(TtlCache::with_capacity(100).unwrap());
/// let long = cache.get_or_insert_with("key", 500, 1_000, || 1).unwrap();
/// let short = cache.get_or_insert_with("key", 500, 1_001, || unreachable!()).unwrap();
/// assert_eq!((long, short, cache.hits(), cache.misses()), (1, 1, 1, 1));
/// ```
///
/// A count stops at the greatest `u64`. A look-up by the field `cache` isn't counted.
pub struct CountedCache<K: Eq + Hash, V, S: BuildHasher = RandomState> {
    /// The cache.
    pub cache: TtlCache<K, V, S>,
    hits: u64,
    misses: u64,
}

impl<K: Eq + Hash, V, S: BuildHasher> CountedCache<K, V, S> {
    /// Makes a counted cache of `cache`, of which no look-up was counted yet.
    pub fn new(cache: TtlCache<K, V, S>) -> CountedCache<K, V, S> {
        CountedCache {
            cache,
            hits: 0,
            misses: 0,
        }
    }

    /// Returns how many look-ups saw a value, at most the greatest `u64`.
    pub fn hits(&self) -> u64 {
        self.hits
    }

    /// Returns how many look-ups saw no value, at most the greatest `u64`.
    pub fn misses(&self) -> u64 {
        self.misses
    }

    // Counts a look-up.
    fn count(&mut self, hit: bool) {
        if hit {
            self.hits = self.hits.saturating_add(1);
        } else {
            self.misses = self.misses.saturating_add(1);
        }
    }
}

impl<K: Eq + Hash, V, S: BuildHasher> CountedCache<K, V, S> {
    /// Whether a value is seen at `key` at `now`, a tick of one millisecond; the look-up is counted. Constant time.
    pub fn sees(&mut self, key: &K, now: u64) -> bool {
        let hit = self.cache.contains(key, now);
        self.count(hit);
        hit
    }

    /// Returns a copy of the value that is seen at `key`, and counts a hit. If none is seen, counts a miss, calls
    /// `make`, puts a copy of what it made at `key` until `now + ttl`, and returns what it made. `ttl` and `now` are
    /// ticks of one millisecond.
    ///
    /// It takes constant time, except for `make` and the copy, to drop what is due, to grow the map and to refresh
    /// the cache. The last two take memory.
    ///
    /// # Errors
    /// The look-up is counted, and with each comes what `make` made, if it was called. In this order:
    /// - `TickTooLarge` if `now` is beyond the last tick.
    /// - `TooFar` if the deadline is beyond the last tick.
    /// - `Full` if as many keys are kept as the capacity.
    /// - `NoMemory` if the map, a refresh or a copy is refused its memory.
    /// - `Worn`, or `Full` with worn slots, only if the cache was made with a last stamp of 1.
    pub fn get_or_insert_with<F>(&mut self, key: K, ttl: u64, now: u64, make: F) -> MemoAnswer<V>
    where
        F: FnOnce() -> V,
        K: Clone,
        V: Clone,
    {
        // requires (k : K) → K.is_clone key k → K.eq key k ≡ true
        // requires F.pre make
        self.sees(&key, now);
        self.cache.get_or_insert_with(key, ttl, now, make)
    }
}
