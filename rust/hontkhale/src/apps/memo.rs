//! A cache as a memo of what is slow to make.

use crate::apps::cache::TtlCache;
use crate::core::CoreError;
use core::hash::{BuildHasher, Hash};

/// What a look-up that may make a value returns: a copy of the value; or why there is none, with what was made.
pub type MemoAnswer<V> = Result<V, (CoreError, Option<V>)>;

impl<K, V, S> TtlCache<K, V, S>
where
    K: Eq + Hash,
    S: BuildHasher,
{
    /// Returns a copy of the value that is seen at `key`. If none is seen, calls `make`, puts a copy of what it made
    /// at `key` until `now + ttl`, and returns what it made. `ttl` and `now` are ticks of one millisecond.
    ///
    /// If a value is seen, `make` isn't called and nothing changes. Else what is due at `now` is dropped, and the
    /// cache is refreshed if the slot that the value needs has no stamp left ([`TtlCache::refresh`]). It takes
    /// constant time, except for `make` and the copy, to drop what is due, to grow the map and to refresh. The last
    /// two take memory.
    ///
    /// # Errors
    /// With each comes what `make` made, if it was called. In this order:
    /// - `TickTooLarge` if `now` is beyond the last tick.
    /// - `TooFar` if the deadline is beyond the last tick.
    /// - `Full` if as many keys are kept as the capacity.
    /// - `NoMemory` if the map, a refresh or a copy is refused its memory.
    /// - `Worn`, or `Full` with worn slots, only if the cache was made with a last stamp of 1.
    ///
    /// ```
    /// use hontkhale::parts::cache::TtlCache;
    ///
    /// let mut cache = TtlCache::with_capacity(100).unwrap();
    /// assert_eq!(cache.get_or_insert_with("key", 500, 1_000, || 6 * 7), Ok(42));
    /// assert_eq!(cache.get_or_insert_with("key", 500, 1_499, || unreachable!()), Ok(42));
    /// assert_eq!(cache.get_or_insert_with("key", 500, 1_500, || 43), Ok(43));
    /// ```
    pub fn get_or_insert_with<F>(&mut self, key: K, ttl: u64, now: u64, make: F) -> MemoAnswer<V>
    where
        F: FnOnce() -> V,
        K: Clone,
        V: Clone,
    {
        // requires (k : K) → K.is_clone key k → K.eq key k ≡ true
        // requires F.pre make
        if let Some(value) = self.get(&key, now) {
            return Ok(value.clone());
        }
        let value = make();
        let copy = value.clone();
        match self.set(key, copy, ttl, now) {
            Ok(_) => Ok(value),
            Err((error, _, _)) => Err((error, Some(value))),
        }
    }
}
