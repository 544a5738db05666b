//! The stamps of a cache begin again, so that it runs for years.

use crate::apps::cache::TtlCache;
use crate::apps::calls::PutAnswer;
use crate::apps::moves::move_all;
use crate::core::CoreError;
use core::hash::{BuildHasher, Hash};

// Whether a call was refused for want of stamps.
fn wants_stamps(error: &CoreError) -> bool {
    match error {
        CoreError::Worn => true,
        CoreError::Full { worn, .. } => *worn > 0,
        _ => false,
    }
}

impl<K, V, S> TtlCache<K, V, S>
where
    K: Eq + Hash,
    S: BuildHasher,
{
    /// Gives every slot all of its stamps again, so that no slot is worn. The same keys are kept, and the same values
    /// are seen at every tick.
    ///
    /// It takes time in proportion to the kept keys and the capacity. It takes memory as a new cache does, and gives
    /// back as much when it returns.
    ///
    /// # Errors
    /// `NoMemory` if memory is refused. Nothing changes then.
    pub fn refresh(&mut self) -> Result<(), CoreError> {
        let mut fresh = self.timers.anew()?;
        move_all(&mut self.stock, &mut self.timers, &mut fresh);
        self.timers = fresh;
        Ok(())
    }

    /// Gives the key that is seen at `now` the deadline `now + ttl`, sooner or later than the one that it has, and
    /// returns the new deadline. `ttl` and `now` are ticks of one millisecond. If `now` is before the cache's moment,
    /// the moment is taken instead; else `now` becomes the moment.
    ///
    /// It never stops for want of stamps: if the key's slot has none left, the call refreshes the cache first
    /// ([`TtlCache::refresh`]), and then renews the key. It takes constant time, and no memory, unless it refreshes.
    ///
    /// # Errors
    /// The same values are seen after a refusal. In this order:
    /// - `TickTooLarge` if `now` is beyond the last tick.
    /// - `TooFar` if the new deadline is beyond the last tick.
    /// - `Missing` if the key isn't seen.
    /// - `NoMemory` if a refresh is refused its memory.
    /// - `Worn` only if the cache was made with a last stamp of 1, so that no key can be renewed.
    ///
    /// ```
    /// use hontkhale::parts::cache::TtlCache;
    ///
    /// let mut cache = TtlCache::with_capacity(100).unwrap();
    /// cache.set("key", 1, 500, 1_000).unwrap();
    /// assert_eq!(cache.touch(&"key", 500, 1_400), Ok(1_900));
    /// assert_eq!(cache.get(&"key", 1_899), Some(&1));
    /// ```
    pub fn touch(&mut self, key: &K, ttl: u64, now: u64) -> Result<u64, CoreError> {
        let error = match self.renew(key, ttl, now) {
            Ok(deadline) => return Ok(deadline),
            Err(error) => error,
        };
        if !wants_stamps(&error) {
            return Err(error);
        }
        self.refresh()?;
        self.renew(key, ttl, now)
    }

    /// Puts `value` at `key` until `now + ttl`, and returns the value that was seen there before. `ttl` and `now` are
    /// ticks of one millisecond. If `now` is before the cache's moment, the moment is taken instead; else `now`
    /// becomes the moment. What is due at that moment is dropped first.
    ///
    /// It never stops for want of stamps: if the slot that it needs has none left, the call refreshes the cache first
    /// ([`TtlCache::refresh`]), and then puts the value. It takes constant time, except to drop what is due, to grow
    /// the map and to refresh. The last two take memory.
    ///
    /// # Errors
    /// `key` and `value` come back. In this order:
    /// - `TickTooLarge` if `now` is beyond the last tick. Nothing changes then.
    /// - `TooFar` if the deadline is beyond the last tick. Nothing changes then.
    /// - `Full` if the key isn't kept, and as many keys are kept as the capacity.
    /// - `NoMemory` if the map or a refresh is refused its memory.
    /// - `Worn`, or `Full` with worn slots, only if the cache was made with a last stamp of 1.
    ///
    /// ```
    /// use hontkhale::parts::cache::TtlCache;
    ///
    /// let mut cache = TtlCache::with_capacity(100).unwrap();
    /// assert_eq!(cache.set("key", 1, 500, 1_000), Ok(None));
    /// assert_eq!(cache.set("key", 2, 500, 1_200), Ok(Some(1)));
    /// assert_eq!(cache.get(&"key", 1_699), Some(&2));
    /// assert_eq!(cache.get(&"key", 1_700), None);
    /// ```
    pub fn set(&mut self, key: K, value: V, ttl: u64, now: u64) -> PutAnswer<K, V>
    where
        K: Clone,
    {
        // requires (k : K) → K.is_clone key k → K.eq key k ≡ true
        let (error, key, value) = match self.put(key, value, ttl, now) {
            Ok(old) => return Ok(old),
            Err(back) => back,
        };
        if !wants_stamps(&error) {
            return Err((error, key, value));
        }
        if let Err(refused) = self.refresh() {
            return Err((refused, key, value));
        }
        self.put(key, value, ttl, now)
    }
}
