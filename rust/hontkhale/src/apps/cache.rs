//! An expiring cache of one owner: values that are seen until their deadline.

use crate::apps::seen::Seen;
use crate::apps::stock::{least_deadline, Stock};
use crate::apps::timers::{is_setting, Timers};
use crate::core::CoreError;
use crate::ticks::LAST_STAMP;
use core::hash::{BuildHasher, Hash};
use std::collections::hash_map::RandomState;
use std::collections::HashMap;

/// A cache of one owner, in which each value has a deadline: it is *seen* until then. Ticks are of one millisecond,
/// and the owner passes them in: the cache reads no clock.
///
/// ```
/// use hontkhale::parts::cache::TtlCache;
///
/// let mut cache = TtlCache::with_capacity(100).unwrap();
/// cache.put("key", 1, 500, 1_000).unwrap();
/// assert_eq!(cache.get(&"key", 1_499), Some(&1));
/// assert_eq!(cache.get(&"key", 1_500), None);
/// assert_eq!(cache.purge(1_500), Ok(1));
/// ```
///
/// The cache keeps a *moment*, at first 0: the greatest tick of a put, a renewal or a purge. A call at an earlier
/// tick is made at the moment. A value that is due isn't seen, but is kept until a put or a purge drops it.
///
/// A slot has a stamp for each put and each renewal, and is *worn* at its last one. [`TtlCache::set`] and
/// [`TtlCache::touch`] begin the stamps again when a slot has none left, so a cache that is changed only by them runs
/// for years. They take memory then. Else only a new cache and a put take memory.
pub struct TtlCache<K: Eq + Hash, V, S: BuildHasher = RandomState> {
    pub(crate) stock: Stock<K, V, S>,
    pub(crate) timers: Timers<K>,
    pub(crate) moment: u64,
}

impl<K: Eq + Hash, V> TtlCache<K, V> {
    /// Makes an empty cache that keeps at most `capacity` keys, at moment 0. Each slot has `last_stamp` stamps, one
    /// for each put and each renewal. Most programs take [`TtlCache::with_capacity`].
    ///
    /// It takes time and memory in proportion to `capacity`. The map takes memory of its own later, as puts fill it.
    /// The map's hasher is std's, which is seeded; [`TtlCache::with_hasher`] takes another.
    ///
    /// # Errors
    /// - `BadConfig` if `capacity` isn't 1 to 65,536, or `last_stamp` isn't 1 to 1,048,575.
    /// - `NoMemory` if memory is refused.
    pub fn new(capacity: usize, last_stamp: u32) -> Result<TtlCache<K, V>, CoreError> {
        TtlCache::made(capacity, last_stamp, RandomState::new())
    }

    /// Makes an empty cache that keeps at most `capacity` keys, at moment 0. Each slot has 1,048,575 stamps, the most
    /// that it can have.
    ///
    /// It takes time and memory in proportion to `capacity`. The map takes memory of its own later, as puts fill it.
    /// The map's hasher is std's, which is seeded; [`TtlCache::with_hasher`] takes another.
    ///
    /// # Errors
    /// - `BadConfig` if `capacity` isn't 1 to 65,536.
    /// - `NoMemory` if memory is refused.
    pub fn with_capacity(capacity: usize) -> Result<TtlCache<K, V>, CoreError> {
        TtlCache::made(capacity, LAST_STAMP, RandomState::new())
    }
}

impl<K, V, S> TtlCache<K, V, S>
where
    K: Eq + Hash,
    S: BuildHasher,
{
    /// Makes an empty cache that keeps at most `capacity` keys, at moment 0, and hashes them with `hasher`. Each slot
    /// has 1,048,575 stamps, the most that it can have.
    ///
    /// It takes time and memory in proportion to `capacity`. The map takes memory of its own later, as puts fill it.
    ///
    /// # Errors
    /// - `BadConfig` if `capacity` isn't 1 to 65,536.
    /// - `NoMemory` if memory is refused.
    ///
    /// ```
    /// use hontkhale::parts::cache::TtlCache;
    /// use std::collections::hash_map::RandomState;
    ///
    /// let mut cache = TtlCache::with_hasher(100, RandomState::new()).unwrap();
    /// cache.set("key", 1, 500, 1_000).unwrap();
    /// assert_eq!(cache.get(&"key", 1_499), Some(&1));
    /// ```
    pub fn with_hasher(capacity: usize, hasher: S) -> Result<TtlCache<K, V, S>, CoreError> {
        TtlCache::made(capacity, LAST_STAMP, hasher)
    }

    fn made(capacity: usize, last_stamp: u32, hasher: S) -> Result<TtlCache<K, V, S>, CoreError> {
        if !is_setting(capacity, last_stamp) {
            return Err(CoreError::BadConfig);
        }
        let timers = Timers::new(capacity, last_stamp)?;
        Ok(TtlCache {
            stock: HashMap::with_hasher(hasher),
            timers,
            moment: 0,
        })
    }
}

impl<K: Eq + Hash, V, S: BuildHasher> TtlCache<K, V, S> {
    /// Returns the moment, a tick of one millisecond, at first 0: the greatest tick of a put, a renewal or a purge. A
    /// call at an earlier tick is made at the moment.
    pub fn moment(&self) -> u64 {
        self.moment
    }

    /// Returns how many keys are kept, seen or due.
    pub fn len(&self) -> usize {
        self.timers.len()
    }

    /// Whether no key is kept.
    pub fn is_empty(&self) -> bool {
        self.len() == 0
    }

    /// Returns how many keys may be kept at once while no slot is worn.
    pub fn capacity(&self) -> usize {
        self.timers.capacity()
    }

    /// Returns how many slots hold no key and have no stamp left. So many keys fewer may be kept at once, until a
    /// refresh.
    pub fn worn(&self) -> usize {
        self.timers.worn()
    }

    /// Returns the value at `key` if its deadline is later than `now`, a tick of one millisecond, and later than the
    /// cache's moment. Constant time.
    pub fn get(&self, key: &K, now: u64) -> Option<&V> {
        let kept = self.stock.get(key)?;
        if now.max(self.moment) < kept.deadline {
            Some(&kept.value)
        } else {
            None
        }
    }

    /// Whether a value is seen at `key` at `now`, a tick of one millisecond. Constant time.
    pub fn contains(&self, key: &K, now: u64) -> bool {
        self.get(key, now).is_some()
    }

    /// Returns what is seen at `now`, a tick of one millisecond: each key with its value, once, in no promised order.
    /// It goes over all keys that are kept.
    pub fn seen(&self, now: u64) -> Seen<'_, K, V> {
        Seen {
            entries: self.stock.iter(),
            moment: now.max(self.moment),
        }
    }

    /// Returns the least deadline of what is kept, seen or due, a tick of one millisecond. Before it a purge has
    /// nothing to drop. It returns none if nothing is kept.
    ///
    /// It takes time in proportion to the keys whose deadlines share the first one's slot of the wheel. If the first
    /// deadline is more than two years ahead, it goes over all keys that are kept.
    pub fn next_deadline(&self) -> Option<u64> {
        match self.timers.first_deadline() {
            Some(deadline) => Some(deadline),
            None => least_deadline(&self.stock),
        }
    }

    /// Returns a tick, of one millisecond, at which to purge next: before it nothing that is kept is due. It returns
    /// none if nothing is kept. Constant time, however many deadlines there are.
    ///
    /// The tick isn't after the least deadline, but may be before it. A purge drops nothing then, and the next wake
    /// after it is nearer to the deadline. Whoever purges at each wake purges at most six times for one deadline that
    /// is less than two years ahead. The tick may be before the moment if a renewal set the moment, or if the cache
    /// was refreshed.
    pub fn next_wake(&self) -> Option<u64> {
        self.timers.next_wake()
    }
}
