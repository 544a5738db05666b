//! The front door: what most users of a queue of one owner write.

use crate::core::errors::{BadNumber, CoreConfig, CoreError};
use crate::core::queue::DelayCore;
use crate::core::vec_words::VecWords;
use crate::ticks::{CAPACITY_LIMIT, LAST_STAMP};

impl CoreConfig {
    /// Shard 0 with `capacity` slots, and the most stamps a slot, 1,048,575.
    pub fn of(capacity: usize) -> CoreConfig {
        CoreConfig {
            shard: 0,
            capacity,
            last_stamp: LAST_STAMP,
        }
    }

    /// Whether a queue can be made by these numbers. `BadConfig` doesn't tell which number is bad, so call this first
    /// if the numbers come from outside.
    ///
    /// # Errors
    /// The first number that is out of its range: the capacity, and then the last stamp.
    pub fn check(&self) -> Result<(), BadNumber> {
        if self.capacity == 0 || self.capacity > CAPACITY_LIMIT {
            return Err(BadNumber::BadCapacity(self.capacity));
        }
        if self.last_stamp == 0 || self.last_stamp > LAST_STAMP {
            return Err(BadNumber::BadLastStamp(self.last_stamp));
        }
        Ok(())
    }
}

impl<T> DelayCore<T, VecWords> {
    /// Makes a queue of one owner for `capacity` entries, at tick 0, with nothing in it. Its entries are extended and
    /// cancelled by the owner alone. It takes time and memory in proportion to `capacity`. No later call takes
    /// memory.
    ///
    /// # Errors
    /// - `BadConfig` if `capacity` isn't 1 to [`CAPACITY_LIMIT`].
    /// - `NoMemory` if memory is refused.
    pub fn with_capacity(capacity: usize) -> Result<DelayCore<T, VecWords>, CoreError> {
        if capacity == 0 || capacity > CAPACITY_LIMIT {
            return Err(CoreError::BadConfig);
        }
        let words = VecWords::new(capacity)?;
        match DelayCore::new(CoreConfig::of(capacity), words) {
            Ok(queue) => Ok(queue),
            Err((error, _)) => Err(error),
        }
    }
}
