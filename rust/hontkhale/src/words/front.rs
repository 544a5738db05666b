//! The front door: what most users of a queue with callers write.

use crate::core::{CoreConfig, CoreError, DelayCore};
use crate::words::keeper::Keeper;

/// Makes a queue of one owner for `capacity` entries, at tick 0, with nothing in it, whose entries callers extend and
/// cancel from any thread: [`DelayCore::issue`] makes a caller. It takes time and memory in proportion to `capacity`.
/// Later only `issue` takes memory.
///
/// # Errors
/// - `BadConfig` if `capacity` isn't 1 to [`CAPACITY_LIMIT`](crate::parts::owner::CAPACITY_LIMIT).
/// - `NoMemory` if memory is refused.
pub fn shared_queue<T>(capacity: usize) -> Result<DelayCore<T, Keeper>, CoreError> {
    numbered_queue(CoreConfig::of(capacity))
}

/// Makes a queue of one owner by the numbers of `config`, at tick 0, with nothing in it, whose entries callers extend
/// and cancel from any thread. Its keys carry the number `config.shard`, and a slot is worn after the stamp
/// `config.last_stamp`. It takes time and memory in proportion to the capacity.
///
/// # Errors
/// - `BadConfig` if the capacity isn't 1 to [`CAPACITY_LIMIT`](crate::parts::owner::CAPACITY_LIMIT), or the last stamp isn't 1 to [`LAST_STAMP`](crate::parts::owner::LAST_STAMP).
/// - `NoMemory` if memory is refused.
pub fn numbered_queue<T>(config: CoreConfig) -> Result<DelayCore<T, Keeper>, CoreError> {
    if config.check().is_err() {
        return Err(CoreError::BadConfig);
    }
    let Ok(keeper) = Keeper::new(config.capacity) else {
        return Err(CoreError::NoMemory);
    };
    match DelayCore::new(config, keeper) {
        Ok(queue) => Ok(queue),
        Err((error, _)) => Err(error),
    }
}
