//! Queues in shards: a row of them, each behind a lock of its own.

use crate::core::{CoreConfig, CoreError, DelayCore};
use crate::locks::Mutex;
use crate::memory::room_for;
use crate::words::front::numbered_queue;
use crate::words::keeper::Keeper;
use alloc::vec::Vec;

// One shard, made of a queue with nothing in it. The row's number stands in the place of the configuration's.
fn numbered_shard<T, S: From<DelayCore<T, Keeper>>>(number: u32, config: &CoreConfig) -> Result<S, CoreError> {
    let numbered = CoreConfig {
        shard: number,
        capacity: config.capacity,
        last_stamp: config.last_stamp,
    };
    match numbered_queue(numbered) {
        Ok(core) => Ok(S::from(core)),
        Err(error) => Err(error),
    }
}

/// A row of so many shards, each made of an empty queue and behind a lock of its own. The shard at place n has the
/// number n, whatever number the configuration has. All memory of the row and of its queues is taken here, but for
/// each caller's own.
///
/// # Errors
/// BadConfig where the capacity isn't 1 to [`CAPACITY_LIMIT`](crate::parts::owner::CAPACITY_LIMIT) or the last stamp isn't 1 to
/// [`LAST_STAMP`](crate::parts::owner::LAST_STAMP), and else NoMemory.
pub fn locked_shards<T, S: From<DelayCore<T, Keeper>>>(
    shards: u32,
    config: CoreConfig,
) -> Result<Vec<Mutex<S>>, CoreError> {
    if config.check().is_err() {
        return Err(CoreError::BadConfig);
    }
    let mut row = room_for(shards as usize)?;
    for number in 0..shards {
        let shard = numbered_shard(number, &config)?;
        row.push(Mutex::new(shard));
    }
    Ok(row)
}
