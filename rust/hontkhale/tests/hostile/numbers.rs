//! Queues of numbers, and how the threads of a race wait for one another.

use super::Fail;
use hontkhale::parts::owner::{Key, LAST_STAMP};
use hontkhale::parts::shards::{Handle, QueueConfig, QueueError, SharedDelayQueue};
use std::hint::spin_loop;
use std::sync::atomic::AtomicU64;
use std::sync::atomic::Ordering::SeqCst;
use std::thread;

/// How often a loop turns before it gives up.
pub const TURNS: u64 = 100_000_000;

/// The entries of a race.
pub const ENTRIES: usize = 200;

/// How often a race of few calls is run over a fresh queue.
pub const ROUNDS: usize = 500;

pub type Numbers = SharedDelayQueue<usize>;

/// One shard and four shards, with room for 256 entries in all.
pub const ONE_AND_FOUR: &[QueueConfig] = &[
    QueueConfig {
        shards: 1,
        capacity: 256,
        last_stamp: LAST_STAMP,
    },
    QueueConfig {
        shards: 4,
        capacity: 64,
        last_stamp: LAST_STAMP,
    },
];

/// A queue and a handle of it.
pub fn made(config: QueueConfig) -> Result<(Numbers, Handle), QueueError> {
    let queue = SharedDelayQueue::new(config)?;
    let handle = queue.handle()?;
    Ok((queue, handle))
}

// Puts an entry in, whose deadline is its route and its value too, and keeps its key.
fn put(queue: &Numbers, deadline: usize, keys: &mut Vec<Key>) -> Result<(), Fail> {
    let inserted = queue.insert(deadline as u64, deadline, deadline as u64);
    keys.push(inserted.map_err(|refused| refused.0)?);
    Ok(())
}

fn put_all(queue: &Numbers, keys: &mut Vec<Key>) -> Result<(), Fail> {
    for deadline in 1..=ENTRIES {
        put(queue, deadline, keys)?;
    }
    Ok(())
}

/// Puts an entry in at each deadline from 1 to 200, which is its route and its value too. Their keys, in that order.
pub fn fill(queue: &Numbers) -> Result<Vec<Key>, Fail> {
    let mut keys = Vec::with_capacity(ENTRIES);
    put_all(queue, &mut keys)?;
    Ok(keys)
}

/// The key of a new entry of a shard.
pub fn insert(queue: &Numbers, shard: usize, when: u64) -> Result<Key, QueueError> {
    let inserted = queue.insert(shard as u64, shard, when);
    inserted.map_err(|refused| refused.0)
}

/// Waits a moment between two turns of a loop that waits for another thread, which may need this one's processor.
pub fn pause(turn: u64) {
    if turn % 1024 == 1023 {
        thread::yield_now();
    } else {
        spin_loop();
    }
}

/// A place that threads come to, each once.
pub struct Gate {
    here: AtomicU64,
}

impl Gate {
    pub fn new() -> Gate {
        Gate {
            here: AtomicU64::new(0),
        }
    }

    /// One thread more is here.
    pub fn come(&self) {
        self.here.fetch_add(1, SeqCst);
    }

    /// Waits until so many threads have come. False where it gives up.
    pub fn opens_at(&self, threads: u64) -> bool {
        for turn in 0..TURNS {
            if self.here.load(SeqCst) >= threads {
                return true;
            }
            pause(turn);
        }
        false
    }

    /// Comes, and waits until so many threads have. False where it gives up.
    pub fn pass(&self, threads: u64) -> bool {
        self.come();
        self.opens_at(threads)
    }
}
