//! Our shared queue as plain Rust has it: the crate's `SharedDelayQueue`, whose locks are std's and whose extends and cancels take none.

use hontkhale::parts::owner::{Key, Turn};
use hontkhale::parts::shards::{Handle, QueueConfig, SharedDelayQueue};

use crate::plan::BURST;
use crate::queue::Sharded;
use crate::shards::{Begun, Gone};

pub struct ErasedShards(pub(crate) SharedDelayQueue<u64>);

impl ErasedShards {
    /// A queue of so many shards, each with room for so many entries.
    pub fn new(shards: usize, capacity: usize) -> ErasedShards {
        ErasedShards(SharedDelayQueue::new(QueueConfig::of(shards, capacity)).expect("a queue of that capacity"))
    }
}

impl Sharded for ErasedShards {
    type Key = Key;
    type Toucher = Handle;

    fn shards(&self) -> usize {
        self.0.shards()
    }

    fn toucher(&self) -> Handle {
        self.0.handle().expect("fewer than 1,024 handles are out")
    }

    fn insert(&self, begun: &Begun) -> Key {
        self.0
            .insert(begun.shard as u64, begun.value, begun.deadline)
            .map_err(|refused| refused.0)
            .expect("a slot is free")
    }

    fn insert_burst(&self, shard: usize, burst: &[Begun], keys: &mut Vec<Key>) {
        let lent = self.0.lend(shard, |shard| {
            for Begun { value, deadline, .. } in burst {
                keys.push(shard.insert(*value, *deadline).map_err(|refused| refused.0).expect("a slot is free"));
            }
        });
        lent.expect("a shard of the queue");
    }

    fn extend(&self, handle: &mut Handle, key: Key, deadline: u64) -> u64 {
        handle.extend(&key, deadline).expect("the entry is live")
    }

    fn cancel(&self, handle: &mut Handle, key: Key) {
        handle.cancel(&key).expect("the entry is live");
    }

    fn reset(&self, key: Key, deadline: u64) -> Key {
        self.0.reset(&key.entry(), deadline).expect("the entry is live")
    }

    fn remove(&self, key: Key) -> u64 {
        self.0.remove(&key.entry()).expect("the entry is live").value
    }

    fn poll_all(&self, shard: usize, tick: u64, gone: &mut Gone) {
        while let Turn::Out(out) = self.0.poll(shard, tick).expect("the tick is in range") {
            gone.count(out.value);
        }
    }

    fn poll_bursts(&self, shard: usize, tick: u64, gone: &mut Gone) {
        let mut burst = || {
            let lent = self.0.lend(shard, |shard| {
                for _ in 0..BURST {
                    let Turn::Out(out) = shard.poll(tick).expect("the tick is in range") else {
                        return false;
                    };
                    gone.count(out.value);
                }
                true
            });
            lent.expect("a shard of the queue")
        };
        while burst() {}
    }

    fn poll_alone(&mut self, shard: usize, tick: u64) -> Option<(u64, u64)> {
        match self.0.poll(shard, tick).expect("the tick is in range") {
            Turn::Out(out) => {
                let deadline = out.deadline;
                Some((out.value, deadline))
            }
            _ => None,
        }
    }
}
