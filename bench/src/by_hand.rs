//! The crate's `SharedDelayQueue`, called by name by a server that has moments, or durations from now on, and makes ticks of them
//! by hand.

use hontkhale::parts::owner::{Key, Turn};
use hontkhale::parts::shards::Handle;

use crate::erased_shards::ErasedShards;
use crate::plan::BURST;
use crate::product::{By, Standing};
use crate::queue::Sharded;
use crate::shards::{Begun, Gone};

pub struct ByHand<'c> {
    queue: ErasedShards,
    clock: &'c Standing,
    by: By,
}

impl<'c> ByHand<'c> {
    pub fn new(clock: &'c Standing, shards: usize, capacity: usize, by: By) -> ByHand<'c> {
        ByHand { queue: ErasedShards::new(shards, capacity), clock, by }
    }

    /// A tick by way of its moment.
    #[inline(always)]
    fn tick(&self, tick: u64) -> u64 {
        self.clock.by_hand(match self.by {
            By::Duration => self.clock.now() + self.clock.after(tick),
            By::Moment => self.clock.at(tick),
        })
    }
}

impl Sharded for ByHand<'_> {
    type Key = Key;
    type Toucher = Handle;

    fn shards(&self) -> usize {
        self.queue.shards()
    }

    fn toucher(&self) -> Handle {
        self.queue.toucher()
    }

    fn insert(&self, begun: &Begun) -> Key {
        self.queue.insert(&Begun { deadline: self.tick(begun.deadline), ..*begun })
    }

    fn insert_burst(&self, _shard: usize, burst: &[Begun], keys: &mut Vec<Key>) {
        keys.extend(burst.iter().map(|begun| self.insert(begun)));
    }

    fn extend(&self, handle: &mut Handle, key: Key, deadline: u64) -> u64 {
        self.queue.extend(handle, key, self.tick(deadline))
    }

    fn cancel(&self, handle: &mut Handle, key: Key) {
        self.queue.cancel(handle, key);
    }

    fn reset(&self, key: Key, deadline: u64) -> Key {
        self.queue.reset(key, self.tick(deadline))
    }

    fn remove(&self, key: Key) -> u64 {
        self.queue.remove(key)
    }

    /// Each poll reads the clock, as a receive of the other queue does.
    fn poll_all(&self, shard: usize, _tick: u64, gone: &mut Gone) {
        while let Turn::Out(out) = self.queue.0.poll(shard, self.clock.tick_now()).expect("the tick is in range") {
            gone.count(out.value);
        }
    }

    fn poll_bursts(&self, shard: usize, _tick: u64, gone: &mut Gone) {
        let mut row = Vec::with_capacity(BURST);
        loop {
            self.queue.0.poll_many(shard, self.clock.tick_now(), &mut row).expect("the tick is in range");
            if row.is_empty() {
                return;
            }
            row.drain(..).for_each(|out| gone.count(out.value));
        }
    }

    fn poll_alone(&mut self, shard: usize, tick: u64) -> Option<(u64, u64)> {
        self.queue.poll_alone(shard, tick)
    }
}
