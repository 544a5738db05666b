//! A thread of a crowd that fills and polls the shards.

use super::draw::Draw;
use super::fates::{count, Counts, Fates};
use super::numbers::Numbers;
use hontkhale::parts::owner::{CoreError, Key, Turn};
use hontkhale::parts::shards::QueueError;
use std::sync::atomic::AtomicU64;
use std::sync::atomic::Ordering::SeqCst;

// How many keys an owner remembers.
const KEYS: u64 = 32;

/// Fills and polls the shards, by calls that take their locks.
pub struct Owner<'q> {
    queue: &'q Numbers,
    /// The tick of this moment: each poll is one later.
    now: &'q AtomicU64,
    draw: Draw,
    keys: Vec<Key>,
    fates: Fates,
    counts: Counts,
}

impl<'q> Owner<'q> {
    pub fn new(queue: &'q Numbers, now: &'q AtomicU64, seed: u64) -> Owner<'q> {
        Owner {
            queue,
            now,
            draw: Draw::new(seed),
            keys: Vec::with_capacity(KEYS as usize),
            fates: Fates::new(),
            counts: Counts::default(),
        }
    }

    /// Makes so many calls. What it was told by them, and what it counted.
    pub fn work(mut self, calls: u64) -> (Fates, Counts) {
        for _ in 0..calls {
            if self.call().is_none() {
                count(&mut self.counts.odd);
            }
        }
        (self.fates, self.counts)
    }

    // One call. None where its answer is one that it can't have.
    fn call(&mut self) -> Option<()> {
        match self.draw.below(1024) {
            0..400 => self.insert(),
            400..550 => self.reset(),
            550..650 => self.remove(),
            650..1020 => self.poll(),
            1020..1023 => self.sweep(),
            _ => self.clear(),
        }
    }

    fn shard(&mut self) -> usize {
        let shards = self.queue.shards() as u64;
        self.draw.below(shards) as usize
    }

    // A deadline that is ahead, or just gone by.
    fn deadline(&mut self) -> u64 {
        let now = self.now.load(SeqCst);
        now.saturating_add(self.draw.below(256)).saturating_sub(16)
    }

    // One of the keys that it remembers; at first there is none.
    fn key(&mut self) -> Option<Key> {
        self.keys.get(self.draw.below(KEYS) as usize).copied()
    }

    // Remembers a key, in the place of another where there are enough.
    fn remember(&mut self, key: Key) -> Option<()> {
        let place = self.draw.below(KEYS) as usize;
        if (self.keys.len() as u64) < KEYS {
            self.keys.push(key);
            return Some(());
        }
        *self.keys.get_mut(place)? = key;
        Some(())
    }

    fn insert(&mut self) -> Option<()> {
        let (shard, when) = (self.shard(), self.deadline());
        match self.queue.insert(shard as u64, shard, when) {
            Ok(key) => {
                count(&mut self.counts.inserted);
                self.fates.promise(&key, when);
                self.remember(key)
            }
            Err((QueueError::Core(CoreError::Full { .. }), _)) => Some(()),
            Err(_) => None,
        }
    }

    fn reset(&mut self) -> Option<()> {
        let Some(key) = self.key() else {
            return Some(());
        };
        let when = self.deadline();
        match self.queue.reset(&key.entry(), when) {
            Ok(key) => {
                self.fates.promise(&key, when);
                self.remember(key)
            }
            Err(QueueError::Core(CoreError::Missing | CoreError::WasCancelled | CoreError::Worn)) => Some(()),
            Err(_) => None,
        }
    }

    fn remove(&mut self) -> Option<()> {
        let Some(key) = self.key() else {
            return Some(());
        };
        match self.queue.remove(&key.entry()) {
            Ok(removed) => {
                count(&mut self.counts.removed);
                self.fates.end(&removed.key, removed.deadline);
                Some(())
            }
            Err(QueueError::Core(CoreError::Missing | CoreError::WasCancelled)) => Some(()),
            Err(_) => None,
        }
    }

    fn poll(&mut self) -> Option<()> {
        let (shard, tick) = (self.shard(), self.now.fetch_add(1, SeqCst));
        match self.queue.poll(shard, tick).ok()? {
            Turn::Out(out) if out.value == shard && out.deadline <= out.noted => {
                count(&mut self.counts.expired);
                self.fates.end(&out.key, out.deadline);
                Some(())
            }
            Turn::Waiting { next } if next > tick => Some(()),
            Turn::Idle => Some(()),
            Turn::Out(_) | Turn::Waiting { .. } => None,
        }
    }

    fn sweep(&mut self) -> Option<()> {
        let shard = self.shard();
        self.queue.sweep(shard).ok()?;
        Some(())
    }

    fn clear(&mut self) -> Option<()> {
        let shard = self.shard();
        let removed = self.queue.clear(shard).ok()? as u64;
        self.counts.removed += removed;
        Some(())
    }
}
