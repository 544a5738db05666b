//! The cache and the slow model of it are given the same calls, drawn by a fixed generator, and agree after each.

use super::cache::{SlowCache, LAST};
use super::draw::{calls, Draw};
use super::Fail;
use hontkhale::parts::cache::TtlCache;
use std::ops::Range;

// A cache and its model, and how many keys they are asked for.
struct Both {
    cache: TtlCache<u64, u64>,
    slow: SlowCache,
    keys: u64,
}

impl Both {
    fn new(capacity: usize, last_stamp: u32) -> Result<Both, Fail> {
        Ok(Both {
            cache: TtlCache::new(capacity, last_stamp)?,
            slow: SlowCache::new(capacity, last_stamp),
            keys: (capacity as u64).saturating_mul(2),
        })
    }

    fn agree(&self, now: u64) -> bool {
        self.cache.len() == self.slow.entries.len()
            && self.cache.is_empty() == self.slow.entries.is_empty()
            && self.cache.moment() == self.slow.moment
            && self.cache.next_deadline() == self.slow.next_deadline()
            && self.wakes_in_time()
            && self.gets_agree(now)
            && self.seen_agree(now)
    }

    // Whether the next wake isn't after the least deadline, and is none exactly where nothing is kept.
    fn wakes_in_time(&self) -> bool {
        match (self.cache.next_wake(), self.slow.next_deadline()) {
            (Some(wake), Some(deadline)) => wake <= deadline,
            (wake, deadline) => wake.is_none() && deadline.is_none(),
        }
    }

    fn gets_agree(&self, now: u64) -> bool {
        for key in 0..self.keys {
            let value = self.slow.get(key, now);
            if self.cache.get(&key, now).copied() != value || self.cache.contains(&key, now) != value.is_some() {
                return false;
            }
        }
        true
    }

    fn seen_agree(&self, now: u64) -> bool {
        let (mut count, mut sum) = (0usize, 0u64);
        for (key, value) in self.cache.seen(now) {
            if self.slow.get(*key, now) != Some(*value) {
                return false;
            }
            count = count.saturating_add(1);
            sum = sum.saturating_add(*value);
        }
        (count, sum) == self.slow.seen(now)
    }

    // A tick: mostly near the moment, at times before it or far behind it, and now and then beyond the last one.
    fn some_tick(&self, draw: &mut Draw) -> u64 {
        let far = match draw.below(64) {
            0..40 => draw.below(4),
            40..60 => draw.below(40),
            60..63 => draw.below(1000),
            _ => LAST,
        };
        self.slow.moment.saturating_sub(draw.below(3)).saturating_add(far)
    }

    // How long a value is seen: mostly a little, at times not at all or further than the queue files, and now and then
    // beyond the last tick.
    fn some_ttl(draw: &mut Draw) -> u64 {
        match draw.below(64) {
            0..4 => 0,
            4..56 => draw.below(40),
            56..63 => draw.below(2147483648).saturating_mul(64),
            _ => LAST,
        }
    }

    fn put(&mut self, key: u64, value: u64, ttl: u64, now: u64) -> bool {
        let answer = match self.cache.put(key, value, ttl, now) {
            Ok(old) => Ok(old),
            Err((error, back, same)) => {
                if (back, same) != (key, value) {
                    return false;
                }
                Err(error)
            }
        };
        answer == self.slow.put(key, value, ttl, now)
    }

    // One call of some kind; whether both answered alike.
    fn call(&mut self, turn: u64, draw: &mut Draw) -> bool {
        let kind = draw.below(100);
        let key = draw.below(self.keys);
        let now = self.some_tick(draw);
        let ttl = Both::some_ttl(draw);
        match kind {
            0..45 => self.put(key, turn, ttl, now),
            45..65 => self.cache.renew(&key, ttl, now) == self.slow.renew(key, ttl, now),
            65..85 => self.cache.take(&key, now) == self.slow.take(key, now),
            85..98 => self.cache.purge(now) == self.slow.purge(now),
            _ => self.refresh(),
        }
    }

    // A refresh where no slot is free, so that the free slots are alike after it.
    fn refresh(&mut self) -> bool {
        if self.cache.len() < self.cache.capacity() {
            return true;
        }
        self.slow.refresh();
        self.cache.refresh() == Ok(())
    }

    // Fills every slot, so that no slot is left that was never used.
    fn fill(&mut self, capacity: usize) -> bool {
        for key in 0..capacity as u64 {
            if !self.put(key, key, 1000, 0) {
                return false;
            }
        }
        self.cache.len() == capacity
    }
}

// So many calls on a fresh cache and on its model, whose numbers of calls go on from those before.
fn agree_at(capacity: usize, last_stamp: u32, turns: Range<u64>, draw: &mut Draw) -> Result<(), Fail> {
    let mut both = Both::new(capacity, last_stamp)?;
    assert!(both.cache.capacity() == capacity);
    assert!(both.fill(capacity), "filled at capacity {capacity}");
    for turn in turns {
        assert!(both.call(turn, draw), "call {turn} at capacity {capacity}");
        let now = both.some_tick(draw);
        assert!(both.agree(now), "after call {turn} at capacity {capacity}");
    }
    Ok(())
}

// So many calls for each capacity and last stamp, each of which asks for every key. Where slots are worn soon, a fresh
// cache is taken after some calls, else after 2,000.
// promise: cache.cache-answers
#[test]
fn the_cache_agrees_with_its_model() -> Result<(), Fail> {
    for (capacity, last_stamp, turns) in [
        (1, 2, 8),
        (3, 2, 20),
        (64, 2, 250),
        (1, 1048575, 2000),
        (3, 1048575, 2000),
        (64, 1048575, 2000),
    ] {
        let mut draw = Draw::new(7);
        for round in 0..(calls() / 4).div_ceil(turns) {
            agree_at(capacity, last_stamp, round * turns..(round + 1) * turns, &mut draw)?;
        }
    }
    Ok(())
}
