//! A hashed wheel: a bucket for each tick of a horizon, and a bit for each bucket that isn't empty. What lies beyond the
//! horizon is filed at its end and looked at again there, so the plan, whose deadlines lie within it, pays for no cascade.

use crate::free::Free;
use crate::queue::Queue;

/// The buckets, each of one tick.
const HORIZON: u64 = 65_536;
const WORDS: usize = HORIZON as usize / 64;

const NONE: u32 = u32::MAX;

#[derive(Clone, Copy)]
pub struct HashedKey {
    index: u32,
    stamp: u32,
}

/// Two entries to a line of the cache.
#[repr(align(32))]
struct Entry {
    deadline: u64,
    value: u64,
    /// The bucket, or `NONE`, and the neighbours in its list.
    bucket: u32,
    next: u32,
    prev: u32,
    stamp: u32,
}

/// An extend only notes the later deadline in the entry.
pub struct HashedWheel {
    entries: Vec<Entry>,
    free: Free,
    /// The first entry of each bucket.
    heads: Vec<u32>,
    /// A bit for each bucket that isn't empty, and one for each word of them that isn't 0.
    full: Vec<u64>,
    summary: [u64; WORDS / 64],
    /// No entry is filed before this tick.
    now: u64,
}

impl HashedWheel {
    pub fn new(capacity: usize) -> HashedWheel {
        let empty = || Entry { deadline: 0, value: 0, bucket: NONE, next: NONE, prev: NONE, stamp: 0 };
        HashedWheel {
            entries: (0..capacity).map(|_| empty()).collect(),
            free: Free::new(capacity),
            heads: vec![NONE; HORIZON as usize],
            full: vec![0; WORDS],
            summary: [0; WORDS / 64],
            now: 0,
        }
    }

    #[inline(always)]
    fn entry(&mut self, key: HashedKey) -> &mut Entry {
        let entry = &mut self.entries[key.index as usize];
        assert!(entry.stamp == key.stamp && entry.bucket != NONE, "the entry has ended");
        entry
    }

    /// Files an entry at its deadline, or as near to it as the horizon lets.
    #[inline(always)]
    fn link(&mut self, index: u32) {
        let entry = &mut self.entries[index as usize];
        let tick = entry.deadline.clamp(self.now, self.now + (HORIZON - 1));
        let bucket = (tick % HORIZON) as usize;
        let first = self.heads[bucket];
        (entry.bucket, entry.next, entry.prev) = (bucket as u32, first, NONE);
        self.heads[bucket] = index;
        if first == NONE {
            self.full[bucket / 64] |= 1 << (bucket % 64);
            self.summary[bucket / 4096] |= 1 << (bucket / 64 % 64);
        } else {
            self.entries[first as usize].prev = index;
        }
    }

    #[inline(always)]
    fn unlink(&mut self, index: u32) {
        let Entry { bucket, next, prev, .. } = self.entries[index as usize];
        if next != NONE {
            self.entries[next as usize].prev = prev;
        }
        if prev != NONE {
            self.entries[prev as usize].next = next;
        } else {
            self.heads[bucket as usize] = next;
            if next == NONE {
                self.clear(bucket as usize);
            }
        }
    }

    #[inline(always)]
    fn clear(&mut self, bucket: usize) {
        self.full[bucket / 64] &= !(1 << (bucket % 64));
        if self.full[bucket / 64] == 0 {
            self.summary[bucket / 4096] &= !(1 << (bucket / 64 % 64));
        }
    }

    #[inline(always)]
    fn end(&mut self, index: u32) -> u64 {
        self.unlink(index);
        self.free.give(index);
        let entry = &mut self.entries[index as usize];
        entry.bucket = NONE;
        entry.value
    }

    /// The first bucket that isn't empty, in a circle from the one of `now`.
    #[inline(always)]
    fn first(&self) -> Option<usize> {
        let begin = (self.now % HORIZON) as usize;
        let word = begin / 64;
        let here = self.full[word] & (u64::MAX << (begin % 64));
        if here != 0 {
            return Some(word * 64 + here.trailing_zeros() as usize);
        }
        let group = word / 64;
        let ahead = self.summary[group] & u64::MAX.checked_shl(word as u32 % 64 + 1).unwrap_or(0);
        if ahead != 0 {
            return Some(self.lowest(group, ahead));
        }
        (1..=self.summary.len()).map(|step| (group + step) % self.summary.len()).find_map(|group| {
            let choices = self.summary[group];
            (choices != 0).then(|| self.lowest(group, choices))
        })
    }

    #[inline(always)]
    fn lowest(&self, group: usize, choices: u64) -> usize {
        let word = group * 64 + choices.trailing_zeros() as usize;
        word * 64 + self.full[word].trailing_zeros() as usize
    }
}

impl Queue for HashedWheel {
    type Key = HashedKey;
    type Out = (u64, u64);

    #[inline(always)]
    fn insert(&mut self, value: u64, deadline: u64) -> HashedKey {
        let index = self.free.take().expect("an entry is free");
        let entry = &mut self.entries[index as usize];
        entry.stamp += 1;
        entry.deadline = deadline;
        entry.value = value;
        let key = HashedKey { index, stamp: entry.stamp };
        self.link(index);
        key
    }

    #[inline(always)]
    fn extend(&mut self, key: HashedKey, deadline: u64) -> u64 {
        let entry = self.entry(key);
        entry.deadline = entry.deadline.max(deadline);
        entry.deadline
    }

    #[inline(always)]
    fn reset(&mut self, key: HashedKey, deadline: u64) -> HashedKey {
        let entry = self.entry(key);
        entry.stamp += 1;
        entry.deadline = deadline;
        let stamp = entry.stamp;
        self.unlink(key.index);
        self.link(key.index);
        HashedKey { index: key.index, stamp }
    }

    #[inline(always)]
    fn remove(&mut self, key: HashedKey) -> u64 {
        self.entry(key);
        self.end(key.index)
    }

    #[inline(always)]
    fn cancel(&mut self, key: HashedKey) {
        self.remove(key);
    }

    fn poll(&mut self, tick: u64) -> Option<(u64, u64)> {
        loop {
            let found = self.first();
            let ahead = found.map(|bucket| (bucket as u64).wrapping_sub(self.now) % HORIZON);
            let due = ahead.map(|ahead| self.now + ahead).filter(|due| *due <= tick);
            let (Some(bucket), Some(due)) = (found, due) else {
                self.now = self.now.max(tick);
                return None;
            };
            self.now = due;
            let index = self.heads[bucket];
            let deadline = self.entries[index as usize].deadline;
            if deadline <= tick {
                return Some((deadline, self.end(index)));
            }
            // A noted deadline, or one that lay beyond the horizon.
            self.unlink(index);
            self.link(index);
        }
    }

    fn value(out: &(u64, u64)) -> u64 {
        out.1
    }

    fn deadline(&self, out: &(u64, u64)) -> u64 {
        out.0
    }
}

#[cfg(test)]
mod tests {
    use super::*;

    /// Deadlines many horizons ahead come out in time, also where the clock goes by single buckets.
    #[test]
    fn keeps_what_lies_beyond_the_horizon() {
        let mut wheel = HashedWheel::new(4);
        wheel.insert(1, 3 * HORIZON + 5);
        let noted = wheel.insert(2, 7);
        wheel.extend(noted, 2 * HORIZON);
        for tick in (0..2 * HORIZON).step_by(4096) {
            assert_eq!(wheel.poll(tick), None);
        }
        assert_eq!(wheel.poll(2 * HORIZON), Some((2 * HORIZON, 2)));
        assert_eq!(wheel.poll(3 * HORIZON + 4), None);
        assert_eq!(wheel.poll(3 * HORIZON + 5), Some((3 * HORIZON + 5, 1)));
        assert_eq!(wheel.poll(9 * HORIZON), None);
    }
}
