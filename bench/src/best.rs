//! The best heap we know: a deadline, an index and a turn in one number, over the free indexes of `free.rs`. A later
//! deadline is only noted, an extend's and a reset's alike, and a noted entry that comes up is filed anew in its place.

use std::cmp::Reverse;
use std::collections::binary_heap::PeekMut;
use std::collections::BinaryHeap;

use crate::free::Free;
use crate::queue::Queue;

/// What lies below the deadline: 20 bits of index, then 8 of the turn. Deadlines are below 2^36, two years.
const INDEX: u32 = 8;
const DEADLINE: u32 = 28;
const INDEXES: u32 = (1 << (DEADLINE - INDEX)) - 1;

/// What is filed of an entry that has ended. No deadline is 0, so no number in the heap is.
const NOTHING: u64 = 0;

#[derive(Clone, Copy)]
pub struct BestKey {
    index: u32,
    stamp: u32,
}

/// Two entries to a line of the cache.
#[repr(align(32))]
struct Entry {
    deadline: u64,
    /// The number in the heap that stands for the entry; all others of its index are stale.
    filed: u64,
    value: u64,
    stamp: u32,
}

pub struct BestHeap {
    entries: Vec<Entry>,
    free: Free,
    heap: BinaryHeap<Reverse<u64>>,
}

/// The number that stands for an entry in the heap. A turn that comes round again does no harm: what is stale is then
/// filed anew, at the entry's own deadline.
#[inline(always)]
fn filed(deadline: u64, index: u32, turn: u32) -> u64 {
    deadline << DEADLINE | u64::from(index) << INDEX | u64::from(turn & 0xff)
}

impl BestHeap {
    pub fn new(capacity: usize) -> BestHeap {
        let entries = (0..capacity).map(|_| Entry { deadline: 0, filed: NOTHING, value: 0, stamp: 0 }).collect();
        BestHeap { entries, free: Free::new(capacity), heap: BinaryHeap::with_capacity(capacity) }
    }

    #[inline(always)]
    fn entry(&mut self, key: BestKey) -> &mut Entry {
        let entry = &mut self.entries[key.index as usize];
        assert!(entry.stamp == key.stamp && entry.filed != NOTHING, "the entry has ended");
        entry
    }

    #[inline(always)]
    fn end(&mut self, key: BestKey) -> u64 {
        let entry = self.entry(key);
        entry.filed = NOTHING;
        let value = entry.value;
        self.free.give(key.index);
        value
    }
}

impl Queue for BestHeap {
    type Key = BestKey;
    type Out = (u64, u64);

    #[inline(always)]
    fn insert(&mut self, value: u64, deadline: u64) -> BestKey {
        let index = self.free.take().expect("an entry is free");
        let entry = &mut self.entries[index as usize];
        entry.stamp += 1;
        entry.deadline = deadline;
        entry.filed = filed(deadline, index, entry.stamp);
        entry.value = value;
        self.heap.push(Reverse(entry.filed));
        BestKey { index, stamp: entry.stamp }
    }

    #[inline(always)]
    fn extend(&mut self, key: BestKey, deadline: u64) -> u64 {
        let entry = self.entry(key);
        entry.deadline = entry.deadline.max(deadline);
        entry.deadline
    }

    #[inline(always)]
    fn reset(&mut self, key: BestKey, deadline: u64) -> BestKey {
        let entry = self.entry(key);
        entry.stamp += 1;
        entry.deadline = deadline;
        let key = BestKey { index: key.index, stamp: entry.stamp };
        if deadline < entry.filed >> DEADLINE {
            entry.filed = filed(deadline, key.index, key.stamp);
            let sooner = Reverse(entry.filed);
            self.heap.push(sooner);
        }
        key
    }

    #[inline(always)]
    fn remove(&mut self, key: BestKey) -> u64 {
        self.end(key)
    }

    #[inline(always)]
    fn cancel(&mut self, key: BestKey) {
        self.end(key);
    }

    fn poll(&mut self, tick: u64) -> Option<(u64, u64)> {
        loop {
            let mut top = self.heap.peek_mut()?;
            let first = top.0;
            if first >> DEADLINE > tick {
                return None;
            }
            let index = (first >> INDEX) as u32 & INDEXES;
            let entry = &mut self.entries[index as usize];
            if entry.filed != first {
                PeekMut::pop(top);
            } else if entry.deadline > first >> DEADLINE {
                entry.filed = filed(entry.deadline, index, entry.stamp);
                top.0 = entry.filed;
            } else {
                PeekMut::pop(top);
                let key = BestKey { index, stamp: entry.stamp };
                return Some((entry.deadline, self.end(key)));
            }
        }
    }

    fn value(out: &(u64, u64)) -> u64 {
        out.1
    }

    fn deadline(&self, out: &(u64, u64)) -> u64 {
        out.0
    }
}
