//! A binary heap of deadlines beside a row of entries, as one writes it over the standard library. What is removed or
//! moved stays in the heap as a stale deadline until it comes up.

use std::cmp::Ordering;
use std::collections::BinaryHeap;

use crate::queue::Queue;

/// What an extend does to the heap.
#[derive(Clone, Copy, PartialEq, Eq)]
pub enum Extending {
    /// It pushes the later deadline.
    Push,
    /// It only notes the later deadline in the entry; the heap learns of it when the earlier one comes up.
    Note,
}

#[derive(Clone, Copy)]
pub struct HeapKey {
    index: u32,
    stamp: u32,
}

struct Entry {
    deadline: u64,
    stamp: u32,
    value: Option<u64>,
}

/// A deadline in the heap, the least on top. Order among equal ones is left open, as the queue leaves it.
struct Filed {
    deadline: u64,
    key: HeapKey,
}

impl PartialEq for Filed {
    fn eq(&self, other: &Filed) -> bool {
        self.deadline == other.deadline
    }
}

impl Eq for Filed {}

impl PartialOrd for Filed {
    fn partial_cmp(&self, other: &Filed) -> Option<Ordering> {
        Some(self.cmp(other))
    }
}

impl Ord for Filed {
    fn cmp(&self, other: &Filed) -> Ordering {
        other.deadline.cmp(&self.deadline)
    }
}

pub struct HeapQueue {
    extending: Extending,
    entries: Vec<Entry>,
    free: Vec<u32>,
    heap: BinaryHeap<Filed>,
}

impl HeapQueue {
    pub fn new(extending: Extending, capacity: usize) -> HeapQueue {
        let entries = (0..capacity).map(|_| Entry { deadline: 0, stamp: 0, value: None }).collect();
        let free = (0..capacity as u32).rev().collect();
        HeapQueue { extending, entries, free, heap: BinaryHeap::with_capacity(capacity) }
    }

    fn entry(&mut self, key: HeapKey) -> &mut Entry {
        let entry = &mut self.entries[key.index as usize];
        assert!(entry.stamp == key.stamp && entry.value.is_some(), "the entry has ended");
        entry
    }

    /// Another entry than those that there was room for.
    #[cold]
    fn grow(&mut self) -> u32 {
        self.entries.push(Entry { deadline: 0, stamp: 0, value: None });
        self.entries.len() as u32 - 1
    }

    fn end(&mut self, key: HeapKey) -> u64 {
        let value = self.entry(key).value.take();
        self.free.push(key.index);
        value.expect("the entry is there")
    }
}

impl Queue for HeapQueue {
    type Key = HeapKey;
    type Out = (u64, u64);

    #[inline(always)]
    fn insert(&mut self, value: u64, deadline: u64) -> HeapKey {
        let index = self.free.pop().unwrap_or_else(|| self.grow());
        let entry = &mut self.entries[index as usize];
        entry.stamp += 1;
        entry.deadline = deadline;
        entry.value = Some(value);
        let key = HeapKey { index, stamp: entry.stamp };
        self.heap.push(Filed { deadline, key });
        key
    }

    #[inline(always)]
    fn extend(&mut self, key: HeapKey, deadline: u64) -> u64 {
        let extending = self.extending;
        let entry = self.entry(key);
        if entry.deadline < deadline {
            entry.deadline = deadline;
            if extending == Extending::Push {
                self.heap.push(Filed { deadline, key });
            }
            return deadline;
        }
        entry.deadline
    }

    #[inline(always)]
    fn reset(&mut self, key: HeapKey, deadline: u64) -> HeapKey {
        let entry = self.entry(key);
        entry.stamp += 1;
        entry.deadline = deadline;
        let key = HeapKey { index: key.index, stamp: entry.stamp };
        self.heap.push(Filed { deadline, key });
        key
    }

    #[inline(always)]
    fn remove(&mut self, key: HeapKey) -> u64 {
        self.end(key)
    }

    #[inline(always)]
    fn cancel(&mut self, key: HeapKey) {
        self.end(key);
    }

    fn poll(&mut self, tick: u64) -> Option<(u64, u64)> {
        loop {
            if self.heap.peek()?.deadline > tick {
                return None;
            }
            let Filed { deadline, key } = self.heap.pop()?;
            let entry = &self.entries[key.index as usize];
            if entry.stamp != key.stamp || entry.value.is_none() {
                continue;
            }
            if entry.deadline == deadline {
                return Some((deadline, self.end(key)));
            }
            // A push has the later deadline in the heap already.
            if self.extending == Extending::Note {
                self.heap.push(Filed { deadline: entry.deadline, key });
            }
        }
    }

    fn value(out: &(u64, u64)) -> u64 {
        out.1
    }

    fn deadline(&self, out: &(u64, u64)) -> u64 {
        out.0
    }
}
