//! A heap of four children whose entries know their places, so that each call moves its entry where it stands and leaves
//! nothing stale behind: the form of Go's timers and of many indexed priority queues.

use crate::free::Free;
use crate::queue::Queue;

const CHILDREN: usize = 4;

/// What lies below the deadline: 20 bits of index. Deadlines are below 2^44.
const DEADLINE: u32 = 20;

#[derive(Clone, Copy)]
pub struct IndexedKey {
    index: u32,
    stamp: u32,
}

/// Four entries to a line of the cache.
#[repr(align(16))]
struct Entry {
    /// Where the entry stands in the heap, or `NOWHERE`.
    place: u32,
    stamp: u32,
    value: u64,
}

const NOWHERE: u32 = u32::MAX;

pub struct IndexedHeap {
    entries: Vec<Entry>,
    free: Free,
    /// Deadline and index in one number, the least first.
    heap: Vec<u64>,
}

#[inline(always)]
fn index_of(filed: u64) -> usize {
    filed as usize & ((1 << DEADLINE) - 1)
}

impl IndexedHeap {
    pub fn new(capacity: usize) -> IndexedHeap {
        let entries = (0..capacity).map(|_| Entry { place: NOWHERE, stamp: 0, value: 0 }).collect();
        IndexedHeap { entries, free: Free::new(capacity), heap: Vec::with_capacity(capacity) }
    }

    #[inline(always)]
    fn entry(&mut self, key: IndexedKey) -> &mut Entry {
        let entry = &mut self.entries[key.index as usize];
        assert!(entry.stamp == key.stamp && entry.place != NOWHERE, "the entry has ended");
        entry
    }

    #[inline(always)]
    fn put(&mut self, place: usize, filed: u64) {
        self.heap[place] = filed;
        self.entries[index_of(filed)].place = place as u32;
    }

    /// Moves a number from a free place towards the top.
    fn up(&mut self, mut place: usize, filed: u64) {
        while place > 0 {
            let parent = (place - 1) / CHILDREN;
            let above = self.heap[parent];
            if above <= filed {
                break;
            }
            self.put(place, above);
            place = parent;
        }
        self.put(place, filed);
    }

    /// Moves a number from a free place towards the bottom.
    fn down(&mut self, mut place: usize, filed: u64) {
        loop {
            let first = CHILDREN * place + 1;
            let end = (first + CHILDREN).min(self.heap.len());
            let Some(least) = (first..end).min_by_key(|child| self.heap[*child]) else {
                break;
            };
            let below = self.heap[least];
            if filed <= below {
                break;
            }
            self.put(place, below);
            place = least;
        }
        self.put(place, filed);
    }

    /// Files what stands at a place at another deadline.
    #[inline(always)]
    fn refile(&mut self, place: usize, filed: u64) {
        if filed < self.heap[place] {
            self.up(place, filed);
        } else {
            self.down(place, filed);
        }
    }

    /// Takes out what stands at a place: the last number goes there.
    #[inline(always)]
    fn take_out(&mut self, place: usize) {
        let last = self.heap.pop().expect("a place is below the length");
        if place < self.heap.len() {
            self.refile(place, last);
        }
    }

    #[inline(always)]
    fn end(&mut self, index: usize) -> u64 {
        let entry = &mut self.entries[index];
        let (place, value) = (std::mem::replace(&mut entry.place, NOWHERE) as usize, entry.value);
        self.take_out(place);
        self.free.give(index as u32);
        value
    }
}

impl Queue for IndexedHeap {
    type Key = IndexedKey;
    type Out = (u64, u64);

    #[inline(always)]
    fn insert(&mut self, value: u64, deadline: u64) -> IndexedKey {
        let index = self.free.take().expect("an entry is free");
        let entry = &mut self.entries[index as usize];
        entry.stamp += 1;
        entry.value = value;
        let key = IndexedKey { index, stamp: entry.stamp };
        let filed = deadline << DEADLINE | u64::from(index);
        self.heap.push(filed);
        self.up(self.heap.len() - 1, filed);
        key
    }

    #[inline(always)]
    fn extend(&mut self, key: IndexedKey, deadline: u64) -> u64 {
        let place = self.entry(key).place as usize;
        let later = deadline << DEADLINE | u64::from(key.index);
        if self.heap[place] < later {
            self.down(place, later);
            return deadline;
        }
        self.heap[place] >> DEADLINE
    }

    #[inline(always)]
    fn reset(&mut self, key: IndexedKey, deadline: u64) -> IndexedKey {
        let entry = self.entry(key);
        entry.stamp += 1;
        let (place, stamp) = (entry.place as usize, entry.stamp);
        self.refile(place, deadline << DEADLINE | u64::from(key.index));
        IndexedKey { index: key.index, stamp }
    }

    #[inline(always)]
    fn remove(&mut self, key: IndexedKey) -> u64 {
        self.entry(key);
        self.end(key.index as usize)
    }

    #[inline(always)]
    fn cancel(&mut self, key: IndexedKey) {
        self.remove(key);
    }

    fn poll(&mut self, tick: u64) -> Option<(u64, u64)> {
        let first = *self.heap.first()?;
        let deadline = first >> DEADLINE;
        (deadline <= tick).then(|| (deadline, self.end(index_of(first))))
    }

    fn value(out: &(u64, u64)) -> u64 {
        out.1
    }

    fn deadline(&self, out: &(u64, u64)) -> u64 {
        out.0
    }
}
