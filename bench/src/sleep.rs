//! A `tokio::time::Sleep` for each entry, as a server has it that gives each session a timer of its own. The timers are
//! turned once for each jump, within the time; each wakes the index of its entry.

use std::future::Future;
use std::pin::Pin;
use std::sync::{Arc, Mutex};
use std::task::{Context, Wake, Waker};
use std::time::Duration;

use tokio::time::{sleep_until, Instant, Sleep};

use crate::queue::Queue;
use crate::rows::Clock;
use crate::tokio_queue::PausedClock;

#[derive(Clone, Copy)]
pub struct SleepKey {
    index: u32,
    stamp: u32,
}

/// What a timer wakes: the index of its entry goes to those that rang.
struct Bell {
    index: u32,
    rang: Arc<Mutex<Vec<u32>>>,
}

impl Wake for Bell {
    fn wake(self: Arc<Bell>) {
        self.wake_by_ref();
    }

    fn wake_by_ref(self: &Arc<Bell>) {
        self.rang.lock().expect("no bell panics").push(self.index);
    }
}

struct Entry {
    sleep: Option<Pin<Box<Sleep>>>,
    waker: Waker,
    deadline: u64,
    stamp: u32,
    value: u64,
}

pub struct SleepQueue<'a> {
    clock: &'a PausedClock,
    entries: Vec<Entry>,
    free: Vec<u32>,
    rang: Arc<Mutex<Vec<u32>>>,
    turned: u64,
}

impl<'a> SleepQueue<'a> {
    pub fn new(clock: &'a PausedClock, capacity: usize) -> SleepQueue<'a> {
        let rang = Arc::new(Mutex::new(Vec::with_capacity(capacity)));
        let entry = |index| {
            let bell = Bell { index, rang: Arc::clone(&rang) };
            Entry { sleep: None, waker: Waker::from(Arc::new(bell)), deadline: 0, stamp: 0, value: 0 }
        };
        let entries = (0..capacity as u32).map(entry).collect();
        SleepQueue { clock, entries, free: (0..capacity as u32).rev().collect(), rang, turned: 0 }
    }

    fn instant(&self, tick: u64) -> Instant {
        self.clock.start() + Duration::from_millis(tick)
    }

    fn entry(&mut self, key: SleepKey) -> &mut Entry {
        let entry = &mut self.entries[key.index as usize];
        assert!(entry.stamp == key.stamp && entry.sleep.is_some(), "the entry has ended");
        entry
    }
}

impl Queue for SleepQueue<'_> {
    type Key = SleepKey;
    type Out = (u64, u64);

    fn insert(&mut self, value: u64, deadline: u64) -> SleepKey {
        let index = self.free.pop().expect("an entry is free");
        let mut sleep = Box::pin(sleep_until(self.instant(deadline)));
        let entry = &mut self.entries[index as usize];
        // A timer is set by its first poll.
        assert!(sleep.as_mut().poll(&mut Context::from_waker(&entry.waker)).is_pending(), "the deadline lies ahead");
        entry.sleep = Some(sleep);
        entry.deadline = deadline;
        entry.value = value;
        entry.stamp += 1;
        SleepKey { index, stamp: entry.stamp }
    }

    fn extend(&mut self, key: SleepKey, deadline: u64) -> u64 {
        let held = self.entry(key).deadline;
        if held < deadline {
            self.reset(key, deadline);
        }
        held.max(deadline)
    }

    fn reset(&mut self, key: SleepKey, deadline: u64) -> SleepKey {
        let when = self.instant(deadline);
        let entry = self.entry(key);
        entry.deadline = deadline;
        entry.sleep.as_mut().expect("the entry is there").as_mut().reset(when);
        key
    }

    fn remove(&mut self, key: SleepKey) -> u64 {
        let entry = self.entry(key);
        entry.sleep = None;
        let value = entry.value;
        self.free.push(key.index);
        value
    }

    fn cancel(&mut self, key: SleepKey) {
        self.remove(key);
    }

    fn poll(&mut self, tick: u64) -> Option<(u64, u64)> {
        if self.turned != tick {
            self.clock.moment(tick);
            self.turned = tick;
        }
        loop {
            let index = self.rang.lock().expect("no bell panics").pop()?;
            let entry = &mut self.entries[index as usize];
            let Some(sleep) = entry.sleep.as_mut() else {
                continue;
            };
            if sleep.as_mut().poll(&mut Context::from_waker(&entry.waker)).is_ready() {
                entry.sleep = None;
                self.free.push(index);
                return Some((entry.deadline, entry.value));
            }
        }
    }

    fn value(out: &(u64, u64)) -> u64 {
        out.1
    }

    fn deadline(&self, out: &(u64, u64)) -> u64 {
        out.0
    }
}
