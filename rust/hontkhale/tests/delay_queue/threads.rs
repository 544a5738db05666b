//! Drawn calls of eight threads: each keeps a map of the entries that it put in, and receivers come and go. Nothing comes out
//! early, is lost, comes out twice, and each value is dropped once.

use crate::draw::{calls, Draw};
use crate::kit::{ms, within_the_limit, Drops, Value};
use hontkhale::{DelayQueue, Expired, Key, ManualClock};
use std::collections::HashMap;
use std::sync::atomic::{AtomicBool, AtomicU64, AtomicU8, Ordering::SeqCst};
use std::sync::Arc;
use std::thread;
use std::time::Instant;

const THREADS: u64 = 8;

/// What the threads know of all entries.
struct Known {
    start: Instant,
    /// How often each entry ended.
    ends: Vec<AtomicU8>,
    /// A tick before which the entry may not come out.
    floors: Vec<AtomicU64>,
    is_over: AtomicBool,
}

impl Known {
    fn tick(&self, moment: Instant) -> u64 {
        moment.duration_since(self.start).as_millis() as u64
    }

    fn end(&self, number: u64) {
        assert_eq!(self.ends[number as usize].fetch_add(1, SeqCst), 0, "it ends once");
    }

    fn came_out(&self, expired: &Expired<Value>, now: Instant) {
        let number = expired.value.number;
        self.end(number);
        assert!(expired.deadline <= now, "it is early");
        assert!(
            self.tick(expired.deadline) >= self.floors[number as usize].load(SeqCst),
            "its extend was lost"
        );
    }
}

/// One of the threads that put entries in.
struct Server {
    queue: DelayQueue<Value>,
    clock: ManualClock,
    known: Arc<Known>,
    drops: Drops,
    draw: Draw,
    mine: HashMap<Key, u64>,
    next: u64,
}

impl Server {
    fn insert(&mut self) {
        let (number, after) = (self.next, ms(self.draw.below(400)));
        self.next += 1;
        self.known.floors[number as usize].store(self.known.tick(self.clock.now()), SeqCst);
        let value = self.drops.value(number);
        let clone = self.queue.clone();
        // Now and then a value's drop calls the queue.
        let value = if self.draw.one_in(8) {
            value.then(move || drop(clone.stats().to_string()))
        } else {
            value
        };
        let key = self.queue.insert(value, after).expect("room");
        assert!(self.mine.insert(key, number).is_none(), "a key is given once");
    }

    fn one(&mut self) -> Option<(Key, u64)> {
        let at = self.draw.below(self.mine.len().max(1) as u64) as usize % 16;
        self.mine.iter().nth(at).map(|(key, number)| (*key, *number))
    }

    fn step(&mut self, key: Key, number: u64) {
        let floor = &self.known.floors[number as usize];
        let after = ms(self.draw.below(400));
        match self.draw.below(10) {
            0..=4 => match self.queue.extend(&key, after) {
                Ok(deadline) => drop(floor.fetch_max(self.known.tick(deadline), SeqCst)),
                Err(_) => drop(self.mine.remove(&key)),
            },
            5..=7 => {
                // A reset may come to an earlier deadline, so the floor goes down before.
                floor.fetch_min(self.known.tick(self.clock.now()), SeqCst);
                if self.queue.reset(&key, after).is_err() {
                    self.mine.remove(&key);
                }
            }
            8 => {
                if self.queue.cancel(&key).is_ok() {
                    self.known.end(number);
                }
                self.mine.remove(&key);
            }
            _ => {
                if let Ok(value) = self.queue.remove(&key) {
                    assert_eq!(value.number, number);
                    self.known.end(number);
                }
                self.mine.remove(&key);
            }
        }
    }

    fn serve(mut self, calls: u64) -> u64 {
        for _ in 0..calls {
            match self.one() {
                Some((key, number)) if !self.draw.one_in(3) => self.step(key, number),
                _ => self.insert(),
            }
            if self.draw.one_in(64) {
                self.clock.advance(ms(self.draw.below(20)));
            }
        }
        self.next
    }
}

/// Receives until all is over, each time for a while, in one of the ways.
fn receive(queue: &DelayQueue<Value>, clock: &ManualClock, known: &Known, way: u64) {
    while !known.is_over.load(SeqCst) {
        let mut row = Vec::new();
        match way {
            0 => row.extend(queue.recv_timeout(ms(30))),
            1 => drop(queue.recv_many(&mut row, 40)),
            _ => row.extend(queue.try_iter().take(10)),
        }
        let now = clock.now();
        row.iter().for_each(|expired| known.came_out(expired, now));
        if way == 2 {
            thread::yield_now();
        }
    }
}

impl Server {
    fn new(queue: &DelayQueue<Value>, clock: &ManualClock, known: &Arc<Known>, drops: &Drops, seed: u64) -> Server {
        Server {
            queue: queue.clone(),
            clock: clock.clone(),
            known: Arc::clone(known),
            drops: drops.clone(),
            draw: Draw::new(seed),
            mine: HashMap::new(),
            next: 0,
        }
    }
}

impl Known {
    fn new(start: Instant, entries: u64) -> Known {
        Known {
            start,
            ends: (0..entries).map(|_| AtomicU8::new(0)).collect(),
            floors: (0..entries).map(|_| AtomicU64::new(0)).collect(),
            is_over: AtomicBool::new(false),
        }
    }
}

/// Has all threads make their calls, and gives which entries were put in.
fn serve(queue: &DelayQueue<Value>, clock: &ManualClock, known: &Known, servers: Vec<Server>, calls: u64) -> Vec<u64> {
    thread::scope(|scope| {
        let receiver = |way| scope.spawn(move || receive(queue, clock, known, way));
        let receivers: Vec<_> = (0..3).map(receiver).collect();
        let served: Vec<_> = servers
            .into_iter()
            .map(|server| (server.next, scope.spawn(move || server.serve(calls))))
            .collect();
        let inserted = served
            .into_iter()
            .flat_map(|(first, server)| first..server.join().unwrap())
            .collect();
        // All that waits comes due.
        clock.advance(ms(1_000));
        while !queue.is_empty() {
            thread::sleep(ms(1));
        }
        known.is_over.store(true, SeqCst);
        queue.close();
        receivers.into_iter().for_each(|receiver| receiver.join().unwrap());
        inserted
    })
}

fn run(last_stamp: u32, calls: u64) {
    let (clock, drops) = (ManualClock::new(), Drops::default());
    let builder = DelayQueue::builder().clock(&clock).shards(4);
    let queue = builder.last_stamp(last_stamp).build();
    let known = Arc::new(Known::new(clock.now(), THREADS * calls));
    let servers = (0..THREADS).map(|thread| {
        let seed = u64::from(last_stamp) * THREADS + thread;
        let server = Server::new(&queue, &clock, &known, &drops, seed);
        Server {
            next: thread * calls,
            ..server
        }
    });
    let inserted = serve(&queue, &clock, &known, servers.collect(), calls);
    // What was cancelled is dropped, and with it the clones that it has.
    queue.clear();
    drop(queue);
    for number in inserted {
        assert_eq!(known.ends[number as usize].load(SeqCst), 1, "{number} is lost");
        assert_eq!(drops.count(number), 1, "{number} is dropped once");
    }
}

#[test]
fn drawn_calls_of_eight_threads_lose_nothing() {
    within_the_limit(|| {
        for last_stamp in [1, 3, 50, 1_000, 1 << 19] {
            run(last_stamp, calls() / 5 / THREADS);
        }
    });
}
