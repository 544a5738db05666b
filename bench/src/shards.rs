//! The rows of a queue in shards, each behind a lock of its own, which threads call by name or in bursts under one
//! lock: what is timed, and what is counted. README.md describes each in words.

use std::mem;
use std::sync::atomic::{AtomicUsize, Ordering};
use std::thread;
use std::time::Duration;

use crate::plan::{part, shard_pass, shard_passes, SplitMix64, BURST, IDLE, SEED};
use crate::queue::{Locked, Queue, Sharded};
use crate::rows::{reading, Clock, Sample};

/// What is timed of a queue in shards.
#[derive(Clone, Copy, Debug, PartialEq, Eq)]
pub enum Call {
    Insert,
    Extend,
    Reset,
    Remove,
    Poll,
    InsertBurst,
    PollBurst,
}

impl Call {
    pub const ALL: [(&'static str, Call); 7] = [
        ("insert", Call::Insert),
        ("extend", Call::Extend),
        ("reset", Call::Reset),
        ("remove", Call::Remove),
        ("poll", Call::Poll),
        ("insert-burst", Call::InsertBurst),
        ("poll-burst", Call::PollBurst),
    ];

    /// Whether so many calls are made under one lock.
    pub fn is_burst(self) -> bool {
        matches!(self, Call::InsertBurst | Call::PollBurst)
    }
}

/// Where a thread's entries are.
#[derive(Clone, Copy, Debug, PartialEq, Eq)]
pub enum Route {
    /// In any shard.
    Drawn,
    /// In a shard of the thread's own, which no other calls: there are as many shards as threads.
    Own,
}

/// An entry that is to be inserted.
#[derive(Clone, Copy)]
pub struct Begun {
    pub shard: usize,
    pub value: u64,
    pub deadline: u64,
}

/// What came out of the queue in one thread.
#[derive(Default)]
pub struct Gone {
    pub outs: u64,
    pub values: u64,
}

impl Gone {
    pub fn count(&mut self, value: u64) {
        self.outs += 1;
        self.values = self.values.wrapping_add(value);
    }
}

/// A key, and the shard that it is of.
pub struct Placed<Q: Queue> {
    shard: usize,
    key: Q::Key,
}

impl<Q: Queue> Clone for Placed<Q> {
    fn clone(&self) -> Placed<Q> {
        *self
    }
}

impl<Q: Queue> Copy for Placed<Q> {}

/// A queue behind the standard lock for each shard.
pub struct Shards<Q, const PAUSES: bool = false>(Vec<Locked<Q, PAUSES>>);

impl<Q, const PAUSES: bool> Shards<Q, PAUSES> {
    pub fn new(shards: impl Iterator<Item = Q>) -> Shards<Q, PAUSES> {
        Shards(shards.map(Locked::new).collect())
    }

    /// Makes a call, or a burst of them, under a shard's lock.
    fn lend<R>(&self, shard: usize, call: impl FnOnce(&mut Q) -> R) -> R {
        self.0[shard].with(call)
    }
}

impl<Q: Queue + Send, const PAUSES: bool> Sharded for Shards<Q, PAUSES> {
    type Key = Placed<Q>;
    /// An extend takes the lock as every call does.
    type Toucher = ();

    fn shards(&self) -> usize {
        self.0.len()
    }

    fn toucher(&self) {}

    fn insert(&self, begun: &Begun) -> Placed<Q> {
        let key = self.lend(begun.shard, |queue| queue.insert(begun.value, begun.deadline));
        Placed { shard: begun.shard, key }
    }

    fn insert_burst(&self, shard: usize, burst: &[Begun], keys: &mut Vec<Placed<Q>>) {
        self.lend(shard, |queue| {
            for Begun { value, deadline, .. } in burst {
                keys.push(Placed { shard, key: queue.insert(*value, *deadline) });
            }
        });
    }

    fn extend(&self, (): &mut (), Placed { shard, key }: Placed<Q>, deadline: u64) -> u64 {
        self.lend(shard, |queue| queue.extend(key, deadline))
    }

    fn cancel(&self, (): &mut (), Placed { shard, key }: Placed<Q>) {
        self.lend(shard, |queue| queue.cancel(key));
    }

    fn reset(&self, Placed { shard, key }: Placed<Q>, deadline: u64) -> Placed<Q> {
        Placed { shard, key: self.lend(shard, |queue| queue.reset(key, deadline)) }
    }

    fn remove(&self, Placed { shard, key }: Placed<Q>) -> u64 {
        self.lend(shard, |queue| queue.remove(key))
    }

    fn poll_all(&self, shard: usize, tick: u64, gone: &mut Gone) {
        while let Some(out) = self.lend(shard, |queue| queue.poll(tick)) {
            gone.count(Q::value(&out));
        }
    }

    fn poll_bursts(&self, shard: usize, tick: u64, gone: &mut Gone) {
        let burst = |queue: &mut Q, gone: &mut Gone| {
            for _ in 0..BURST {
                let Some(out) = queue.poll(tick) else {
                    return false;
                };
                gone.count(Q::value(&out));
            }
            true
        };
        while self.lend(shard, |queue| burst(queue, gone)) {}
    }

    fn poll_alone(&mut self, shard: usize, tick: u64) -> Option<(u64, u64)> {
        let queue = self.0[shard].alone();
        let out = queue.poll(tick)?;
        Some((Q::value(&out), queue.deadline(&out)))
    }
}

/// A queue in shards under load, with its own copy of the plan.
pub struct ShardLoad<'a, S: Sharded> {
    pub queue: S,
    /// One for each thread.
    pub touchers: Vec<S::Toucher>,
    pub clock: &'a dyn Clock,
    pub draws: SplitMix64,
    pub now: u64,
    /// The entries of each shard.
    pub entries: usize,
    pub threads: usize,
    pub route: Route,
    pub sample: Sample,
}

impl<'a, S: Sharded> ShardLoad<'a, S> {
    pub fn new(queue: S, clock: &'a dyn Clock, entries: usize, threads: usize, route: Route) -> ShardLoad<'a, S> {
        assert!(route == Route::Drawn || queue.shards() == threads, "each thread has a shard of its own");
        let touchers = (0..threads).map(|_| queue.toucher()).collect();
        let (draws, sample) = (SplitMix64::new(SEED), Sample::default());
        ShardLoad { queue, touchers, clock, draws, now: 0, entries, threads, route, sample }
    }

    /// The entries of all shards.
    pub fn total(&self) -> usize {
        self.entries * self.queue.shards()
    }

    /// One round of a row.
    pub fn round(&mut self, call: Call) -> Sample {
        self.sample = Sample::default();
        for _ in 0..shard_passes(self.total()) {
            self.pass(call);
        }
        self.sample
    }

    /// One pass of a row: from an empty queue to an empty queue.
    pub fn pass(&mut self, call: Call) {
        match call {
            Call::Insert => self.insert(),
            Call::Extend => self.extend(),
            Call::Reset => self.reset(),
            Call::Remove => self.remove(),
            Call::Poll => self.poll(S::poll_all),
            Call::InsertBurst => self.insert_bursts(),
            Call::PollBurst => self.poll(S::poll_bursts),
        }
        self.end_pass();
    }

    /// Takes out what is left, and goes to the start of the next pass.
    pub fn end_pass(&mut self) {
        let tick = self.now + shard_pass(self.total());
        self.clock.moment(tick);
        for shard in 0..self.queue.shards() {
            while let Some((value, deadline)) = self.queue.poll_alone(shard, tick) {
                let counts = &mut self.sample.counts;
                counts.outs += 1;
                counts.values = counts.values.wrapping_add(value);
                counts.deadlines = counts.deadlines.wrapping_add(deadline - self.now);
            }
        }
        self.now = tick;
    }

    /// A shuffled order of all entries; where each thread has a shard of its own, of each thread's entries in turn.
    fn order(&mut self) -> Vec<usize> {
        match self.route {
            Route::Drawn => self.draws.shuffled(self.total()),
            Route::Own => (0..self.threads)
                .flat_map(|thread| {
                    let first = thread * self.entries;
                    self.draws.shuffled(self.entries).into_iter().map(move |index| first + index)
                })
                .collect(),
        }
    }

    /// So many entries that a thread calls, one as likely as another.
    fn picks(&mut self, thread: usize, count: usize) -> Vec<usize> {
        match self.route {
            Route::Drawn => self.draws.picks(count, self.total()),
            Route::Own => {
                let first = thread * self.entries;
                self.draws.picks(count, self.entries).into_iter().map(|index| first + index).collect()
            }
        }
    }

    /// The entries of a fill, of which so many at a time go to one shard; where each thread has a shard of its own, those
    /// in its places go there.
    pub fn drawn(&mut self, burst: usize) -> Vec<Begun> {
        if self.route == Route::Own {
            let deadlines = self.draws.deadlines(self.now, self.total()).into_iter().enumerate();
            let shard = |place| place / self.entries;
            return deadlines
                .map(|(place, deadline)| Begun { shard: shard(place), value: place as u64, deadline })
                .collect();
        }
        let order = self.draws.shuffled(self.total().div_ceil(burst));
        let deadlines = self.draws.deadlines(self.now, self.total());
        let shards = self.queue.shards();
        let places = deadlines.into_iter().enumerate();
        places
            .map(|(place, deadline)| Begun { shard: order[place / burst] % shards, value: place as u64, deadline })
            .collect()
    }

    fn fill(&mut self) -> Vec<S::Key> {
        let begun = self.drawn(1);
        self.sample.counts.inserts += begun.len() as u64;
        begun.iter().map(|begun| self.queue.insert(begun)).collect()
    }

    /// Each thread's part of some work is done in it, all at once, and timed by it.
    fn timed<W: Send, R: Send>(
        &mut self,
        work: &mut [W],
        operations: usize,
        call: impl Fn(&S, &mut W) -> R + Sync,
    ) -> Vec<R> {
        let queue = &self.queue;
        let (spent, done) = match work {
            [alone] => {
                let since = reading();
                let done = call(queue, alone);
                (reading() - since, vec![done])
            }
            _ => at_once(self.clock, work, &|work| call(queue, work)),
        };
        self.sample.spent += spent;
        self.sample.operations += operations as u64;
        done
    }

    /// A list dealt out to the threads.
    fn parts<'w, W>(&self, list: &'w [W]) -> Vec<&'w [W]> {
        (0..self.threads).map(|thread| &list[part(list.len(), thread, self.threads)]).collect()
    }

    fn insert(&mut self) {
        let begun = self.drawn(1);
        self.timed(&mut self.parts(&begun), begun.len(), |queue, part| {
            let mut keys = Vec::with_capacity(part.len());
            for begun in *part {
                keys.push(queue.insert(begun));
            }
            keys
        });
        self.sample.counts.inserts += begun.len() as u64;
    }

    fn insert_bursts(&mut self) {
        let begun = self.drawn(BURST);
        let bursts: Vec<&[Begun]> = begun.chunks(BURST).collect();
        self.timed(&mut self.parts(&bursts), begun.len(), |queue, part| {
            let mut keys = Vec::with_capacity(part.len() * BURST);
            for burst in *part {
                queue.insert_burst(burst[0].shard, burst, &mut keys);
            }
            keys
        });
        self.sample.counts.inserts += begun.len() as u64;
    }

    fn extend(&mut self) {
        let keys = self.fill();
        let each = keys.len() / self.threads;
        let mut lists = Vec::with_capacity(self.threads);
        for thread in 0..self.threads {
            let picks = self.picks(thread, each);
            lists.push(picks.iter().map(|pick| keys[*pick]).collect::<Vec<_>>());
        }
        // A queue has but so many of them in its life, so they are kept from pass to pass.
        let mut touchers = mem::take(&mut self.touchers);
        let mut lists: Vec<_> = touchers.iter_mut().zip(lists).collect();
        let later = self.now + IDLE + 1;
        let extends = each * lists.len();
        self.timed(&mut lists, extends, |queue, (toucher, list)| {
            for (key, when) in list.iter().zip(later..) {
                assert!(queue.extend(toucher, *key, when) >= when, "an extend is never below what it asked");
            }
        });
        self.touchers = touchers;
        self.sample.counts.extends += extends as u64;
    }

    fn reset(&mut self) {
        let keys = self.fill();
        let order = self.order();
        let deadlines = self.draws.deadlines(self.now, keys.len());
        let moved: Vec<(S::Key, u64)> = order.iter().zip(deadlines).map(|(index, when)| (keys[*index], when)).collect();
        self.timed(&mut self.parts(&moved), moved.len(), |queue, part| {
            let mut keys = Vec::with_capacity(part.len());
            for (key, when) in *part {
                keys.push(queue.reset(*key, *when));
            }
            keys
        });
        self.sample.counts.resets += moved.len() as u64;
    }

    fn remove(&mut self) {
        let keys = self.fill();
        let order = self.order();
        let ended: Vec<S::Key> = order.iter().map(|index| keys[*index]).collect();
        let values = self.timed(&mut self.parts(&ended), ended.len(), |queue, part| {
            let mut values = 0u64;
            for key in *part {
                values = values.wrapping_add(queue.remove(*key));
            }
            values
        });
        let counts = &mut self.sample.counts;
        counts.removes += ended.len() as u64;
        counts.values = values.into_iter().fold(counts.values, u64::wrapping_add);
    }

    /// Each thread goes over all shards once, and each begins elsewhere. One with a shard of its own polls that alone.
    fn poll(&mut self, poll: impl Fn(&S, usize, u64, &mut Gone) + Sync) {
        let keys = self.fill();
        let shards = self.queue.shards();
        let tick = self.now + IDLE;
        self.clock.moment(tick);
        let mut firsts: Vec<usize> = (0..self.threads).map(|thread| thread * shards / self.threads).collect();
        let steps = if self.route == Route::Own { 1 } else { shards };
        let all_gone = self.timed(&mut firsts, keys.len(), |queue, first| {
            let mut gone = Gone::default();
            for step in 0..steps {
                poll(queue, (*first + step) % shards, tick, &mut gone);
            }
            gone
        });
        let counts = &mut self.sample.counts;
        for gone in all_gone {
            counts.outs += gone.outs;
            counts.values = counts.values.wrapping_add(gone.values);
        }
    }
}

/// Does each part in a thread of its own, which begins once all of them are there. Gives the sum of their times.
fn at_once<W: Send, R: Send>(
    clock: &dyn Clock,
    parts: &mut [W],
    call: &(impl Fn(&mut W) -> R + Sync),
) -> (Duration, Vec<R>) {
    let (ready, threads) = (AtomicUsize::new(0), parts.len());
    let run = |part: &mut W| {
        let mut done = None;
        clock.within(&mut || {
            ready.fetch_add(1, Ordering::SeqCst);
            while ready.load(Ordering::SeqCst) < threads {
                thread::yield_now();
            }
            let since = reading();
            let result = call(part);
            done = Some((reading() - since, result));
        });
        done.expect("the clock runs what it is given")
    };
    let run = &run;
    let done: Vec<(Duration, R)> = thread::scope(|scope| {
        let running: Vec<_> = parts.iter_mut().map(|part| scope.spawn(move || run(part))).collect();
        running.into_iter().map(|thread| thread.join().expect("a thread ends")).collect()
    });
    (done.iter().map(|(spent, _)| *spent).sum(), done.into_iter().map(|(_, result)| result).collect())
}
