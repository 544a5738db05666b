//! The rows of the longest call: each call of a server's run is timed by itself, and the least of it over some runs counts,
//! so that what the machine does beside it is left out. README.md says the runs in words.

use std::fmt;
use std::task::Poll;
use std::time::{Duration, Instant};

use crate::plan::{steps, BEAT, IDLE, LONG_BEATS, LONG_PASS, RUNS};
use crate::queue::Queue;
use crate::rows::{Load, Sample};

/// What the sessions of a run do once they have begun.
#[derive(Clone, Copy, Debug, PartialEq, Eq)]
pub enum Touched {
    Extend,
    Reset,
    Cancel,
}

impl Touched {
    pub const ALL: [(&'static str, Touched); 3] =
        [("longest-extend", Touched::Extend), ("longest-reset", Touched::Reset), ("longest-cancel", Touched::Cancel)];

    fn call(self) -> &'static str {
        match self {
            Touched::Extend => "extend",
            Touched::Reset => "reset",
            Touched::Cancel => "cancel",
        }
    }
}

/// The nanoseconds of the calls of one kind, in their order, each the least over the runs so far.
#[derive(Default)]
struct Calls {
    least: Vec<u64>,
    next: usize,
}

impl Calls {
    #[inline(always)]
    fn time<R>(&mut self, call: impl FnOnce() -> R) -> R {
        let since = Instant::now();
        let result = call();
        let spent = since.elapsed().as_nanos() as u64;
        match self.least.get_mut(self.next) {
            Some(least) => *least = spent.min(*least),
            None => self.least.push(spent),
        }
        self.next += 1;
        result
    }

    /// Goes to the first call, for another run.
    fn restart(&mut self) {
        assert!(self.next == self.least.len(), "each run makes the same calls");
        self.next = 0;
    }

    fn spread(mut self, call: &'static str) -> Spread {
        self.least.sort_unstable();
        let at = |share: usize| self.least[(self.least.len() * share / 10_000).min(self.least.len() - 1)];
        Spread { call, calls: self.least.len(), at: [5_000, 9_900, 9_990, 9_999, 10_000].map(at) }
    }
}

/// How long the calls of one kind take: how many there are, and the nanoseconds that a half, 99 of 100, 999 of 1,000 and
/// 9,999 of 10,000 don't exceed, and the most.
#[derive(Clone, Copy, Debug)]
pub struct Spread {
    call: &'static str,
    calls: usize,
    at: [u64; 5],
}

impl fmt::Display for Spread {
    fn fmt(&self, f: &mut fmt::Formatter<'_>) -> fmt::Result {
        write!(f, "{} {}", self.call, self.calls)?;
        self.at.iter().try_for_each(|spent| write!(f, " {spent}"))
    }
}

/// The calls of a run, by their kinds.
#[derive(Default)]
struct Times {
    insert: Calls,
    touch: Calls,
    poll: Calls,
}

impl<Q: Queue> Load<'_, Q> {
    /// Some runs on one queue. Each begins at a multiple of `LONG_PASS`, so the calls of one move what those of another do.
    pub fn longest(&mut self, touched: Touched) -> Sample {
        self.sample = Sample::default();
        let mut times = Times::default();
        for _ in 0..RUNS {
            match touched {
                Touched::Cancel => self.reaped_run(&mut times),
                _ => self.idle_run(touched, &mut times),
            }
            for calls in [&mut times.insert, &mut times.touch, &mut times.poll] {
                calls.restart();
            }
            self.end_run();
        }
        let Times { insert, touch, poll } = times;
        for calls in [&insert, &touch, &poll] {
            self.sample.spent += Duration::from_nanos(calls.least.iter().sum());
            self.sample.operations += calls.least.len() as u64;
        }
        self.sample.spreads = Some([insert.spread("insert"), touch.spread(touched.call()), poll.spread("poll")]);
        self.sample
    }

    /// Takes out what a run left, and goes to the start of the next.
    fn end_run(&mut self) {
        let begun = self.now;
        self.end_pass();
        self.now = begun + LONG_PASS;
        self.clock.moment(self.now);
        assert!(self.queue.poll(self.now).is_none(), "a run leaves nothing behind");
    }

    /// Sessions begin within a beat, each is touched once in each of the beats after it, and then all expire. The queue is
    /// polled at each tick.
    fn idle_run(&mut self, touched: Touched, times: &mut Times) {
        let steps = steps(self.entries);
        let mut keys = Vec::with_capacity(self.entries);
        for beat in 0..=LONG_BEATS {
            let order = if beat == 0 { (0..self.entries).collect() } else { self.draws.shuffled(self.entries) };
            let mut calls = order.iter().zip(&steps).peekable();
            for offset in 0..BEAT {
                let tick = self.now + beat * BEAT + offset;
                while let Some((index, _)) = calls.next_if(|(_, step)| **step == offset) {
                    if beat == 0 {
                        keys.push(times.insert.time(|| self.queue.insert(*index as u64, tick + IDLE)));
                    } else {
                        self.touch(touched, &mut keys[*index], tick + IDLE, times);
                    }
                }
                self.poll_timed(tick, times);
            }
        }
        self.sample.counts.inserts += keys.len() as u64;
        let last_beat = self.now + (LONG_BEATS + 1) * BEAT;
        for tick in last_beat..last_beat + IDLE {
            self.poll_timed(tick, times);
        }
    }

    fn touch(&mut self, touched: Touched, key: &mut Q::Key, deadline: u64, times: &mut Times) {
        let counts = &mut self.sample.counts;
        if touched == Touched::Extend {
            let answer = times.touch.time(|| self.queue.extend(*key, deadline));
            counts.extends += 1;
            counts.deadlines = counts.deadlines.wrapping_add(answer - self.now);
        } else {
            *key = times.touch.time(|| self.queue.reset(*key, deadline));
            counts.resets += 1;
        }
    }

    /// Polls at a tick until nothing is given.
    fn poll_timed(&mut self, tick: u64, times: &mut Times) {
        self.clock.moment(tick);
        loop {
            let out = match times.poll.time(|| self.queue.poll_once(tick)) {
                Poll::Ready(Some(out)) => out,
                Poll::Ready(None) => return,
                Poll::Pending => continue,
            };
            let counts = &mut self.sample.counts;
            counts.outs += 1;
            counts.values = counts.values.wrapping_add(Q::value(&out));
            counts.deadlines = counts.deadlines.wrapping_add(self.queue.deadline(&out) - self.now);
        }
    }

    /// Every entry is cancelled, and one poll past all deadlines reaps what is still filed.
    fn reaped_run(&mut self, times: &mut Times) {
        let deadlines = self.draws.deadlines(self.now, self.entries);
        let mut keys = Vec::with_capacity(self.entries);
        for (value, deadline) in deadlines.iter().enumerate() {
            keys.push(times.insert.time(|| self.queue.insert(value as u64, *deadline)));
        }
        let order = self.draws.shuffled(self.entries);
        for index in &order {
            times.touch.time(|| self.queue.cancel(keys[*index]));
        }
        let counts = &mut self.sample.counts;
        counts.inserts += keys.len() as u64;
        counts.cancels += keys.len() as u64;
        self.poll_timed(self.now + IDLE, times);
    }
}
