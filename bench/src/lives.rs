//! The rows of whole lives over a queue in shards: sessions begin, are called, end and expire, and the polls that pay for
//! what their calls left behind are within the time. README.md describes each in words.

use std::hint;
use std::ops::Range;
use std::sync::atomic::{AtomicBool, AtomicUsize, Ordering};
use std::thread;
use std::time::Instant;

use crate::plan::{part, shard_passes, steps, SplitMix64, BEAT, BEATS, HEARTBEATS, IDLE, KEPT, MANY, UNANSWERED};
use crate::queue::Sharded;
use crate::rows::{Clock, Sample};
use crate::shards::{Begun, Gone, ShardLoad};

/// What sessions go through.
#[derive(Clone, Copy, Debug, PartialEq, Eq)]
pub enum Life {
    InsertPoll,
    ResetPoll,
    RemovePoll,
    Mixed,
    Churn,
    Heartbeat,
    /// Requests that all have the same time limit, and end before it.
    Fixed,
    /// Sessions of which few are touched often, by Zipf's law.
    Zipf,
    /// Requests of which one in twenty isn't answered in time.
    Requests,
}

impl Life {
    pub const ALL: [(&'static str, Life); 9] = [
        ("insert+poll", Life::InsertPoll),
        ("reset+poll", Life::ResetPoll),
        ("remove+poll", Life::RemovePoll),
        ("mixed", Life::Mixed),
        ("churn", Life::Churn),
        ("heartbeat", Life::Heartbeat),
        ("fixed", Life::Fixed),
        ("zipf", Life::Zipf),
        ("requests", Life::Requests),
    ];

    /// Whether the sessions begin in one beat and are called once in each of the beats after it. A round is then one pass.
    fn is_of_beats(self) -> bool {
        !matches!(self, Life::InsertPoll | Life::ResetPoll | Life::RemovePoll)
    }

    fn beats(self, sessions: usize) -> u64 {
        let beats = if self == Life::Mixed { BEATS } else { HEARTBEATS };
        beats / if sessions > MANY { 10 } else { 1 }
    }

    /// The ticks from the start of a pass of so many beats to its last poll, at which all that is left expires.
    fn end(self, beats: u64) -> u64 {
        match self {
            Life::InsertPoll | Life::ResetPoll | Life::RemovePoll => IDLE,
            Life::Mixed => (beats + 1) * BEAT + IDLE,
            _ => beats * BEAT + 2 * IDLE,
        }
    }
}

/// How often a thread looks for the others before it yields: a beat may be shorter than a switch of threads takes.
const SPINS: usize = 1_000;

/// Where threads wait for each other.
struct Together<'a> {
    clock: &'a dyn Clock,
    threads: usize,
    beats: u64,
    arrived: AtomicUsize,
    /// Whether a thread panicked, so that no other waits for it.
    is_broken: AtomicBool,
}

impl Together<'_> {
    /// Waits until each thread has come here as often as this one.
    fn wait(&self, waits: &mut usize) {
        *waits += 1;
        self.arrived.fetch_add(1, Ordering::SeqCst);
        let mut spins = 0;
        while self.arrived.load(Ordering::SeqCst) < *waits * self.threads {
            assert!(!self.is_broken.load(Ordering::SeqCst), "another thread failed");
            spins += 1;
            if spins < SPINS {
                hint::spin_loop();
            } else {
                thread::yield_now();
            }
        }
    }
}

/// A thread, with the sessions that it alone calls and the shards that it alone polls.
struct Member<'a, S: Sharded> {
    queue: &'a S,
    toucher: &'a mut S::Toucher,
    together: &'a Together<'a>,
    /// How often it waited for the others.
    waits: usize,
    /// Whether it moves the clock.
    is_first: bool,
    now: u64,
    begun: &'a mut [Begun],
    shards: Range<usize>,
    draws: SplitMix64,
    keys: Vec<S::Key>,
    gone: Gone,
    sample: Sample,
}

impl<S: Sharded> Drop for Member<'_, S> {
    fn drop(&mut self) {
        if thread::panicking() {
            self.together.is_broken.store(true, Ordering::SeqCst);
        }
    }
}

impl<S: Sharded> Member<'_, S> {
    /// Lives through a pass, and gives what it did and the time of its timed calls.
    fn live(mut self, life: Life) -> Sample {
        match life {
            Life::InsertPoll => self.timed(self.now, self.begun.len(), Self::begin),
            Life::ResetPoll => self.reset(),
            Life::RemovePoll => self.remove(),
            _ => self.beats(life),
        }
        let end = self.now + life.end(self.together.beats);
        self.timed(end, 0, |member| member.poll(end));
        let counts = &mut self.sample.counts;
        counts.outs += self.gone.outs;
        counts.values = counts.values.wrapping_add(self.gone.values);
        self.sample
    }

    /// Makes calls once all threads are here and it is that tick, and times them.
    fn timed(&mut self, tick: u64, operations: usize, calls: impl FnOnce(&mut Self)) {
        self.together.wait(&mut self.waits);
        if self.is_first {
            self.together.clock.moment(tick);
        }
        self.together.wait(&mut self.waits);
        let since = Instant::now();
        calls(self);
        self.sample.spent += since.elapsed();
        self.sample.operations += operations as u64;
    }

    fn begin(&mut self) {
        for begun in &*self.begun {
            self.keys.push(self.queue.insert(begun));
        }
        self.sample.counts.inserts += self.begun.len() as u64;
    }

    /// Polls each of its shards until nothing is given.
    fn poll(&mut self, tick: u64) {
        for shard in self.shards.clone() {
            self.queue.poll_all(shard, tick, &mut self.gone);
        }
    }

    fn reset(&mut self) {
        self.begin();
        let order = self.draws.shuffled(self.keys.len());
        let deadlines = self.draws.deadlines(self.now, self.keys.len());
        self.timed(self.now, order.len(), |member| member.reset_all(&order, &deadlines));
    }

    fn remove(&mut self) {
        self.begin();
        let order = self.draws.shuffled(self.keys.len());
        self.timed(self.now, order.len(), |member| {
            let values = order.iter().map(|index| member.queue.remove(member.keys[*index]));
            let values = values.fold(0, u64::wrapping_add);
            member.count_removes(order.len(), values);
        });
    }

    fn count_removes(&mut self, removes: usize, values: u64) {
        let counts = &mut self.sample.counts;
        counts.removes += removes as u64;
        counts.values = counts.values.wrapping_add(values);
    }

    /// The sessions begin in one beat, and are called once in each of the beats after it.
    fn beats(&mut self, life: Life) {
        self.timed(self.now, self.begun.len(), Self::begin);
        let steps = steps(self.begun.len());
        for beat in 1..=self.together.beats {
            match life {
                Life::Requests => self.answer(&steps, beat),
                _ => self.beat(life, &steps, self.now + beat * BEAT),
            }
        }
        if life == Life::Mixed {
            self.cancel(self.now + (self.together.beats + 1) * BEAT);
        }
    }

    /// Every session is called once, in a fresh order, and then the shards are polled. Nothing expires yet, whatever
    /// another thread has done of its beat.
    fn beat(&mut self, life: Life, steps: &[u64], begin: u64) {
        let order = match life {
            Life::Zipf => self.draws.zipf(self.keys.len()),
            _ => self.draws.shuffled(self.keys.len()),
        };
        let mut deadlines = match life {
            Life::Churn => self.draws.deadlines(begin + 2 * BEAT, order.len()),
            _ => vec![begin + IDLE; order.len()],
        };
        for (deadline, step) in deadlines.iter_mut().zip(steps) {
            *deadline += step;
        }
        let tick = begin + BEAT;
        self.timed(tick, order.len(), |member| {
            match life {
                Life::Mixed | Life::Zipf => member.extend_all(&order, &deadlines),
                Life::Churn | Life::Fixed => member.replace_all(&order, &deadlines),
                _ => member.reset_all(&order, &deadlines),
            }
            member.poll(tick);
        });
    }

    fn extend_all(&mut self, order: &[usize], deadlines: &[u64]) {
        let mut answers = 0u64;
        for (index, deadline) in order.iter().zip(deadlines) {
            let answer = self.queue.extend(self.toucher, self.keys[*index], *deadline);
            answers = answers.wrapping_add(answer - self.now);
        }
        let counts = &mut self.sample.counts;
        counts.extends += order.len() as u64;
        counts.deadlines = counts.deadlines.wrapping_add(answers);
    }

    fn reset_all(&mut self, order: &[usize], deadlines: &[u64]) {
        for (index, deadline) in order.iter().zip(deadlines) {
            self.keys[*index] = self.queue.reset(self.keys[*index], *deadline);
        }
        self.sample.counts.resets += order.len() as u64;
    }

    /// Each request ends, and another begins at once in its place.
    fn replace_all(&mut self, order: &[usize], deadlines: &[u64]) {
        let mut values = 0u64;
        for (index, deadline) in order.iter().zip(deadlines) {
            values = values.wrapping_add(self.queue.remove(self.keys[*index]));
            self.keys[*index] = self.queue.insert(&Begun { deadline: *deadline, ..self.begun[*index] });
        }
        self.count_removes(order.len(), values);
        self.sample.counts.inserts += order.len() as u64;
    }

    /// The requests of the beat before that weren't answered came due in it, and are taken out. The others end, and another
    /// begins in the place of each.
    fn answer(&mut self, steps: &[u64], beat: u64) {
        let begin = self.now + beat * BEAT;
        self.timed(begin, 0, |member| member.poll(begin));
        let order = self.draws.shuffled(self.keys.len());
        self.timed(begin, order.len(), |member| {
            let (mut removes, mut values) = (0, 0u64);
            for (index, step) in order.iter().zip(steps) {
                let is_answered = index % UNANSWERED > 0;
                if is_answered || beat == 1 {
                    removes += 1;
                    values = values.wrapping_add(member.queue.remove(member.keys[*index]));
                }
                let limit = if is_answered { IDLE } else { 1 };
                let begun = Begun { deadline: begin + limit + step, ..member.begun[*index] };
                member.keys[*index] = member.queue.insert(&begun);
            }
            member.count_removes(removes, values);
            member.sample.counts.inserts += order.len() as u64;
        });
    }

    /// Most sessions are cancelled. The others expire at the last poll, which reaps these too.
    fn cancel(&mut self, tick: u64) {
        let mut order = self.draws.shuffled(self.keys.len());
        order.retain(|index| index % KEPT != 0);
        self.timed(tick, self.keys.len(), |member| {
            for index in &order {
                member.queue.cancel(member.toucher, member.keys[*index]);
            }
        });
        self.sample.counts.cancels += order.len() as u64;
    }
}

impl<S: Sharded> ShardLoad<'_, S> {
    /// One round of whole lives.
    pub fn lives(&mut self, life: Life) -> Sample {
        self.sample = Sample::default();
        let passes = if life.is_of_beats() { 1 } else { shard_passes(self.total()) };
        for _ in 0..passes {
            self.live(life);
        }
        self.sample
    }

    /// One pass of whole lives: from an empty queue to an empty queue.
    pub fn live(&mut self, life: Life) {
        let mut begun = self.drawn(1);
        let clock = self.clock;
        let (arrived, is_broken) = (AtomicUsize::new(0), AtomicBool::new(false));
        let (threads, beats) = (self.threads, life.beats(self.total()));
        let together = Together { clock, threads, beats, arrived, is_broken };
        let members = self.members(&mut begun, &together, life);
        let samples = each_in_its_thread(clock, members, &|member| member.live(life));
        samples.iter().for_each(|sample| self.sample.add(sample));
        self.end_pass();
    }

    /// The threads, each with its part of the sessions and of the shards, and with draws of its own.
    fn members<'m>(&'m mut self, begun: &'m mut [Begun], together: &'m Together, life: Life) -> Vec<Member<'m, S>> {
        let (now, threads, shards, mut rest) = (self.now, self.threads, self.queue.shards(), begun);
        let total = rest.len();
        let mut members = Vec::with_capacity(threads);
        for (thread, toucher) in self.touchers.iter_mut().enumerate() {
            let begun = rest.split_off_mut(..part(total, thread, threads).len()).expect("a part of the sessions");
            if life.is_of_beats() {
                let steps = steps(begun.len());
                begun.iter_mut().zip(steps).for_each(|(begun, step)| begun.deadline = now + step + IDLE);
            }
            members.push(Member {
                queue: &self.queue,
                toucher,
                together,
                waits: 0,
                is_first: thread == 0,
                now,
                keys: Vec::with_capacity(begun.len()),
                begun,
                shards: part(shards, thread, threads),
                draws: SplitMix64::new(self.draws.draw()),
                gone: Gone::default(),
                sample: Sample::default(),
            });
        }
        members
    }
}

/// Does each work in a thread of its own, or in this one if it is alone.
fn each_in_its_thread<W: Send>(clock: &dyn Clock, works: Vec<W>, call: &(impl Fn(W) -> Sample + Sync)) -> Vec<Sample> {
    if works.len() == 1 {
        return works.into_iter().map(call).collect();
    }
    let run = |work: W| {
        let (mut work, mut sample) = (Some(work), Sample::default());
        clock.within(&mut || sample = call(work.take().expect("the clock runs what it is given once")));
        sample
    };
    let run = &run;
    thread::scope(|scope| {
        let running: Vec<_> = works.into_iter().map(|work| scope.spawn(move || run(work))).collect();
        running.into_iter().map(|thread| thread.join().expect("a thread ends")).collect()
    })
}
