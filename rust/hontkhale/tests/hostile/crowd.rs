//! Four handles and four pollers at work at once, and what the audit says of it.

use super::fates::{config, Counts, Fates};
use super::numbers::{Gate, Numbers};
use super::owners::Owner;
use super::strangers::Stranger;
use super::Fail;
use hontkhale::parts::owner::{Turn, LAST_TICK};
use hontkhale::parts::shards::{Handle, SharedDelayQueue, Totals};
use std::sync::atomic::AtomicU64;
use std::thread;

// The threads of each kind.
const EACH: u64 = 4;

// The calls of each thread.
const CALLS: u64 = 250_000;

// What a thread does, with its seed.
enum Job {
    FillAndPoll(u64),
    Call(Handle, u64),
}

// What a crowd shares.
struct Crowd<'q> {
    queue: &'q Numbers,
    now: AtomicU64,
    gate: Gate,
}

impl Crowd<'_> {
    // What a thread was told, and what it counted. None where it waits in vain for the others.
    fn work(&self, job: Job) -> Option<(Fates, Counts)> {
        match job {
            Job::FillAndPoll(seed) => {
                let owner = Owner::new(self.queue, &self.now, seed);
                self.gate.pass(2 * EACH).then(|| owner.work(CALLS))
            }
            Job::Call(handle, seed) => {
                let stranger = Stranger::new(handle, &self.now, seed);
                self.gate.pass(2 * EACH).then(|| stranger.work(CALLS))
            }
        }
    }
}

// What all threads were told, and what they counted.
fn work(queue: &Numbers) -> Result<(Fates, Counts), Fail> {
    let mut jobs = Vec::new();
    for seed in 0..EACH {
        jobs.push(Job::FillAndPoll(seed));
        jobs.push(Job::Call(queue.handle()?, seed));
    }
    let crowd = Crowd {
        queue,
        now: AtomicU64::new(0),
        gate: Gate::new(),
    };
    let crowd = &crowd;
    let told: Vec<_> = thread::scope(|scope| {
        let running: Vec<_> = jobs
            .into_iter()
            .map(|job| scope.spawn(move || crowd.work(job)))
            .collect();
        running
            .into_iter()
            .map(|thread| thread.join().expect("a thread"))
            .collect()
    });
    let (mut fates, mut counts) = (Fates::new(), Counts::default());
    for done in told {
        let (theirs, counted) = done.ok_or("a thread waited in vain")?;
        fates.add(&theirs);
        counts.add(&counted);
    }
    Ok((fates, counts))
}

// Polls at the last tick until nothing is linked. How many entries come out.
fn drain(queue: &Numbers, shard: usize) -> Option<u64> {
    let mut outs = 0u64;
    for _ in 0..=config().capacity {
        match queue.poll(shard, LAST_TICK).ok()? {
            Turn::Out(_) => outs = outs.saturating_add(1),
            Turn::Idle => return Some(outs),
            Turn::Waiting { .. } => return None,
        }
    }
    None
}

fn live(counts: &Counts) -> Option<u64> {
    counts
        .inserted
        .checked_sub(counts.expired)?
        .checked_sub(counts.removed)?
        .checked_sub(counts.cancelled)
}

// The totals are what the threads counted, and the entries that they say are live come out.
fn adds_up(queue: &Numbers, counts: &Counts) -> Result<(), Fail> {
    let Some(live) = live(counts) else {
        panic!("more ended than was inserted: {counts:?}")
    };
    let totals = Totals {
        inserted: counts.inserted,
        expired: counts.expired,
        removed: counts.removed,
        cancelled: counts.cancelled,
        live,
    };
    assert_eq!(queue.audit(), Ok(totals));
    let mut outs = 0u64;
    for shard in 0..queue.shards() {
        let Some(drained) = drain(queue, shard) else {
            panic!("shard {shard} came to no end")
        };
        outs += drained;
    }
    assert_eq!(outs, live);
    let drained = Totals {
        expired: counts.expired.saturating_add(live),
        live: 0,
        ..totals
    };
    assert_eq!(queue.audit(), Ok(drained));
    Ok(())
}

// promise: shards.entry-ends
#[test]
fn four_handles_and_four_pollers() -> Result<(), Fail> {
    // On a busy machine the threads may run one after the other, and no handle meets a live entry: such a run is made
    // again.
    for _ in 0..10 {
        let queue = SharedDelayQueue::new(config())?;
        let (fates, counts) = work(&queue)?;
        assert_eq!(counts.odd, 0);
        assert!(fates.are_kept());
        assert!(fates.reach_the_last_stamp());
        assert!(counts.inserted > 0 && counts.expired > 0 && counts.removed > 0);
        adds_up(&queue, &counts)?;
        if counts.cancelled > 0 && counts.extended > 0 {
            return Ok(());
        }
    }
    panic!("no handle met a live entry in ten runs")
}
