//! How late entries of the shared queue come out beside tasks and threads that sleep, while eight threads use the queue.
//!
//! Each test run makes a short one. A whole one prints the rows of bench/results/late.tsv:
//! `HONTKHALE_SOAK_SECONDS=600 cargo test --release --test late -- --nocapture`.

mod common;

use common::{ms, threaded, Dice};
use hontkhale::DelayQueue;
use std::sync::atomic::{AtomicU64, Ordering::SeqCst};
use std::thread;
use std::time::{Duration, Instant};

const SERVERS: u64 = 8;
const RECEIVERS: u64 = 2;
const TASKS: u64 = 64;

/// How long it takes, a second where nobody says.
fn length() -> Duration {
    let seconds = std::env::var("HONTKHALE_SOAK_SECONDS").ok().and_then(|it| it.parse().ok());
    Duration::from_secs(seconds.unwrap_or(1))
}

/// The microseconds that have passed since a moment, which has come.
fn late(moment: Instant) -> u64 {
    Instant::now().checked_duration_since(moment).expect("it is early").as_micros() as u64
}

/// Prints how often something came, and by how many microseconds it was late: half of the times, 99 of 100, and at most.
fn tell(name: &str, mut late: Vec<u64>) {
    late.sort_unstable();
    let at = |share: f64| late[((late.len() - 1) as f64 * share) as usize];
    println!("{name}\t{}\t{}\t{}\t{}", late.len(), at(0.5), at(0.99), at(1.0));
}

/// What came in, and what of it was cancelled.
#[derive(Default)]
struct Counts {
    inserted: AtomicU64,
    cancelled: AtomicU64,
}

/// Puts entries in, which come out within two seconds, and extends or cancels some.
fn serve(queue: &DelayQueue<u64>, counts: &Counts, until: Instant, seed: u64) {
    let mut dice = Dice(0xd1b5_4a32_d192_ed03 ^ (seed + 1) << 11);
    while Instant::now() < until {
        let key = queue.insert(seed, ms(dice.below(2_000))).expect("a queue grows");
        counts.inserted.fetch_add(1, SeqCst);
        match dice.below(8) {
            0 => drop(queue.extend(&key, ms(dice.below(2_000)))),
            1 if queue.cancel(&key).is_ok() => drop(counts.cancelled.fetch_add(1, SeqCst)),
            _ => {}
        }
        thread::sleep(Duration::from_micros(dice.below(1_000)));
    }
}

/// By how much each entry is late that comes out, until the queue is closed.
fn receive(queue: &DelayQueue<u64>) -> Vec<u64> {
    queue.iter().map(|expired| late(expired.deadline)).collect()
}

/// By how much tokio's sleep is late, in tasks of their own.
fn sleeping_tasks(until: Instant) -> Vec<u64> {
    let task = |seed: u64| async move {
        let (mut dice, mut times) = (Dice(0x9e37_79b9_7f4a_7c15 ^ (seed + 1) << 11), Vec::new());
        while Instant::now() < until {
            let moment = Instant::now() + ms(1 + dice.below(2_000));
            tokio::time::sleep_until(moment.into()).await;
            times.push(late(moment));
        }
        times
    };
    let runtime = threaded(RECEIVERS as usize);
    let tasks: Vec<_> = (0..TASKS).map(|seed| runtime.spawn(task(seed))).collect();
    tasks.into_iter().flat_map(|task| runtime.block_on(task).expect("a task")).collect()
}

/// By how much a thread is late that sleeps.
fn sleeping_thread(until: Instant) -> Vec<u64> {
    let (mut dice, mut times) = (Dice(0xbf58_476d_1ce4_e5b9), Vec::new());
    while Instant::now() < until {
        let moment = Instant::now() + ms(1 + dice.below(20));
        thread::sleep(moment - Instant::now());
        times.push(late(moment));
    }
    times
}

#[test]
fn entries_are_late_by_no_more_than_the_machine() {
    let until = Instant::now() + length();
    let (queue, counts) = (&DelayQueue::new(), &Counts::default());
    let received = thread::scope(|scope| {
        let receivers: Vec<_> = (0..RECEIVERS).map(|_| scope.spawn(|| receive(queue))).collect();
        let tasks = scope.spawn(move || sleeping_tasks(until));
        let sleeper = scope.spawn(move || sleeping_thread(until));
        let servers: Vec<_> = (0..SERVERS).map(|seed| scope.spawn(move || serve(queue, counts, until, seed))).collect();
        servers.into_iter().for_each(|server| server.join().expect("a server"));
        while !queue.is_empty() {
            thread::sleep(ms(1));
        }
        queue.close();
        tell("a task in tokio's sleep", tasks.join().expect("the tasks"));
        tell("a thread in std's sleep", sleeper.join().expect("a sleeper"));
        receivers.into_iter().flat_map(|it| it.join().expect("a receiver")).collect::<Vec<_>>()
    });
    let ended = received.len() as u64 + counts.cancelled.load(SeqCst);
    assert_eq!(ended, counts.inserted.load(SeqCst), "each entry ends once");
    tell("an entry of the queue", received);
}
