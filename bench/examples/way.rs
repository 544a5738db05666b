//! A life of one entry of a warm `DelayQueue`: `bench/count --way` counts the calls within `down` and `up`.

use hontkhale::DelayQueue;
use std::sync::atomic::{AtomicU64, Ordering::SeqCst};
use std::sync::OnceLock;
use std::time::{Duration, Instant};

static START: OnceLock<Instant> = OnceLock::new();
static READINGS: AtomicU64 = AtomicU64::new(0);

/// Each reading is a millisecond later, so that an entry is due once it is looked for, and all runs are alike.
fn now() -> Instant {
    *START.get_or_init(Instant::now) + Duration::from_millis(READINGS.fetch_add(1, SeqCst))
}

#[inline(never)]
fn down(queue: &DelayQueue<String>, value: String) {
    queue.insert(value, Duration::ZERO).expect("room");
}

#[inline(never)]
fn up(queue: &DelayQueue<String>) -> Option<String> {
    Some(queue.recv()?.value)
}

fn main() {
    let queue = DelayQueue::builder().read_clock(now).build();
    for value in ["warms", "warms too"] {
        queue.insert(value.to_string(), Duration::ZERO).expect("room");
        assert_eq!(queue.recv().expect("it is due").value, value);
    }
    down(&queue, "counted".to_string());
    assert_eq!(up(&queue).as_deref(), Some("counted"));
}
