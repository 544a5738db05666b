//! Calls that fail are tried again, after twice as long each time and a jitter, so that they don't come all at once.

use hontkhale::DelayQueue;
use std::collections::hash_map::RandomState;
use std::hash::BuildHasher;
use std::time::Duration;

#[derive(Debug)]
pub struct Call {
    pub to: String,
    pub tries: u32,
}

/// Half to all of `base` times 2 to the number of tries.
pub fn backoff(base: Duration, tries: u32) -> Duration {
    let whole = base * 2_u32.pow(tries.min(10));
    let drawn = RandomState::new().hash_one(tries) % 1_000;
    whole / 2 + whole / 2 * drawn as u32 / 1_000
}

/// Makes a call that is due, and puts it back where it fails. Returns one that has failed `most` times.
pub fn attempt(calls: &DelayQueue<Call>, mut call: Call, most: u32, succeeds: impl Fn(&Call) -> bool) -> Option<Call> {
    call.tries += 1;
    if succeeds(&call) {
        return None;
    }
    if call.tries >= most {
        return Some(call);
    }
    let after = backoff(Duration::from_millis(20), call.tries);
    calls.insert(call, after).err().map(|refused| refused.into_inner())
}

#[allow(dead_code)]
fn main() {
    let calls = DelayQueue::new();
    calls.insert(Call { to: "mail".into(), tries: 0 }, Duration::ZERO).expect("an open queue");
    let failed = calls.iter().find_map(|due| attempt(&calls, due.value, 5, |call| call.to != "mail"));
    println!("{failed:?}");
}
