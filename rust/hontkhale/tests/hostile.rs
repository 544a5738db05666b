//! Hostile use of a queue of shards: threads that race, worn stamps, and forged keys.

#![allow(clippy::incompatible_msrv, clippy::needless_range_loop)]

#[path = "hostile/chains.rs"]
mod chains;
#[path = "hostile/clears.rs"]
mod clears;
#[path = "hostile/crowd.rs"]
mod crowd;
#[allow(dead_code)]
#[path = "models/draw.rs"]
mod draw;
#[path = "hostile/extends.rs"]
mod extends;
#[path = "hostile/fates.rs"]
mod fates;
#[path = "hostile/first_callers.rs"]
mod first_callers;
#[path = "hostile/folds.rs"]
mod folds;
#[path = "hostile/forged.rs"]
mod forged;
#[path = "hostile/numbers.rs"]
mod numbers;
#[path = "hostile/owners.rs"]
mod owners;
#[path = "hostile/piece_threads.rs"]
mod piece_threads;
#[path = "hostile/strangers.rs"]
mod strangers;
#[path = "hostile/worn.rs"]
mod worn;

use std::thread;

/// Runs both at once, each in a thread of its own, and waits for both.
fn join<A: Send, B>(one: impl FnOnce() -> A + Send, other: impl FnOnce() -> B) -> (A, B) {
    thread::scope(|scope| {
        let one = scope.spawn(one);
        let other = other();
        (one.join().expect("a thread"), other)
    })
}

/// Why a test fails.
type Fail = Box<dyn std::error::Error + Send + Sync>;
