//! Random calls beside slow models: lists that are searched at each call, written from what the calls promise. The queue
//! of one owner has one, with every total and each entry's place; so has the cache. The queue has its plain twin beside
//! it too, and a shard that is polled in pieces one that is polled whole.
//!
//! The seeds are fixed. `HONTKHALE_CALLS=1000000` makes a million calls of each queue.

// The tests ask for a newer Rust than the crate, and an error is shown without the value that came back.
#![allow(clippy::incompatible_msrv, clippy::ok_expect)]

#[path = "slow/cache.rs"]
mod cache;
#[path = "slow/cache_calls.rs"]
mod cache_calls;
#[allow(dead_code)]
#[path = "models/draw.rs"]
mod draw;
#[path = "slow/model_and_twin.rs"]
mod model_and_twin;
#[path = "slow/piece_twins.rs"]
mod piece_twins;
#[path = "slow/pieces.rs"]
mod pieces;
#[path = "slow/queue.rs"]
mod queue;
#[path = "slow/same_calls.rs"]
mod same_calls;
#[path = "models/value.rs"]
mod value;

/// Why a test fails.
type Fail = Box<dyn std::error::Error + Send + Sync>;
