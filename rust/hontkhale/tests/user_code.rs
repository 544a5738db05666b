//! What happens where code of the user runs inside a call, and panics there or calls the queue once more: one test
//! for each kind of code and each call that runs it.
//!
//! Each test runs in a thread of its own and has a time limit of its own, so that one that hangs is seen to fail.

// The tests ask for a newer Rust than the crate, and an error is shown without the value that came back.
#![allow(clippy::incompatible_msrv, clippy::ok_expect)]

#[path = "user_code/cache_keys.rs"]
mod cache_keys;
#[path = "user_code/deferred.rs"]
mod deferred;
#[path = "user_code/drops_that_call.rs"]
mod drops_that_call;
#[path = "user_code/drops_that_defer.rs"]
mod drops_that_defer;
#[path = "user_code/drops_that_panic.rs"]
mod drops_that_panic;
#[path = "user_code/each_place.rs"]
mod each_place;
#[path = "user_code/kit.rs"]
mod kit;
#[path = "user_code/owner_drops.rs"]
mod owner_drops;
#[path = "user_code/wakers_that_call.rs"]
mod wakers_that_call;
#[path = "user_code/wakes.rs"]
mod wakes;

mod swapped_shards {
    //! The states of two shards are swapped by whoever has both in hand.

    use super::kit::{panics, queue, within_the_limit, Drops};
    use std::mem;

    // No call goes on with another shard's state: it panics, and says why.
    #[test]
    fn a_swapped_shard_panics_in_words() {
        within_the_limit(|| {
            let queue = queue();
            let swapped = queue.lend(0, |first| queue.lend(1, |second| mem::swap(first, second)));
            assert_eq!(swapped, Ok(Ok(())));
            assert!(panics(|| queue.tally(0)).contains("another shard"));
            assert!(panics(|| queue.tally(1)).contains("another shard"));
        });
    }

    #[test]
    fn a_shard_that_was_swapped_in_hand_panics_in_words() {
        within_the_limit(|| {
            let queue = queue();
            let (mut first, mut second) = (queue.enter(0).expect("a shard"), queue.enter(1).expect("a shard"));
            mem::swap(&mut *first, &mut *second);
            drop((first, second));
            assert!(panics(|| queue.tally(0)).contains("another shard"));
            assert!(panics(|| queue.insert(1, Drops::default().value(), 5)).contains("another shard"));
        });
    }
}
