//! A queue of one owner, and what its values may do to it: each is dropped once, whatever it is and whatever its drop
//! does. Polls and sweeps in pieces are compared with whole ones.

// The tests ask for a newer Rust than the crate, and an error is shown without the value that came back.
#![allow(clippy::incompatible_msrv, clippy::ok_expect)]

/// What is due, one entry after the other.
macro_rules! due {
    ($queue:expr, $now:expr) => {
        std::iter::from_fn(|| match $queue.poll($now) {
            Ok(Turn::Out(expired)) => Some(expired),
            _ => None,
        })
    };
}

#[path = "one_owner/drops.rs"]
mod drops;
#[path = "one_owner/keys.rs"]
mod keys;
#[path = "one_owner/pieces.rs"]
mod pieces;
#[path = "one_owner/values.rs"]
mod values;
