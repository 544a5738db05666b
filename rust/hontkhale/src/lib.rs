//! A delay queue on a hierarchical timing wheel: a value goes in with a deadline, and comes out once the deadline is
//! reached. Any thread extends and cancels entries without a lock.
//!
#![cfg_attr(feature = "std", doc = "```")]
#![cfg_attr(not(feature = "std"), doc = "```ignore")]
//! use hontkhale::DelayQueue;
//! use std::thread;
//! use std::time::Duration;
//!
//! let queue = DelayQueue::new();
//! let lease = queue.insert("lease", Duration::from_millis(30))?;
//!
//! let holder = queue.clone();
//! let extended = thread::spawn(move || holder.extend(&lease, Duration::from_millis(45)));
//! let deadline = extended.join().unwrap()?;
//!
//! let expired = queue.recv().expect("the queue is open");
//! assert_eq!((expired.value, expired.deadline), ("lease", deadline));
//! # Ok::<(), Box<dyn std::error::Error>>(())
//! ```
//!
//! | To | Take |
//! |---|---|
//! | insert, extend, cancel and receive, from any thread | a [`DelayQueue`], of which each clone is the same queue, and [`Key`]s |
//! | receive in a thread or a task that ends with its senders | a [`Receiver`] |
//! | extend and cancel without the queue's type | a [`Handle`] |
//! | take an entry out where a scope ends | a [`Timeout`], made by [`DelayQueue::guard`] |
//! | bound a queue, or test with a clock that stands still | a [`Builder`], a [`ManualClock`] |
//! | watch a queue | [`Stats`], and [`Metrics`] for a library of them |
//!
//! A call that is refused says why, by an [`InsertError`], which has the value, a [`KeyError`], a [`TryRecvError`] or a
//! [`RecvTimeoutError`]. [`iter`] has the iterators.
//!
//! [`parts`] has what the queue is made of: the proved queues for one owner and for an embedded program.
//!
//! # What is proved
//!
//! The [`parts`] are written in Rattle, which is Rust with contracts, and each of their functions is proved. This crate is
//! that source with its contracts erased by a script. So the script and rustc are trusted, and so is the plain Rust by hand
//! beside the erased code, which the README lists: the locks, memory and the shared words among it. The script's own page
//! has one function side by side, and what it rewrites.
//!
//! [`DelayQueue`] shares proved shards among threads by code that is written by hand, and tested.
//!
//! # Features
//!
//! `std` is on by default. Without it the crate has no std, but alloc, and of the [`parts`] the queue of one owner, and
//! callers.
//!
//! `all-parts` adds the [`parts`] that a [`DelayQueue`] has no use for: the timing wheel alone, and with `std` shards
//! behind locks, streams, a cache, sessions and the replay of scripts.
//!
//! `proved-bounds` turns off the bounds checks that the proofs have made idle, in one module of four functions, which
//! has the only `unsafe` of the crate. It is sound, since what the proofs require of a caller is required of nobody
//! outside: such a function is inside the crate, or checks it in every build. Without the feature the crate forbids
//! `unsafe`.
//!
//! # Memory and panics
//!
//! If memory is refused, a call returns `NoMemory`. There is one exception: a row of shared words takes an `Arc` of few
//! bytes when it is made, and std aborts if that is refused. A panic doesn't poison a lock: whatever panics in a
//! program's own code, a shard stays whole.
#![cfg_attr(not(feature = "std"), no_std, allow(rustdoc::broken_intra_doc_links))]
#![cfg_attr(not(feature = "proved-bounds"), forbid(unsafe_code))]
#![cfg_attr(feature = "proved-bounds", deny(unsafe_code))]
#![warn(missing_docs, missing_debug_implementations)]
// The erased modules keep the shape and the names of what was proved.
#![allow(
    clippy::enum_variant_names,
    clippy::manual_find,
    clippy::manual_map,
    clippy::match_like_matches_macro,
    clippy::module_inception,
    clippy::question_mark,
    clippy::redundant_pattern_matching
)]

extern crate alloc;

#[cfg(feature = "all-parts")]
mod checked_wheel;
#[cfg(feature = "std")]
mod clock;
mod debug;
#[cfg(feature = "std")]
mod delay_queue;
mod entries;
mod fresh;
#[cfg(feature = "std")]
mod hasher;
mod index;
#[cfg(feature = "std")]
mod locks;
mod memory;
pub mod parts;
mod refused;

#[cfg(all(feature = "std", feature = "all-parts"))]
mod apps;
#[cfg(feature = "std")]
mod bell;
mod core;
#[cfg(feature = "std")]
mod growing;
#[cfg(all(feature = "std", feature = "all-parts"))]
mod replay;
#[cfg(all(feature = "std", feature = "all-parts"))]
mod shards;
#[cfg(all(feature = "std", feature = "all-parts"))]
mod stream;
mod ticks;
mod wheels;
mod words;

#[cfg(feature = "std")]
pub use crate::delay_queue::{
    Builder, DelayQueue, Expired, Handle, InsertError, InsertErrorKind, Key, KeyError, ManualClock, Metrics, Receiver,
    RecvTimeoutError, Stats, Timeout, TryRecvError,
};

#[cfg(feature = "std")]
pub mod iter {
    //! The iterators of a [`DelayQueue`](crate::DelayQueue).

    pub use crate::delay_queue::{Drain, Iter, TryIter};
}

// Tests of the proved parts, which keep the shape of the tests in Rattle from which they were erased once
// and which are written by hand since.
#[cfg(all(test, feature = "std", feature = "all-parts"))]
#[rustfmt::skip]
mod tests;

#[cfg(all(doctest, feature = "std"))]
#[doc = include_str!("../README.md")]
struct Page;
