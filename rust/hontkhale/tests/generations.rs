//! Queues that go through many generations: each entry ends once, no old key reaches a new entry, and the totals add up.

#![allow(clippy::incompatible_msrv)]

#[path = "generations/renewals.rs"]
mod renewals;

/// Why a test fails.
type Fail = Box<dyn std::error::Error + Send + Sync>;
