#![doc = include_str!("../README.md")]
#![warn(missing_docs)]
#![forbid(unsafe_code)]

mod budget;
mod clock;
mod entries;
mod handle;
mod idle;
mod key;
mod key_sleep;
mod numbers;
mod queue;
mod shared;
pub mod shared_queue;
mod stream;
#[cfg(test)]
mod tests;
mod timer;

pub use handle::{EntryError, Handle};
pub use hontkhale;
pub use idle::{IdleTimeout, IdleTimeouts};
pub use numbers::Numbers;
pub use queue::DelayQueue;
pub use shared_queue::SharedQueue;

/// The types beside [`DelayQueue`], under the name of the module in which tokio_util has them.
pub mod delay_queue {
    pub use crate::key::{Expired, Key};
    pub use crate::queue::DelayQueue;
}
