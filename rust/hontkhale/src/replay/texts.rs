//! The texts of answers, each line with its end.

use crate::memory::{text_of, AllocError, TryPushStr};
use crate::replay::name::Name;
use crate::replay::session::Lease;
use alloc::string::String;

pub fn at_text(name: &Name, deadline: u64) -> Result<String, AllocError> {
    text_of(format_args!("{name} at {deadline}\n"))
}

pub fn cancelled_text(name: &Name, deadline: u64) -> Result<String, AllocError> {
    text_of(format_args!("{name} cancelled {deadline}\n"))
}

pub fn removed_text(name: &Name, deadline: u64) -> Result<String, AllocError> {
    text_of(format_args!("{name} removed {deadline}\n"))
}

pub fn live_text(count: usize) -> Result<String, AllocError> {
    text_of(format_args!("live {count}\n"))
}

pub fn cleared_text(count: usize) -> Result<String, AllocError> {
    text_of(format_args!("cleared {count}\n"))
}

/// The answer of a refused command.
pub fn refusal_text(reason: &str) -> Result<String, AllocError> {
    text_of(format_args!("refused {reason}\n"))
}

/// The lines of the names that expire at a tick, and the line of the tick.
pub fn tick_text(due: &[Lease], now: u64) -> Result<String, AllocError> {
    let mut text = String::new();
    for lease in due {
        let expired = expired_text(lease)?;
        text.try_push_str(&expired)?;
    }
    let last = last_text(now)?;
    text.try_push_str(&last)?;
    Ok(text)
}

fn expired_text(lease: &Lease) -> Result<String, AllocError> {
    let name = &lease.name;
    let deadline = lease.deadline;
    text_of(format_args!("{name} expired {deadline}\n"))
}

fn last_text(now: u64) -> Result<String, AllocError> {
    text_of(format_args!("tick {now}\n"))
}
