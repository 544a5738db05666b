//! Who sleeps, by index, each with the `W` that wakes it.

use crate::index::{nth, nth_mut};
use crate::memory::{AllocError, TryPush};
use alloc::vec::Vec;

/// One that was called out of its sleep. Whoever has it wakes it, with no lock held.
#[must_use = "it sleeps on until it is woken"]
pub struct Call<W>(pub W);

/// Who sleeps.
pub(crate) struct Sleepers<W> {
    calls: Vec<Option<W>>,
}

impl<W> Sleepers<W> {
    /// Nobody.
    pub fn new(calls: Vec<Option<W>>) -> Sleepers<W> {
        // requires length calls.items ≡ 0
        Sleepers { calls }
    }

    /// Whether the one at an index sleeps.
    pub fn sleeps_at(&self, at: usize) -> bool {
        at < self.calls.len() && nth(&self.calls, at).is_some()
    }

    /// Takes the one at an index out, where it sleeps.
    pub fn take(&mut self, at: usize) -> Option<W> {
        if at < self.calls.len() {
            nth_mut(&mut self.calls, at).take()
        } else {
            None
        }
    }

    /// The same, as a call.
    pub fn call(&mut self, at: usize) -> Option<Call<W>> {
        match self.take(at) {
            Some(call) => Some(Call(call)),
            None => None,
        }
    }
}

// Keeps what was taken out, for which there is room.
fn keep<W>(taken: &mut Vec<W>, call: Option<W>) {
    // requires vec_len taken.old < vec_capacity taken.old
    if let Some(call) = call {
        taken.push(call);
    }
}

impl<W> Sleepers<W> {
    /// The one at an index sleeps.
    pub fn put(&mut self, at: usize, call: W) {
        // requires at < length self.old
        *nth_mut(&mut self.calls, at) = Some(call);
    }

    /// Room for the one at an index, where there was room for all before it.
    pub fn grow(&mut self, at: usize) -> Result<(), AllocError> {
        if at >= self.calls.len() {
            self.calls.try_push(None)?;
        }
        Ok(())
    }

    /// Takes all that sleep out.
    pub fn take_all(&mut self, taken: &mut Vec<W>) -> Result<(), AllocError> {
        let count = self.calls.len();
        taken.try_reserve(count)?;
        for at in 0..count {
            keep(taken, self.take(at));
        }
        Ok(())
    }

    /// Calls one of those that sleep, and leaves the others asleep. Where it answers `None` nobody slept.
    pub fn call_last(&mut self) -> Option<Call<W>> {
        while let Some(call) = self.calls.pop() {
            if let Some(call) = call {
                return Some(Call(call));
            }
        }
        None
    }
}
