//! The line of those that wait, which lies under a lock of its own.
//!
//! The first in line leads: it alone sleeps until a tick, by the bell's rule. Those behind it sleep until they are
//! called. When the first leaves, the next one leads and is called in the same step, so nobody sleeps behind one that
//! has left. Who sleeps leaves a `W` in the line, such as a thread or a task's waker; a call takes it out, and whoever
//! has the `Call` wakes it once the lock is released. No code of `W` runs under the lock.

use crate::bell::closer::Closer;
use crate::bell::hint::{Hint, Hints, Rung};
use crate::bell::leader::Leader;
use crate::bell::roll::Roll;
use crate::bell::sleepers::{Call, Sleepers};
use crate::memory::AllocError;
use alloc::vec::Vec;

/// Who waits at a bell, each by an index of its own.
pub struct Line<W> {
    leader: Leader,
    closer: Closer,
    roll: Roll,
    sleepers: Sleepers<W>,
}

impl<W> Line<W> {
    /// A bell for at most so many places, with nobody in line.
    ///
    /// # Errors
    ///
    /// `AllocError` where memory is refused.
    pub fn new(places: usize) -> Result<Line<W>, AllocError> {
        // requires places < 65535
        let roll = Roll::new(Vec::new(), Vec::new());
        let sleepers = Sleepers::new(Vec::new());
        let mut leader = Leader::new(places + 1)?;
        let hint = leader.add_place()?;
        Ok(Line {
            leader,
            closer: Closer::new(hint),
            roll,
            sleepers,
        })
    }
}

impl<W> Line<W> {
    /// The hint of one place more.
    ///
    /// # Errors
    ///
    /// `AllocError` where memory is refused.
    pub fn add_place(&mut self) -> Result<Hint, AllocError> {
        // requires self.old.leader.dealt < self.old.leader.places
        self.leader.add_place()
    }

    /// The hints of all places, that of the closing first, for whoever doesn't lock the line.
    ///
    /// # Errors
    ///
    /// `AllocError` where memory is refused.
    pub fn hints(&self) -> Result<Hints, AllocError> {
        self.leader.hints()
    }

    /// The one that leads.
    pub fn first(&self) -> Option<usize> {
        self.roll.first()
    }

    /// Whether one is the one that leads.
    pub fn is_first(&self, at: usize) -> bool {
        self.roll.is_first(at)
    }

    /// Whether one sleeps.
    pub fn sleeps_at(&self, at: usize) -> bool {
        self.sleepers.sleeps_at(at)
    }

    /// How many indexes there are.
    pub fn len(&self) -> usize {
        self.roll.len()
    }

    /// It woke by itself: gives its `W`, where it slept. One that leads isn't rung any more.
    pub fn rise(&mut self, at: usize) -> Option<W> {
        if !self.roll.is_first(at) {
            return self.sleepers.take(at);
        }
        self.leader.rise();
        self.sleepers.take(at)
    }

    /// One that is awake leaves the line. Where it led, the one that leads from now on is called.
    pub fn leave(&mut self, at: usize) -> Option<Call<W>> {
        // requires IsAwakeAt self.old.sleeps at
        if !self.roll.is_in_line(at) {
            return None;
        }
        if !self.roll.is_first(at) {
            self.roll.leave(at);
            return None;
        }
        self.roll.leave(at);
        let next = self.roll.first()?;
        self.sleepers.call(next)
    }

    /// One that is awake takes the lead, and the one that led leaves the line: it gives what was to wake that one.
    pub fn overtake(&mut self, at: usize, first: usize) -> Option<W> {
        // requires first_in self.old.roll ≡ Some first
        // requires StandsInLine self.old.roll at
        // requires first ≢ at
        // requires IsAwakeAt self.old.sleeps at
        self.leader.rise();
        let slept = self.sleepers.take(first);
        self.roll.hand_lead(at, first);
        slept
    }

    /// Calls the one that leads, where it was rung.
    pub fn ring(&mut self, rung: Rung) -> Option<Call<W>> {
        if !rung.is_leader() {
            return None;
        }
        let first = self.roll.first()?;
        self.sleepers.call(first)
    }
}

impl<W> Line<W> {
    // Room for one more in line.
    fn make_room(&mut self) -> Result<(), AllocError> {
        if self.roll.has_free() {
            return Ok(());
        }
        self.sleepers.grow(self.roll.len())?;
        self.roll.grow()
    }

    /// Joins the line, awake, and gives the index there. Where nobody waited it leads.
    ///
    /// # Errors
    ///
    /// `AllocError` where memory is refused.
    pub fn join(&mut self) -> Result<usize, AllocError> {
        self.make_room()?;
        Ok(self.roll.join())
    }

    /// Falls asleep until it is called, and the first in line at most until a tick. Refused, with its `W`, where it
    /// isn't in line or sleeps already, where the bell is closed, and where the first found a hint before that tick.
    pub fn sleep(&mut self, at: usize, until: u64, call: W) -> Result<(), W> {
        if self.closer.is_closed() {
            return Err(call);
        }
        if !self.roll.is_in_line(at) {
            return Err(call);
        }
        if self.sleepers.sleeps_at(at) {
            return Err(call);
        }
        if !self.roll.is_first(at) {
            self.sleepers.put(at, call);
            return Ok(());
        }
        if !self.leader.may_sleep(until) {
            return Err(call);
        }
        self.sleepers.put(at, call);
        Ok(())
    }

    /// All that sleep rise, and one that leads isn't rung any more.
    pub fn rise_all(&mut self, risen: &mut Vec<W>) -> Result<(), AllocError> {
        self.sleepers.take_all(risen)?;
        self.leader.rise();
        Ok(())
    }

    /// Closes for good, and calls one of those that sleep: it is to be called until it answers `None`.
    pub fn close(&mut self) -> Option<Call<W>> {
        let _ = self.closer.close().is_leader();
        self.sleepers.call_last()
    }
}
