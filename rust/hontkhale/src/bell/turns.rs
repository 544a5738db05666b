//! Who waits takes turns in the lead, threads and tasks in one line.
//!
//! A thread that is called runs, but a task runs only where its runtime polls it. So a task that leads is to act by its
//! tick and a grace. As soon as a task has waited, those that follow sleep for a while at most, and behind a task that
//! leads only until it is to have acted. Who finds then that it hasn't takes the lead from it. Each stay in line has a
//! number, so that one who has lost its seat touches nobody else's.

use crate::bell::hint::{Hint, Hints, Rung};
use crate::bell::line::Line;
use crate::bell::sleepers::Call;
use crate::bell::NEVER;
use crate::index::{nth, nth_mut};
use crate::memory::{AllocError, TryPush};
use alloc::vec::Vec;

/// By how many ticks a task that leads may be late.
pub(crate) const GRACE: u64 = 50;

/// For how many ticks one that follows sleeps at most, once a task has waited.
pub(crate) const WATCH: u64 = 1000;

/// A seat in line: the index there, and the number of this stay.
#[derive(Clone, Copy)]
pub struct Seat {
    at: usize,
    number: u64,
}

/// Who sits at an index.
#[derive(Clone, Copy)]
pub(crate) struct Sitter {
    /// The number of the stay, 0 where nobody sits.
    number: u64,
    is_task: bool,
    /// The tick by which a task that leads is to have acted. A thread acts.
    act_by: u64,
}

/// Who sits where.
pub(crate) struct Sitters {
    row: Vec<Sitter>,
}

impl Sitter {
    fn nobody() -> Sitter {
        Sitter {
            number: 0,
            is_task: false,
            act_by: NEVER,
        }
    }
}

impl Sitters {
    // Who sits at an index.
    fn at(&self, at: usize) -> Sitter {
        if at < self.row.len() {
            return *nth(&self.row, at);
        }
        Sitter::nobody()
    }

    // Another one sits at an index, or nobody.
    fn put(&mut self, at: usize, sitter: Sitter) {
        if at < self.row.len() {
            *nth_mut(&mut self.row, at) = sitter;
        }
    }

    // The one that leads acts from a tick on: a task by a tick.
    fn lead_from(&mut self, first: Option<usize>, tick: u64) {
        let Some(first) = first else {
            return;
        };
        let sitter = self.at(first);
        if sitter.is_task {
            let acts = Sitter {
                number: sitter.number,
                is_task: true,
                act_by: tick.saturating_add(GRACE),
            };
            self.put(first, acts);
        }
    }

    // Room for one more than so many.
    fn make_room(&mut self, count: usize) -> Result<(), AllocError> {
        if count >= self.row.len() {
            self.row.try_push(Sitter::nobody())?;
        }
        Ok(())
    }
}

/// Who waits at a bell, in turns.
pub struct Turns<W> {
    line: Line<W>,
    sitters: Sitters,
    /// How many stays there have been.
    stays: u64,
    /// Whether a task has waited.
    has_tasks: bool,
}

impl<W> Turns<W> {
    /// A bell for at most so many places, with nobody in line.
    ///
    /// # Errors
    ///
    /// `AllocError` where memory is refused.
    pub fn new(places: usize) -> Result<Turns<W>, AllocError> {
        // requires places < 65535
        let row = Vec::new();
        let line = Line::new(places)?;
        Ok(Turns {
            line,
            sitters: Sitters { row },
            stays: 0,
            has_tasks: false,
        })
    }
}

impl<W> Turns<W> {
    /// The hint of one place more.
    ///
    /// # Errors
    ///
    /// `AllocError` where memory is refused.
    pub fn add_place(&mut self) -> Result<Hint, AllocError> {
        // requires self.old.line.leader.dealt < self.old.line.leader.places
        self.line.add_place()
    }

    /// The hints of all places, that of the closing first, for whoever doesn't lock the line.
    ///
    /// # Errors
    ///
    /// `AllocError` where memory is refused.
    pub fn hints(&self) -> Result<Hints, AllocError> {
        self.line.hints()
    }

    /// Whether a task has waited.
    pub fn has_tasks(&self) -> bool {
        self.has_tasks
    }

    /// Whether the stay of a seat lasts.
    pub fn sits(&self, seat: Seat) -> bool {
        seat.number != 0 && self.sitters.at(seat.at).number == seat.number
    }

    /// It woke by itself: gives its `W`, where it slept. One that leads isn't rung any more.
    pub fn rise(&mut self, seat: Seat) -> Option<W> {
        if !self.sits(seat) {
            return None;
        }
        self.line.rise(seat.at)
    }

    /// Leaves the line. It gives what was to wake it, and the one that leads now, where that is to be woken.
    pub fn leave(&mut self, seat: Seat, now: u64) -> (Option<W>, Option<Call<W>>) {
        if !self.sits(seat) {
            return (None, None);
        }
        let led = self.line.is_first(seat.at);
        let slept = self.line.rise(seat.at);
        let called = self.line.leave(seat.at);
        self.sitters.put(seat.at, Sitter::nobody());
        if led {
            self.sitters.lead_from(self.line.first(), now);
        }
        (slept, called)
    }

    // Who leads in place of one that is awake, and was to act by now.
    fn overdue(&self, seat: Seat, now: u64) -> Option<usize> {
        let first = self.line.first()?;
        if first == seat.at || !self.sits(seat) || self.line.sleeps_at(seat.at) {
            return None;
        }
        if now < self.sitters.at(first).act_by {
            return None;
        }
        Some(first)
    }

    /// Takes the lead, for one that is awake, from a task that was to act by now: that one leaves the line. It gives
    /// what was to wake that one.
    pub fn overtake(&mut self, seat: Seat, now: u64) -> Option<W> {
        let first = self.overdue(seat, now)?;
        let slept = self.line.overtake(seat.at, first);
        self.sitters.put(first, Sitter::nobody());
        self.sitters.lead_from(Some(seat.at), now);
        slept
    }

    /// Calls the one that leads, where it was rung: it acts from now on.
    pub fn ring(&mut self, rung: Rung, now: u64) -> Option<Call<W>> {
        let called = self.line.ring(rung);
        if called.is_some() {
            self.sitters.lead_from(self.line.first(), now);
        }
        called
    }

    // Who leads and sleeps.
    fn sleeping_leader(&self) -> Option<usize> {
        let first = self.line.first()?;
        if !self.line.sleeps_at(first) {
            return None;
        }
        Some(first)
    }

    // When one that follows looks again whether the leader acts.
    fn watch(&self, now: u64) -> u64 {
        if !self.has_tasks {
            return NEVER;
        }
        let act_by = match self.line.first() {
            Some(first) => self.sitters.at(first).act_by,
            None => NEVER,
        };
        act_by.min(now.saturating_add(WATCH))
    }
}

impl<W> Turns<W> {
    /// Joins the line, awake. Where nobody waited it leads.
    ///
    /// # Errors
    ///
    /// `AllocError` where memory is refused, and after 2^64 - 1 stays.
    pub fn join(&mut self, is_task: bool) -> Result<Seat, AllocError> {
        let Some(number) = self.stays.checked_add(1) else {
            return Err(AllocError);
        };
        self.sitters.make_room(self.line.len())?;
        let at = self.line.join()?;
        let sitter = Sitter {
            number,
            is_task,
            act_by: NEVER,
        };
        self.sitters.put(at, sitter);
        self.stays = number;
        if is_task {
            self.has_tasks = true;
        }
        Ok(Seat { at, number })
    }

    /// Falls asleep until it is called, and tells the tick at which it looks again by itself: one that leads, at the
    /// one that is given; one that follows, once a task has waited, when the leader is to have acted, or after a while.
    /// Refused, with its `W`, where it has lost its seat or sleeps already, where the bell is closed, and where the one
    /// that leads found a hint before its tick.
    pub fn sleep(&mut self, seat: Seat, until: u64, now: u64, call: W) -> Result<u64, W> {
        if !self.sits(seat) {
            return Err(call);
        }
        let leads = self.line.is_first(seat.at);
        match self.line.sleep(seat.at, until, call) {
            Ok(()) => {
                if !leads {
                    return Ok(self.watch(now));
                }
                self.sitters.lead_from(Some(seat.at), until);
                Ok(until)
            }
            Err(call) => {
                if leads {
                    self.sitters.lead_from(Some(seat.at), now);
                }
                Err(call)
            }
        }
    }

    /// All that sleep rise. One that leads and slept acts from now on.
    ///
    /// # Errors
    ///
    /// `AllocError` where memory is refused: nobody rises.
    pub fn rise_all(&mut self, now: u64, risen: &mut Vec<W>) -> Result<(), AllocError> {
        let first = self.sleeping_leader();
        self.line.rise_all(risen)?;
        self.sitters.lead_from(first, now);
        Ok(())
    }

    /// Closes for good, and calls one of those that sleep: it is to be called until it answers `None`.
    pub fn close(&mut self) -> Option<Call<W>> {
        self.line.close()
    }
}
