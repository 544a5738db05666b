//! The one seat that begins and ends entries.

use crate::core::{Look, Settled, SharedWords, Steps};
use crate::memory::AllocError;
use crate::ticks::{field, is_live, stamp, unpack, Parts, CAPACITY_LIMIT};
use crate::words::caller::Caller;
use crate::words::seated::{expired_word, live_word, removed_word, Seated, ONE_CANCEL};
use core::fmt;

/// The most callers that a keeper issues, given back or not.
pub const HANDLE_LIMIT: u64 = 1024;

/// Why a keeper or a caller is not made.
#[derive(Clone, Copy, Debug, PartialEq, Eq)]
#[non_exhaustive]
pub enum WordsError {
    /// The capacity is 0 or beyond [`CAPACITY_LIMIT`].
    BadConfig,
    /// Memory was refused.
    NoMemory,
    /// The keeper has issued as many callers as it may.
    TooManyHandles {
        /// How many it may issue.
        limit: u64,
    },
}

impl fmt::Display for WordsError {
    fn fmt(&self, f: &mut fmt::Formatter<'_>) -> fmt::Result {
        match self {
            WordsError::BadConfig => f.write_str("the capacity is out of its range"),
            WordsError::NoMemory => f.write_str("out of memory"),
            WordsError::TooManyHandles { limit } => write!(f, "no more than {limit} handles are issued"),
        }
    }
}

#[cfg(feature = "std")]
impl std::error::Error for WordsError {}

/// Begins and ends the entries of a row of words, and issues the callers that extend and cancel them. A queue that
/// [`shared_queue`](crate::parts::owner::shared_queue) makes has one.
///
/// Where it is dropped, what is live by its words is ended as removed, and its callers are refused from then on. That
/// takes a load a slot, and two atomic steps or more for each live one.
pub struct Keeper {
    pub(crate) seat: Seated,
    issued: u64,
}

impl From<AllocError> for WordsError {
    fn from(_e: AllocError) -> WordsError {
        WordsError::NoMemory
    }
}

// Ends the word that is live at exactly `at` by one try: a word that isn't is live at a later deadline or cancelled.
fn settle(seat: &mut Seated, index: usize, stamp: u32, at: u64) -> Settled {
    // requires index < length seat.old.view.seen
    // requires seat.old.view.keeps ≡ true
    // requires IsOpenFrom (slice_index seat.old.view.seen index) stamp at
    // requires stamp ≤ LAST_STAMP
    // requires at ≤ LAST_TICK
    let old = live_word(stamp, at);
    let found = seat.settle(index, old, expired_word(stamp, at));
    if found == old {
        Settled::SettledExpired
    } else if is_live(found) {
        Settled::Later(field(found))
    } else {
        Settled::SettledCancelled
    }
}

// Each try that fails shows a greater word.
fn renew(seat: &mut Seated, index: usize, stamp: u32, when: u64) -> Option<u64> {
    // requires index < length seat.old.view.seen
    // requires seat.old.view.keeps ≡ true
    // requires IsOpen (slice_index seat.old.view.seen index) stamp
    // requires stamp < LAST_STAMP
    // requires when ≤ LAST_TICK
    let new = live_word(stamp + 1, when);
    let mut seen = seat.keeper_load(index);
    while is_live(seen) {
        let found = seat.renew(index, seen, new);
        if found == seen {
            return Some(field(seen));
        }
        seen = found;
    }
    None
}

// Each try that fails shows a greater word.
fn finish(seat: &mut Seated, index: usize, stamp: u32) -> Option<u64> {
    // requires index < length seat.old.view.seen
    // requires seat.old.view.keeps ≡ true
    // requires IsOpen (slice_index seat.old.view.seen index) stamp
    // requires stamp ≤ LAST_STAMP
    let mut seen = seat.keeper_load(index);
    while is_live(seen) {
        let deadline = field(seen);
        let found = seat.finish(index, seen, removed_word(stamp, deadline));
        if found == seen {
            return Some(deadline);
        }
        seen = found;
    }
    None
}

// The same where the deadline isn't after a tick.
fn finish_by(seat: &mut Seated, index: usize, stamp: u32, tick: u64) -> Look {
    // requires index < length seat.old.view.seen
    // requires seat.old.view.keeps ≡ true
    // requires IsOpen (slice_index seat.old.view.seen index) stamp
    // requires stamp ≤ LAST_STAMP
    let mut seen = seat.keeper_load(index);
    while is_live(seen) {
        let deadline = field(seen);
        if deadline > tick {
            return Look::StillLive(deadline);
        }
        let found = seat.finish(index, seen, removed_word(stamp, deadline));
        if found == seen {
            return Look::LookRemoved(deadline);
        }
        seen = found;
    }
    Look::LookCancelled
}

// Ends the word of a slot as removed, where it is live.
fn end(seat: &mut Seated, index: usize) {
    // requires index < length seat.old.view.seen
    // requires seat.old.view.keeps ≡ true
    let seen = seat.keeper_load(index);
    if is_live(seen) && stamp(seen) > 0 {
        let _ended = finish(seat, index, stamp(seen));
    }
}

impl Keeper {
    /// Makes a keeper of `capacity` slots that were never used. It takes time and memory in proportion to `capacity`.
    ///
    /// # Errors
    /// In this order:
    /// - `BadConfig` if `capacity` is 0 or beyond [`CAPACITY_LIMIT`].
    /// - `NoMemory` if memory is refused.
    pub fn new(capacity: usize) -> Result<Keeper, WordsError> {
        if capacity == 0 || capacity > CAPACITY_LIMIT {
            return Err(WordsError::BadConfig);
        }
        let seat = Seated::at_new_table(capacity)?;
        Ok(Keeper { seat, issued: 0 })
    }
}

impl Keeper {
    /// Makes one caller more, which may go to any thread. It takes memory for the caller.
    ///
    /// # Errors
    /// In this order:
    /// - `TooManyHandles` if [`HANDLE_LIMIT`] callers were made, given back or not.
    /// - `NoMemory` if memory is refused.
    pub fn issue(&mut self) -> Result<Caller, WordsError> {
        if self.issued >= HANDLE_LIMIT {
            return Err(WordsError::TooManyHandles { limit: HANDLE_LIMIT });
        }
        let seat = self.seat.issue()?;
        self.issued += 1;
        Ok(Caller::of(seat))
    }

    /// Returns the number of callers that were made and not given back, by one load. A caller that was dropped stays
    /// counted.
    pub fn out(&mut self) -> u64 {
        let gone = self.seat.return_load() % ONE_CANCEL;
        self.issued - gone
    }

    /// The accepted cancels of all callers, where none is out, and else the number that is out, by one load.
    pub fn returned(&mut self) -> Result<u64, u64> {
        let word = self.seat.return_load();
        let out = self.issued - word % ONE_CANCEL;
        if out > 0 {
            return Err(out);
        }
        Ok(word / ONE_CANCEL)
    }

    // Ends each word that is live, as removed. From then on every extend and cancel of a caller is refused, and a
    // look shows the end. What was accepted before a word was ended stands. One load a word, and a load and an
    // exchange or more for each live one.
    fn end_all(&mut self) {
        for index in 0..self.seat.rows() {
            end(&mut self.seat, index);
        }
    }
}

impl Drop for Keeper {
    fn drop(&mut self) {
        self.end_all();
    }
}

impl Steps for Keeper {
    fn rows(&self) -> usize {
        self.seat.rows()
    }

    #[inline(always)]
    fn once_read(&self, index: usize, number: u64) -> u64 {
        self.seat.once_read(index, number)
    }

    fn begin(&mut self, index: usize, stamp: u32, when: u64) {
        // requires index < length (known_of self.old)
        // requires IsOver (known_word self.old index)
        // requires stamp ≡ (known_word self.old index).stamp + 1
        // requires stamp ≤ LAST_STAMP
        // requires when ≤ LAST_TICK
        self.seat.begin(index, live_word(stamp, when));
    }

    #[inline]
    fn look(&mut self, index: usize) -> Parts {
        // requires index < length (known_of self.old)
        unpack(self.seat.keeper_load(index))
    }

    fn settle(&mut self, index: usize, stamp: u32, at: u64) -> Settled {
        // requires index < length (known_of self.old)
        // requires IsInForce stamp at (known_word self.old index)
        // requires stamp ≤ LAST_STAMP
        // requires at ≤ LAST_TICK
        settle(&mut self.seat, index, stamp, at)
    }

    fn renew(&mut self, index: usize, stamp: u32, when: u64) -> Option<u64> {
        // requires index < length (known_of self.old)
        // requires IsInForce stamp 0 (known_word self.old index)
        // requires stamp < LAST_STAMP
        // requires when ≤ LAST_TICK
        renew(&mut self.seat, index, stamp, when)
    }

    fn finish(&mut self, index: usize, stamp: u32) -> Option<u64> {
        // requires index < length (known_of self.old)
        // requires IsInForce stamp 0 (known_word self.old index)
        // requires stamp ≤ LAST_STAMP
        finish(&mut self.seat, index, stamp)
    }

    fn finish_by(&mut self, index: usize, stamp: u32, tick: u64) -> Look {
        // requires index < length (known_of self.old)
        // requires IsInForce stamp 0 (known_word self.old index)
        // requires stamp ≤ LAST_STAMP
        finish_by(&mut self.seat, index, stamp, tick)
    }
}

impl SharedWords for Keeper {
    type Caller = Caller;

    type Fault = WordsError;

    fn issue(&mut self) -> Result<Caller, WordsError> {
        Keeper::issue(self)
    }

    fn out(&mut self) -> u64 {
        Keeper::out(self)
    }

    fn returned(&mut self) -> Result<u64, u64> {
        Keeper::returned(self)
    }
}
