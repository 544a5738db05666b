//! A place's hint: who writes it, who reads it, and whom that rings.

use crate::bell::APART;
use crate::words::table::Table;
use alloc::sync::Arc;

/// Whom a call has rung that may have lowered a hint. Who has it wakes the leader, where it was.
///
/// In Rattle it can't be dropped: who has it looks at it.
#[must_use = "the leader sleeps on until it is woken"]
pub enum Rung {
    /// The leader doesn't sleep beyond the hint, or was rung before.
    Nobody,
    /// The leader sleeps beyond the hint. From here on it counts as rung, and whoever has this wakes it.
    Leader,
}

impl Rung {
    /// Whether the leader is to be woken.
    #[allow(clippy::wrong_self_convention)]
    pub fn is_leader(self) -> bool {
        match self {
            Rung::Nobody => false,
            Rung::Leader => true,
        }
    }
}

/// The hint of one place: nothing is due there before it. It lies under the place's lock, and nobody else writes it.
///
/// Between its calls it owes nothing: whoever slept beyond the hint was rung.
pub struct Hint {
    pub(crate) table: Arc<Table>,
    pub(crate) place: usize,
    pub(crate) tick: u64,
}

impl Hint {
    /// The hint.
    #[inline(always)]
    pub fn tick(&self) -> u64 {
        self.tick
    }

    /// Writes the hint, and then asks until when the leader sleeps. Rings it exactly where that is beyond the hint.
    #[inline]
    pub fn set(&mut self, tick: u64) -> Rung {
        self.table.store((self.place + 1) * APART, tick);
        self.tick = tick;
        let until = self.table.load(0);
        if until <= tick {
            return Rung::Nobody;
        }
        self.table.store(0, 0);
        Rung::Leader
    }
}

/// The hints of all places, for any thread.
///
/// A hint may have changed by the time at which it is known, and nothing that is proved depends on what is found:
/// whoever finds that something is due takes the place's lock, and the leader looks at all hints before it sleeps.
pub struct Hints {
    pub(crate) table: Arc<Table>,
}

impl Hints {
    /// The hint of a place, as it is at this moment.
    #[inline(always)]
    pub fn tick(&self, place: usize) -> u64 {
        // requires place < self.now
        self.table.load((place + 1) * APART)
    }

    /// The first of the places from one on that have the least hint, where that is before a tick.
    #[inline(always)]
    pub fn first_before(&self, from: usize, tick: u64) -> Option<usize> {
        let first = self.table.first_below((from + 1) * APART, APART, tick)?;
        Some(first / APART - 1)
    }
}
