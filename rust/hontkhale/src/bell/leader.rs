//! One of those that wait leads: it sleeps until the next deadline.

use crate::bell::hint::{Hint, Hints};
use crate::bell::{APART, NEVER};
use crate::memory::AllocError;
use crate::words::table::Table;
use alloc::sync::Arc;

/// The lead of a bell. There is one of each bell, and who has it leads.
///
/// It can't be dropped: who leaves hands it on, or ends the bell.
pub struct Leader {
    table: Arc<Table>,
    places: usize,
    dealt: usize,
}

impl Leader {
    /// A bell for at most so many places, with its lead. None of the places has a hint yet.
    ///
    /// # Errors
    ///
    /// `AllocError` where memory is refused.
    pub fn new(places: usize) -> Result<Leader, AllocError> {
        // requires places < 65536
        let table = Table::of_words(places * APART + 1, NEVER)?;
        table.store(0, 0);
        Ok(Leader {
            table: Arc::new(table),
            places,
            dealt: 0,
        })
    }
}

impl Leader {
    /// The hint of one place more, while other places' hints are written and somebody sleeps.
    ///
    /// # Errors
    ///
    /// `AllocError` where memory is refused.
    pub fn add_place(&mut self) -> Result<Hint, AllocError> {
        // requires self.old.dealt < self.old.places
        let table = Arc::clone(&self.table);
        let place = self.dealt;
        self.dealt += 1;
        Ok(Hint {
            table,
            place,
            tick: NEVER,
        })
    }

    /// The hints of all places, for whoever holds no lock.
    ///
    /// # Errors
    ///
    /// `AllocError` where memory is refused.
    pub fn hints(&self) -> Result<Hints, AllocError> {
        Ok(Hints {
            table: Arc::clone(&self.table),
        })
    }

    // Says until when it sleeps. No hint was looked at since.
    fn arm(&mut self, until: u64) {
        self.table.store(0, until);
    }

    // Looks at the next hint. It counts where it isn't before the tick until which the leader sleeps.
    fn look(&mut self, at: usize) -> u64 {
        // requires at ≡ self.old.seen
        // requires at < self.old.places
        self.table.load((at + 1) * APART)
    }

    /// Says until when it sleeps, and looks at all hints. True where it may sleep: no hint is before that tick.
    pub fn may_sleep(&mut self, until: u64) -> bool {
        self.arm(until);
        let places = self.places;
        for at in 0..places {
            if self.look(at) < until {
                return false;
            }
        }
        true
    }

    /// Says that it doesn't sleep: nobody rings it.
    pub fn rise(&mut self) {
        self.arm(0);
    }
}
