//! A seat at a table of words.
//!
//! This module alone can name the table, and it has one function for each kind of step, which makes that step's atomic
//! operation once. So the keeper and its callers reach the words by these steps and by nothing else.

use crate::memory::AllocError;
use crate::ticks::{pack, Mark, Parts};
use crate::words::table::Table;
use alloc::sync::Arc;

mod open;

pub use open::OpenWords;

// What one cancel adds to the return word. What is below it counts the callers that are gone.
pub(crate) const ONE_CANCEL: u64 = 2048;

pub(crate) fn live_word(stamp: u32, field: u64) -> u64 {
    // requires stamp ≤ LAST_STAMP
    // requires field ≤ LAST_TICK
    pack(Parts {
        stamp,
        mark: Mark::LiveMark,
        field,
    })
}

pub(crate) fn cancelled_word(stamp: u32) -> u64 {
    // requires stamp ≤ LAST_STAMP
    pack(Parts {
        stamp,
        mark: Mark::CancelledMark,
        field: 0,
    })
}

pub(crate) fn expired_word(stamp: u32, field: u64) -> u64 {
    // requires stamp ≤ LAST_STAMP
    // requires field ≤ LAST_TICK
    pack(Parts {
        stamp,
        mark: Mark::ExpiredMark,
        field,
    })
}

pub(crate) fn removed_word(stamp: u32, field: u64) -> u64 {
    // requires stamp ≤ LAST_STAMP
    // requires field ≤ LAST_TICK
    pack(Parts {
        stamp,
        mark: Mark::RemovedMark,
        field,
    })
}

pub(crate) struct Seated {
    table: Arc<Table>,
    // Whether another seat has the table, or had.
    is_shared: bool,
    rows: usize,
}

impl Seated {
    // The keeper's seat at a new table.
    pub(crate) fn at_new_table(rows: usize) -> Result<Seated, AllocError> {
        // requires rows ≤ CAPACITY_LIMIT
        let table = Arc::new(Table::of_words(rows + 1, 0)?);
        Ok(Seated {
            table,
            is_shared: false,
            rows,
        })
    }
}

impl Seated {
    pub(crate) fn rows(&self) -> usize {
        self.rows
    }

    // The number itself, once a word was read, for the step that will be made at that word soon. The load has an
    // ordering, so it stays where nobody uses what it finds.
    #[inline(always)]
    pub(crate) fn once_read(&self, index: usize, number: u64) -> u64 {
        if index < self.rows {
            let _found = self.table.load(index);
        }
        number
    }

    pub(crate) fn keeper_load(&mut self, index: usize) -> u64 {
        // requires index < length self.old.view.seen
        // requires self.old.view.keeps ≡ true
        self.table.load(index)
    }

    pub(crate) fn begin(&mut self, index: usize, new: u64) {
        // requires index < length self.old.view.seen
        // requires self.old.view.keeps ≡ true
        // requires IsFree (slice_index self.old.view.seen index)
        // requires stamp_of new ≡ stamp_of (slice_index self.old.view.seen index) + 1
        // requires mark_of new ≡ 0
        self.table.store_as(self.is_shared, index, new);
    }

    pub(crate) fn settle(&mut self, index: usize, old: u64, new: u64) -> u64 {
        // requires index < length self.old.view.seen
        // requires self.old.view.keeps ≡ true
        // requires (0 < stamp_of old) × (mark_of old ≡ 0)
        // requires (stamp_of new ≡ stamp_of old) × (field_of new ≡ field_of old)
        // requires mark_of new ≡ 2
        self.table.compare_exchange_once(self.is_shared, index, old, new)
    }

    pub(crate) fn renew(&mut self, index: usize, old: u64, new: u64) -> u64 {
        // requires index < length self.old.view.seen
        // requires self.old.view.keeps ≡ true
        // requires (0 < stamp_of old) × (mark_of old ≡ 0)
        // requires (stamp_of new ≡ stamp_of old + 1) × (mark_of new ≡ 0)
        self.table.compare_exchange(index, old, new)
    }

    pub(crate) fn finish(&mut self, index: usize, old: u64, new: u64) -> u64 {
        // requires index < length self.old.view.seen
        // requires self.old.view.keeps ≡ true
        // requires (0 < stamp_of old) × (mark_of old ≡ 0)
        // requires (stamp_of new ≡ stamp_of old) × (field_of new ≡ field_of old)
        // requires mark_of new ≡ 3
        self.table.compare_exchange(index, old, new)
    }

    // One seat more at the same table, for a caller.
    pub(crate) fn issue(&mut self) -> Result<Seated, AllocError> {
        // requires self.old.view.keeps ≡ true
        // requires self.old.view.issued < HANDLE_LIMIT
        self.is_shared = true;
        let table = Arc::clone(&self.table);
        Ok(Seated {
            table,
            is_shared: true,
            rows: self.rows,
        })
    }

    // The keeper's load of the return word.
    pub(crate) fn return_load(&mut self) -> u64 {
        // requires self.old.view.keeps ≡ true
        self.table.load(self.rows)
    }

    pub(crate) fn caller_load(&mut self, index: usize) -> u64 {
        // requires index < length self.old.view.seen
        // requires (self.old.view.keeps ≡ false) × (self.old.view.gone ≡ false)
        self.table.load(index)
    }

    // The fetch_max of a live word, which raises a live deadline of its stamp.
    pub(crate) fn extend(&mut self, index: usize, new: u64) -> u64 {
        // requires index < length self.old.view.seen
        // requires (self.old.view.keeps ≡ false) × (self.old.view.gone ≡ false)
        // requires (0 < stamp_of new) × (mark_of new ≡ 0)
        // requires stamp_of new ≤ stamp_of (slice_index self.old.view.seen index)
        self.table.fetch_max(index, new)
    }

    // The fetch_max of a cancelled word, which ends a live word of its stamp.
    pub(crate) fn cancel(&mut self, index: usize, new: u64) -> u64 {
        // requires index < length self.old.view.seen
        // requires (self.old.view.keeps ≡ false) × (self.old.view.gone ≡ false)
        // requires (0 < stamp_of new) × (new ≡ word (stamp_of new) 1 0)
        // requires stamp_of new ≤ stamp_of (slice_index self.old.view.seen index)
        self.table.fetch_max(index, new)
    }

    // The step on the return word that counts the caller as gone, and its cancels with it.
    pub(crate) fn give_back(&mut self, cancels: u64) {
        // requires (self.old.view.keeps ≡ false) × (self.old.view.gone ≡ false)
        // requires self.old.view.passes ≡ false
        // requires cancels ≡ cancels_in self.old.view.calls
        // requires cancels ≤ most_begins
        self.table.fetch_add(self.rows, 1 + ONE_CANCEL * cancels);
    }
}
