//! Who closes a bell.

use crate::bell::hint::{Hint, Rung};

/// Who closes a bell: a place at which nothing is ever due, until something is at once and for good.
///
/// Once it has closed, nobody sleeps at the bell.
pub struct Closer {
    hint: Hint,
    is_closed: bool,
}

impl Closer {
    /// Who closes the bell of that hint.
    pub fn new(hint: Hint) -> Closer {
        // requires hint.tick ≡ NEVER
        Closer { hint, is_closed: false }
    }

    /// Whether it has closed.
    pub fn is_closed(&self) -> bool {
        self.is_closed
    }

    /// Closes for good, and rings the leader exactly where it sleeps.
    pub fn close(&mut self) -> Rung {
        self.is_closed = true;
        self.hint.set(0)
    }
}
