//! How much a poll of a task may do: so many steps of the wheels, each in constant time but for a value's drop. And how many
//! entries the task may have in a row.

/// The steps of a poll where no other number is set, as many as tokio lets a task have of its own resources.
pub(crate) const DEFAULT_BUDGET: u32 = 128;

/// The most steps that a call of the library is given at first. It doesn't tell how many it made, so all of them are counted.
const PIECE: u32 = 8;

/// The steps that are left of a task's poll.
pub(crate) struct Budget {
    /// The greatest number is no limit.
    left: u32,
    /// The most steps of the next call.
    piece: u32,
}

impl Budget {
    /// So many steps, at least one: with none a task would come again for ever. The greatest number is no limit.
    #[inline]
    pub fn of(steps: u32) -> Budget {
        Budget { left: steps.max(1), piece: PIECE }
    }

    /// The steps of the next call, nothing where all are given.
    #[inline]
    pub fn piece(&mut self) -> Option<u32> {
        let piece = self.piece.min(self.left);
        self.take(piece);
        (piece > 0).then_some(piece)
    }

    /// Whether a step is left.
    pub fn has_step(&self) -> bool {
        self.left > 0
    }

    /// Takes so many steps, of those that are left.
    #[inline]
    pub fn take(&mut self, steps: u32) {
        if self.left < u32::MAX {
            self.left -= steps;
        }
    }

    /// Notes that a call made all of its steps: the next one is given twice as many, so that there are few calls.
    #[inline]
    pub fn grow(&mut self) {
        self.piece = self.piece.saturating_mul(2);
    }
}

/// The entries that a task was given in a row, with no pending poll between them.
///
/// Without a limit a task whose queue always has an entry that is due is never pending, so no other task of its thread runs.
/// tokio lets only its own resources charge a task's budget, so a poll counts for itself.
#[derive(Default)]
pub(crate) struct Streak {
    entries: u32,
}

impl Streak {
    /// Whether the next poll has to be pending, and to wake its task at once.
    #[inline]
    pub fn is_over(&self) -> bool {
        self.entries >= DEFAULT_BUDGET
    }

    /// Notes that the task is given an entry.
    #[inline]
    pub fn count(&mut self) {
        self.entries += 1;
    }

    /// Notes that a poll is pending.
    #[inline]
    pub fn end(&mut self) {
        self.entries = 0;
    }
}
