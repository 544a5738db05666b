//! How a queue goes on for years: over fresh words, under a higher number.
//!
//! A slot has as many stamps as its queue's last one, and holds nothing more once they are used. Where nothing is
//! linked the queue may be renewed: each slot begins anew, and the queue's keys carry a higher number from then on.
//! So each key from before is refused for good.

use crate::core::queue::DelayCore;
use crate::core::words::Words;
use crate::fresh::are_fresh;
use core::{fmt, mem};

/// Why a queue isn't renewed.
#[derive(Clone, Copy, Debug, PartialEq, Eq)]
#[non_exhaustive]
pub enum RenewError {
    /// Entries are linked, live or cancelled and not yet reaped.
    StillLinked {
        /// How many.
        linked: usize,
    },
    /// The new number isn't higher than the queue's, so keys may carry it.
    UsedNumber {
        /// The queue's number.
        number: u32,
    },
    /// The words aren't as many as the slots.
    WrongRows,
}

impl fmt::Display for RenewError {
    fn fmt(&self, f: &mut fmt::Formatter<'_>) -> fmt::Result {
        match self {
            RenewError::StillLinked { linked } => write!(f, "{linked} entries are still linked"),
            RenewError::UsedNumber { number } => {
                write!(f, "the queue had the number {number}, and the new one isn't higher")
            }
            RenewError::WrongRows => f.write_str("the words are not one a slot"),
        }
    }
}

#[cfg(feature = "std")]
impl std::error::Error for RenewError {}

impl<T, W: Words> DelayCore<T, W> {
    /// Goes on with fresh `words`, under the number `shard`, and returns the words that it had. No slot is worn then,
    /// and each has all its stamps again. The noted tick stays. Every key from before has a lower number, so the
    /// queue refuses it for good. Callers of the old words stay at those, and reach nothing new. A caller of the new
    /// words reads no number: give it none of the old keys.
    ///
    /// It takes no memory, and goes over every slot once.
    ///
    /// # Errors
    /// The words come back, and nothing changes. In this order:
    /// - `StillLinked` if an entry is in the queue, even a cancelled one.
    /// - `UsedNumber` if `shard` isn't higher than the queue's number.
    /// - `WrongRows` if the words aren't as many as the slots.
    ///
    /// # Panics
    /// If the words were in use before.
    ///
    /// ```
    /// use hontkhale::parts::owner::{CoreConfig, CoreError, DelayCore, VecWords};
    ///
    /// # fn main() -> Result<(), CoreError> {
    /// let config = CoreConfig { shard: 0, capacity: 1, last_stamp: 1 };
    /// let mut queue = DelayCore::new(config, VecWords::new(1)?).map_err(|refused| refused.0)?;
    /// queue.insert_or_drop("value", 10)?;
    /// queue.clear();
    /// assert!(matches!(queue.insert_or_drop("value", 10), Err(CoreError::Full { linked: 0, worn: 1 })));
    ///
    /// if queue.is_empty() && queue.worn() > 0 {
    ///     let words = VecWords::new(queue.capacity())?;
    ///     assert!(queue.renew(queue.shard() + 1, words).is_ok());
    /// }
    /// queue.insert_or_drop("value", 10)?;
    /// # Ok(())
    /// # }
    /// ```
    pub fn renew(&mut self, shard: u32, words: W) -> Result<W, (RenewError, W)> {
        // requires AreFresh (W.known words) (W.counts words)
        let mut words = words;
        assert!(
            are_fresh(&mut words),
            "the words that a queue is renewed by are in use already"
        );
        let linked = self.slots.linked();
        if linked > 0 {
            return Err((RenewError::StillLinked { linked }, words));
        }
        if shard <= self.shard {
            let number = self.shard;
            return Err((RenewError::UsedNumber { number }, words));
        }
        if words.rows() != self.slots.capacity() {
            return Err((RenewError::WrongRows, words));
        }
        self.slots.forget();
        self.shard = shard;
        self.inserted = 0;
        self.expired = 0;
        self.removed = 0;
        Ok(mem::replace(&mut self.words, words))
    }
}
