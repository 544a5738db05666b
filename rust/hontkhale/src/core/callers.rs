//! The callers of a queue's words.

use crate::core::queue::DelayCore;
use crate::core::words::SharedWords;

impl<T, W: SharedWords> DelayCore<T, W> {
    /// Makes one caller of the words, which may go to any thread. It takes memory for the caller.
    pub fn issue(&mut self) -> Result<W::Caller, W::Fault> {
        self.words.issue()
    }

    /// Returns the number of callers that were made and not given back.
    pub fn out(&mut self) -> u64 {
        self.words.out()
    }

    /// Returns the number of cancels by all callers that were accepted.
    ///
    /// # Errors
    /// The number of callers that are out, if some aren't given back.
    pub fn returned(&mut self) -> Result<u64, u64> {
        self.words.returned()
    }
}
