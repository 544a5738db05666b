//! Whether a row of words was never used, as a queue that is made over it requires.

use crate::core::Words;

/// Whether no word has ever had a stamp.
pub(crate) fn are_fresh<W: Words>(words: &mut W) -> bool {
    (0..words.rows()).all(|index| words.look(index).stamp == 0)
}
