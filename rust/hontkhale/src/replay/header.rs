//! The first line of a script, which names its edition.

use crate::ticks::LAST_TICK;

/// The last tick of a script of the first edition.
pub const FIRST_EDITION_LIMIT: u64 = 68719476735;

/// The last tick of the edition that a first line names.
pub fn limit_of(line: &[u8]) -> Option<u64> {
    if line == b"delay 1".as_slice() {
        Some(FIRST_EDITION_LIMIT)
    } else if line == b"delay 2".as_slice() {
        Some(LAST_TICK)
    } else {
        None
    }
}
