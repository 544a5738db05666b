//! What the map of a cache has at a key.

use crate::ticks::Key;

// A value, until when it is seen, and the key of its timer.
pub(crate) struct Kept<V> {
    pub(crate) value: V,
    pub(crate) deadline: u64,
    pub(crate) key: Key,
}

// The timer of a key: until when it runs, and its key in the queue.
#[derive(Clone, Copy)]
pub(crate) struct Timer {
    pub(crate) deadline: u64,
    pub(crate) key: Key,
}
