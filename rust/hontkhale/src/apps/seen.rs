//! What is seen of a cache, one key after the other.

use crate::apps::kept::Kept;
use std::collections::hash_map::Iter;

/// The keys that are seen of a cache with their values, each once, in no order that is promised.
pub struct Seen<'cache, K, V> {
    pub(crate) entries: Iter<'cache, K, Kept<V>>,
    pub(crate) moment: u64,
}

impl<'cache, K, V> Iterator for Seen<'cache, K, V> {
    type Item = (&'cache K, &'cache V);

    fn next(&mut self) -> Option<(&'cache K, &'cache V)> {
        for (key, kept) in self.entries.by_ref() {
            if self.moment < kept.deadline {
                return Some((key, &kept.value));
            }
        }
        None
    }
}
