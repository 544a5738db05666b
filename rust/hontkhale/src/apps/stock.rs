//! The map of a cache: what is read there, and what is written at a key.

use crate::apps::kept::{Kept, Timer};
use crate::ticks::Key;
use core::hash::{BuildHasher, Hash};
use core::mem;
use std::collections::HashMap;

// Keys with what is kept under them.
pub(crate) type Stock<K, V, S> = HashMap<K, Kept<V>, S>;

// The timer of a key that is there.
pub(crate) fn timer_of<K: Eq + Hash, V, S: BuildHasher>(stock: &Stock<K, V, S>, key: &K) -> Option<Timer> {
    match stock.get(key) {
        Some(kept) => Some(Timer {
            deadline: kept.deadline,
            key: kept.key,
        }),
        None => None,
    }
}

// Gives what is kept another deadline and another key of its timer.
pub(crate) fn renew_at<V>(kept: &mut Kept<V>, deadline: u64, next: Key) {
    kept.deadline = deadline;
    kept.key = next;
}

// Gives what is kept another value, deadline and key of its timer, and hands the old value back.
pub(crate) fn replace_at<V>(kept: &mut Kept<V>, value: V, deadline: u64, next: Key) -> V {
    renew_at(kept, deadline, next);
    mem::replace(&mut kept.value, value)
}

// The lesser of a deadline and another, if there is one.
fn lesser(other: Option<u64>, deadline: u64) -> u64 {
    match other {
        Some(other) => deadline.min(other),
        None => deadline,
    }
}

// The least deadline of what is there; none where nothing is.
pub(crate) fn least_deadline<K: Eq + Hash, V, S: BuildHasher>(stock: &Stock<K, V, S>) -> Option<u64> {
    let mut least = None;
    for (_key, kept) in stock.iter() {
        least = Some(lesser(least, kept.deadline));
    }
    least
}
