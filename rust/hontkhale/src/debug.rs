//! How the types are shown that hold entries: by their numbers, and never by an entry's value.

#[cfg(feature = "all-parts")]
use crate::checked_wheel::Wheel;
use crate::core::{DelayCore, Entries, Folded, Held, LiveEntry, Steps, VecWords, Words};
#[cfg(feature = "all-parts")]
use crate::core::{Pending, PlainQueue, PlainTurn};
use crate::refused::Refused;
use crate::words::{Caller, Keeper, OpenWords};
use core::fmt::Debug;
#[cfg(feature = "all-parts")]
use core::fmt::{Formatter, Result};

/// A `Debug` for each row: `[its generics] its type { .a_call() .a_field }`, whose calls and fields are shown.
macro_rules! shows {
    ($([$($generics:tt)*] $name:ident $(<$($argument:tt),*>)? { $(.$shown:ident $(($($none:tt)*))?)* })*) => {$(
        impl<$($generics)*> core::fmt::Debug for $name $(<$($argument),*>)? {
            fn fmt(&self, f: &mut core::fmt::Formatter<'_>) -> core::fmt::Result {
                f.debug_struct(stringify!($name))
                    $(.field(stringify!($shown), &self.$shown $(($($none)*))?))*
                    .finish_non_exhaustive()
            }
        }
    )*};
}

#[cfg(feature = "std")]
pub(crate) use shows;

shows! {
    [T, W: Words] DelayCore<T, W> { .shard() .len() .capacity() .tick() .noted() .next_wake() }
    [W: Words] Folded<W> { .shard() .noted() .capacity() .worn() }
    [] VecWords { .rows() }
    [] Keeper { .rows() }
    [] Caller { .cancels() }
    [] OpenWords { .rows() }
    [T] Entries<'_, T> {}
    [T] LiveEntry<'_, T> { .key .deadline }
    [T] Held<T> { .born }
    [T, E: Debug] Refused<T, E> { .error }
}

#[cfg(feature = "all-parts")]
shows! {
    [T] Pending<T> { .deadline }
    [T] PlainQueue<T> { .len() .capacity() .tick() .noted() }
    [] Wheel { .capacity() .tick() .next_wake() }
}

#[cfg(feature = "all-parts")]
impl<T> Debug for PlainTurn<T> {
    fn fmt(&self, f: &mut Formatter<'_>) -> Result {
        match self {
            PlainTurn::PlainOut { deadline, .. } => f
                .debug_struct("PlainOut")
                .field("deadline", deadline)
                .finish_non_exhaustive(),
            PlainTurn::PlainWaiting => f.write_str("PlainWaiting"),
            PlainTurn::PlainIdle => f.write_str("PlainIdle"),
        }
    }
}

#[cfg(feature = "std")]
mod with_std {
    use crate::core::Words;
    use crate::delay_queue::{DelayQueue, Drain, InsertError, Iter, Timeout, TryIter};
    use crate::growing::{Cores, Folds, SizedStore, Store};
    use crate::words::directory::{Clerk, Directory};

    shows! {
        [T] DelayQueue<T> { .len() .is_closed() }
        [T] Timeout<T> { .key() }
        [T] InsertError<T> { .kind() }
        [T] Iter<'_, T> {}
        [T] TryIter<'_, T> {}
        [T] Drain<'_, T> {}
        [X] Clerk<X> { .given() }
        [X] Directory<X> {}
        [T, W: Words] Cores<T, W> { .count() .next_wake() }
        [W: Words] Folds<W> {}
        [T, W: Words] Store<T, W> {}
        [T, W: Words] SizedStore<T, W> { .hint() }
    }

    impl<T, W: Words> Default for Cores<T, W> {
        fn default() -> Cores<T, W> {
            Cores::new()
        }
    }

    impl<W: Words> Default for Folds<W> {
        fn default() -> Folds<W> {
            Folds::new()
        }
    }
}

#[cfg(all(feature = "std", feature = "all-parts"))]
mod of_all_parts {
    use super::{Debug, Formatter, Result};
    use crate::apps::{CountedCache, IdleSessions, Name, Seen, TtlCache};
    use crate::shards::parking::{MillisecondTicks, Parked, ShardStream, Shards};
    use crate::shards::{Handle, ShardState, SharedDelayQueue};
    use std::hash::{BuildHasher, Hash};

    shows! {
        [T] SharedDelayQueue<T> { .shards() }
        [T] ShardState<T> { .shard() .len() .capacity() .noted() .next_wake() .parked() }
        [N: Debug] Parked<N> { .next }
        [] Handle { .cancels() }
        [Q: Shards, S, P] ShardStream<'_, Q, S, P> { .place .ended }
        [] MillisecondTicks {}
        [K: Eq + Hash, V, S: BuildHasher] TtlCache<K, V, S> { .len() .capacity() .moment() }
        [K: Eq + Hash, V, S: BuildHasher] CountedCache<K, V, S> { .cache .hits() .misses() }
        [K, V] Seen<'_, K, V> {}
        [] IdleSessions { .shards() .idle() }
    }

    impl Default for MillisecondTicks {
        fn default() -> MillisecondTicks {
            MillisecondTicks::new()
        }
    }

    impl Debug for Name {
        fn fmt(&self, f: &mut Formatter<'_>) -> Result {
            f.debug_tuple("Name").field(&self.text()).finish()
        }
    }
}
