//! Which types go to another thread, and which threads may share: both where their values do. And how much stands at the
//! crate's top: what a newcomer reads first.

use hontkhale::parts::cache::{CountedCache, Seen, TtlCache};
use hontkhale::parts::owner::{
    shared_queue, CallError, Caller, CoreError, DelayCore, Entries, EntryId, Expired, Keeper, Key, LiveEntry,
    OpenWords, Piece, PlainQueue, PlainTurn, Removed, SharedWords, Turn, VecWords, Words, WordsError,
};
use hontkhale::parts::sessions::IdleSessions;
use hontkhale::parts::shards::{Handle, QueueConfig, QueueError, SharedDelayQueue};
use hontkhale::parts::streams::{
    ExpiredStream, MillisecondTicks, Pace, PacedStream, ShardStream, Shards, TickSource, Whole,
};
use hontkhale::DelayQueue;
use std::hash::{BuildHasher, Hash};
use std::task::{Context, Waker};

// A value that may be sent and not shared.
type Sent = std::cell::Cell<u64>;

// A value that may be shared.
type Shared = Vec<u64>;

fn sends<T: Send>() {}

fn shares<T: Send + Sync>() {}

struct At(u64);

impl TickSource for At {
    fn now(&mut self) -> u64 {
        self.0
    }
}

#[test]
fn what_is_sent() {
    sends::<DelayCore<Sent, VecWords>>();
    sends::<DelayCore<Sent, Keeper>>();
    sends::<Caller>();
    sends::<Handle>();
    sends::<TtlCache<char, Sent>>();
    sends::<CountedCache<char, Sent>>();
    sends::<Expired<Sent>>();
    sends::<Removed<Sent>>();
    sends::<Turn<Sent>>();
    sends::<Piece<Sent>>();
    sends::<PlainQueue<Sent>>();
    sends::<PlainTurn<Sent>>();
}

// A queue of shards may be shared by threads as soon as its values may be sent.
#[test]
fn what_is_shared() {
    shares::<SharedDelayQueue<Sent>>();
    shares::<DelayQueue<Sent>>();
    shares::<IdleSessions>();
    shares::<ExpiredStream<'_, Sent, At>>();
    shares::<PacedStream<'_, Sent, At>>();
    shares::<OpenWords>();
    shares::<DelayCore<Shared, VecWords>>();
    shares::<Entries<'_, Shared>>();
    shares::<LiveEntry<'_, Shared>>();
    shares::<TtlCache<char, Shared>>();
    shares::<Seen<'_, char, Shared>>();
    shares::<Key>();
    shares::<EntryId>();
    shares::<CoreError>();
    shares::<CallError>();
    shares::<QueueError>();
    shares::<WordsError>();
    shares::<MillisecondTicks>();
}

// A program writes each bound that a public type or call has: these are what takes all that have it.
fn len_over<T, W: Words>(queue: &DelayCore<T, W>) -> usize {
    queue.len()
}

fn issued<T, W: SharedWords>(queue: &mut DelayCore<T, W>) -> Result<W::Caller, W::Fault> {
    queue.issue()
}

fn len_of_cache<K: Eq + Hash, V, S: BuildHasher>(cache: &TtlCache<K, V, S>) -> usize {
    cache.len()
}

fn len_of_counted<K: Eq + Hash, V, S: BuildHasher>(cache: &CountedCache<K, V, S>) -> usize {
    cache.cache.len()
}

fn waits<Q: Shards, S: TickSource, P: Pace>(mut stream: ShardStream<'_, Q, S, P>) -> bool {
    stream.poll_next(&mut Context::from_waker(Waker::noop())).is_pending()
}

#[test]
fn each_bound_has_a_name() -> Result<(), QueueError> {
    assert_eq!(len_over(&DelayCore::<u8, VecWords>::with_capacity(1)?), 0);
    assert_eq!(
        issued(&mut shared_queue::<u8>(1)?).map(|caller| caller.cancels()),
        Ok(0)
    );
    assert_eq!(len_of_cache(&TtlCache::<u8, u8>::with_capacity(1)?), 0);
    assert_eq!(
        len_of_counted(&CountedCache::new(TtlCache::<u8, u8>::with_capacity(1)?)),
        0
    );
    let queue: SharedDelayQueue<u8> = SharedDelayQueue::new(QueueConfig::of(1, 1))?;
    queue.insert_or_drop(0, 1, 10)?;
    let stream = || ExpiredStream::new(&queue, 0, At(0)).map_err(|(error, _)| error);
    assert!(waits::<_, _, Whole>(stream()?));
    assert!(waits(stream()?.paced(std::num::NonZeroU32::MIN)));
    Ok(())
}

// A map from keys to connections, and a set in order.
#[test]
fn keys_stand_in_maps() -> Result<(), QueueError> {
    let queue = SharedDelayQueue::new(QueueConfig::of(1, 2))?;
    let keys = [queue.insert_or_drop(0, 'a', 10)?, queue.insert_or_drop(0, 'b', 5)?];
    let connections: std::collections::HashMap<Key, &str> = keys.into_iter().zip(["ann", "bea"]).collect();
    assert_eq!(connections.get(&keys[1]), Some(&"bea"));
    let entries: std::collections::BTreeSet<EntryId> = keys.iter().map(Key::entry).collect();
    assert_eq!(entries.len(), 2);
    Ok(())
}

/// The most types and traits at the crate's top.
const MOST: usize = 15;

/// What is beside them: what the queue is made of, and the iterators.
const MODULES: [&str; 2] = ["parts", "iter"];

/// The names that a `pub use` gives away.
fn names(item: &str) -> usize {
    let (_, inside) = item.split_once('{').unwrap_or(("", item));
    inside
        .split(',')
        .filter(|name| name.contains(char::is_alphabetic))
        .count()
}

#[test]
fn few_items_stand_at_the_top() {
    let source = include_str!("../../src/lib.rs");
    // An item begins where a line does; what is inside of a module is set in.
    let items = source.match_indices("\npub ").map(|(at, _)| {
        let item = &source[at + 5..];
        &item[..item.find(';').unwrap_or(item.len())]
    });
    let (modules, uses): (Vec<_>, Vec<_>) = items.partition(|item| item.starts_with("mod "));
    let of_modules = modules.iter().filter_map(|item| item[4..].split([' ', '{']).next());
    assert_eq!(of_modules.collect::<Vec<_>>(), MODULES);
    let count: usize = uses.into_iter().map(names).sum();
    assert!((1..=MOST).contains(&count), "{count} types at the top");
}
