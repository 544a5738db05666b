//! A key's hash, comparison or clone panics, or a value's clone, each in turn in every call of a cache: what is kept is
//! what was kept before or what would be kept after, nothing panics later, and honest keys are served.

use super::kit::within_the_limit;
use hontkhale::parts::cache::{CountedCache, TtlCache};
use std::hash::{Hash, Hasher};
use std::panic::{catch_unwind, AssertUnwindSafe};
use std::sync::atomic::{AtomicU64, Ordering::SeqCst};
use std::sync::Arc;

const CAPACITY: usize = 40;
const LAST_STAMP: u32 = 3;
/// What is kept before a call, by number and deadline. What is due at the call's moment stands first.
const KEPT: [(u64, u64); 5] = [(0, 40), (1, 50), (2, 300), (3, 200), (4, 1 << 40)];
const NOW: u64 = 60;
/// So many keys have one hash.
const ALIKE: u64 = 20;

type Cache = CountedCache<Thing, Thing>;

/// How many calls of a thing's code, and how many hashes, are still made until one panics; and how many things there are.
#[derive(Default)]
struct Counts {
    calls: AtomicU64,
    hashes: AtomicU64,
    alive: AtomicU64,
}

/// Panics where this is the last call that it leaves.
fn burns(calls: &AtomicU64) {
    let left = calls.load(SeqCst);
    calls.store(left.saturating_sub(1), SeqCst);
    assert!(left != 1, "a key's or a value's code");
}

/// A key or a value.
struct Thing {
    number: u64,
    counts: Arc<Counts>,
}

impl Thing {
    fn of(number: u64, counts: &Arc<Counts>) -> Thing {
        counts.alive.fetch_add(1, SeqCst);
        Thing {
            number,
            counts: counts.clone(),
        }
    }

    fn called(&self) {
        burns(&self.counts.calls);
    }
}

impl Hash for Thing {
    fn hash<H: Hasher>(&self, hasher: &mut H) {
        self.called();
        burns(&self.counts.hashes);
        (self.number / ALIKE).hash(hasher);
    }
}

impl PartialEq for Thing {
    fn eq(&self, other: &Thing) -> bool {
        self.called();
        self.number == other.number
    }
}

impl Eq for Thing {}

impl Clone for Thing {
    fn clone(&self) -> Thing {
        self.called();
        Thing::of(self.number, &self.counts)
    }
}

impl Drop for Thing {
    fn drop(&mut self) {
        self.counts.alive.fetch_sub(1, SeqCst);
    }
}

/// A call that is made at [`NOW`].
type Call = fn(&mut Cache, &dyn Fn(u64) -> Thing);

const CALLS: [(&str, Call); 21] = [
    ("get", |it, of| assert!(it.cache.get(&of(2), NOW).is_some())),
    ("contains", |it, of| assert!(it.cache.contains(&of(2), NOW))),
    ("sees", |it, of| assert!(it.sees(&of(2), NOW))),
    ("put, new", |it, of| drop(it.cache.put(of(9), of(109), 30, NOW))),
    ("put, kept", |it, of| drop(it.cache.put(of(2), of(109), 30, NOW))),
    ("put, due", |it, of| drop(it.cache.put(of(0), of(109), 30, NOW))),
    ("put, worn", |it, of| drop(it.cache.put(of(3), of(109), 30, NOW))),
    ("set, new", |it, of| drop(it.cache.set(of(9), of(109), 30, NOW))),
    ("set, kept", |it, of| drop(it.cache.set(of(2), of(109), 30, NOW))),
    ("set, worn", |it, of| drop(it.cache.set(of(3), of(109), 30, NOW))),
    ("take, kept", |it, of| drop(it.cache.take(&of(2), NOW))),
    ("take, due", |it, of| drop(it.cache.take(&of(0), NOW))),
    ("renew, kept", |it, of| assert!(it.cache.renew(&of(2), 30, NOW).is_ok())),
    ("renew, worn", |it, of| {
        assert!(it.cache.renew(&of(3), 30, NOW).is_err())
    }),
    ("touch, kept", |it, of| assert!(it.cache.touch(&of(2), 30, NOW).is_ok())),
    ("touch, worn", |it, of| assert!(it.cache.touch(&of(3), 30, NOW).is_ok())),
    ("refresh", |it, _| assert!(it.cache.refresh().is_ok())),
    ("purge", |it, _| assert!(it.cache.purge(NOW).is_ok())),
    ("take_expired", |it, _| drop(it.cache.take_expired(NOW))),
    ("get_or_insert_with, seen", |it, of| {
        drop(it.get_or_insert_with(of(2), 30, NOW, || of(109)))
    }),
    ("get_or_insert_with, new", |it, of| {
        drop(it.get_or_insert_with(of(9), 30, NOW, || of(109)))
    }),
];

/// A cache that keeps [`KEPT`], each under 100 more. The slot of 3 has no stamp left.
fn kept(counts: &Arc<Counts>) -> Cache {
    let mut cache = TtlCache::new(CAPACITY, LAST_STAMP).unwrap();
    for (number, deadline) in KEPT {
        assert!(cache
            .put(Thing::of(number, counts), Thing::of(100 + number, counts), deadline, 0)
            .is_ok());
    }
    for _ in 1..LAST_STAMP {
        assert_eq!(cache.renew(&Thing::of(3, counts), 200, 0), Ok(200));
    }
    CountedCache::new(cache)
}

/// Makes a call whose n-th call of a thing's code panics, and tells whether one did.
fn panics_at(nth: u64, call: Call, cache: &mut Cache, counts: &Arc<Counts>) -> bool {
    counts.calls.store(nth, SeqCst);
    let called = catch_unwind(AssertUnwindSafe(|| call(cache, &|number| Thing::of(number, counts))));
    counts.calls.store(0, SeqCst);
    called.is_err()
}

/// Takes out what is kept, in the order of deadlines: the key, the value, and the deadline or [`NOW`], if that is later.
fn drained(cache: &mut Cache) -> Vec<(u64, u64, u64)> {
    let mut all = Vec::new();
    while let Some(deadline) = cache.cache.next_deadline() {
        let tick = deadline.max(NOW);
        let (key, value) = cache
            .cache
            .take_expired(tick)
            .unwrap()
            .expect("something is due at the next deadline");
        all.push((tick, key.number, value.number));
    }
    all.sort_unstable();
    all
}

/// A cache whose rows are whole: as many keys are counted as come out, and as many honest keys as it has room for are
/// served.
fn serves(cache: &mut Cache, counts: &Arc<Counts>) {
    let cache = &mut cache.cache;
    assert!(cache.is_empty() && cache.next_wake().is_none() && cache.seen(0).count() == 0);
    let now = cache.moment();
    let thing = |number| Thing::of(number, counts);
    for number in 0..CAPACITY as u64 {
        let put = cache.set(thing(number), thing(number), 10, now);
        assert!(matches!(put, Ok(None)), "{number} is refused");
    }
    for number in 0..CAPACITY as u64 {
        assert_eq!(cache.take(&thing(number), now).expect("what was put").number, number);
    }
    assert!(cache.is_empty());
}

/// Takes each key that is seen, and drops what is due.
fn takes_all(cache: &mut Cache, counts: &Arc<Counts>) {
    let seen: Vec<(u64, u64)> = cache
        .cache
        .seen(NOW)
        .map(|(key, value)| (key.number, value.number))
        .collect();
    for (number, value) in seen {
        let taken = cache.cache.take(&Thing::of(number, counts), NOW);
        assert_eq!(taken.map(|taken| taken.number), Some(value));
    }
    assert!(cache.cache.purge(NOW).is_ok());
}

/// What comes out after a call whose n-th call of a thing's code panicked, and whether one did.
fn after(nth: u64, call: Call) -> (bool, Vec<(u64, u64, u64)>) {
    let counts = Arc::new(Counts::default());
    let mut cache = kept(&counts);
    panics_at(nth, call, &mut cache, &counts);
    takes_all(&mut cache, &counts);
    serves(&mut cache, &counts);
    drop(cache);

    let mut cache = kept(&counts);
    let panicked = panics_at(nth, call, &mut cache, &counts);
    let len = cache.cache.len();
    let all = drained(&mut cache);
    assert_eq!(all.len(), len, "each key that is counted comes out");
    serves(&mut cache, &counts);
    drop(cache);
    assert_eq!(counts.alive.load(SeqCst), 0, "each key and each value is dropped once");
    (panicked, all)
}

#[test]
fn each_call_of_a_keys_code_panics_in_turn() {
    within_the_limit(|| {
        let later = |all: &[(u64, u64, u64)]| all.iter().filter(|it| it.0 > NOW).copied().collect::<Vec<_>>();
        for (name, call) in CALLS {
            let (_, old) = after(0, |_, _| {});
            let (_, new) = after(0, call);
            let mut panics = 0;
            for nth in 1.. {
                let (panicked, all) = after(nth, call);
                if !panicked {
                    assert_eq!(all, new, "{name}");
                    break;
                }
                panics = nth;
                assert!(
                    all.iter().all(|it| old.contains(it) || new.contains(it)),
                    "{name}, {nth}: {all:?}"
                );
                let kept = later(&all);
                assert!(kept == later(&old) || kept == later(&new), "{name}, {nth}: {all:?}");
            }
            assert!(panics > 0 || name == "refresh", "{name}");
        }
    });
}

/// A cache in which the n-th hash of one put panicked. A put of a new key hashes it twice: so from the third on it is while
/// the map moves its keys, since too many places of it are spoilt by keys that were taken out.
fn panicked_while_moving(nth: u64, counts: &Arc<Counts>) -> Option<Cache> {
    let mut cache = CountedCache::new(TtlCache::with_capacity(CAPACITY).unwrap());
    let put = |cache: &mut Cache, number| {
        cache
            .cache
            .put(Thing::of(number, counts), Thing::of(number, counts), 1_000, NOW)
    };
    for number in 0..ALIKE {
        assert!(put(&mut cache, number).is_ok());
    }
    for number in 0..ALIKE {
        assert!(cache.cache.take(&Thing::of(number, counts), NOW).is_some());
    }
    for number in ALIKE..2 * ALIKE {
        counts.hashes.store(nth, SeqCst);
        let called = catch_unwind(AssertUnwindSafe(|| put(&mut cache, number).is_ok()));
        counts.hashes.store(0, SeqCst);
        if called.is_err() {
            return Some(cache);
        }
    }
    None
}

// Std's map may lose keys then. What is left is whole, and no slot is taken by what was lost.
#[test]
fn a_hash_panics_while_the_map_moves_its_keys() {
    within_the_limit(|| {
        let counts = Arc::new(Counts::default());
        let mut met = 0;
        for round in 0..400 {
            let Some(mut cache) = panicked_while_moving(3 + round % 8, &counts) else {
                continue;
            };
            met += 1;
            let len = cache.cache.len();
            assert_eq!(cache.cache.seen(NOW).count(), len);
            assert_eq!(drained(&mut cache).len(), len);
            serves(&mut cache, &counts);
            drop(cache);
            assert_eq!(counts.alive.load(SeqCst), 0, "each key and each value is dropped once");
        }
        assert!(met > 10, "{met}");
    });
}

// Each call that lets a key go lets all of its copies go: the cache's own, and its timer's.
#[test]
fn copies_of_keys_are_dropped() {
    let keys: Vec<_> = (0..3).map(Arc::new).collect();
    let copies = || keys.iter().map(Arc::strong_count).collect::<Vec<_>>();
    let mut cache: TtlCache<Arc<u32>, &str> = TtlCache::with_capacity(2).expect("a cache");
    for (key, ttl) in [(0_usize, 10), (0, 20), (1, 5)] {
        assert!(cache.put(keys[key].clone(), "value", ttl, 0).is_ok());
    }
    assert!(cache.put(keys[2].clone(), "no room", 5, 0).is_err());
    assert_eq!(copies(), [3, 3, 1], "two of each that is kept");
    assert_eq!(cache.take(&keys[0], 0), Some("value"));
    assert_eq!((copies(), cache.purge(5)), (vec![1, 3, 1], Ok(1)));
    assert_eq!(copies(), [1, 1, 1]);
    assert!(cache.put(keys[2].clone(), "value", 5, 6).is_ok());
    cache.refresh().expect("memory");
    assert_eq!(copies(), [1, 1, 3]);
    drop(cache);
    assert_eq!(copies(), [1, 1, 1]);
}
