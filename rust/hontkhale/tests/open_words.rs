//! Open words: any thread extends, cancels and looks by a `&`, with no caller.

// The tests ask for a newer Rust than the crate.
#![allow(clippy::incompatible_msrv)]

use hontkhale::parts::owner::{
    shared_queue, CallError, CoreConfig, DelayCore, Keeper, Key, Look, OpenWords, Turn, LAST_TICK,
};
use std::sync::atomic::{AtomicBool, AtomicU64, Ordering::SeqCst};
use std::thread;

type Queue<T> = DelayCore<T, Keeper>;

/// A queue whose words are open, and that issues no caller.
fn open_queue<T>(capacity: usize) -> (Queue<T>, OpenWords) {
    let mut keeper = Keeper::new(capacity).unwrap();
    let words = keeper.open().unwrap();
    let queue = DelayCore::new(CoreConfig::of(capacity), keeper).ok();
    (queue.unwrap(), words)
}

/// Takes out what is due.
fn due<T>(queue: &mut Queue<T>, now: u64) -> impl Iterator<Item = hontkhale::parts::owner::Expired<T>> + '_ {
    std::iter::from_fn(move || match queue.poll(now) {
        Ok(Turn::Out(expired)) => Some(expired),
        _ => None,
    })
}

/// Each entry's value is its number as a text, so that a value that is lost is a leak.
fn insert_all(queue: &mut Queue<String>, deadlines: impl Iterator<Item = u64>) -> Vec<Key> {
    deadlines
        .enumerate()
        .map(|(entry, when)| queue.insert_or_drop(entry.to_string(), when).unwrap())
        .collect()
}

/// Says that a test is over, also where it panics.
struct Ends<'a>(&'a AtomicBool);

impl Drop for Ends<'_> {
    fn drop(&mut self) {
        self.0.store(true, SeqCst);
    }
}

const THREADS: u64 = 5_000;
const AHEAD: u64 = 8;

/// Each thread extends the entries that are about due, and remembers what it was answered.
fn extends_near(now: u64, keys: &[Key], words: &OpenWords, promised: &[AtomicU64]) {
    let near = now as usize..(now as usize + AHEAD as usize).min(keys.len());
    for entry in near {
        let when = entry as u64 + 1 + now % 3;
        match words.extend(&keys[entry], when) {
            Ok(deadline) => {
                assert!(when <= deadline);
                promised[entry].fetch_max(deadline, SeqCst);
            }
            Err(CallError::Ended {
                how: Look::LookExpired(at),
            }) => assert!(at >= entry as u64),
            Err(refused) => panic!("{refused}"),
        }
    }
}

// promise: words.open-threads
#[test]
fn five_thousand_threads_extend_one_table_beside_a_poller() {
    let (mut queue, words) = open_queue(THREADS as usize);
    let keys = insert_all(&mut queue, 0..THREADS);
    let promised: Vec<AtomicU64> = (0..THREADS).map(AtomicU64::new).collect();
    let (now, is_over) = (AtomicU64::new(0), AtomicBool::new(false));
    let mut ended = vec![None; keys.len()];
    thread::scope(|scope| {
        let (queue, ended, now, is_over) = (&mut queue, &mut ended, &now, &is_over);
        scope.spawn(move || {
            while !is_over.load(SeqCst) {
                for expired in due(queue, now.load(SeqCst)) {
                    let entry: usize = expired.value.parse().unwrap();
                    assert_eq!(ended[entry].replace(expired.deadline), None, "an entry came out twice");
                }
            }
        });
        let _ends = Ends(is_over);
        let small = || thread::Builder::new().stack_size(64 << 10);
        for _ in 0..THREADS / 50 {
            let wave: Vec<_> = (0..50)
                .map(|_| {
                    let (keys, words, promised) = (&keys, &words, &promised);
                    let calls = move || extends_near(now.fetch_add(1, SeqCst), keys, words, promised);
                    small().spawn_scoped(scope, calls).unwrap()
                })
                .collect();
            wave.into_iter().for_each(|thread| thread.join().unwrap());
        }
    });
    for expired in due(&mut queue, 2 * THREADS) {
        let entry: usize = expired.value.parse().unwrap();
        assert_eq!(ended[entry].replace(expired.deadline), None, "an entry came out twice");
    }
    for (entry, promised) in promised.iter().enumerate() {
        assert_eq!(ended[entry], Some(promised.load(SeqCst)), "of entry {entry}");
    }
    assert_eq!((queue.out(), queue.returned()), (0, Ok(0)));
}

/// Once its words are open, no step of a keeper is a plain one, even if it issued no caller: else an extend that comes
/// between the two halves of a plain exchange would be accepted and lost.
fn race_one_poller() {
    const MANY: u64 = 20_000;
    const LATE: u64 = 2 * MANY;
    let (mut queue, words) = open_queue(MANY as usize);
    let keys = insert_all(&mut queue, 0..MANY);
    let at = AtomicU64::new(0);
    let mut ended = vec![None; keys.len()];
    let promised = thread::scope(|scope| {
        let extends = scope.spawn(|| {
            let (mut promised, mut last) = (vec![None; keys.len()], u64::MAX);
            loop {
                let entry = at.load(SeqCst);
                if entry == MANY {
                    return promised;
                }
                if entry != last {
                    last = entry;
                    promised[entry as usize] = words.extend(&keys[entry as usize], LATE).ok();
                }
            }
        });
        for now in 0..MANY {
            at.store(now, SeqCst);
            for expired in due(&mut queue, now) {
                ended[expired.value.parse::<usize>().unwrap()] = Some(expired.deadline);
            }
        }
        at.store(MANY, SeqCst);
        extends.join().unwrap()
    });
    for expired in due(&mut queue, LATE) {
        let entry: usize = expired.value.parse().unwrap();
        assert_eq!(ended[entry].replace(expired.deadline), None, "an entry came out twice");
    }
    for (entry, promised) in promised.into_iter().enumerate() {
        assert_eq!(ended[entry], Some(promised.unwrap_or(entry as u64)), "of entry {entry}");
    }
}

// promise: words.open-threads
#[test]
fn a_poll_beside_an_extend_by_open_words_loses_none() {
    (0..10).for_each(|_| race_one_poller());
}

/// What a call that is to be refused has to answer, by the name of its key.
// promise: words.open-threads
#[test]
fn each_refusal_of_open_words_comes_in_its_order() {
    let (mut queue, words) = open_queue(4);
    let keys = insert_all(&mut queue, [10, 20, 30, 40].into_iter());
    let (expired, removed, reset, live) = (keys[0], keys[1], keys[2], keys[3]);
    assert_eq!(due(&mut queue, 10).count(), 1);
    assert_eq!(queue.remove(&removed.entry()).unwrap().value, "1");
    let renewed = queue.reset(&reset.entry(), 31).unwrap();

    // keys of a wider queue: of a slot that these words haven't, and of a stamp that they haven't given
    let mut wide = shared_queue(9).unwrap();
    let beyond = (0..9).map(|_| wide.insert_or_drop((), 1).unwrap()).last().unwrap();
    assert_eq!(beyond.entry().index(), 8);
    wide.clear();
    let ahead = loop {
        let key = wide.insert_or_drop((), 1).unwrap();
        wide.clear();
        if key.entry().index() == 3 && key.stamp() > live.stamp() {
            break key;
        }
    };

    let gone = |how| Err(CallError::Ended { how });
    let stale = Err(CallError::Stale { seen: renewed.stamp() });
    let cases = [
        ("beyond", beyond, Err(CallError::Unknown), Err(CallError::Unknown)),
        ("ahead", ahead, Err(CallError::Unknown), Err(CallError::Unknown)),
        ("reset", reset, stale, stale.map(Look::StillLive)),
        (
            "expired",
            expired,
            gone(Look::LookExpired(10)),
            Ok(Look::LookExpired(10)),
        ),
        (
            "removed",
            removed,
            gone(Look::LookRemoved(20)),
            Ok(Look::LookRemoved(20)),
        ),
    ];
    for (name, key, refused, looks) in cases {
        let far = Err(CallError::TooFar { limit: LAST_TICK });
        assert_eq!(words.extend(&key, LAST_TICK + 1), far, "{name}");
        assert_eq!(words.extend(&key, LAST_TICK), refused, "{name}");
        assert_eq!(words.cancel(&key), refused, "{name}");
        assert_eq!(words.look(&key), looks, "{name}");
    }

    // what was refused changed nothing
    assert_eq!(words.look(&renewed), Ok(Look::StillLive(31)));
    assert_eq!(words.look(&live), Ok(Look::StillLive(40)));
    assert_eq!(words.extend(&live, LAST_TICK), Ok(LAST_TICK));
    assert_eq!(words.extend(&live, 50), Ok(LAST_TICK));
    assert_eq!(words.cancel(&live), Ok(LAST_TICK));
    let cancelled = Look::LookCancelled;
    assert_eq!(
        (words.cancel(&live), words.look(&live)),
        (gone(cancelled), Ok(cancelled))
    );
    assert_eq!(
        due(&mut queue, LAST_TICK).map(|out| out.deadline).collect::<Vec<_>>(),
        [31]
    );
    assert_eq!(queue.tally().cancelled, 1);
}

// promise: words.open-threads
#[test]
fn open_words_outlive_their_queue() {
    let (mut queue, words) = open_queue(2);
    let keys = insert_all(&mut queue, [10, 20].into_iter());
    assert_eq!(words.cancel(&keys[0]), Ok(10));
    drop(queue);
    assert_eq!(words.look(&keys[0]), Ok(Look::LookCancelled));
    assert_eq!(words.look(&keys[1]), Ok(Look::LookRemoved(20)));
    assert_eq!(
        words.extend(&keys[1], 30),
        Err(CallError::Ended {
            how: Look::LookRemoved(20)
        })
    );
}
