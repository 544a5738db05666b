//! Keys that no queue gave, or another one.

use hontkhale::parts::owner::{
    numbered_queue, CallError, CoreConfig, CoreError, DelayCore, EntryId, Key, ReapError, VecWords, WordsError,
};
use std::mem;

/// Keys of numbers at the borders, under two shards' numbers.
fn forged(shard: u32) -> Vec<Key> {
    let numbers = [0, 1, 2, 63, 64, 65_535, 65_536, 1_048_575, 1_048_576, u32::MAX];
    let mut keys = Vec::new();
    for index in numbers {
        for born in numbers {
            for stamp in numbers {
                keys.push(Key::new(EntryId::new(shard, index, born), stamp));
                keys.push(Key::new(EntryId::new(shard.wrapping_add(1), index, born), stamp));
            }
        }
    }
    keys
}

#[test]
fn forged_keys_are_refused_by_name() {
    let mut queue = DelayCore::with_capacity(64).unwrap();
    let key = queue.insert_or_drop(5, 10).unwrap();
    for it in forged(queue.shard()).into_iter().filter(|it| it.entry() != key.entry()) {
        let entry = it.entry();
        assert_eq!(queue.deadline(&entry), Err(CoreError::Missing));
        assert_eq!(queue.remove(&entry).unwrap_err(), CoreError::Missing);
        assert_eq!(queue.reset(&entry, 5), Err(CoreError::Missing));
        assert_eq!(queue.reap(&entry), Err(ReapError::Missing));
        assert!(queue.get(&entry).is_none() && queue.place(&entry).is_none());
        if (entry.shard(), entry.index(), it.stamp()) != (queue.shard(), 0, 1) {
            let refused = queue.extend(&it, 500).unwrap_err();
            assert!(matches!(refused, CallError::Unknown | CallError::Stale { seen: 1 }));
            assert_eq!((queue.cancel(&it), queue.look(&it)), (Err(refused), Err(refused)));
        }
    }
    assert_eq!((queue.deadline(&key.entry()), queue.len()), (Ok(10), 1));
}

fn numbered(shard: u32) -> DelayCore<&'static str, hontkhale::parts::owner::Keeper> {
    numbered_queue(CoreConfig {
        shard,
        ..CoreConfig::of(2)
    })
    .unwrap()
}

/// The owner asks by the number. A caller asks its own words, and has no number: who has many of them asks by it, as a
/// `Handle` does.
#[test]
fn a_key_of_a_queue_of_another_number_is_refused() {
    let mut queues = [numbered(7), numbered(8)];
    let keys = [
        queues[0].insert_or_drop("a", 10).unwrap(),
        queues[1].insert_or_drop("b", 10).unwrap(),
    ];
    let mut callers = [queues[0].issue().unwrap(), queues[1].issue().unwrap()];
    for (of, other) in [(0, 1), (1, 0)] {
        let entry = keys[other].entry();
        assert_eq!(queues[of].remove(&entry).unwrap_err(), CoreError::Missing);
        assert_eq!(queues[of].get(&entry), None);
        assert_eq!(queues[of].reset(&entry, 5), Err(CoreError::Missing));
    }
    let [a, b] = &mut queues;
    mem::swap(a, b);
    assert_eq!(callers[0].extend(&keys[0], 70), Ok(70));
    assert_eq!(
        (b.deadline(&keys[0].entry()), a.deadline(&keys[1].entry())),
        (Ok(70), Ok(10))
    );
    callers.swap(0, 1);
    assert_eq!(callers[0].extend(&keys[1], 90), Ok(90));
    assert_eq!(a.deadline(&keys[1].entry()), Ok(90));
}

#[test]
fn a_key_of_another_number_is_refused_over_plain_words() {
    let numbered = |shard| {
        let config = CoreConfig {
            shard,
            ..CoreConfig::of(2)
        };
        DelayCore::<&str, VecWords>::new(config, VecWords::new(2).unwrap())
            .ok()
            .unwrap()
    };
    let (mut ours, mut theirs) = (numbered(7), numbered(8));
    let keys = [
        ours.insert_or_drop("a", 10).unwrap(),
        theirs.insert_or_drop("b", 10).unwrap(),
    ];
    assert_eq!(
        (ours.extend(&keys[1], 50), theirs.cancel(&keys[0])),
        (Err(CallError::Unknown), Err(CallError::Unknown))
    );
    assert_eq!((ours.extend(&keys[0], 50), theirs.cancel(&keys[1])), (Ok(50), Ok(10)));
}

#[test]
fn errors_print_what_they_carry() {
    let told = |error: &dyn std::error::Error| error.to_string();
    let full = CoreError::Full { linked: 3, worn: 1 };
    assert_eq!(
        told(&full),
        "the queue is full: 3 entries are linked and 1 slots are worn"
    );
    let ended = CallError::Ended {
        how: hontkhale::parts::owner::Look::LookExpired(5),
    };
    assert_eq!(told(&ended), "the entry expired at 5");
    assert_eq!(
        told(&WordsError::TooManyHandles { limit: 9 }),
        "no more than 9 handles are issued"
    );
}
