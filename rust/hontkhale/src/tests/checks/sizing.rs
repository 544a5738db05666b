//! When a store that grows is to be of another size.

use crate::core::{CoreConfig, DelayCore, VecWords};
use crate::growing::{SizedStore, Sizing};

type Held = SizedStore<u32, VecWords>;

const LEAST: usize = 16;

fn core(shard: u32, capacity: usize) -> DelayCore<u32, VecWords> {
    let words = VecWords::new(capacity).expect("memory");
    let config = CoreConfig {
        shard,
        capacity,
        last_stamp: 9,
    };
    DelayCore::new(config, words).unwrap_or_else(|_| panic!("a core"))
}

// A store of one core of that many slots, of which so many are used. There is no work.
fn store(capacity: usize, used: u32) -> Held {
    let mut store = SizedStore::new(LEAST).expect("a store of no cores");
    assert!(store.bring(core(0, capacity)).is_ok());
    (0..used).for_each(|value| assert!(store.insert(value, 1_000).0.is_ok()));
    assert!(store.take_needless().is_none());
    store
}

// promise: growing.sizing
#[test]
fn the_next_core_is_made_ahead_once_a_sixteenth_is_free() {
    let sizing = Sizing::new(LEAST);
    assert_eq!(sizing.capacity_ahead(store(64, 59).store()), None);
    assert_eq!(sizing.capacity_ahead(store(64, 60).store()), Some(128));
}

// promise: growing.sizing
#[test]
fn no_core_is_smaller_than_the_least() {
    let sizing = Sizing::new(LEAST);
    assert_eq!(sizing.capacity_for_insert(store(64, 0).store()), Some(LEAST));
    assert_eq!(sizing.capacity_for_insert(store(64, 9).store()), Some(32));
}

// promise: growing.sizing
#[test]
fn a_core_that_comes_is_work() {
    let mut store = store(64, 9);
    assert!(!store.sizing().has_work());
    assert!(store.bring(core(1, 32)).is_ok());
    assert!(store.sizing().has_work());
}

// promise: growing.sizing
#[test]
fn a_core_that_comes_is_open_where_the_open_one_is_too_large_or_full() {
    for (used, opened) in [(8, 1), (9, 0), (63, 0), (64, 1)] {
        let mut store = store(64, used);
        assert!(store.bring(core(1, 16)).is_ok());
        assert_eq!(store.store().cores().opened(), opened, "{used}");
    }
}

// promise: growing.sizing
#[test]
fn a_core_that_is_opened_again_is_work() {
    let told = |store: &Held| (store.store().cores().opened(), store.sizing().has_work());
    let mut store = store(16, 8);
    store.close();
    assert!(store.bring(core(1, 16)).is_ok());
    // One look finds no core to be taken out, and the work is done.
    assert!(store.take_needless().is_none());
    for value in 0..16 {
        assert!(store.finds_room(false));
        assert!(store.insert(value, 1_000).0.is_ok());
    }
    assert_eq!(told(&store), (1, false));
    assert!(store.finds_room(false));
    assert_eq!(told(&store), (0, true));
}

// promise: growing.sizing
#[test]
fn an_end_leaves_work_where_the_open_core_is_too_large() {
    let has_work = |used, left| {
        let mut store = store(64, used);
        store.note_left(left);
        store.sizing().has_work()
    };
    assert!(!has_work(9, 0));
    assert!(!has_work(8, 17), "it isn't looked at each end");
    for left in [0, 8, 128] {
        assert!(has_work(8, left), "{left}");
    }
}
