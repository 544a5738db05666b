//! A value's drop panics inside a call of a queue of one owner: the panic comes out of the call, no key, entry or value
//! is lost by it, and the queue goes on.

use super::kit::{adds_up, panics, within_the_limit, Drops, Value};
use hontkhale::parts::owner::{DelayCore, Key, Piece, Turn, VecWords};
use std::panic::{catch_unwind, AssertUnwindSafe};

const ROOM: usize = 5;

// A queue with three cancelled entries, of which the first one's value panics where it is dropped, and two live ones.
struct Owner {
    queue: DelayCore<Value, VecWords>,
    drops: Drops,
    made: u64,
    cancelled: Vec<Key>,
    soon: Key,
    late: Key,
}

impl Owner {
    fn new() -> Owner {
        let drops = Drops::default();
        let mut queue = DelayCore::with_capacity(ROOM).expect("a queue");
        let mut put = |value, when| queue.insert_or_drop(value, when).expect("room");
        let cancelled = vec![
            put(drops.value_that_panics(), 5),
            put(drops.value(), 5),
            put(drops.value(), 5),
        ];
        let (soon, late) = (put(drops.value(), 10), put(drops.value(), 1_000));
        for key in &cancelled {
            assert_eq!(queue.cancel(key), Ok(5));
        }
        Owner {
            queue,
            drops,
            made: 5,
            cancelled,
            soon,
            late,
        }
    }

    // The three values are deferred: a poll freed them, and gave an entry out.
    fn after_a_poll() -> Owner {
        let mut owner = Owner::new();
        let Ok(Turn::Out(out)) = owner.queue.poll(10) else {
            panic!("an entry is due")
        };
        assert_eq!(out.key, owner.soon);
        assert_eq!((owner.queue.deferred(), owner.drops.count()), (3, 0));
        owner
    }

    // As many inserts as there is room for: how many went in, and how many panicked.
    fn fill(&mut self) -> (usize, usize) {
        let (mut went_in, mut panicked) = (0, 0);
        while self.queue.len() < ROOM {
            let value = self.drops.value();
            self.made += 1;
            let linked = self.queue.len();
            match catch_unwind(AssertUnwindSafe(|| self.queue.insert(value, 2_000))) {
                Ok(Ok(key)) => {
                    assert!(self.queue.get(&key.entry()).is_some());
                    went_in += 1;
                }
                Ok(Err((refused, _))) => panic!("there is room: {refused}"),
                Err(_) => {
                    assert_eq!(self.queue.len(), linked, "no entry goes in whose key is lost");
                    panicked += 1;
                }
            }
        }
        (went_in, panicked)
    }

    // It drops what it still has to, takes as many entries as it has room for, and gives each of them.
    fn goes_on(mut self) {
        adds_up(&self.queue.tally());
        self.queue.sweep();
        self.fill();
        self.queue.drop_deferred();
        let linked = self.queue.len();
        assert_eq!((linked, self.queue.entries().count()), (ROOM, ROOM));
        assert_eq!((self.queue.sweep(), self.queue.deferred()), (0, 0));
        for left in (0..linked).rev() {
            assert!(matches!(self.queue.poll(3_000), Ok(Turn::Out(_))));
            assert_eq!(self.queue.len(), left);
        }
        assert!(matches!(self.queue.poll(3_000), Ok(Turn::Idle)));
        adds_up(&self.queue.tally());
        drop(self.queue);
        assert_eq!(self.drops.count(), self.made, "each value is dropped once");
    }
}

// The call panics, and has freed so many values by then.
fn panics_in(reaped: usize, call: impl FnOnce(&mut Owner) + Send + 'static) {
    within_the_limit(move || {
        let mut owner = Owner::new();
        let linked = owner.queue.len();
        assert_eq!(panics(|| call(&mut owner)), "a value's drop");
        assert_eq!(owner.queue.len(), linked - reaped);
        assert_eq!(owner.drops.count(), 1);
        assert_eq!(owner.queue.deferred(), reaped - 1, "the others wait");
        owner.goes_on();
    });
}

// The call drops nothing, whatever is deferred.
fn drops_nothing_in(call: impl FnOnce(&mut Owner) + Send + 'static) {
    within_the_limit(move || {
        let mut owner = Owner::after_a_poll();
        call(&mut owner);
        assert_eq!(owner.queue.deferred(), 3);
        owner.goes_on_after_the_panic();
    });
}

impl Owner {
    // The drop that panics comes out of the next call that drops.
    fn goes_on_after_the_panic(mut self) {
        assert_eq!(panics(|| self.queue.drop_deferred()), "a value's drop");
        assert_eq!(self.queue.deferred(), 2);
        self.goes_on();
    }
}

#[test]
fn a_sweep_whose_drop_panics() {
    panics_in(3, |owner| _ = owner.queue.sweep());
}

#[test]
fn a_sweep_in_pieces_whose_drop_panics() {
    panics_in(2, |owner| _ = owner.queue.sweep_some(0, 2));
}

#[test]
fn a_reap_whose_drop_panics() {
    panics_in(1, |owner| {
        owner.queue.reap(&owner.cancelled[0].entry()).expect("it is cancelled")
    });
}

#[test]
fn a_clear_whose_drop_panics() {
    panics_in(5, |owner| _ = owner.queue.clear());
}

#[test]
fn a_poll_that_rests_and_whose_drop_panics() {
    panics_in(3, |owner| _ = owner.queue.poll(9));
}

#[test]
fn a_poll_in_pieces_that_rests_and_whose_drop_panics() {
    panics_in(3, |owner| _ = owner.queue.poll_some(9, 100));
}

#[test]
fn a_poll_that_gives_an_entry_drops_nothing() {
    drops_nothing_in(|owner| assert_eq!(owner.queue.len(), 1));
}

#[test]
fn a_poll_in_pieces_that_gives_an_entry_drops_nothing() {
    within_the_limit(|| {
        let mut owner = Owner::new();
        let Ok(Piece::Answer(Turn::Out(out))) = owner.queue.poll_some(10, 100) else {
            panic!("an entry is due")
        };
        assert_eq!((out.key, owner.drops.count()), (owner.soon, 0));
        drop(out);
        owner.goes_on_after_the_panic();
    });
}

#[test]
fn a_remove_drops_nothing_that_is_deferred() {
    drops_nothing_in(|owner| {
        let removed = owner.queue.remove(&owner.late.entry()).expect("an entry");
        assert_eq!(removed.deadline, 1_000);
    });
}

#[test]
fn a_reset_drops_nothing_that_is_deferred() {
    drops_nothing_in(|owner| {
        let key = owner.queue.reset(&owner.late.entry(), 50).expect("an entry");
        assert_eq!(owner.queue.deadline(&key.entry()), Ok(50));
    });
}

// An insert drops the value of the slot that it takes before its own entry is in: no key is lost.
#[test]
fn an_insert_whose_slot_has_a_value_that_panics() {
    within_the_limit(|| {
        let mut owner = Owner::after_a_poll();
        assert_eq!(owner.fill(), (4, 1));
        assert_eq!(owner.queue.deferred(), 0);
        owner.goes_on();
    });
}

// What lies in a slot is dropped once, and no call of an insert that is refused drops it.
#[test]
fn an_insert_that_is_refused_drops_nothing() {
    drops_nothing_in(|owner| {
        let refused = owner.queue.insert(owner.drops.value(), u64::MAX);
        owner.made += 1;
        assert!(refused.is_err());
    });
}
