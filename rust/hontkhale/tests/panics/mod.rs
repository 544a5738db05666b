//! Each call of a program's own code panics in turn: a value's drop, a wake, a waker's drop, a source's tick, a closure.
//!
//! A call is made again and again from the same state. In its n-th run the n-th piece of the program's code in it panics,
//! until a run meets no panic. After each run the queue is gone through: its tally adds up, what is live comes out in
//! order and not early, each slot can be filled, and each value is dropped once.

// The tests ask for a newer Rust than the crate, and drop what a call gives whatever its type is.
#![allow(clippy::incompatible_msrv, clippy::drop_non_drop, dropping_copy_types)]

mod kit;
mod law;
mod shards;

mod owner {
    //! The calls of one owner's queue.

    use super::kit::{deadline_of, key, panics_in_turn, Keys, Subject, Value, CAPACITY};
    use crate::parts::owner::{DelayCore, Key, Piece, Tally, VecWords};

    type Queue = DelayCore<Value, VecWords>;

    impl Subject for Queue {
        fn made() -> Queue {
            DelayCore::with_capacity(CAPACITY).expect("a queue")
        }

        fn insert(&mut self, when: u64) -> Option<Key> {
            key(DelayCore::insert(self, Value::new(), when))
        }

        fn cancel(&mut self, key: &Key) {
            DelayCore::cancel(self, key).expect("a live entry");
        }

        fn out(&mut self, tick: u64) -> Option<u64> {
            deadline_of(self.poll(tick).expect("a tick"))
        }

        fn sweep(&mut self) {
            DelayCore::sweep(self);
        }

        fn clear(&mut self) {
            DelayCore::clear(self);
        }

        fn tally(&mut self) -> Tally {
            DelayCore::tally(self)
        }

        fn check_law(&mut self) -> Result<(), &'static str> {
            DelayCore::check_law(self)
        }
    }

    // The program's code in a call panics at least so often, over all states.
    fn at_least(places: u64, name: &str, call: impl Fn(&mut Queue, &Keys)) {
        let met = panics_in_turn(name, call);
        assert!(met >= places, "{name}: {met} panics");
    }

    #[test]
    fn an_insert_panics_in_turn() {
        at_least(1, "insert", |queue, _| drop(key(queue.insert(Value::new(), 20))));
        at_least(1, "three inserts", |queue, _| {
            (0..3).for_each(|at| drop(key(queue.insert(Value::new(), 20 + at))));
        });
    }

    #[test]
    fn a_poll_panics_in_turn() {
        at_least(4, "poll", |queue, _| drop(queue.poll(10)));
        at_least(4, "poll until it rests", |queue, _| {
            while deadline_of(queue.poll(50).expect("a tick")).is_some() {}
        });
        at_least(4, "poll_some", |queue, _| {
            while matches!(queue.poll_some(50, 1), Ok(Piece::Working)) {}
        });
    }

    #[test]
    fn a_sweep_panics_in_turn() {
        at_least(6, "sweep", |queue, _| drop(queue.sweep()));
        at_least(2, "sweep_some", |queue, _| drop(queue.sweep_some(0, 1)));
        at_least(2, "reap", |queue, keys| drop(queue.reap(&keys[0].entry())));
    }

    #[test]
    fn a_clear_panics_in_turn() {
        at_least(8, "clear", |queue, _| drop(queue.clear()));
    }

    #[test]
    fn calls_of_one_entry_panic_in_turn() {
        panics_in_turn("remove", |queue: &mut Queue, keys| drop(queue.remove(&keys[3].entry())));
        panics_in_turn("reset", |queue: &mut Queue, keys| {
            drop(queue.reset(&keys[3].entry(), 30))
        });
        panics_in_turn("extend", |queue: &mut Queue, keys| drop(queue.extend(&keys[3], 300)));
    }
}
