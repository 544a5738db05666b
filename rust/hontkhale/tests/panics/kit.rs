//! Code of a program that counts, and panics where it is told to; and the runs of a call over it.

use crate::parts::owner::{Key, Tally, Turn};
use crate::parts::streams::TickSource;
use std::cell::{Cell, RefCell};
use std::panic::{catch_unwind, AssertUnwindSafe};
use std::sync::Arc;
use std::task::{Wake, Waker};

/// How many entries a queue of these tests has room for.
pub const CAPACITY: usize = 4;

thread_local! {
    // The piece of the program's code that panics, counted from 1; 0 where none does.
    static PANICS_AT: Cell<u64> = const { Cell::new(0) };
    // Whether it is a value's drop that panicked.
    static BY_A_DROP: Cell<bool> = const { Cell::new(false) };
    // The keys that inserts gave.
    static KEYS: Cell<u64> = const { Cell::new(0) };
    // How often each value that was made was dropped.
    static DROPPED: RefCell<Vec<u32>> = const { RefCell::new(Vec::new()) };
}

const DROP_OF_A_VALUE: &str = "drop of a value";

/// The key of an insert that gave one.
pub fn key<E>(answer: Result<Key, E>) -> Option<Key> {
    let key = answer.ok()?;
    KEYS.set(KEYS.get() + 1);
    Some(key)
}

/// What a piece of the program's code does first.
pub fn user_code(what: &str) {
    let left = PANICS_AT.get();
    if left > 0 && !std::thread::panicking() {
        PANICS_AT.set(left - 1);
        BY_A_DROP.set(left == 1 && what == DROP_OF_A_VALUE);
        assert!(left != 1, "the program's {what}");
    }
}

/// A value that owns memory, and whose drop is the program's code.
pub struct Value {
    number: usize,
    _memory: Box<u64>,
}

impl Value {
    pub fn new() -> Value {
        DROPPED.with_borrow_mut(|dropped| {
            dropped.push(0);
            Value {
                number: dropped.len() - 1,
                _memory: Box::new(0),
            }
        })
    }
}

impl Drop for Value {
    fn drop(&mut self) {
        DROPPED.with_borrow_mut(|dropped| dropped[self.number] += 1);
        user_code(DROP_OF_A_VALUE);
    }
}

struct Task;

impl Wake for Task {
    fn wake(self: Arc<Self>) {
        user_code("wake");
    }
}

impl Drop for Task {
    fn drop(&mut self) {
        user_code("drop of a waker");
    }
}

/// A waker of a task of its own, whose wake and whose last drop are the program's code.
pub fn waker() -> Waker {
    Arc::new(Task).into()
}

/// Tells always the same tick.
pub struct At(pub u64);

impl TickSource for At {
    fn now(&mut self) -> u64 {
        user_code("tick of a source");
        self.0
    }
}

/// A queue that the calls of a test are made on.
pub trait Subject: Sized {
    /// Whether what is due comes out in the order of the deadlines: a queue of one shard.
    const IN_ORDER: bool = true;
    /// An empty queue.
    fn made() -> Self;
    fn insert(&mut self, when: u64) -> Option<Key>;
    fn cancel(&mut self, key: &Key);
    /// The deadline of what came out at a tick, if anything did.
    fn out(&mut self, tick: u64) -> Option<u64>;
    fn sweep(&mut self);
    fn clear(&mut self);
    fn tally(&mut self) -> Tally;
    /// Goes through all that the queue keeps.
    fn check_law(&mut self) -> Result<(), &'static str>;
}

/// The states from which each call is made.
#[derive(Clone, Copy, Debug)]
pub enum State {
    /// Two entries that were cancelled, one that is due at the tick 10, and one at 100.
    Cancelled,
    /// The same, but the two were freed by a poll that gave the third entry, so that their values wait to be dropped.
    Freed,
    /// Four entries that were cancelled.
    AllCancelled,
}

/// The keys of a state, by the order of their inserts.
pub type Keys = Vec<Key>;

fn prepared<Q: Subject>(state: State) -> (Q, Keys) {
    let mut queue = Q::made();
    let keys: Keys = [5, 10, 10, 100].iter().filter_map(|when| queue.insert(*when)).collect();
    let cancelled = match state {
        State::AllCancelled => 0..4,
        State::Cancelled | State::Freed => 0..2,
    };
    cancelled.for_each(|at| queue.cancel(&keys[at]));
    if let State::Freed = state {
        assert_eq!(queue.out(10), Some(10));
    }
    (queue, keys)
}

// What has to hold of a queue whatever panicked in it.
fn is_whole<Q: Subject>(mut queue: Q, what: &str) {
    assert_eq!(queue.check_law(), Ok(()), "{what}");
    let tally = queue.tally();
    assert_eq!(
        tally.inserted,
        tally.expired + tally.removed + tally.cancelled + tally.linked,
        "{what}"
    );
    assert!(
        !BY_A_DROP.get() || tally.inserted == KEYS.get(),
        "{what}: a key is lost, or an entry"
    );
    queue.sweep();
    let live = queue.tally().linked;
    let mut outs = Vec::new();
    // No call of these tests names a later tick than 50, so that none is noted before it.
    for tick in (50..=400).step_by(5) {
        while let Some(deadline) = queue.out(tick) {
            assert!(deadline <= tick, "{what}: an entry came out early");
            outs.push(deadline);
        }
    }
    assert_eq!(outs.len() as u64, live, "{what}: what is live comes out");
    assert!(!Q::IN_ORDER || outs.is_sorted(), "{what}: {outs:?}");
    (0..CAPACITY as u64).for_each(|at| assert!(queue.insert(500 + at).is_some(), "{what}: a slot is lost"));
    assert_eq!(queue.tally().linked, CAPACITY as u64, "{what}");
    assert_eq!(queue.out(500), Some(500), "{what}");
    queue.clear();
    assert_eq!(queue.tally().linked, 0, "{what}");
    drop(queue);
    DROPPED.with_borrow(|dropped| {
        assert!(
            dropped.iter().all(|times| *times == 1),
            "{what}: a value is dropped {dropped:?} times"
        );
    });
}

/// Makes a call from each state, with each piece of the program's code in it panicking in turn, and returns how many did.
pub fn panics_in_turn<Q: Subject>(name: &str, call: impl Fn(&mut Q, &Keys)) -> u64 {
    let mut places = 0;
    for state in [State::Cancelled, State::Freed, State::AllCancelled] {
        for panics_at in 1.. {
            assert!(panics_at < 100, "{name} has no end of the program's code");
            DROPPED.with_borrow_mut(Vec::clear);
            KEYS.set(0);
            BY_A_DROP.set(false);
            let (mut queue, keys) = prepared::<Q>(state);
            PANICS_AT.set(panics_at);
            let ended = catch_unwind(AssertUnwindSafe(|| call(&mut queue, &keys)));
            PANICS_AT.set(0);
            is_whole(queue, &format!("{name} of {state:?}, panic {panics_at}"));
            if ended.is_ok() {
                break;
            }
            places += 1;
        }
    }
    places
}

/// The deadline of a turn that gave an entry.
pub fn deadline_of<T>(turn: Turn<T>) -> Option<u64> {
    match turn {
        Turn::Out(expired) => Some(expired.deadline),
        Turn::Waiting { .. } | Turn::Idle => None,
    }
}
