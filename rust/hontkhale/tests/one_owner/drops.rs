//! Values whose drop panics or calls their own queue: what safe Rust allows leaves the queue whole.

use hontkhale::parts::owner::{shared_queue, Caller, DelayCore, Expired, Keeper, Key, Look, Piece, Turn, VecWords};
use std::panic::{catch_unwind, AssertUnwindSafe};
use std::sync::atomic::{AtomicBool, AtomicUsize, Ordering::SeqCst};
use std::sync::{Arc, Mutex, Weak};
use std::thread;

/// Counts its drops, and panics in each while it is told to.
struct Bomb {
    drops: Arc<AtomicUsize>,
    is_armed: Arc<AtomicBool>,
    held: Box<u64>,
}

impl Drop for Bomb {
    fn drop(&mut self) {
        assert_eq!(*self.held, 11);
        self.drops.fetch_add(1, SeqCst);
        if self.is_armed.load(SeqCst) && !thread::panicking() {
            panic!("a drop that panics");
        }
    }
}

#[derive(Default)]
struct Bombs {
    drops: Arc<AtomicUsize>,
    is_armed: Arc<AtomicBool>,
}

impl Bombs {
    fn bomb(&self) -> Bomb {
        Bomb {
            drops: self.drops.clone(),
            is_armed: self.is_armed.clone(),
            held: Box::new(11),
        }
    }

    /// What panics while drops do. The values are harmless afterwards.
    fn panics<R>(&self, what: impl FnOnce() -> R) {
        self.is_armed.store(true, SeqCst);
        assert!(catch_unwind(AssertUnwindSafe(|| drop(what()))).is_err());
        self.is_armed.store(false, SeqCst);
    }

    fn dropped(&self) -> usize {
        self.drops.load(SeqCst)
    }
}

type Queue = DelayCore<Bomb, Keeper>;

/// A queue with a value in each of its four slots.
fn full(bombs: &Bombs) -> (Queue, Vec<Key>, Caller) {
    let mut queue = shared_queue(4).unwrap();
    let keys = (0..4)
        .map(|when| queue.insert_or_drop(bombs.bomb(), 10 + when).unwrap())
        .collect();
    let caller = queue.issue().unwrap();
    (queue, keys, caller)
}

/// All of it works still, and each of the four values and of the next four is dropped once.
fn still_whole(bombs: &Bombs, mut queue: Queue) {
    queue.clear();
    for when in 0..4 {
        queue.insert_or_drop(bombs.bomb(), 1_000 + when).unwrap();
    }
    assert_eq!((queue.len(), queue.worn()), (4, 0));
    assert_eq!((due!(queue, 1_001).count(), queue.len()), (2, 2));
    let tally = queue.tally();
    assert_eq!(
        tally.inserted,
        tally.expired + tally.removed + tally.cancelled + tally.linked
    );
    drop(queue);
    assert_eq!(bombs.dropped(), 8);
}

#[test]
fn a_clear_whose_values_panic() {
    let bombs = Bombs::default();
    let (mut queue, _, _) = full(&bombs);
    for dropped in 1..=4 {
        bombs.panics(|| queue.clear());
        assert_eq!(bombs.dropped(), dropped);
    }
    assert!(queue.is_empty());
    still_whole(&bombs, queue);
}

#[test]
fn a_poll_that_reaps_values_that_panic() {
    let bombs = Bombs::default();
    let (mut queue, keys, mut caller) = full(&bombs);
    assert!(keys.iter().all(|key| caller.cancel(key).is_ok()));
    for dropped in 1..=4 {
        bombs.panics(|| queue.poll(13));
        assert_eq!(
            (bombs.dropped(), queue.deferred(), queue.len()),
            (dropped, 4 - dropped, 0)
        );
    }
    assert!(matches!(queue.poll(13), Ok(Turn::Idle)));
    still_whole(&bombs, queue);
}

#[test]
fn pieces_that_reap_values_that_panic() {
    let bombs = Bombs::default();
    let (mut queue, keys, mut caller) = full(&bombs);
    assert!(keys.iter().all(|key| caller.cancel(key).is_ok()));
    bombs.panics(|| queue.reap(&keys[3].entry()));
    assert_eq!((bombs.dropped(), queue.reap(&keys[3].entry()).is_err()), (1, true));
    bombs.panics(|| queue.sweep_some(2, 9));
    assert_eq!((bombs.dropped(), queue.sweep_some(2, 9).reaped), (2, 0));
    bombs.panics(|| while !matches!(queue.poll_some(13, 1), Ok(Piece::Answer(_))) {});
    bombs.panics(|| while !matches!(queue.poll_some(13, 1), Ok(Piece::Answer(_))) {});
    assert_eq!((bombs.dropped(), queue.len()), (4, 0));
    still_whole(&bombs, queue);
}

#[test]
fn a_sweep_whose_values_panic() {
    let bombs = Bombs::default();
    let (mut queue, keys, mut caller) = full(&bombs);
    caller.cancel(&keys[1]).unwrap();
    caller.cancel(&keys[2]).unwrap();
    bombs.panics(|| queue.sweep());
    bombs.panics(|| queue.sweep());
    assert_eq!((queue.sweep(), bombs.dropped(), queue.len()), (0, 2, 2));
    still_whole(&bombs, queue);
}

#[test]
fn what_comes_out_panics_when_it_is_dropped() {
    let bombs = Bombs::default();
    let (mut queue, keys, _) = full(&bombs);
    bombs.panics(|| queue.remove(&keys[0].entry()));
    bombs.panics(|| queue.poll(11));
    let mut outs: Vec<Expired<Bomb>> = due!(queue, 12).collect();
    bombs.panics(|| outs.clear());
    bombs.panics(|| due!(queue, 13).for_each(drop));
    assert_eq!((bombs.dropped(), queue.len()), (4, 0));
    still_whole(&bombs, queue);
}

#[test]
fn a_refused_insert_whose_value_panics() {
    let bombs = Bombs::default();
    let (mut queue, _, _) = full(&bombs);
    bombs.panics(|| queue.insert_or_drop(bombs.bomb(), 5));
    bombs.panics(|| queue.insert(bombs.bomb(), 5));
    assert_eq!((bombs.dropped(), queue.len()), (2, 4));
    drop(queue);
    assert_eq!(bombs.dropped(), 6);
}

/// The words stay with the caller, and what was live is ended.
#[test]
fn a_queue_is_dropped_whose_values_panic() {
    let bombs = Bombs::default();
    let (queue, keys, mut caller) = full(&bombs);
    bombs.panics(|| queue);
    assert_eq!((bombs.dropped(), caller.look(&keys[0])), (4, Ok(Look::LookRemoved(10))));
}

/// Its drop calls the queue that it was in, where nobody has it.
struct Caged {
    queue: Weak<Mutex<DelayCore<Caged, VecWords>>>,
    calls: Arc<AtomicUsize>,
}

impl Drop for Caged {
    fn drop(&mut self) {
        if let Some(queue) = self.queue.upgrade() {
            if let Ok(mut queue) = queue.try_lock() {
                let next = Caged {
                    queue: Weak::new(),
                    calls: self.calls.clone(),
                };
                queue.insert_or_drop(next, 1_000).unwrap();
                drop(queue.poll(1).unwrap());
                self.calls.fetch_add(1, SeqCst);
            }
        }
    }
}

#[test]
fn a_drop_calls_its_own_queue() {
    let calls = Arc::new(AtomicUsize::new(0));
    let queue = Arc::new(Mutex::new(DelayCore::with_capacity(8).unwrap()));
    let caged = || Caged {
        queue: Arc::downgrade(&queue),
        calls: calls.clone(),
    };
    let insert = |when| queue.lock().unwrap().insert_or_drop(caged(), when).unwrap();
    let keys: Vec<Key> = (0..4).map(insert).collect();
    let out = queue.lock().unwrap().remove(&keys[0].entry()).unwrap();
    drop(out);
    // It put one in, and took out another that was due at the tick 1.
    assert_eq!((calls.load(SeqCst), queue.lock().unwrap().len()), (1, 3));
    queue.lock().unwrap().cancel(&keys[3]).unwrap();
    assert_eq!(queue.lock().unwrap().clear(), 2);
    assert_eq!(calls.load(SeqCst), 1);
}
