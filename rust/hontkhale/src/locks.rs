//! A lock that a panic doesn't poison: whatever panics under it, a shard is whole.

use std::cell::{Cell, RefCell};
use std::mem::{size_of, ManuallyDrop};
pub(crate) use std::sync::MutexGuard;
use std::sync::{PoisonError, TryLockError};

/// A lock that this thread holds while a program's closure runs.
#[derive(Clone, Copy, Default, PartialEq, Eq)]
struct Lent {
    /// The address of what lies behind the lock, 0 where no closure runs.
    address: usize,
    /// What tells the queue of the lock from others.
    queue: usize,
}

/// What a thread is within, one thing within the other. It has no destructor, so that those of a thread's other values may call a
/// queue.
pub(crate) struct Within<X> {
    // Each lock asks for it: by an `Option` an insert takes a few instructions more.
    innermost: Cell<X>,
    /// What is around that.
    around: ManuallyDrop<RefCell<Vec<X>>>,
}

impl<X: Copy + PartialEq + Default> Within<X> {
    /// It is within nothing, of which the default stands.
    pub const fn new(nothing: X) -> Within<X> {
        Within {
            innermost: Cell::new(nothing),
            around: ManuallyDrop::new(RefCell::new(Vec::new())),
        }
    }

    /// Whether the thread is within something of which that is so.
    #[inline(always)]
    pub fn any(&self, is_so: impl Fn(&X) -> bool) -> bool {
        self.innermost.get() != X::default() && self.any_of_all(is_so)
    }

    #[cold]
    fn any_of_all(&self, is_so: impl Fn(&X) -> bool) -> bool {
        is_so(&self.innermost.get()) || self.around.borrow().iter().any(is_so)
    }

    /// Goes into one more, and gives what is around it.
    #[inline(always)]
    pub fn enter(&self, it: X) -> X {
        let around = self.innermost.replace(it);
        if around != X::default() {
            self.around.borrow_mut().push(around);
        }
        around
    }

    /// Leaves the innermost, around which that is.
    #[inline(always)]
    pub fn leave(&self, around: X) {
        self.innermost.set(around);
        if around != X::default() {
            self.leave_around();
        }
    }

    #[cold]
    fn leave_around(&self) {
        let mut around = self.around.borrow_mut();
        around.pop();
        if around.is_empty() {
            // Nobody drops the memory at the thread's end.
            *around = Vec::new();
        }
    }
}

thread_local! {
    static LENT: Within<Lent> = const { Within::new(Lent { address: 0, queue: 0 }) };
}

/// Calls a program's closure with what lies behind a lock of a queue that this thread holds. If the closure waits for the lock, it
/// panics in the place of waiting for ever.
pub(crate) fn with_lock<S, R>(lent: &mut S, queue: usize, call: impl FnOnce(&mut S) -> R) -> R {
    struct Back(Lent);
    impl Drop for Back {
        fn drop(&mut self) {
            LENT.with(|lent| lent.leave(self.0));
        }
    }
    let address = lent as *mut S as usize;
    let _back = Back(LENT.with(|within| within.enter(Lent { address, queue })));
    call(lent)
}

/// Whether this thread runs a closure under a lock of a queue.
pub(crate) fn is_in_closure_of(queue: usize) -> bool {
    LENT.with(|within| within.any(|lent| lent.queue == queue))
}

/// How many locks this thread has taken.
#[cfg(test)]
pub(crate) mod taken {
    use std::cell::Cell;

    thread_local! {
        static TAKEN: Cell<usize> = const { Cell::new(0) };
    }

    pub(super) fn one_more() {
        TAKEN.with(|taken| taken.set(taken.get() + 1));
    }

    /// What a call answers, and how many locks it takes.
    pub(crate) fn by<R>(call: impl FnOnce() -> R) -> (R, usize) {
        let before = TAKEN.with(Cell::get);
        let answer = call();
        (answer, TAKEN.with(Cell::get) - before)
    }
}

/// What lies behind a lock of std's, whatever has panicked under it.
#[inline(always)]
pub(crate) fn hold<T>(lock: &std::sync::Mutex<T>) -> MutexGuard<'_, T> {
    lock.lock().unwrap_or_else(PoisonError::into_inner)
}

/// A value behind a lock.
#[derive(Debug)]
pub struct Mutex<T>(std::sync::Mutex<T>);

impl<T> Mutex<T> {
    pub(crate) fn new(value: T) -> Mutex<T> {
        Mutex(std::sync::Mutex::new(value))
    }

    /// The value, once no other thread has it, until the guard is dropped.
    #[inline]
    pub(crate) fn lock(&self) -> MutexGuard<'_, T> {
        #[cfg(test)]
        taken::one_more();
        let here = self as *const Mutex<T> as usize;
        let is_here = |lent: &Lent| (here..here + size_of::<Mutex<T>>()).contains(&lent.address);
        assert!(
            !LENT.with(|within| within.any(is_here)),
            "a closure that is called under a queue's lock calls the queue"
        );
        self.0.lock().unwrap_or_else(PoisonError::into_inner)
    }

    /// The value, where no thread has it now.
    #[inline]
    pub(crate) fn try_lock(&self) -> Option<MutexGuard<'_, T>> {
        #[cfg(test)]
        taken::one_more();
        match self.0.try_lock() {
            Ok(guard) => Some(guard),
            Err(TryLockError::Poisoned(poisoned)) => Some(poisoned.into_inner()),
            Err(TryLockError::WouldBlock) => None,
        }
    }
}
