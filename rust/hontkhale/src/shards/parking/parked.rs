//! A poller that waits for a shard.

use core::task::Waker;

/// What a poller waits for. Ticks are of one millisecond.
pub trait Until: Sized {
    /// What one waits for who is parked at a next wake, none where nothing is linked; none if nobody may be parked so.
    fn of_wake(next_wake: Option<u64>) -> Option<Self>;

    /// Whether one that waits so may go on waiting at a next wake, none where nothing is linked.
    fn lasts_until(&self, next_wake: Option<u64>) -> bool;

    /// Whether its wait is over at a tick.
    fn ends_by(&self, tick: u64) -> bool;
}

/// It waits for a tick, which isn't after the next wake.
impl Until for u64 {
    fn of_wake(next_wake: Option<u64>) -> Option<u64> {
        next_wake
    }

    fn lasts_until(&self, next_wake: Option<u64>) -> bool {
        matches!(next_wake, Some(wake) if *self <= wake)
    }

    fn ends_by(&self, tick: u64) -> bool {
        *self <= tick
    }
}

/// It waits for a tick, or without one for an insert, while nothing is linked.
impl Until for Option<u64> {
    fn of_wake(next_wake: Option<u64>) -> Option<Option<u64>> {
        Some(next_wake)
    }

    fn lasts_until(&self, next_wake: Option<u64>) -> bool {
        match self {
            Some(next) => next.lasts_until(next_wake),
            None => next_wake.is_none(),
        }
    }

    fn ends_by(&self, tick: u64) -> bool {
        matches!(self, Some(next) if *next <= tick)
    }
}

/// A poller that waits for a tick, or for what `N` says.
pub struct Parked<N = u64> {
    /// What it waits for: a tick of one millisecond, or an option of one, where none is a wait for an insert.
    pub next: N,
    /// Wakes its task.
    pub waker: Waker,
}

impl<N> Parked<N> {
    /// Lets the poller go and doesn't wake its task.
    pub fn forget(poller: Parked<N>) {
        drop(poller.waker);
    }
}

/// Lets a poller go that was taken out, and doesn't wake its task. True where there is one. Its waker is the user's:
/// where letting it go may call the queue, the shard's lock is to be free.
pub fn let_sleep<N>(taken: Option<Parked<N>>) -> bool {
    match taken {
        Some(poller) => {
            Parked::forget(poller);
            true
        }
        None => false,
    }
}

/// A poller that has left its shard, if one has. It isn't `Drop`: whoever has it has to wake it, once the shard's lock
/// is free.
#[derive(Debug)]
pub struct PendingWake<N = u64> {
    /// The poller; none where none has left.
    pub poller: Option<Parked<N>>,
}

impl<N> PendingWake<N> {
    /// Wakes its task.
    #[inline]
    pub fn wake(self) {
        let PendingWake { poller } = self;
        if let Some(poller) = poller {
            poller.waker.wake();
        }
    }

    /// Whether there is one.
    pub fn is_some(&self) -> bool {
        self.poller.is_some()
    }
}

/// Takes the poller out, if there is one.
pub fn take<N>(parked: &mut Option<Parked<N>>) -> PendingWake<N> {
    PendingWake { poller: parked.take() }
}

/// Takes the poller out unless it may go on waiting at this next wake.
pub fn keep_until<N: Until>(parked: &mut Option<Parked<N>>, next_wake: Option<u64>) -> PendingWake<N> {
    match parked {
        Some(poller) if !poller.next.lasts_until(next_wake) => take(parked),
        _ => PendingWake { poller: None },
    }
}

/// Takes the poller out where its wait is over at a tick.
pub fn ring<N: Until>(parked: &mut Option<Parked<N>>, tick: u64) -> PendingWake<N> {
    match parked {
        Some(poller) if poller.next.ends_by(tick) => take(parked),
        _ => PendingWake { poller: None },
    }
}
