//! How a task that is polled waits in a shard: how it asks to be woken, and what it is given.

use crate::core::{CoreError, Expired, Piece, Turn};
use crate::shards::parking::parked::{Parked, Until};
use crate::shards::parking::row::Shard;
use core::fmt;
use core::task::{Context, Poll, Waker};

/// Why a stream gives no entry.
#[derive(Clone, Copy, Debug, PartialEq, Eq)]
#[non_exhaustive]
pub enum StreamFault {
    /// The tick of its source is beyond the last tick. The stream has ended for good.
    TickTooLarge {
        /// The last tick.
        limit: u64,
    },
    /// Memory for the waker was refused. Nothing is parked, and the stream goes on.
    NoMemory,
}

impl fmt::Display for StreamFault {
    fn fmt(&self, f: &mut fmt::Formatter<'_>) -> fmt::Result {
        match self {
            StreamFault::TickTooLarge { limit } => write!(f, "the tick is beyond the last tick, {limit}"),
            StreamFault::NoMemory => f.write_str("out of memory"),
        }
    }
}

#[cfg(feature = "std")]
impl std::error::Error for StreamFault {}

/// What a poll of a stream gives.
pub type Polled<T> = Poll<Option<Result<Expired<T>, StreamFault>>>;

/// The values of a shard's entries.
pub type ValueOf<S> = <S as Shard>::Value;

/// What a shard's poller waits for.
pub type NextOf<S> = <S as Shard>::Next;

/// What a stream asks of a shard behind its lock.
pub trait Sleeps: Shard {
    /// Takes out who is parked, and returns it unwoken.
    fn take_parked(&mut self) -> Option<Parked<Self::Next>>;

    /// Parks a poller.
    fn park(&mut self, next: Self::Next, waker: Waker);

    /// Polls its queue at a tick where none is parked: whole, or by at most `most` steps.
    fn poll_piece(&mut self, tick: u64, most: Option<u32>) -> Result<Piece<Self::Value>, CoreError>;
}

/// Registers with the context, and answers the waker of its task; none where none can be made for want of memory, and
/// then the task has asked for another poll. The name stands for the shard, as a source that fires where it wakes its
/// poller.
pub fn register(cx: &mut Context<'_>) -> Option<Waker> {
    Some(cx.waker().clone())
}

/// Lets the waker go that a registration left and that nobody parked, and doesn't wake its task. It is the user's: the
/// shard's lock is to be free.
pub fn forget(slot: Option<Waker>) {
    if let Some(waker) = slot {
        drop(waker);
    }
}

/// Parks a poller with the waker that a registration left. Refused as NoMemory where it left none; the shard stays as
/// it was then. A future of your own over a locked shard may use it.
pub fn park_with<S: Sleeps>(shard: &mut S, next: S::Next, slot: Option<Waker>) -> Result<(), StreamFault> {
    // requires MayWaitSo S.Next.lasts (S.core shard.old) next
    let Some(waker) = slot else {
        return Err(StreamFault::NoMemory);
    };
    shard.park(next, waker);
    Ok(())
}

// Parks the waker that a registration left, in a shard where nothing is due.
fn wait<S: Sleeps>(shard: &mut S, wake: Option<u64>, slot: &mut Option<Waker>) -> Polled<S::Value> {
    // requires TellsWake (S.core shard.old) wake
    let Some(next) = S::Next::of_wake(wake) else {
        return Poll::Ready(None);
    };
    match park_with(shard, next, slot.take()) {
        Ok(()) => Poll::Pending,
        Err(fault) => Poll::Ready(Some(Err(fault))),
    }
}

/// One poll, while the shard's lock is held and none is parked there, for a task that left its waker. None where more
/// is to do.
pub fn turn<S: Sleeps>(
    shard: &mut S,
    tick: u64,
    most: Option<u32>,
    slot: &mut Option<Waker>,
) -> Option<Polled<S::Value>> {
    // requires S.parked shard.old ≡ None
    match shard.poll_piece(tick, most) {
        Ok(Piece::Working) => None,
        Ok(Piece::Answer(Turn::Out(expired))) => Some(Poll::Ready(Some(Ok(expired)))),
        Ok(Piece::Answer(Turn::Waiting { next })) => Some(wait(shard, Some(next), slot)),
        Ok(Piece::Answer(Turn::Idle)) => Some(wait(shard, None, slot)),
        Err(CoreError::TickTooLarge { limit }) => Some(Poll::Ready(Some(Err(StreamFault::TickTooLarge { limit })))),
        Err(_) => unreachable!(),
    }
}
