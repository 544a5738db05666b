//! A queue of shards that is given drawn calls, by name or by `lend`, and tells what each shard of it is then.

use super::ticks::Round;
use super::value::{Living, Value};
use super::wakes::Poller;
use hontkhale::parts::owner::{CallError, Expired, Key, Look, Piece, Removed, Tally, Turn};
use hontkhale::parts::shards::{Handle, HandlesOut, QueueConfig, QueueError, ShardState, SharedDelayQueue, Totals};
use hontkhale::parts::streams::{ExpiredStream, TickSource};
use std::fmt::Debug;
use std::num::NonZeroU32;
use std::task::{Context, Poll};

type Queue = SharedDelayQueue<Value>;

/// A call of a queue or of a handle of it. A `usize` that comes first is a shard, a `u64` a tick, or the route of an
/// insert.
#[derive(Clone, Copy, Debug)]
pub enum Call {
    Insert(u64, u64),
    Reset(Key, u64),
    Remove(Key),
    Deadline(Key),
    Reap(Key),
    Poll(usize, u64),
    PollSome(usize, u64, u32),
    /// A poll of a stream, whose task is parked where nothing is due.
    Stream(usize, u64),
    /// The same by so many steps.
    Paced(usize, u64, u32),
    NextWake(usize),
    Sweep(usize),
    SweepSome(usize, usize, usize),
    Clear(usize),
    TellTally(usize),
    Ring(usize, u64),
    Parked(usize),
    Audit,
    /// A handle is made and given back.
    Handle,
    // By a handle in any case.
    Extend(Key, u64),
    Cancel(Key),
}

/// What a shard is: its tally, its ticks and wakes, how often its task was woken, what stands parked and where each of
/// the last keys stands in the wheel.
#[derive(Debug, PartialEq)]
pub struct Seen {
    tally: Tally,
    ticks: (u64, u64, Option<u64>),
    parked: (Option<u64>, u64),
    least: Option<Key>,
    out: u64,
    filed: Vec<(Option<u64>, Result<Look, CallError>)>,
}

/// The tick of a stream.
#[derive(Debug)]
struct At(u64);

impl TickSource for At {
    fn now(&mut self) -> u64 {
        self.0
    }
}

/// Says what a call answered.
fn told<T: Debug>(answer: T) -> String {
    format!("{answer:?}")
}

fn out(expired: Expired<Value>) -> (Key, u64, u64, u64) {
    (expired.key, expired.value.number(), expired.deadline, expired.noted)
}

fn turned(turn: Turn<Value>) -> String {
    match turn {
        Turn::Out(expired) => told(out(expired)),
        Turn::Waiting { next } => told(("waiting", next)),
        Turn::Idle => told("idle"),
    }
}

fn pieced(piece: Piece<Value>) -> String {
    match piece {
        Piece::Answer(turn) => turned(turn),
        Piece::Working => told("working"),
    }
}

fn gone(removed: Removed<Value>) -> (Key, u64, u64) {
    (removed.key, removed.value.number(), removed.deadline)
}

/// A queue, a handle of it, the keys that it gave, and the task that polls each shard.
pub struct Twin {
    queue: Queue,
    handle: Handle,
    keys: Vec<Key>,
    tasks: Vec<Poller>,
    living: Living,
    values: u64,
}

impl Twin {
    pub fn new(shards: usize, round: Round) -> Self {
        let config = QueueConfig {
            shards,
            capacity: round.capacity,
            last_stamp: round.last_stamp,
        };
        let queue = Queue::new(config).expect("a queue");
        Twin {
            handle: queue.handle().expect("a handle"),
            queue,
            keys: Vec::new(),
            tasks: (0..shards).map(|_| Poller::default()).collect(),
            living: Living::default(),
            values: 0,
        }
    }

    pub fn keys(&self) -> &[Key] {
        &self.keys
    }

    /// The values that live, but for those that are deferred in a shard and are dropped by a later call.
    pub fn lives(&self) -> u64 {
        let deferred = |shard| self.queue.enter(shard).expect("a shard").deferred();
        let deferred: usize = (0..self.queue.shards()).map(deferred).sum();
        self.living.count() - deferred as u64
    }

    fn value(&mut self) -> Value {
        self.values += 1;
        self.living.value(self.values)
    }

    // The answer of an insert or a reset, whose key is kept.
    fn keeps(&mut self, answer: Result<Key, QueueError>) -> String {
        self.keys.extend(answer.ok());
        told(answer)
    }

    fn by_handle(&mut self, call: &Call) -> String {
        match call {
            Call::Extend(key, when) => told(self.handle.extend(key, *when)),
            Call::Cancel(key) => told(self.handle.cancel(key)),
            other => panic!("{other:?}"),
        }
    }

    /// Makes a call by its name.
    pub fn by_name(&mut self, call: &Call) -> String {
        let queue = &self.queue;
        match *call {
            Call::Insert(route, when) => {
                let value = self.value();
                let answer = self.queue.insert(route, value, when).map_err(|refused| refused.0);
                self.keeps(answer)
            }
            Call::Reset(key, when) => {
                let answer = queue.reset(&key.entry(), when);
                self.keeps(answer)
            }
            Call::Remove(key) => told(queue.remove(&key.entry()).map(gone)),
            Call::Deadline(key) => told(queue.deadline(&key.entry())),
            Call::Reap(key) => told(queue.reap(&key.entry())),
            Call::Poll(shard, tick) => told(queue.poll(shard, tick).map(turned)),
            Call::PollSome(shard, tick, most) => told(queue.poll_some(shard, tick, most).map(pieced)),
            Call::Stream(shard, tick) => self.streams(shard, tick, None),
            Call::Paced(shard, tick, steps) => self.streams(shard, tick, NonZeroU32::new(steps)),
            Call::NextWake(shard) => told(queue.next_wake(shard)),
            Call::Sweep(shard) => told(queue.sweep(shard)),
            Call::SweepSome(shard, from, count) => told(queue.sweep_some(shard, from, count)),
            Call::Clear(shard) => told(queue.clear(shard)),
            Call::TellTally(shard) => told(queue.tally(shard)),
            Call::Ring(shard, tick) => told(queue.ring(shard, tick)),
            Call::Parked(shard) => told(queue.parked(shard)),
            Call::Audit => told(queue.audit()),
            Call::Handle => told(queue.handle().map(Handle::give_back)),
            Call::Extend(..) | Call::Cancel(_) => self.by_handle(call),
        }
    }

    // A poll of a new stream, paced where so many steps are told.
    fn streams(&self, shard: usize, tick: u64, steps: Option<NonZeroU32>) -> String {
        let stream = match ExpiredStream::new(&self.queue, shard, At(tick)) {
            Ok(stream) => stream,
            Err((refused, _tick)) => return told(Err::<String, _>(refused)),
        };
        let waker = self.tasks[shard].waker();
        let cx = &mut Context::from_waker(&waker);
        let polled = match steps {
            Some(steps) => stream.paced(steps).poll_next(cx),
            None => { stream }.poll_next(cx),
        };
        told(polled.map(|item| item.map(|item| item.map(out))))
    }

    /// Makes the same call on the state that it names, by `lend`.
    pub fn by_lend(&mut self, call: &Call) -> String {
        match *call {
            Call::Insert(route, when) => {
                let (value, shard) = (self.value(), (route % self.tasks.len() as u64) as usize);
                let answer = self.lend(shard, |state| {
                    let answer = state.insert(value, when);
                    answer.map_err(|refused| QueueError::Core(refused.0))
                });
                self.keeps(answer.and_then(|answer| answer))
            }
            Call::Reset(key, when) => {
                let reset = |state: &mut ShardState<Value>| state.reset(&key.entry(), when).map_err(QueueError::Core);
                let answer = self.lend(key.entry().shard() as usize, reset);
                self.keeps(answer.and_then(|answer| answer))
            }
            Call::Remove(key) => self.on(key.entry().shard() as usize, |state| {
                let answer = state.remove(&key.entry()).map(gone);
                answer.map_err(QueueError::Core)
            }),
            Call::Deadline(key) => self.on(key.entry().shard() as usize, |state| {
                state.deadline(&key.entry()).map_err(QueueError::Core)
            }),
            Call::Reap(key) => self.on(key.entry().shard() as usize, |state| Ok(state.reap(&key.entry()))),
            Call::Stream(shard, tick) => self.parks(shard, tick, None),
            Call::Paced(shard, tick, steps) => self.parks(shard, tick, Some(steps)),
            Call::Audit => told(self.audits()),
            Call::Handle => {
                (0..self.tasks.len()).for_each(|shard| self.issues(shard));
                told(Ok::<u64, QueueError>(0))
            }
            Call::Extend(..) | Call::Cancel(_) => self.by_handle(call),
            _ => self.by_shard(call),
        }
    }

    fn lend<O>(&self, shard: usize, f: impl FnOnce(&mut ShardState<Value>) -> O) -> Result<O, QueueError> {
        self.queue.lend(shard, f)
    }

    // What a call on a state answers, as the call by name tells it.
    fn on<O: Debug>(&self, shard: usize, call: impl FnOnce(&mut ShardState<Value>) -> Result<O, QueueError>) -> String {
        told(self.lend(shard, call).and_then(|answer| answer))
    }

    fn by_shard(&self, call: &Call) -> String {
        match *call {
            Call::Poll(shard, tick) => self.on(shard, |state| state.poll(tick).map(turned).map_err(QueueError::Core)),
            Call::PollSome(shard, tick, most) => self.on(shard, |state| {
                let answer = state.poll_some(tick, most).map(pieced);
                answer.map_err(QueueError::Core)
            }),
            Call::NextWake(shard) => self.on(shard, |state| Ok(state.next_wake())),
            Call::Sweep(shard) => self.on(shard, |state| Ok(state.sweep())),
            Call::SweepSome(shard, from, count) => self.on(shard, |state| Ok(state.sweep_some(from, count))),
            Call::Clear(shard) => self.on(shard, |state| Ok(state.clear())),
            Call::TellTally(shard) => self.on(shard, |state| Ok(state.tally())),
            Call::Ring(shard, tick) => self.on(shard, |state| Ok(state.ring(tick))),
            Call::Parked(shard) => self.on(shard, |state| Ok(state.parked())),
            ref other => panic!("{other:?}"),
        }
    }

    // What a stream's poll does: the parked poller leaves unwoken, and the task is parked at the next wake, or woken
    // where there is more to do.
    fn parks(&self, shard: usize, tick: u64, steps: Option<u32>) -> String {
        let polled = self.lend(shard, |state| {
            state.unpark();
            let piece = match steps {
                Some(steps) => state.poll_some(tick, steps),
                None => state.poll(tick).map(Piece::Answer),
            };
            let waker = self.tasks[shard].waker();
            match piece {
                Ok(Piece::Working) => {
                    waker.wake();
                    told(Poll::Pending::<()>)
                }
                Ok(Piece::Answer(Turn::Waiting { next })) => {
                    state.park(next, waker);
                    told(Poll::Pending::<()>)
                }
                Ok(Piece::Answer(Turn::Out(expired))) => told(Poll::Ready(Some(Ok::<_, ()>(out(expired))))),
                Ok(Piece::Answer(Turn::Idle)) => told(Poll::Ready(None::<()>)),
                Err(refused) => told(Poll::Ready(Some(Err::<(), _>(refused)))),
            }
        });
        polled.unwrap_or_else(|refused| told(Err::<String, _>(refused)))
    }

    fn issues(&self, shard: usize) {
        let issued = self.lend(shard, |state| state.issue());
        assert_eq!(issued.expect("a shard").expect("a caller").give_back(), 0);
    }

    // The totals of the states, or how many callers the first has out.
    fn audits(&self) -> Result<Totals, HandlesOut> {
        let mut sums = Totals {
            inserted: 0,
            expired: 0,
            removed: 0,
            cancelled: 0,
            live: 0,
        };
        for shard in 0..self.tasks.len() {
            let totals = self.lend(shard, |state| state.audit()).expect("a shard")?;
            sums.inserted += totals.inserted;
            sums.expired += totals.expired;
            sums.removed += totals.removed;
            sums.cancelled += totals.cancelled;
            sums.live += totals.live;
        }
        Ok(sums)
    }

    /// What a shard is. It changes nothing there.
    pub fn seen(&mut self, shard: usize) -> Seen {
        let last = self.keys.len().saturating_sub(24);
        let keys: Vec<Key> = self.keys[last..].to_vec();
        let looks: Vec<Result<Look, CallError>> = keys.iter().map(|key| self.handle.look(key)).collect();
        let wakes = self.tasks[shard].wakes();
        let seen = self.queue.lend(shard, |state| Seen {
            tally: state.tally(),
            ticks: (state.tick(), state.noted(), state.next_wake()),
            parked: (state.parked(), wakes),
            least: state.peek(),
            out: state.out(),
            filed: keys.iter().map(|key| state.filed(&key.entry())).zip(looks).collect(),
        });
        seen.expect("a shard")
    }

    /// Gives the handle back, and audits.
    pub fn ends(self) -> (u64, Result<Totals, HandlesOut>) {
        (self.handle.give_back(), self.queue.audit())
    }
}
