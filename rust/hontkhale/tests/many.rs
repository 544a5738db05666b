//! Polls that take out many entries by one call, beside polls one at a time.

// The tests ask for a newer Rust than the crate.
#![allow(clippy::incompatible_msrv)]

#[allow(dead_code)]
#[path = "models/draw.rs"]
mod draw;

use draw::{calls, Draw};
use hontkhale::parts::owner::{CoreError, Expired, Key, ManyTurn, Tally, Turn, LAST_TICK};
use hontkhale::parts::shards::{Handle, QueueConfig, QueueError, SharedDelayQueue};
use hontkhale::parts::streams::{ExpiredStream, TickSource};
use std::sync::{mpsc, Arc};
use std::task::{Context, Wake, Waker};
use std::thread;
use std::time::Duration;

const SHARDS: usize = 3;
const CAPACITY: usize = 40;

const TOO_LARGE: QueueError = QueueError::Core(CoreError::TickTooLarge { limit: LAST_TICK });

type Queue = SharedDelayQueue<u64>;

fn made() -> (Queue, Handle) {
    let queue = Queue::new(QueueConfig::of(SHARDS, CAPACITY)).expect("a queue");
    let hand = queue.handle().expect("a handle");
    (queue, hand)
}

/// The next wake and the tally of a shard.
fn told_of(queue: &Queue, shard: usize) -> (Option<u64>, Tally) {
    (
        queue.next_wake(shard).expect("a shard"),
        queue.tally(shard).expect("a shard"),
    )
}

/// What an entry that came out is told by.
fn told(expired: &Expired<u64>) -> (Key, u64, u64, u64) {
    (expired.key, expired.deadline, expired.noted, expired.value)
}

/// Polls one at a time, at most so often, until nothing comes out.
fn one_at_a_time(
    queue: &Queue,
    shard: usize,
    tick: u64,
    most: usize,
    row: &mut Vec<Expired<u64>>,
) -> Result<ManyTurn, QueueError> {
    if shard < SHARDS && tick > LAST_TICK {
        return Err(TOO_LARGE);
    }
    if shard >= SHARDS {
        return Err(QueueError::Unknown);
    }
    for _ in 0..most {
        match queue.poll(shard, tick)? {
            Turn::Out(expired) => row.push(expired),
            Turn::Waiting { next } => return Ok(ManyTurn::Waiting { next }),
            Turn::Idle => return Ok(ManyTurn::Idle),
        }
    }
    Ok(ManyTurn::More)
}

/// Two queues that are given the same calls, but for their polls.
struct Twins {
    many: (Queue, Handle),
    single: (Queue, Handle),
    keys: Vec<Key>,
    tick: u64,
    outs: u64,
    stand: Vec<Expired<u64>>,
}

impl Twins {
    fn call(&mut self, draw: &mut Draw, value: u64) {
        let when = self.tick + draw.of_bits(13);
        let drawn = draw.below(self.keys.len() as u64) as usize;
        let key = self.keys.get(drawn).copied();
        match (draw.below(8), key) {
            (6, Some(key)) => assert_eq!(self.many.1.extend(&key, when), self.single.1.extend(&key, when)),
            (5, Some(key)) => assert_eq!(self.many.1.cancel(&key), self.single.1.cancel(&key)),
            (4, Some(key)) => assert_eq!(
                self.many.0.reset(&key.entry(), when).is_ok(),
                self.single.0.reset(&key.entry(), when).is_ok()
            ),
            (0, _) => self.poll(draw),
            _ => {
                let route = draw.below(SHARDS as u64);
                let answers = [&self.many.0, &self.single.0].map(|queue| queue.insert(route, value, when).ok());
                assert_eq!(answers[0], answers[1], "insert");
                self.keys.extend(answers[0]);
            }
        }
        if self.keys.len() > 200 {
            self.keys.drain(..100);
        }
    }

    fn poll(&mut self, draw: &mut Draw) {
        let (shard, room) = (draw.below(4) as usize, draw.below(12) as usize);
        self.tick += draw.of_bits(12);
        let tick = if draw.one_in(20) { LAST_TICK + 1 } else { self.tick };
        // What stands in a row stays there: some that came out before.
        self.stand.truncate(draw.below(3) as usize);
        let mut row = Vec::with_capacity(self.stand.len() + room);
        row.append(&mut self.stand);
        let before: Vec<_> = row.iter().map(told).collect();

        let mut singles = Vec::new();
        let answer = self.many.0.poll_many(shard, tick, &mut row);
        let expected = one_at_a_time(&self.single.0, shard, tick, room, &mut singles);
        assert_eq!((answer, row.capacity()), (expected, before.len() + room), "poll");
        let expected: Vec<_> = before.into_iter().chain(singles.iter().map(told)).collect();
        assert_eq!(row.iter().map(told).collect::<Vec<_>>(), expected, "what came out");
        self.outs += singles.len() as u64;
        self.stand = singles;
        for shard in 0..SHARDS {
            assert_eq!(
                told_of(&self.many.0, shard),
                told_of(&self.single.0, shard),
                "after a poll"
            );
        }
    }
}

#[test]
fn many_outs_are_polls_one_after_another() {
    let mut twins = Twins {
        many: made(),
        single: made(),
        keys: Vec::new(),
        tick: 0,
        outs: 0,
        stand: Vec::new(),
    };
    let (mut draw, calls) = (Draw::new(1), calls() / 2);
    (0..calls).for_each(|value| twins.call(&mut draw, value));
    assert!(twins.outs > calls / 20, "only {} entries came out", twins.outs);
}

#[test]
fn many_outs_are_refused_in_order() {
    let (queue, _hand) = made();
    queue.insert(1, 7, 10).expect("room");
    let (mut full, mut free) = (Vec::new(), Vec::with_capacity(4));
    for row in [&mut full, &mut free] {
        assert_eq!(queue.poll_many(SHARDS, LAST_TICK + 1, row), Err(QueueError::Unknown));
        assert_eq!(queue.poll_many(usize::MAX, 10, row), Err(QueueError::Unknown));
        assert_eq!(queue.poll_many(1, LAST_TICK + 1, row), Err(TOO_LARGE));
        assert_eq!(queue.poll_many(1, u64::MAX, row), Err(TOO_LARGE));
        assert!(row.is_empty());
    }
    // A row without room takes nothing out and notes no tick: the entry is still not due at the tick before its own.
    assert_eq!(queue.poll_many(1, 5_000, &mut full), Ok(ManyTurn::More));
    assert_eq!(queue.poll_many(1, 9, &mut free), Ok(ManyTurn::Waiting { next: 10 }));
    assert_eq!((full.capacity(), free.capacity()), (0, 4));
    assert_eq!(queue.poll_many(1, 10, &mut free), Ok(ManyTurn::Idle));
    assert_eq!(free.iter().map(|expired| expired.value).collect::<Vec<_>>(), [7]);
}

struct At(u64);

impl TickSource for At {
    fn now(&mut self) -> u64 {
        self.0
    }
}

/// Polls its queue by name where it is woken.
struct Poller {
    queue: Arc<SharedDelayQueue<u64>>,
    woken: mpsc::Sender<bool>,
}

impl Wake for Poller {
    fn wake(self: Arc<Poller>) {
        let _ = self.woken.send(self.queue.poll(0, 0).is_ok());
    }
}

/// Who leaves a shard is woken once its lock is free, and where nothing is left to wait for.
#[test]
fn many_outs_wake_once_the_lock_is_free() {
    let queue = Arc::new(SharedDelayQueue::new(QueueConfig::of(1, 8)).expect("a queue"));
    queue.insert(0, 7, 10).expect("room");
    let (woken, is_woken) = mpsc::channel();
    let waker = Waker::from(Arc::new(Poller {
        queue: queue.clone(),
        woken,
    }));
    let mut stream = ExpiredStream::new(&queue, 0, At(3)).map_err(drop).expect("a shard");
    assert!(stream.poll_next(&mut Context::from_waker(&waker)).is_pending());
    assert_eq!(queue.parked(0), Ok(Some(10)));
    let polled = queue.clone();
    thread::spawn(move || {
        let mut row = Vec::with_capacity(4);
        assert_eq!(polled.poll_many(0, 10, &mut row), Ok(ManyTurn::Idle));
    });
    assert_eq!(is_woken.recv_timeout(Duration::from_secs(20)), Ok(true));
    assert_eq!(queue.parked(0), Ok(None));
}
