//! The calls that take no memory: each is made where every allocation would be seen.

use super::refusing::without_memory;
use hontkhale::parts::cache::TtlCache;
use hontkhale::parts::directory::{Clerk, MOST};
use hontkhale::parts::owner::{
    numbered_queue, CoreConfig, CoreError, DelayCore, Look, ManyTurn, PlainQueue, PlainTurn, Turn, HANDLE_LIMIT,
};
use hontkhale::parts::shards::{Handle, QueueConfig, SharedDelayQueue};
use hontkhale::parts::streams::{ExpiredStream, TickSource};
use std::task::{Context, Waker};

type Boxes = SharedDelayQueue<Box<u64>>;

// Calls of the owner, each once at the least: the first entry is extended, the second removed, the third is due.
macro_rules! calls_of_an_owner {
    ($queue:expr, $values:expr) => {{
        let (queue, values) = (&mut $queue, $values);
        let [first, second, third, fourth, late] = values;
        let first = queue.insert_or_drop(first, 5).expect("room");
        let second = queue.insert_or_drop(second, 900).expect("room");
        let renewed = queue.reset(&first.entry(), 700).expect("a stamp");
        assert_eq!((renewed.stamp(), queue.deadline(&first.entry())), (2, Ok(700)));
        assert_eq!(queue.remove(&second.entry()).map(|removed| removed.deadline), Ok(900));
        queue.insert_or_drop(third, 5).expect("room");
        queue.insert_or_drop(fourth, 70_000).expect("room");
        assert_eq!(queue.insert_or_drop(late, u64::MAX).is_err(), true);
        assert!(matches!(queue.poll(5), Ok(Turn::Out(_))));
        assert!(matches!(queue.poll(600), Ok(Turn::Waiting { .. })));
        while queue
            .poll_some(800, 1)
            .is_ok_and(|piece| matches!(piece, hontkhale::parts::owner::Piece::Working))
        {}
        assert!(queue.peek().is_some() && queue.next_wake().is_some());
        assert_eq!((queue.sweep(), queue.sweep_some(0, 9).reaped), (0, 0));
        assert_eq!(queue.clear(), queue.tally().removed as usize - 1);
        assert!(matches!(queue.poll(70_000), Ok(Turn::Idle)));
    }};
}

fn boxes() -> [Box<u64>; 5] {
    [1, 2, 3, 4, 5].map(Box::new)
}

// promise: core.new-issue
#[test]
fn calls_take_no_memory() {
    let mut plain = DelayCore::with_capacity(4).expect("a queue");
    let mut shared = numbered_queue(CoreConfig::of(4)).expect("a queue");
    let values = [boxes(), boxes()];
    without_memory(|| {
        let [one, other] = values;
        calls_of_an_owner!(plain, one);
        calls_of_an_owner!(shared, other);
    });
}

// Callers are issued, up to the limit, without memory, and make their calls so.
// promise: words.caller-takes
#[test]
fn callers_take_no_memory() {
    for capacity in [4, 4_096] {
        let mut queue = numbered_queue(CoreConfig::of(capacity)).expect("a queue");
        without_memory(|| {
            let key = queue.insert_or_drop(Box::<[u64; 0]>::new([]), 5).expect("room");
            for turn in 0..HANDLE_LIMIT {
                let mut caller = queue.issue().expect("a caller");
                assert_eq!(caller.extend(&key, 6 + turn), Ok(6 + turn));
                assert_eq!(caller.give_back(), 0);
            }
            assert!(queue.issue().is_err());
            assert_eq!((queue.out(), queue.returned()), (0, Ok(0)));
        });
    }
}

// Calls by the names of a shard's entries, which is full at first.
fn calls_by_key(queue: &Boxes, hand: &mut Handle, shard: u64, values: [Box<u64>; 5]) {
    let [first, second, third, fourth, fifth] = values;
    let first = queue.insert_or_drop(shard, first, 10).expect("room").entry();
    let second = queue.insert_or_drop(shard, second, 10).expect("room");
    let third = queue.insert_or_drop(shard, third, 10).expect("room").entry();
    queue.insert_or_drop(shard, fourth, 10).expect("room");
    let full = CoreError::Full { linked: 4, worn: 0 };
    assert_eq!(queue.insert_or_drop(shard, fifth, 10), Err(full.into()));
    let renewed = queue.reset(&first, 5_000).expect("a stamp");
    assert_eq!(hand.extend(&renewed, 6_000), Ok(6_000));
    assert_eq!(hand.look(&renewed), Ok(Look::StillLive(6_000)));
    assert_eq!(hand.cancel(&second), Ok(10));
    assert_eq!(queue.remove(&third).map(|removed| removed.deadline), Ok(10));
    assert_eq!(queue.deadline(&first), Ok(6_000));
}

struct At(u64);

impl TickSource for At {
    fn now(&mut self) -> u64 {
        self.0
    }
}

// Calls by the name of the shard whose entries were so left: the first is live until 6000, the second cancelled, the
// fourth due.
fn calls_by_shard(queue: &Boxes, shard: usize, value: Box<u64>) {
    assert_eq!(queue.tally(shard).map(|tally| tally.inserted), Ok(4));
    assert_eq!((queue.parked(shard), queue.ring(shard, 10)), (Ok(None), Ok(false)));
    assert_eq!(queue.sweep(shard), Ok(1));
    assert!(matches!(queue.poll(shard, 10), Ok(Turn::Out(_))));
    let mut stream = ExpiredStream::new(queue, shard, At(20)).ok().expect("a stream");
    assert!(stream.poll_next(&mut Context::from_waker(Waker::noop())).is_pending());
    assert_eq!(queue.ring(shard, 6_000), Ok(true));
    assert!(matches!(queue.poll(shard, 6_000), Ok(Turn::Out(_))));
    queue.insert_or_drop(shard as u64, value, 7_000).expect("room");
    assert_eq!(queue.clear(shard), Ok(1));
    assert_eq!(
        queue.lend(shard, |state| state.issue().map(|caller| caller.give_back())),
        Ok(Ok(0))
    );
}

// promise: shards.memory-making
#[test]
fn other_calls_take_no_memory() {
    let queue = Boxes::new(QueueConfig::of(3, 4)).expect("a queue");
    let mut hand = queue.handle().expect("a handle");
    let values = [0, 1, 2].map(|shard| (shard, boxes(), Box::new(shard)));
    without_memory(|| {
        for (shard, five, one) in values {
            calls_by_key(&queue, &mut hand, shard, five);
            calls_by_shard(&queue, shard as usize, one);
        }
        assert_eq!(hand.give_back(), 3);
        assert!(queue.audit().is_ok());
    });
}

// A handle is refused behind the limit, and takes memory before that is known.
// promise: shards.callers-issued
#[test]
fn issued_callers_take_no_memory() {
    let queue = Boxes::new(QueueConfig::of(3, 4)).expect("a queue");
    without_memory(|| {
        for _ in 0..HANDLE_LIMIT {
            let caller = queue.enter(1).expect("a shard").issue().expect("a caller");
            assert_eq!(caller.give_back(), 0);
        }
    });
    assert!(queue.handle().is_err());
}

#[test]
fn the_plain_twin_takes_no_memory() {
    let mut queue = PlainQueue::new(4).expect("a queue");
    let [value, ..] = boxes();
    without_memory(|| {
        assert!(queue.insert(value, 5).is_ok());
        assert!(matches!(queue.poll(5), Ok(PlainTurn::PlainOut { deadline: 5, .. })));
    });
}

#[test]
fn reads_of_a_cache_take_no_memory() {
    let mut cache: TtlCache<char, Box<u64>> = TtlCache::with_capacity(4).expect("a cache");
    assert!(cache.put('a', Box::new(1), 10, 0).is_ok());
    without_memory(|| {
        assert_eq!(cache.get(&'a', 5).map(|value| **value), Some(1));
        assert_eq!(cache.renew(&'a', 20, 5), Ok(25));
        assert_eq!(cache.purge(25), Ok(1));
    });
}

// promise: directory.finds
#[test]
fn a_directory_is_read_without_memory() {
    let mut clerk = Clerk::new(4).expect("memory");
    for number in 0..3 {
        assert_eq!(clerk.add(Box::new(number)), Ok(number));
    }
    without_memory(|| {
        let other = clerk.directory().clone();
        assert_eq!(other.get(2).map(|thing| **thing), Some(2));
        assert_eq!((other.get(3), other.get(MOST)), (None, None));
        assert_eq!(clerk.given(), 3);
    });
}

#[test]
fn polls_for_many_take_no_memory() {
    let queue = SharedDelayQueue::new(QueueConfig::of(2, 100)).expect("a queue");
    for number in 0..100 {
        queue.insert_or_drop(1, Box::new(number), 5).expect("room");
    }
    let mut row = Vec::with_capacity(64);
    without_memory(|| {
        assert_eq!(queue.poll_many(1, 5, &mut row), Ok(ManyTurn::More));
        assert!((0..64).eq(row.drain(..).map(|expired| *expired.value)));
    });
    assert_eq!((queue.poll_many(1, 5, &mut row), row.len()), (Ok(ManyTurn::Idle), 36));
}
