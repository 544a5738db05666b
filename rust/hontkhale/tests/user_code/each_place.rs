//! What is freed in a shard is dropped by the call that freed it, or by a later one where a drop panics: at each shard, the
//! last one too.

use super::kit::{panics, within_the_limit, Drops, Value};
use hontkhale::parts::owner::{Expired, Key, Piece, Turn};
use hontkhale::parts::shards::{QueueConfig, SharedDelayQueue};
use hontkhale::parts::streams::{ExpiredStream, TickSource};
use std::num::NonZeroU32;
use std::task::{Context, Poll, Waker};

const PLACES: usize = 3;

type Shared = SharedDelayQueue<Value>;

fn shared() -> Shared {
    Shared::new(QueueConfig::of(PLACES, 8)).expect("a queue")
}

// A cancelled entry at a place, with this value.
macro_rules! cancelled {
    ($queue:expr, $place:expr, $value:expr) => {{
        let key: Key = $queue.insert_or_drop($place as u64, $value, 5).expect("room");
        let mut handle = $queue.handle().expect("a handle");
        assert_eq!(handle.cancel(&key), Ok(5));
        handle.give_back();
        key
    }};
}

fn deferred(queue: &Shared, place: usize) -> usize {
    queue.enter(place).expect("a shard").deferred()
}

fn steps() -> NonZeroU32 {
    NonZeroU32::new(100).expect("some")
}

// Always tells tick 10.
struct Ten;

impl TickSource for Ten {
    fn now(&mut self) -> u64 {
        10
    }
}

// Whether a stream of a place gives an entry.
macro_rules! polls {
    ($queue:expr, $place:expr, $paced:ident) => {{
        let Ok(stream) = ExpiredStream::new($queue, $place, Ten) else {
            panic!("a stream")
        };
        let mut stream = $paced!(stream);
        let polled = stream.poll_next(&mut Context::from_waker(Waker::noop()));
        matches!(polled, Poll::Ready(Some(Ok(_))))
    }};
}

macro_rules! whole {
    ($stream:ident) => {
        $stream
    };
}

macro_rules! paced {
    ($stream:ident) => {
        $stream.paced(steps())
    };
}

// A row with room in which another queue's entry stands.
fn row_of_one() -> Vec<Expired<Value>> {
    let mut row = Vec::with_capacity(4);
    let other = shared();
    other.insert_or_drop(0, Drops::default().value(), 5).expect("room");
    other.poll_many(0, 5, &mut row).expect("a shard");
    assert_eq!(row.len(), 1);
    row
}

// Each call frees two cancelled entries of a place. Then the drop of one of three panics in a sweep of it.
macro_rules! lets_go {
    ($($call:expr,)*) => {
        for place in 0..PLACES {
            $({
                let (queue, drops) = (shared(), Drops::default());
                let keys = [0, 1].map(|_| cancelled!(queue, place, drops.value()));
                $call(&queue, place, keys);
                let seen = (drops.count(), deferred(&queue, place));
                assert_eq!(seen, (2, 0), "place {place}: {}", stringify!($call));
            })*
            let (queue, drops) = (shared(), Drops::default());
            cancelled!(queue, place, drops.value_that_panics());
            cancelled!(queue, place, drops.value());
            cancelled!(queue, place, drops.value());
            assert_eq!(panics(|| queue.sweep(place)), "a value's drop");
            assert_eq!(drops.count() + deferred(&queue, place) as u64, 3, "none is lost");
            assert_eq!(queue.sweep(place), Ok(0));
            assert_eq!((drops.count(), deferred(&queue, place)), (3, 0), "place {place}");
        }
    };
}

// promise: shards.name-drops
#[test]
fn each_shard_drops_what_it_lets_go() {
    within_the_limit(|| {
        lets_go!(
            |queue: &Shared, place, _| assert!(matches!(queue.poll(place, 10), Ok(Turn::Idle))),
            |queue: &Shared, place, _| assert!(matches!(queue.poll_some(place, 10, 100), Ok(Piece::Answer(_)))),
            |queue: &Shared, place, _| assert!(matches!(queue.poll_through(place, 10, steps()), Ok(Turn::Idle))),
            |queue: &Shared, place, _| assert!(queue.poll_many(place, 10, &mut Vec::with_capacity(4)).is_ok()),
            |queue: &Shared, place, _| assert!(queue.poll_many(place, 10, &mut row_of_one()).is_ok()),
            |queue: &Shared, place, _| assert_eq!(queue.sweep(place), Ok(2)),
            |queue: &Shared, place, _| assert_eq!(queue.sweep_some(place, 0, 8).map(|swept| swept.reaped), Ok(2)),
            |queue: &Shared, place, _| assert_eq!(queue.clear(place), Ok(0)),
            |queue: &Shared, _, keys: [Key; 2]| keys.iter().for_each(|key| assert!(queue.reap(&key.entry()).is_ok())),
            |queue: &Shared, place, _| assert!(!polls!(queue, place, whole)),
            |queue: &Shared, place, _| assert!(!polls!(queue, place, paced)),
        );
    });
}

// Each call gives an entry, and reaps a value before whose drop panics: it would lose the entry.
macro_rules! gives {
    ($($call:expr,)*) => {
        for place in 0..PLACES {
            $({
                let (queue, drops) = (shared(), Drops::default());
                cancelled!(queue, place, drops.value_that_panics());
                queue.insert_or_drop(place as u64, drops.value(), 10).expect("room");
                assert!($call(&queue, place), "place {place}: {}", stringify!($call));
                let seen = (drops.count(), deferred(&queue, place));
                assert_eq!(seen, (1, 1), "place {place}: {}", stringify!($call));
                (0..PLACES + 2).filter(|other| *other != place).for_each(|other| queue.drop_deferred(other, 1));
                queue.drop_deferred(place, 0);
                assert_eq!(panics(|| queue.drop_deferred(place, 1)), "a value's drop");
            })*
        }
    };
}

#[test]
fn a_poll_of_each_shard_that_gives_an_entry_drops_nothing() {
    within_the_limit(|| {
        gives!(
            |queue: &Shared, place| matches!(queue.poll(place, 10), Ok(Turn::Out(_))),
            |queue: &Shared, place| matches!(queue.poll_some(place, 10, 100), Ok(Piece::Answer(Turn::Out(_)))),
            |queue: &Shared, place| matches!(queue.poll_through(place, 10, steps()), Ok(Turn::Out(_))),
            |queue: &Shared, place| polls!(queue, place, whole),
            |queue: &Shared, place| polls!(queue, place, paced),
        );
    });
}

// A place is full but for one slot, in which a value waits whose drop panics: an insert anywhere else drops it not, and one
// there drops it before its own entry is in.
// promise: shards.name-drops
#[test]
fn an_insert_makes_room_in_its_own_shard() {
    let seen = |queue: &Shared, place| (deferred(queue, place), queue.tally(place).expect("a shard").linked);
    within_the_limit(move || {
        for place in 0..PLACES {
            let (queue, drops) = (shared(), Drops::default());
            cancelled!(queue, place, drops.value_that_panics());
            queue.insert_or_drop(place as u64, drops.value(), 10).expect("room");
            assert!(matches!(queue.poll(place, 10), Ok(Turn::Out(_))));
            for _ in 0..7 {
                queue.insert_or_drop(place as u64, drops.value(), 20).expect("room");
            }
            for other in (0..PLACES as u64).filter(|other| *other != place as u64) {
                assert!(queue.insert_or_drop(other, drops.value(), 20).is_ok());
            }
            assert_eq!(seen(&queue, place), (1, 7), "place {place}");
            let refused = panics(|| queue.insert_or_drop(place as u64, drops.value(), 20));
            assert_eq!(refused, "a value's drop");
            assert_eq!(seen(&queue, place), (0, 7), "place {place}");
        }
    });
}

// A piece that has more to do drops what it reaped. At the end an entry is given.
#[test]
fn a_piece_of_a_poll_drops_what_it_reaps() {
    within_the_limit(|| {
        for place in 0..PLACES {
            let (queue, drops) = (shared(), Drops::default());
            cancelled!(queue, place, drops.value());
            queue.insert_or_drop(place as u64, drops.value(), 10).expect("room");
            let mut pieces = 0;
            while matches!(queue.poll_some(place, 10, 1), Ok(Piece::Working)) {
                assert_eq!(deferred(&queue, place), 0, "place {place}");
                pieces += 1;
            }
            assert!(pieces > 1 && queue.clear(place) == Ok(0));
            assert_eq!(drops.count(), 2);
        }
    });
}

#[test]
fn an_insert_or_drop_that_is_refused_drops_its_value() {
    let drops = Drops::default();
    assert!(shared().insert_or_drop(0, drops.value(), u64::MAX).is_err());
    assert_eq!(drops.count(), 1);
}
