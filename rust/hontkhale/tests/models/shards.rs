//! The queue of shards beside its models: by name, lent, entered, by handles, and with pollers that park.

use super::draw::{calls, Draw};
use super::shard::Shard;
use super::ticks::{deadline, key, tick, Round, ROUND};
use super::value::{Living, Value};
use super::wakes::Poller;
use hontkhale::parts::owner::{CallError, CoreError, EntryId, Expired, Key, Piece, Removed, Tally, LAST_TICK};
use hontkhale::parts::shards::{Handle, HandlesOut, QueueConfig, QueueError, SharedDelayQueue, Totals};
use hontkhale::parts::streams::{ExpiredStream, StreamFault, TickSource};
use std::num::NonZeroU32;
use std::task::{Context, Poll};

type Queue = SharedDelayQueue<Value>;

// How a call reaches its shard.
#[derive(Clone, Copy)]
enum Way {
    ByName,
    Lent,
    Entered,
}

const WAYS: [Way; 4] = [Way::ByName, Way::ByName, Way::Lent, Way::Entered];

// Makes a call by its name, or on a state that was lent or entered.
macro_rules! by {
    ($way:expr, $queue:expr, $shard:expr, $by_name:expr, |$state:ident| $on_state:expr) => {
        match $way {
            Way::ByName => $by_name,
            Way::Lent => flat($queue.lend($shard, |$state| $on_state)),
            Way::Entered => flat($queue.enter($shard).map(|mut $state| $on_state)),
        }
    };
}

// The answer of a state, as the call by name tells it.
fn flat<T>(answer: Result<Result<T, CoreError>, QueueError>) -> Result<T, QueueError> {
    answer?.map_err(QueueError::Core)
}

// What the model of a shard answers, if there is such a shard.
fn of<T>(place: Option<&mut Place>, ask: impl FnOnce(&mut Shard) -> Result<T, CoreError>) -> Result<T, QueueError> {
    ask(&mut place.ok_or(QueueError::Unknown)?.model).map_err(QueueError::Core)
}

fn told(removed: Removed<Value>) -> (Key, u64, u64) {
    (removed.key, removed.deadline, removed.value.number())
}

// Tells the tick that it was made with.
#[derive(Debug)]
struct At(u64);

impl TickSource for At {
    fn now(&mut self) -> u64 {
        self.0
    }
}

// A shard's model, and the poller that is parked there.
struct Place {
    model: Shard,
    parked: Option<u64>,
    poller: Poller,
}

impl Place {
    fn new(model: Shard) -> Self {
        Place {
            model,
            parked: None,
            poller: Poller::default(),
        }
    }

    fn wakes(&mut self) {
        self.parked = None;
        self.poller.is_to_be_woken();
    }

    // Where a poller is parked it waits on until this next wake, or is woken.
    fn keeps_or_wakes(&mut self, next_wake: Option<u64>) {
        let may_stay = |parked: u64| next_wake.is_some_and(|wake| parked <= wake);
        if self.parked.is_some_and(|parked| !may_stay(parked)) {
            self.wakes();
        }
    }

    // Whether it is rung at a tick.
    fn rings(&mut self, tick: u64) -> bool {
        let is_rung = self.parked.is_some_and(|parked| parked <= tick);
        if is_rung {
            self.wakes();
        }
        is_rung
    }
}

struct Play {
    queue: Queue,
    handles: [Handle; 2],
    places: Vec<Place>,
    keys: Vec<Key>,
    living: Living,
    values: u64,
    cancels: u64,
}

impl Play {
    fn new(shards: usize, round: Round) -> Self {
        let config = QueueConfig {
            shards,
            capacity: round.capacity,
            last_stamp: round.last_stamp,
        };
        let queue = Queue::new(config).expect("a queue");
        let model = |number: usize| Shard::new(number as u32, round.capacity, round.last_stamp);
        Play {
            handles: [queue.handle().expect("a handle"), queue.handle().expect("a handle")],
            places: (0..shards).map(|number| Place::new(model(number))).collect(),
            queue,
            keys: Vec::new(),
            living: Living::default(),
            values: 0,
            cancels: 0,
        }
    }

    // The number of a shard, at times of none.
    fn shard(&self, draw: &mut Draw) -> usize {
        match draw.below(50) {
            0 => self.places.len() + draw.below(3) as usize,
            1 => usize::MAX,
            _ => draw.below(self.places.len() as u64) as usize,
        }
    }

    fn noted(&self, shard: usize) -> u64 {
        self.places.get(shard).map_or(0, |place| place.model.noted)
    }

    fn call(&mut self, draw: &mut Draw) {
        let key = key(draw, &self.keys, self.places.len() as u32);
        let shard = self.shard(draw);
        let touched = match draw.below(36) {
            0..=8 => self.insert(draw),
            9..=14 => self.call_by_entry(draw, &key.entry()),
            15..=21 => self.call_by_key(draw, &key),
            22..=26 => self.poll(draw, shard),
            27..=32 => self.poll_stream(draw, shard),
            _ => self.call_by_shard(draw, shard),
        };
        if touched < self.places.len() {
            self.compares(touched);
        }
    }

    fn insert(&mut self, draw: &mut Draw) -> usize {
        let shards = self.places.len() as u64;
        let route = if draw.one_in(2) {
            draw.below(shards)
        } else {
            draw.next()
        };
        let shard = (route % shards) as usize;
        let when = deadline(draw, self.noted(shard));
        self.values += 1;
        let (queue, value) = (&self.queue, self.living.value(self.values));
        let answer = by!(
            draw.one_of(&WAYS),
            queue,
            shard,
            queue.insert_or_drop(route, value, when),
            |state| { state.insert(value, when).map_err(|refused| refused.0) }
        );
        self.keys.extend(answer.ok());
        self.places[shard]
            .model
            .inserted(self.values, when, answer.map_err(core_error));
        shard
    }

    fn call_by_entry(&mut self, draw: &mut Draw, entry: &EntryId) -> usize {
        let shard = entry.shard() as usize;
        let when = deadline(draw, self.noted(shard));
        let (way, queue, place) = (draw.one_of(&WAYS), &self.queue, self.places.get_mut(shard));
        match draw.below(5) {
            0 | 1 => {
                let answer = by!(way, queue, shard, queue.reset(entry, when), |state| state
                    .reset(entry, when));
                self.keys.extend(answer.ok());
                assert_eq!(answer, of(place, |model| model.reset(entry, when)), "reset");
            }
            2 => {
                let answer = by!(way, queue, shard, queue.remove(entry), |state| state.remove(entry));
                assert_eq!(answer.map(told), of(place, |model| model.remove(entry)), "remove");
            }
            3 => {
                let answer = by!(way, queue, shard, queue.reap(entry), |state| Ok(state.reap(entry)));
                assert_eq!(answer, of(place, |model| Ok(model.reap(entry))), "reap");
            }
            _ => {
                let answer = by!(way, queue, shard, queue.deadline(entry), |state| state.deadline(entry));
                assert_eq!(answer, of(place, |model| model.deadline(entry)), "deadline");
            }
        }
        shard
    }

    fn call_by_key(&mut self, draw: &mut Draw, key: &Key) -> usize {
        let shard = key.entry().shard() as usize;
        let when = deadline(draw, self.noted(shard));
        let handle = &mut self.handles[draw.below(2) as usize];
        let place = self.places.get_mut(shard).map(|place| &mut place.model.row);
        match draw.below(8) {
            0..=4 => {
                let unknown = match when <= LAST_TICK {
                    true => CallError::Unknown,
                    false => CallError::TooFar { limit: LAST_TICK },
                };
                let expected = place.map_or(Err(unknown), |row| row.extend(key, when));
                assert_eq!(handle.extend(key, when), expected, "extend");
            }
            5 => {
                let expected = place.map_or(Err(CallError::Unknown), |row| row.cancel(key));
                self.cancels += u64::from(expected.is_ok());
                assert_eq!(handle.cancel(key), expected, "cancel");
            }
            _ => {
                let expected = place.map_or(Err(CallError::Unknown), |row| row.look(key));
                assert_eq!(handle.look(key), expected, "look");
            }
        }
        shard
    }

    // A poll, whole or in pieces.
    fn poll(&mut self, draw: &mut Draw, shard: usize) -> usize {
        let tick = tick(draw, self.noted(shard), self.queue.next_wake(shard).ok().flatten());
        let (way, queue, most) = (draw.one_of(&WAYS), &self.queue, draw.below(6) as u32);
        let piece = match draw.one_in(3) {
            true => by!(way, queue, shard, queue.poll_some(shard, tick, most), |state| state
                .poll_some(tick, most)),
            false => by!(way, queue, shard, queue.poll(shard, tick), |state| state.poll(tick)).map(Piece::Answer),
        };
        let noted = of(self.places.get_mut(shard), |model| model.note(tick));
        let Ok(()) = noted else {
            assert_eq!(piece.map(drop), noted, "poll");
            return shard;
        };
        let model = &mut self.places[shard].model;
        model.reaped_on_the_way(|entry| is_missing(queue, entry));
        match piece.expect("a poll of a tick that was noted") {
            Piece::Answer(turn) => model.answered(&turn),
            Piece::Working => model.works(queue.enter(shard).expect("a shard").tick()),
        }
        shard
    }

    // A poll of a stream, whole or paced, which parks where nothing is due. The stream is dropped, and its poller
    // stays.
    fn poll_stream(&mut self, draw: &mut Draw, shard: usize) -> usize {
        let (queue, wake) = (&self.queue, self.queue.next_wake(shard));
        let Ok(wake) = wake else {
            assert!(matches!(
                ExpiredStream::new(queue, shard, At(3)),
                Err((QueueError::Unknown, At(3)))
            ));
            return shard;
        };
        let tick = tick(draw, self.noted(shard), wake);
        let place = &mut self.places[shard];
        let waker = place.poller.waker();
        let cx = &mut Context::from_waker(&waker);
        let mut stream = ExpiredStream::new(queue, shard, At(tick)).ok().expect("a stream");
        let steps = NonZeroU32::new(draw.below(4) as u32);
        let answer = match steps {
            None => stream.poll_next(cx),
            Some(steps) => stream.paced(steps).poll_next(cx),
        };
        place.parked = None;
        let noted = place.model.note(tick);
        place.model.reaped_on_the_way(|entry| is_missing(queue, entry));
        match (answer, noted) {
            (Poll::Ready(Some(Err(fault))), Err(_)) => {
                assert_eq!(fault, StreamFault::TickTooLarge { limit: LAST_TICK });
            }
            (answer, noted) => {
                assert_eq!(noted, Ok(()), "a stream's poll");
                gives(place, queue, shard, answer, steps.is_some());
            }
        }
        shard
    }

    fn call_by_shard(&mut self, draw: &mut Draw, shard: usize) -> usize {
        let way = draw.one_of(&WAYS);
        let at = tick(draw, self.noted(shard), None);
        let (queue, place) = (&self.queue, self.places.get_mut(shard));
        match draw.below(8) {
            0 => {
                let answer = by!(way, queue, shard, queue.sweep(shard), |state| Ok(state.sweep()));
                assert_eq!(answer, of(place, |model| Ok(model.sweep())), "sweep");
            }
            1 if draw.one_in(3) => {
                let answer = by!(way, queue, shard, queue.clear(shard), |state| Ok(state.clear()));
                assert_eq!(answer, of(place, |model| Ok(model.clear())), "clear");
            }
            2 | 3 => {
                let (from, count) = (draw.below(80) as usize, draw.below(80) as usize);
                let answer = by!(way, queue, shard, queue.sweep_some(shard, from, count), |state| Ok(
                    state.sweep_some(from, count)
                ));
                assert_eq!(
                    answer,
                    of(place, |model| Ok(model.sweep_some(from, count))),
                    "sweep_some"
                );
            }
            _ => {
                let answer = by!(way, queue, shard, queue.ring(shard, at), |state| Ok(state.ring(at)));
                let expected = place.map(|place| place.rings(at)).ok_or(QueueError::Unknown);
                assert_eq!(answer, expected, "ring");
            }
        }
        shard
    }

    // A shard tells what its model does, and wakes its poller where that has to be woken.
    fn compares(&mut self, shard: usize) {
        let next_wake = self.queue.next_wake(shard).expect("a shard");
        let place = &mut self.places[shard];
        place.keeps_or_wakes(next_wake);
        place.poller.compares();
        let state = self.queue.enter(shard).expect("a shard");
        let tally = state.tally();
        assert_eq!(
            tally,
            Tally {
                moves: tally.moves,
                ..place.model.tally()
            }
        );
        assert_eq!(state.parked(), place.parked, "parked");
        assert_eq!(
            (state.len(), state.is_empty()),
            (place.model.len(), place.model.len() == 0)
        );
        assert_eq!((state.tick(), state.noted()), (place.model.tick, place.model.noted));
        drop(state);
        let linked: usize = self.places.iter().map(|place| place.model.len()).sum();
        let deferred = |place| self.queue.enter(place).expect("a shard").deferred();
        let deferred: usize = (0..self.places.len()).map(deferred).sum();
        assert_eq!(self.living.count(), (linked + deferred) as u64, "values that live");
    }

    fn end(self) {
        let Play {
            queue,
            handles: [one, other],
            places,
            living,
            cancels,
            ..
        } = self;
        assert_eq!(queue.audit(), Err(HandlesOut { out: 2 }));
        assert_eq!(one.cancels() + other.cancels(), cancels);
        let given_back = one.give_back();
        assert_eq!(queue.audit(), Err(HandlesOut { out: 1 }));
        assert_eq!(given_back + other.give_back(), cancels);
        assert_eq!(queue.audit(), Ok(totals(&places, cancels)));
        drop(queue);
        assert_eq!(living.count(), 0, "values that outlive their queue");
        for place in places {
            place.poller.ends();
        }
    }
}

// A stream gave an entry, ended for now, or is pending: parked, or by its steps at work and woken.
fn gives(place: &mut Place, queue: &Queue, shard: usize, answer: Poll<Option<Item>>, is_paced: bool) {
    match answer {
        Poll::Ready(Some(Ok(expired))) => place.model.came_out(&expired),
        Poll::Ready(None) => place.model.idles(),
        Poll::Pending => {
            let parked = queue.parked(shard).expect("a shard");
            if let Some(next) = parked {
                place.model.waits(next);
                place.parked = Some(next);
            } else {
                assert!(is_paced, "it isn't parked");
                place.model.works(queue.enter(shard).expect("a shard").tick());
                place.poller.is_to_be_woken();
            }
        }
        Poll::Ready(Some(Err(fault))) => panic!("{fault:?}"),
    }
}

type Item = Result<Expired<Value>, StreamFault>;

fn is_missing(queue: &Queue, entry: &EntryId) -> bool {
    queue
        .enter(entry.shard() as usize)
        .expect("a shard")
        .filed(entry)
        .is_none()
}

fn core_error(error: QueueError) -> CoreError {
    match error {
        QueueError::Core(error) => error,
        other => panic!("{other:?}"),
    }
}

fn totals(places: &[Place], cancelled: u64) -> Totals {
    let tallies = || places.iter().map(|place| place.model.tally());
    Totals {
        inserted: tallies().map(|tally| tally.inserted).sum(),
        expired: tallies().map(|tally| tally.expired).sum(),
        removed: tallies().map(|tally| tally.removed).sum(),
        cancelled,
        live: places.iter().map(|place| place.model.live()).sum(),
    }
}

#[test]
fn the_queue_of_shards_answers_as_maps_do() {
    let mut draw = Draw::new(3);
    for _ in 0..calls().div_ceil(ROUND) {
        let shards = draw.one_of(&[1, 2, 3, 64]);
        let mut play = Play::new(shards, Round::draw(&mut draw));
        for _ in 0..ROUND {
            play.call(&mut draw);
        }
        play.end();
    }
}
