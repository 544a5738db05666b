//! The queue of one owner beside its model: over plain words, and over shared ones with callers.

use super::draw::{calls, Draw};
use super::shard::Shard;
use super::ticks::{deadline, key, tick, Round, ROUND};
use super::value::{Living, Value};
use hontkhale::parts::owner::{
    numbered_queue, CallError, Caller, CoreConfig, CoreError, DelayCore, EntryId, Keeper, Key, Look, Piece, ReapError,
    Removed, Swept, Tally, Turn, VecWords, LAST_STAMP, LAST_TICK,
};
use hontkhale::parts::wheel::Place;

type Over<W> = DelayCore<Value, W>;

// A queue that was folded, came to a tick and was unfolded.
macro_rules! folded_and_unfolded {
    ($queue:expr, $tick:expr) => {{
        let told = ($queue.capacity(), $queue.worn(), $queue.noted(), $queue.tally());
        let mut folded = $queue.fold()?;
        let noted = folded.noted();
        assert_eq!(
            (folded.capacity(), folded.worn(), noted, folded.tally()),
            told,
            "folded"
        );
        assert_eq!(folded.come_to($tick).is_ok(), $tick <= LAST_TICK, "come_to");
        Ok(folded.unfold().expect("memory"))
    }};
}

// The calls that a queue has over both kinds of words.
macro_rules! queues {
    (
        $($call:ident($($name:ident: $type:ty),*) -> $answer:ty,)*
        ; $($change:ident($($by:ident: $of:ty),*) -> $told:ty,)*
    ) => {
        trait Queue: Sized {
            $(fn $call(&self $(, $name: $type)*) -> $answer;)*
            $(fn $change(&mut self $(, $by: $of)*) -> $told;)*
            fn fold_and_unfold(self, tick: u64) -> Result<Self, Self>;
        }

        impl Queue for Over<VecWords> {
            $(fn $call(&self $(, $name: $type)*) -> $answer { DelayCore::$call(self $(, $name)*) })*
            $(fn $change(&mut self $(, $by: $of)*) -> $told { DelayCore::$change(self $(, $by)*) })*
            fn fold_and_unfold(self, tick: u64) -> Result<Self, Self> { folded_and_unfolded!(self, tick) }
        }

        impl Queue for Over<Keeper> {
            $(fn $call(&self $(, $name: $type)*) -> $answer { DelayCore::$call(self $(, $name)*) })*
            $(fn $change(&mut self $(, $by: $of)*) -> $told { DelayCore::$change(self $(, $by)*) })*
            fn fold_and_unfold(self, tick: u64) -> Result<Self, Self> { folded_and_unfolded!(self, tick) }
        }
    };
}

queues! {
    get(entry: &EntryId) -> Option<&Value>,
    filed(entry: &EntryId) -> Option<u64>,
    place(entry: &EntryId) -> Option<Place>,
    peek() -> Option<Key>,
    next_wake() -> Option<u64>,
    tick() -> u64,
    noted() -> u64,
    len() -> usize,
    worn() -> usize,
    deferred() -> usize,
    tally() -> Tally,
    ;
    insert_or_drop(value: Value, when: u64) -> Result<Key, CoreError>,
    reset(entry: &EntryId, when: u64) -> Result<Key, CoreError>,
    remove(entry: &EntryId) -> Result<Removed<Value>, CoreError>,
    deadline(entry: &EntryId) -> Result<u64, CoreError>,
    reap(entry: &EntryId) -> Result<(), ReapError>,
    poll(tick: u64) -> Result<Turn<Value>, CoreError>,
    poll_some(tick: u64, most: u32) -> Result<Piece<Value>, CoreError>,
    sweep() -> usize,
    sweep_some(from: usize, count: usize) -> Swept,
    clear() -> usize,
}

// Who makes the calls by key.
trait ByKey<Q> {
    fn extend(&mut self, queue: &mut Q, key: &Key, when: u64) -> Result<u64, CallError>;

    fn cancel(&mut self, queue: &mut Q, key: &Key) -> Result<u64, CallError>;

    fn look(&mut self, queue: &mut Q, key: &Key) -> Result<Look, CallError>;

    // The play ends: so many cancels were accepted.
    fn end(self, queue: &mut Q, cancels: u64);
}

// Over plain words the owner makes them.
struct Owner;

impl ByKey<Over<VecWords>> for Owner {
    fn extend(&mut self, queue: &mut Over<VecWords>, key: &Key, when: u64) -> Result<u64, CallError> {
        queue.extend(key, when)
    }

    fn cancel(&mut self, queue: &mut Over<VecWords>, key: &Key) -> Result<u64, CallError> {
        queue.cancel(key)
    }

    fn look(&mut self, queue: &mut Over<VecWords>, key: &Key) -> Result<Look, CallError> {
        queue.look(key)
    }

    fn end(self, _queue: &mut Over<VecWords>, _cancels: u64) {}
}

// Over shared words two callers make them in turn.
struct Callers {
    callers: [Caller; 2],
    turn: usize,
}

impl Callers {
    fn issued(queue: &mut Over<Keeper>) -> Self {
        let mut issue = || queue.issue().expect("a caller");
        Callers {
            callers: [issue(), issue()],
            turn: 0,
        }
    }

    fn next(&mut self) -> &mut Caller {
        self.turn += 1;
        &mut self.callers[self.turn % 2]
    }
}

impl ByKey<Over<Keeper>> for Callers {
    fn extend(&mut self, _queue: &mut Over<Keeper>, key: &Key, when: u64) -> Result<u64, CallError> {
        self.next().extend(key, when)
    }

    fn cancel(&mut self, _queue: &mut Over<Keeper>, key: &Key) -> Result<u64, CallError> {
        self.next().cancel(key)
    }

    fn look(&mut self, _queue: &mut Over<Keeper>, key: &Key) -> Result<Look, CallError> {
        self.next().look(key)
    }

    fn end(self, queue: &mut Over<Keeper>, cancels: u64) {
        let [one, other] = self.callers;
        assert_eq!((queue.out(), queue.returned()), (2, Err(2)));
        assert_eq!(one.cancels() + other.cancels(), cancels);
        assert_eq!(one.give_back() + other.give_back(), cancels);
        assert_eq!((queue.out(), queue.returned()), (0, Ok(cancels)));
    }
}

// A queue, its model, and what both were given.
struct Play<Q, C> {
    queue: Q,
    by_key: C,
    model: Shard,
    keys: Vec<Key>,
    living: Living,
    values: u64,
    cancels: u64,
}

impl<Q: Queue, C: ByKey<Q>> Play<Q, C> {
    fn new(queue: Q, by_key: C, model: Shard) -> Self {
        let (keys, living) = (Vec::new(), Living::default());
        Play {
            queue,
            by_key,
            model,
            keys,
            living,
            values: 0,
            cancels: 0,
        }
    }

    fn call(&mut self, draw: &mut Draw) {
        let key = key(draw, &self.keys, 1);
        match draw.below(32) {
            0..=7 => self.insert(draw),
            8..=13 => self.call_by_entry(draw, &key.entry()),
            14..=21 => self.call_by_key(draw, &key),
            22..=29 => self.poll(draw),
            _ => self.end_many(draw),
        }
        self.compares_totals();
    }

    fn insert(&mut self, draw: &mut Draw) {
        let when = deadline(draw, self.model.noted);
        self.values += 1;
        let answer = self.queue.insert_or_drop(self.living.value(self.values), when);
        self.keys.extend(answer.ok());
        self.model.inserted(self.values, when, answer);
    }

    fn call_by_entry(&mut self, draw: &mut Draw, entry: &EntryId) {
        match draw.below(5) {
            0 | 1 => {
                let when = deadline(draw, self.model.noted);
                let answer = self.queue.reset(entry, when);
                self.keys.extend(answer.ok());
                assert_eq!(answer, self.model.reset(entry, when), "reset");
            }
            2 => {
                let removed = self.queue.remove(entry);
                let told = removed.map(|removed| (removed.key, removed.deadline, removed.value.number()));
                assert_eq!(told, self.model.remove(entry), "remove");
            }
            3 => assert_eq!(self.queue.reap(entry), self.model.reap(entry), "reap"),
            _ => {
                let value = self.queue.get(entry).map(Value::number);
                assert_eq!(value, self.model.value(entry), "get");
                assert_eq!(self.queue.deadline(entry), self.model.deadline(entry), "deadline");
            }
        }
    }

    fn call_by_key(&mut self, draw: &mut Draw, key: &Key) {
        let (queue, row) = (&mut self.queue, &mut self.model.row);
        match draw.below(8) {
            0..=4 => {
                let when = deadline(draw, self.model.noted);
                assert_eq!(self.by_key.extend(queue, key, when), row.extend(key, when), "extend");
            }
            5 => {
                let answer = row.cancel(key);
                self.cancels += u64::from(answer.is_ok());
                assert_eq!(self.by_key.cancel(queue, key), answer, "cancel");
            }
            _ => assert_eq!(self.by_key.look(queue, key), row.look(key), "look"),
        }
    }

    // A poll, whole or in pieces.
    fn poll(&mut self, draw: &mut Draw) {
        let tick = tick(draw, self.model.noted, self.queue.next_wake());
        let noted = self.model.note(tick);
        let piece = match draw.one_in(3) {
            true => self.queue.poll_some(tick, draw.below(6) as u32),
            false => self.queue.poll(tick).map(Piece::Answer),
        };
        self.model.reaped_on_the_way(|entry| self.queue.get(entry).is_none());
        match (piece, noted) {
            (Ok(Piece::Answer(turn)), Ok(())) => self.model.answered(&turn),
            (Ok(Piece::Working), Ok(())) => self.model.works(self.queue.tick()),
            (piece, noted) => assert_eq!(piece.map(drop), noted, "poll"),
        }
    }

    // Exactly where the queue holds nothing it is folded and unfolded. To the model only a tick is noted by it.
    fn fold(mut self, draw: &mut Draw) -> Self {
        let is_empty = self.queue.len() + self.queue.deferred() == 0;
        let tally = self.queue.tally();
        let tick = tick(draw, self.model.noted, None);
        match self.queue.fold_and_unfold(tick) {
            Ok(unfolded) => {
                assert!(is_empty, "a queue that holds something is folded");
                self.queue = unfolded;
                if self.model.note(tick).is_ok() {
                    self.model.tick = self.model.noted;
                }
            }
            Err(queue) => {
                assert!(!is_empty, "an empty queue isn't folded");
                self.queue = queue;
            }
        }
        assert_eq!(self.queue.tally(), tally, "a fold counts something");
        self.compares_totals();
        self
    }

    fn end_many(&mut self, draw: &mut Draw) {
        match draw.below(8) {
            0 => assert_eq!(self.queue.sweep(), self.model.sweep(), "sweep"),
            1 if draw.one_in(4) => assert_eq!(self.queue.clear(), self.model.clear(), "clear"),
            2 => self.compares_wheel(),
            _ => {
                let (from, count) = (draw.below(80) as usize, draw.below(80) as usize);
                assert_eq!(
                    self.queue.sweep_some(from, count),
                    self.model.sweep_some(from, count),
                    "sweep_some"
                );
            }
        }
    }

    fn compares_totals(&self) {
        let queue = &self.queue;
        let tally = queue.tally();
        assert_eq!(
            tally,
            Tally {
                moves: tally.moves,
                ..self.model.tally()
            }
        );
        assert_eq!((queue.len(), queue.worn()), (self.model.len(), self.model.worn()));
        assert_eq!((queue.tick(), queue.noted()), (self.model.tick, self.model.noted));
        assert_eq!(
            self.living.count(),
            (queue.len() + queue.deferred()) as u64,
            "values that live"
        );
    }

    // Each entry is filed no later than its deadline, and the next wake is the start of the soonest's slot.
    fn compares_wheel(&self) {
        let filed = |entry: &EntryId| self.queue.filed(entry).expect("a linked entry");
        let names = self.model.names();
        let soonest = names.iter().map(filed).min();
        assert_eq!(self.queue.peek().map(|key| filed(&key.entry())), soonest, "peek");
        assert_eq!(
            self.queue.next_wake(),
            soonest.map(|filed| slot_start(self.queue.tick(), filed)),
            "next_wake"
        );
        for name in names {
            let deadline = self.model.deadline(&name).unwrap_or(u64::MAX);
            assert!(filed(&name) <= deadline, "{name:?} is filed late");
            let place = self.queue.place(&name).expect("a linked entry");
            assert_eq!(place, place_of(self.queue.tick(), filed(&name)), "{name:?}");
        }
    }

    fn end(mut self) {
        assert_eq!(self.queue.clear(), self.model.clear());
        self.compares_totals();
        self.by_key.end(&mut self.queue, self.cancels);
        drop(self.queue);
        assert_eq!(self.living.count(), 0, "values that outlive their queue");
    }
}

// The level at whose digit two ticks differ first, from the highest on. The top level has the slots of a lap, some of
// which are of the next one.
fn level_of(tick: u64, filed: u64) -> Option<u32> {
    (tick != filed).then(|| ((tick ^ filed).ilog2() / 6).min(5))
}

// The first tick of the slot that holds what is filed so.
fn slot_start(tick: u64, filed: u64) -> u64 {
    level_of(tick, filed).map_or(tick, |level| filed >> (6 * level) << (6 * level))
}

fn place_of(tick: u64, filed: u64) -> Place {
    match level_of(tick, filed) {
        None => Place::Due,
        Some(level) => Place::InSlot {
            level: level as usize,
            slot: (filed >> (6 * level)) as usize % 64,
        },
    }
}

fn plays<Q: Queue, C: ByKey<Q>>(seed: u64, new: impl Fn(Round) -> Play<Q, C>) {
    let mut draw = Draw::new(seed);
    for _ in 0..calls().div_ceil(ROUND) {
        let mut play = new(Round::draw(&mut draw));
        for _ in 0..ROUND {
            play.call(&mut draw);
            if draw.one_in(8) {
                play = play.fold(&mut draw);
            }
        }
        play.end();
    }
}

// promise: core.fold core.folded core.removed-cleared
#[test]
fn the_queue_of_one_owner_answers_as_a_map_does() {
    plays(1, |round| {
        let queue = DelayCore::with_capacity(round.capacity).expect("a queue");
        Play::new(queue, Owner, Shard::new(0, round.capacity, LAST_STAMP))
    });
}

// promise: core.fold core.folded
#[test]
fn the_queue_over_shared_words_answers_as_a_map_does() {
    plays(2, |round| {
        let config = CoreConfig {
            shard: 7,
            capacity: round.capacity,
            last_stamp: round.last_stamp,
        };
        let mut queue = numbered_queue(config).expect("a queue");
        let callers = Callers::issued(&mut queue);
        let model = Shard::new(7, round.capacity, round.last_stamp).whatever_the_number();
        Play::new(queue, callers, model)
    });
}
