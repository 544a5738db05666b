//! A row of cores under drawn calls, and the model that says what each has to answer.

use super::draw::Draw;
use super::model::{place_of, Held, Model, Place};
use super::value::{Living, Value};
use hontkhale::parts::growing::{Cores, Folds, TakeError};
use hontkhale::parts::owner::{
    CallError, Caller, CoreConfig, CoreError, DelayCore, Expired, Folded, Keeper, Key, Look, OpenWords, Piece,
    ReapError, Turn, LAST_TICK,
};
use std::collections::BTreeMap;

type Core = DelayCore<Value, Keeper>;

/// The ways to the words of a core, which stay once it is folded or gone.
struct Ways {
    words: OpenWords,
    caller: Caller,
}

pub struct Run {
    cores: Cores<Value, Keeper>,
    folds: Folds<Keeper>,
    ways: BTreeMap<u32, Ways>,
    model: Model,
    /// The numbers and the sizes of the cores that are folded.
    folded: Vec<(u32, usize)>,
    keys: Vec<Key>,
    pub draw: Draw,
    living: Living,
    values: u64,
    numbers: u32,
    /// About how many cores there are at most: in some runs more than those whose wakes the row knows.
    most: u64,
}

impl Run {
    pub fn new(seed: u64) -> Run {
        Run {
            cores: Cores::new(),
            folds: Folds::new(),
            ways: BTreeMap::new(),
            model: Model::default(),
            folded: Vec::new(),
            keys: Vec::new(),
            draw: Draw::new(seed),
            living: Living::default(),
            values: 0,
            numbers: 0,
            most: if seed % 4 == 0 { 40 } else { 8 },
        }
    }

    fn value(&mut self) -> Value {
        self.values += 1;
        self.living.value(self.values)
    }

    /// A tick near the noted one, or now and then one beyond the last.
    fn tick(&mut self) -> u64 {
        match self.draw.below(40) {
            0 => LAST_TICK + 1 + self.draw.below(3),
            1 => self.draw.below(self.model.noted + 1),
            2 => self.model.noted + self.draw.of_bits(30),
            _ => self.model.noted + self.draw.of_bits(9),
        }
    }

    /// A live entry's key, or one that was given, mostly one of the last.
    fn key(&mut self) -> Option<Key> {
        let live = self.model.live();
        if !live.is_empty() && self.draw.one_in(2) {
            return Some(self.draw.one_of(&live));
        }
        let count = self.keys.len() as u64;
        let most = if self.draw.one_in(4) { count } else { count.min(8) };
        let back = self.draw.below(most);
        self.keys.iter().rev().nth(back as usize).copied()
    }

    fn core_of(&mut self, number: u32, capacity: usize, last_stamp: u32) -> Core {
        let mut keeper = Keeper::new(capacity).expect("a keeper");
        let words = keeper.open().expect("open words");
        let config = CoreConfig {
            shard: number,
            capacity,
            last_stamp,
        };
        let mut core = DelayCore::new(config, keeper).map_err(|it| it.0).expect("a core");
        let caller = core.issue().expect("a caller");
        self.ways.insert(number, Ways { words, caller });
        core
    }

    /// A core of 1 to 4 slots, under a number that no other had.
    fn core(&mut self) -> Core {
        self.numbers += 1 + self.draw.below(2) as u32;
        let (capacity, last_stamp) = (1 + self.draw.below(4), 1 + self.draw.below(3) as u32);
        self.model.make(self.numbers, capacity as u32, last_stamp);
        self.core_of(self.numbers, capacity as usize, last_stamp)
    }

    pub fn insert(&mut self) {
        let (when, value) = (self.tick(), self.value());
        let refused = self.model.refuses_insert(when);
        let (answer, displaced) = self.cores.insert(value, when);
        let key = match answer {
            Ok(key) => key,
            Err((error, value)) => {
                assert_eq!((Some(error), value.number()), (refused, self.values));
                return assert!(displaced.is_none());
            }
        };
        assert_eq!((refused, Some(key.entry().shard())), (None, self.model.open));
        self.takes_slot(key, displaced);
        self.keys.push(key);
        self.finds_deadline(key, when);
    }

    /// An insert took a free slot, under its next stamp; and one whose value waits only where one waits in each.
    fn takes_slot(&mut self, key: Key, displaced: Option<Value>) {
        let free = self.model.free(key.entry().shard());
        let all_wait = free.iter().all(|slot| slot.deferred.is_some());
        let value = self.values;
        let slot = self.model.slot(key.entry());
        assert!(free.contains(slot), "a slot that isn't free");
        assert_eq!((key.stamp(), key.entry().born()), (slot.stamp + 1, slot.stamp + 1));
        assert_eq!(displaced.map(|value| value.number()), slot.deferred.take());
        let held = Held {
            born: key.stamp(),
            value,
            is_late: false,
            gave_up: None,
        };
        (slot.stamp, slot.held) = (key.stamp(), Some(held));
        assert!(all_wait || !free.is_empty() && free.iter().any(|slot| slot.deferred.is_none()));
    }

    /// The entry's deadline is `when`, or one up to the noted tick where that is sooner.
    fn finds_deadline(&mut self, key: Key, when: u64) {
        let shows = self.ways[&key.entry().shard()].words.look(&key);
        let Ok(Look::StillLive(deadline)) = shows else {
            panic!("{shows:?}")
        };
        assert!(
            when <= deadline && deadline <= when.max(self.model.noted),
            "{deadline} for {when}"
        );
        self.model.due_at(key.entry(), deadline, false);
    }

    pub fn remove(&mut self) {
        let Some(key) = self.key() else { return };
        let known = self.model.named(key.entry());
        let answer = self.cores.remove(&key.entry());
        assert_eq!(
            answer.as_ref().map(|removed| removed.deadline),
            known.as_ref().map(|it| it.1)
        );
        if let Ok(removed) = answer {
            let stamp = self.model.slot(key.entry()).stamp;
            assert_eq!(removed.key, Key::new(key.entry(), stamp));
            let value = self.model.ends(key.entry(), Look::LookRemoved(removed.deadline));
            assert_eq!(removed.value.number(), value);
        }
    }

    pub fn reset(&mut self) {
        let Some(key) = self.key() else { return };
        let when = self.tick();
        let known = self.model.named(key.entry());
        let answer = self.cores.reset(&key.entry(), when);
        let last = self.model.last_stamps[&key.entry().shard()];
        let known = match known {
            _ if when > LAST_TICK => Err(CoreError::TooFar { limit: LAST_TICK }),
            Ok((slot, _)) if slot.stamp == last => Err(CoreError::Worn),
            Ok((slot, _)) => Ok(Key::new(key.entry(), slot.stamp + 1)),
            Err(error) => Err(error),
        };
        assert_eq!(answer, known);
        if let Ok(renewed) = answer {
            self.model.slot(key.entry()).stamp += 1;
            self.keys.push(renewed);
            self.finds_deadline(renewed, when);
        }
    }

    pub fn deadline(&mut self) {
        let Some(key) = self.key() else { return };
        let known = self.model.named(key.entry()).map(|it| it.1);
        assert_eq!(self.cores.deadline(&key.entry()), known);
    }

    pub fn reap(&mut self) {
        let Some(key) = self.key() else { return };
        let known = match self.model.named(key.entry()) {
            Ok(_) => Err(ReapError::Live),
            Err(CoreError::WasCancelled) => Ok(()),
            Err(_) => Err(ReapError::Missing),
        };
        assert_eq!(self.cores.reap(&key.entry()), known);
        if known.is_ok() {
            self.model.defers(place_of(key.entry()));
        }
    }

    /// An extend by a key, by the open words or a caller of its core, wherever that is.
    pub fn extend(&mut self) {
        let (Some(key), when) = (self.key(), self.tick()) else {
            return;
        };
        let known = match self.model.called(key) {
            _ if when > LAST_TICK => Err(CallError::TooFar { limit: LAST_TICK }),
            known => known.map(|deadline| deadline.max(when)),
        };
        let by_caller = self.draw.one_in(2);
        let ways = self.ways.get_mut(&key.entry().shard()).expect("the ways to a core");
        let answer = if by_caller {
            ways.caller.extend(&key, when)
        } else {
            ways.words.extend(&key, when)
        };
        assert_eq!(answer, known);
        if let Ok(deadline) = answer {
            self.model.due_at(key.entry(), deadline, true);
        }
    }

    pub fn cancel(&mut self) {
        let Some(key) = self.key() else { return };
        let known = self.model.called(key);
        let by_caller = self.draw.one_in(2);
        let ways = self.ways.get_mut(&key.entry().shard()).expect("the ways to a core");
        let answer = if by_caller {
            ways.caller.cancel(&key)
        } else {
            ways.words.cancel(&key)
        };
        assert_eq!(answer, known);
        if let Ok(gave_up) = answer {
            let slot = self.model.slot(key.entry());
            slot.shows = Some(Look::LookCancelled);
            slot.held.as_mut().expect("an entry that is linked").gave_up = Some(gave_up);
        }
    }

    pub fn look(&mut self) {
        let Some(key) = self.key() else { return };
        let ways = &self.ways[&key.entry().shard()];
        assert_eq!(ways.words.look(&key), self.model.look(key));
    }

    /// A poll, whole or by so many steps.
    pub fn poll(&mut self, tick: u64, most: Option<u32>) -> bool {
        let answer = match most {
            Some(most) => self.cores.poll_some(tick, most),
            None => self.cores.poll(tick),
        };
        if tick > LAST_TICK {
            assert_eq!(answer.err(), Some(CoreError::TickTooLarge { limit: LAST_TICK }));
            return true;
        }
        self.model.noted = self.model.noted.max(tick);
        match answer.expect("a tick up to the last") {
            Piece::Answer(Turn::Out(expired)) => self.came_out(expired),
            Piece::Answer(Turn::Waiting { next }) => self.rests(Some(next)),
            Piece::Answer(Turn::Idle) => self.rests(None),
            Piece::Working => self.finds_reaped(None),
        }
    }

    /// Nothing that is live has an earlier deadline than what came out, but for what was due as it was put in.
    fn came_out(&mut self, expired: Expired<Value>) -> bool {
        assert!(expired.deadline <= self.model.noted, "an entry comes out early");
        let [_, least] = self.model.least_deadlines();
        assert!(
            least.is_none_or(|least| expired.deadline <= least),
            "{} before {least:?}",
            expired.deadline
        );
        let entry = expired.key.entry();
        let (slot, deadline) = self.model.named(entry).expect("a live entry");
        assert_eq!((expired.key.stamp(), expired.deadline), (slot.stamp, deadline));
        let value = self.model.ends(entry, Look::LookExpired(deadline));
        assert_eq!(expired.value.number(), value);
        self.finds_reaped(None);
        true
    }

    /// Nothing is due, and each cancelled entry whose deadline is reached was reaped. No tick is told to come again only
    /// where nothing is linked; one may be told for an entry that went meanwhile.
    fn rests(&mut self, next: Option<u64>) -> bool {
        self.finds_reaped(Some(self.model.noted));
        assert!(next.is_some() || self.model.is_idle());
        let least = self.model.least_deadlines()[0].unwrap_or(u64::MAX);
        assert!(
            next.is_none_or(|next| self.model.noted < next && next <= least),
            "{next:?} for {least}"
        );
        assert!(self.model.noted < least, "an entry that is due stays");
        true
    }

    /// Finds which of the cancelled entries were reaped. None is left whose deadline is up to `reached`.
    fn finds_reaped(&mut self, reached: Option<u64>) -> bool {
        for entry in self.model.cancelled() {
            match self.cores.deadline(&entry) {
                Err(CoreError::Missing) => self.model.defers(place_of(entry)),
                Err(CoreError::WasCancelled) => {
                    let gave_up = self.model.slot(entry).held.and_then(|held| held.gave_up);
                    assert!(gave_up > reached, "a cancelled entry stays");
                }
                answer => panic!("{answer:?}"),
            }
        }
        false
    }

    pub fn polls(&mut self) {
        let (tick, most) = (self.tick(), self.draw.below(6) as u32);
        let most = self.draw.one_in(2).then_some(most);
        self.poll(tick, most);
    }

    /// Polls until all that is due is out.
    pub fn polls_all(&mut self) {
        let tick = self.tick();
        let most = self.draw.one_in(2).then(|| 1 + self.draw.below(5) as u32);
        let until = tick.max(self.model.noted).min(LAST_TICK);
        let is_due = |run: &Run| run.model.least_deadlines()[0].is_some_and(|least| least <= until);
        let mut turns = 0;
        while !self.poll(tick, most) || tick <= LAST_TICK && is_due(self) {
            turns += 1;
            assert!(turns < 10_000, "a poll has no end");
        }
    }

    pub fn next_wake(&mut self) {
        let next = self.cores.next_wake();
        assert_eq!(next.is_none(), self.model.is_idle());
        let [least, _] = self.model.least_deadlines();
        assert!(
            next.is_none() || least.is_none() || next <= least,
            "{next:?} for {least:?}"
        );
    }

    pub fn peek(&mut self) {
        let Some(key) = self.cores.peek() else {
            return assert!(self.model.is_idle());
        };
        let slot = *self.model.slot(key.entry());
        assert!(self.model.row.contains(&key.entry().shard()));
        assert_eq!(
            (slot.held.map(|held| held.born), slot.stamp),
            (Some(key.entry().born()), key.stamp())
        );
    }

    pub fn take_deferred(&mut self) {
        let Some(value) = self.cores.take_deferred() else {
            return assert_eq!(self.model.deferred(), 0);
        };
        let is_it = |it: &(Place, _)| self.model.slots[&it.0].deferred == Some(value.number());
        let (place, _) = self
            .model
            .slots_in()
            .find(is_it)
            .expect("a value that waits in the row");
        self.model.slots.get_mut(&place).expect("a slot that is known").deferred = None;
    }

    fn place(&mut self) -> (usize, Option<u32>) {
        let place = self.draw.below(self.model.row.len() as u64 + 1) as usize;
        (place, self.model.row.get(place).copied())
    }

    pub fn sweep_some(&mut self) {
        let ((place, core), from, count) = (self.place(), self.draw.below(5), self.draw.below(5));
        let answer = self.cores.sweep_some(place, from as usize, count as usize);
        assert_eq!(answer.is_none(), core.is_none());
        let swept: Vec<_> = self.model.cancelled().into_iter().map(place_of).collect();
        let swept = swept
            .into_iter()
            .filter(|it| Some(it.0) == core && (from..from + count).contains(&it.1.into()));
        let swept: Vec<_> = swept.collect();
        assert_eq!(answer.map_or(0, |answer| answer.reaped), swept.len());
        swept.into_iter().for_each(|place| self.model.defers(place));
    }

    fn took_in(&mut self, core: Core) {
        let number = core.shard();
        assert!(self.cores.take_in(core).is_ok(), "a core that may come in");
        self.model.row.push(number);
        self.model.open = Some(number);
    }

    /// Whether the row has as many cores as it is to have.
    fn is_long(&mut self) -> bool {
        self.model.row.len() as u64 > self.draw.below(self.most)
    }

    pub fn exchange(&mut self) {
        if self.is_long() {
            return;
        }
        let core = self.core();
        self.took_in(core);
    }

    /// Opens the core at a place, where there is one.
    pub fn open(&mut self) {
        let (place, core) = self.place();
        assert_eq!(self.cores.open(place), core.is_some());
        self.model.open = core.or(self.model.open);
    }

    /// The row tells of each core what the model knows.
    pub fn cores(&mut self) {
        let row = &self.model.row;
        assert_eq!((self.cores.count(), self.cores.noted()), (row.len(), self.model.noted));
        assert!(self.cores.get(row.len()).is_none());
        assert_eq!(row.get(self.cores.opened()).copied(), self.model.open);
        for (place, &number) in row.iter().enumerate() {
            let core = self.cores.get(place).expect("a core at that place");
            let known = (number, self.model.linked(number), self.model.worn(number));
            assert_eq!((core.shard(), core.len(), core.worn()), known);
        }
    }

    /// A core that may not come in comes back.
    pub fn take_refused(&mut self) {
        let used = self.model.row.last().copied().unwrap_or(u32::MAX);
        let number = self.draw.one_of(&[used, u32::MAX, self.numbers + 1]);
        let mut core = hontkhale::parts::owner::numbered_queue(CoreConfig {
            shard: number,
            ..CoreConfig::of(2)
        })
        .expect("a core");
        let is_linked = number == self.numbers + 1 || self.draw.one_in(2);
        if is_linked {
            let value = self.value();
            assert!(core.insert(value, 5).is_ok());
        }
        let known = if is_linked {
            TakeError::StillLinked
        } else {
            TakeError::UsedNumber
        };
        let (error, core) = self.cores.take_in(core).expect_err("a core that may not come in");
        assert_eq!(
            (error, core.shard(), core.len()),
            (known, number, usize::from(is_linked))
        );
    }

    /// Takes a core out that has drained, and folds it, drops it, or takes it in again.
    pub fn take_drained(&mut self) {
        let may_go = |model: &Model, core: u32| Some(core) != model.open && model.is_foldable(core);
        let Some(core) = self.cores.take_drained() else {
            return assert!(!self.model.row.iter().any(|&core| may_go(&self.model, core)));
        };
        let number = core.shard();
        assert!(self.model.row.contains(&number) && may_go(&self.model, number));
        self.model.row.retain(|&core| core != number);
        match self.draw.below(4) {
            0 => drop(core),
            1 => self.took_in(core),
            _ => self.fold(core),
        }
    }

    fn fold(&mut self, core: Core) {
        let told = |core: &Folded<Keeper>| (core.shard(), core.capacity(), core.worn(), core.tally());
        let known = (core.shard(), core.capacity(), core.worn(), core.tally());
        let Ok(folded) = core.fold() else {
            panic!("a core that holds something")
        };
        assert_eq!(told(&folded), known);
        self.folded.push((known.0, known.1));
        assert!(self.folds.keep(folded).is_ok());
    }

    /// Takes a folded core out, and unfolds it, or drops it.
    pub fn unfold(&mut self) {
        if self.is_long() {
            return;
        }
        let capacity = 1 + self.draw.below(4) as usize;
        let Some(mut folded) = self.folds.take(capacity) else {
            return assert!(!self.folded.iter().any(|it| it.1 == capacity));
        };
        let number = folded.shard();
        let at = self
            .folded
            .iter()
            .position(|it| *it == (number, capacity))
            .expect("a core that was folded");
        self.folded.remove(at);
        if self.draw.one_in(2) {
            assert_eq!(folded.come_to(self.model.noted), Ok(()));
        }
        if self.draw.one_in(4) {
            return;
        }
        let Ok(core) = folded.unfold() else { panic!("memory") };
        let known = (self.model.linked(number), self.model.worn(number));
        assert_eq!((core.len(), core.worn()), known, "a fold counts something");
        self.took_in(core);
    }

    /// All that is left comes out, in the order of the deadlines. Then all that waits is dropped, and no value lives.
    pub fn ends(mut self) {
        while let Some(last) = self.model.slots_in().filter_map(|it| it.1.deadline()).max() {
            self.poll(last, None);
        }
        assert!(self.cores.next_wake().is_none() || !self.model.cancelled().is_empty());
        let waits = self.model.deferred() + self.model.cancelled().len();
        let lives = self.living.count();
        drop((self.cores, self.folds));
        assert_eq!((lives, self.living.count()), (waits as u64, 0));
    }
}
