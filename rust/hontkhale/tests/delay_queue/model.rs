//! Drawn calls of one thread beside a model: a map from each key to its deadline. Nothing comes out early, is lost, comes out
//! twice, or in the place of another, and each value is dropped once.

use crate::draw::{calls, Draw};
use crate::kit::{ms, Drops, Value};
use hontkhale::{DelayQueue, Handle, InsertErrorKind, Key, KeyError, ManualClock};
use std::collections::HashMap;
use std::panic::{catch_unwind, set_hook, take_hook, AssertUnwindSafe};
use std::thread;
use std::time::{Duration, Instant};

/// What a run is made by.
#[derive(Clone, Copy, Debug)]
struct Setting {
    last_stamp: u32,
    most: usize,
    /// How far deadlines are.
    reach: u64,
    /// Of how many values one has a drop that panics.
    panics_one_in: u64,
}

struct Run {
    setting: Setting,
    draw: Draw,
    clock: ManualClock,
    queue: DelayQueue<Value>,
    handle: Handle,
    drops: Drops,
    /// The deadline and the number of each entry that waits.
    waits: HashMap<Key, (Instant, u64)>,
    /// The keys that were ever given, the last ones of them.
    keys: Vec<Key>,
    inserted: u64,
}

impl Run {
    fn new(setting: Setting, seed: u64) -> Run {
        let clock = ManualClock::new();
        let Setting { last_stamp, most, .. } = setting;
        let builder = DelayQueue::builder().clock(&clock).shards(3).last_stamp(last_stamp);
        let queue = builder.max_entries(most).build();
        let handle = queue.handle();
        let draw = Draw::new(seed);
        let (drops, waits, keys) = (Drops::default(), HashMap::new(), Vec::new());
        Run {
            setting,
            draw,
            clock,
            queue,
            handle,
            drops,
            waits,
            keys,
            inserted: 0,
        }
    }

    fn after(&mut self) -> Duration {
        ms(self.draw.below(self.setting.reach))
    }

    /// A value whose drop may panic, and calls the queue.
    fn value(&mut self) -> Value {
        let value = self.drops.value(self.inserted);
        if !self.draw.one_in(self.setting.panics_one_in) {
            return value;
        }
        let handle = self.handle.clone();
        let key = self.keys.last().copied();
        value.then(move || {
            let _ = key.map(|key| handle.deadline(&key));
            if !thread::panicking() {
                panic!("a drop that panics");
            }
        })
    }

    fn some_key(&mut self) -> Option<Key> {
        let keys = self.keys.len() as u64;
        (keys > 0).then(|| self.keys[self.draw.below(keys) as usize])
    }

    fn insert(&mut self) {
        let after = self.after();
        let value = self.value();
        let Some(inserted) = caught(|| self.queue.insert(value, after)) else {
            self.inserted += 1;
            return;
        };
        match inserted {
            Ok(key) => {
                let before = self.waits.insert(key, (self.clock.now() + after, self.inserted));
                assert!(before.is_none(), "a key is given once");
                self.keys.push(key);
                if self.keys.len() > 2_000 {
                    self.keys.drain(..500);
                }
            }
            Err(refused) => {
                assert_eq!(refused.kind(), InsertErrorKind::Full);
                assert_eq!(self.waits.len(), self.setting.most);
                let value = refused.into_inner();
                assert_eq!(value.number, self.inserted);
                caught(|| drop(value));
            }
        }
        self.inserted += 1;
    }

    /// The deadline of an entry by the model.
    fn known(&self, key: &Key) -> Result<Instant, KeyError> {
        self.waits.get(key).map(|waits| waits.0).ok_or(KeyError::Ended)
    }

    fn extend(&mut self, key: Key) {
        let (after, by_handle) = (self.after(), self.draw.one_in(2));
        let wanted = self.known(&key).map(|deadline| deadline.max(self.clock.now() + after));
        let made = if by_handle {
            self.handle.extend(&key, after)
        } else {
            self.queue.extend(&key, after)
        };
        assert_eq!(made, wanted);
        if let (Ok(deadline), Some(waits)) = (wanted, self.waits.get_mut(&key)) {
            waits.0 = deadline;
        }
    }

    fn reset(&mut self, key: Key) {
        let after = self.after();
        let Some(made) = caught(|| self.queue.reset(&key, after)) else {
            return;
        };
        assert_eq!(made, self.known(&key).map(|_| key));
        if let Some(waits) = self.waits.get_mut(&key) {
            waits.0 = self.clock.now() + after;
            // Now and then the key of the present stamp is the one that is used from here on.
            if self.draw.one_in(2) {
                self.keys.push(made.unwrap());
            }
        }
    }

    fn cancel(&mut self, key: Key) {
        let by_handle = self.draw.one_in(2);
        let made = if by_handle {
            self.handle.cancel(&key)
        } else {
            self.queue.cancel(&key)
        };
        assert_eq!(made, self.known(&key));
        self.waits.remove(&key);
    }

    fn remove(&mut self, key: Key) {
        let made = self.queue.remove(&key);
        let known = self.waits.remove(&key);
        assert_eq!(made.as_ref().ok().map(|value| value.number), known.map(|waits| waits.1));
        caught(|| drop(made));
    }

    fn remove_if_due(&mut self, key: Key) {
        let Some(made) = caught(|| self.queue.remove_if_due(&key)) else {
            return;
        };
        let known = self.known(&key);
        let is_due = known.is_ok_and(|deadline| deadline <= self.clock.now());
        let number = self.waits.get(&key).filter(|_| is_due).map(|waits| waits.1);
        assert_eq!(
            made.as_ref().map(|value| value.as_ref().map(|it| it.number)),
            known.as_ref().map(|_| number)
        );
        if is_due {
            self.waits.remove(&key);
        }
        caught(|| drop(made));
    }

    fn came_out(&mut self, expired: hontkhale::Expired<Value>) {
        let (deadline, number) = self.waits.remove(&expired.key).expect("an entry that waits");
        assert_eq!((expired.deadline, expired.value.number), (deadline, number));
        assert!(deadline <= self.clock.now());
        caught(|| drop(expired));
    }

    fn receive(&mut self) {
        let most = self.draw.below(50) as usize;
        let mut row = Vec::new();
        while row.len() < most {
            match caught(|| self.queue.try_recv().ok()) {
                Some(Some(expired)) => row.push(expired),
                Some(None) => break,
                // Nothing was in hand.
                None => {}
            }
        }
        let is_all = row.len() < most;
        row.into_iter().for_each(|expired| self.came_out(expired));
        let now = self.clock.now();
        assert!(
            !is_all || self.waits.values().all(|waits| waits.0 > now),
            "what is due came out"
        );
    }

    fn look(&mut self, key: Key) {
        assert_eq!(self.queue.deadline(&key), self.known(&key));
        assert_eq!(self.queue.len(), self.waits.len());
        let first = self.waits.values().map(|waits| waits.0).min();
        let told = self.queue.next_deadline();
        assert!(first.map_or(true, |first| told.is_some_and(|told| told <= first)));
    }

    fn drain(&mut self) {
        let queue = self.queue.clone();
        let mut drain = queue.drain();
        loop {
            match caught(|| drain.next()) {
                Some(Some((key, deadline, value))) => {
                    assert_eq!(self.waits.remove(&key), Some((deadline, value.number)));
                    caught(|| drop(value));
                }
                Some(None) => break,
                None => {}
            }
        }
        assert!(self.waits.is_empty());
    }

    fn call(&mut self) {
        let drawn = self.draw.below(100);
        match (drawn, self.some_key()) {
            (0..=29, _) | (_, None) => self.insert(),
            (30..=49, Some(key)) => self.extend(key),
            (50..=64, Some(key)) => self.reset(key),
            (65..=71, Some(key)) => self.cancel(key),
            (72..=74, Some(key)) => self.remove(key),
            (75..=78, Some(key)) => self.remove_if_due(key),
            (79..=84, Some(key)) => self.look(key),
            (85..=93, Some(_)) => self.receive(),
            (94..=98, Some(_)) => self.clock.advance(ms(self.draw.below(self.setting.reach / 4 + 2))),
            (_, Some(_)) if self.draw.one_in(50) => self.drain(),
            _ => {
                let expired = caught(|| self.queue.recv_timeout(Duration::ZERO).ok()).flatten();
                expired.into_iter().for_each(|expired| self.came_out(expired));
            }
        }
    }
}

/// What a call returns, none where a value's drop panicked in it.
fn caught<R>(call: impl FnOnce() -> R) -> Option<R> {
    catch_unwind(AssertUnwindSafe(call)).ok()
}

/// Makes so many drawn calls, and looks that each value was dropped once.
fn run(setting: Setting, seed: u64, calls: u64) {
    let mut run = Run::new(setting, seed);
    for _ in 0..calls {
        run.call();
    }
    assert!(
        run.queue.stats().memory < 20_000_000,
        "{setting:?}: {}",
        run.queue.stats()
    );
    run.drain();
    let Run {
        queue,
        handle,
        drops,
        inserted,
        ..
    } = run;
    drop((queue, handle));
    assert!(drops.are_once(inserted), "{setting:?}");
}

#[test]
fn drawn_calls_are_those_of_a_map() {
    let (stamps, mosts) = ([1, 2, 7, 100, 1_000, u32::MAX], [usize::MAX, 300]);
    for (seed, last_stamp) in (0..).zip(stamps) {
        for most in mosts {
            let reach = [20, 1_000, 300_000][seed as usize % 3];
            run(
                Setting {
                    last_stamp,
                    most,
                    reach,
                    panics_one_in: u64::MAX,
                },
                seed,
                calls() / 12,
            );
        }
    }
}

/// The panics are told nobody, since there are so many.
#[test]
fn drawn_calls_are_those_of_a_map_where_drops_panic() {
    let before = take_hook();
    set_hook(Box::new(move |told| {
        if told.payload().downcast_ref::<&str>() != Some(&"a drop that panics") {
            before(told);
        }
    }));
    for (seed, last_stamp) in (0..).zip([1, 3, 1_000]) {
        let setting = Setting {
            last_stamp,
            most: 500,
            reach: 1_000,
            panics_one_in: 4,
        };
        run(setting, 100 + seed, calls() / 12);
    }
}
