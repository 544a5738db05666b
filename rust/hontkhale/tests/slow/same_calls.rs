//! The queue and the slow model of it are given the same calls, drawn by a fixed generator, and agree after each.

use super::draw::{calls, Draw};
use super::queue::{Expected, SlowQueue, LAST};
use super::Fail;
use hontkhale::parts::owner::{CoreConfig, DelayCore, EntryId, Key, PlainQueue, PlainTurn, Turn, VecWords};

/// A queue, its model, and the keys that were given out, the eldest of them forgotten.
pub struct Both {
    pub core: DelayCore<u64, VecWords>,
    pub slow: SlowQueue,
    keys: Vec<Key>,
}

// The greatest distance of a deadline: twice as far as an entry is filed.
const FAR: u64 = 137438953472;

impl Both {
    /// A fresh queue and its model.
    pub fn new(capacity: usize, last_stamp: u32) -> Result<Both, Fail> {
        Ok(Both {
            core: queue(5, capacity, last_stamp)?,
            slow: SlowQueue::new(5, capacity, last_stamp),
            keys: Vec::with_capacity(96),
        })
    }

    /// Whether both tell the same of themselves.
    pub fn agree(&self) -> bool {
        let (tally, totals) = (self.core.tally(), self.slow.totals);
        self.core.len() == self.slow.len()
            && self.core.worn() == self.slow.worn()
            && self.core.tick() == self.slow.tick
            && self.core.noted() == self.slow.noted
            && self.core.next_wake() == self.slow.next_wake()
            && tally.inserted == totals.inserted
            && tally.expired == totals.expired
            && tally.removed == totals.removed
            && tally.cancelled == totals.cancelled
            && tally.linked == self.slow.len() as u64
            && tally.moves == self.slow.moved
            && self.peeks_at_the_least()
    }

    // Whether what is peeked at is filed least, and nothing only where nothing is linked.
    fn peeks_at_the_least(&self) -> bool {
        match self.core.peek() {
            Some(key) => self.core.filed(&key.entry()) == self.slow.least(),
            None => self.slow.len() == 0,
        }
    }

    // A key that was given out, mostly one of the last, or now and then one that never was.
    fn some_key(&self, draw: &mut Draw) -> Key {
        let forged = Key::new(EntryId::new(7, (draw.below(80) & 127) as u32, 1), 1);
        if draw.below(16) == 0 {
            return forged;
        }
        let count = self.keys.len() as u64;
        let place = match draw.below(2) {
            0 => count.saturating_sub(1),
            _ => draw.below(count),
        };
        self.keys.get(place as usize).copied().unwrap_or(forged)
    }

    fn keep(&mut self, key: Key) {
        if self.keys.len() >= 96 {
            self.keys.truncate(0);
        }
        self.keys.push(key);
    }

    // A deadline: near, at the edge of the levels, beyond what is filed, or beyond the last tick.
    fn some_deadline(&self, draw: &mut Draw) -> u64 {
        let far = match draw.below(5) {
            0 => draw.below(70),
            1 => draw.below(5000),
            2 => draw.below(17179869184).saturating_mul(8),
            3 => FAR.saturating_sub(draw.below(64)),
            _ => draw.below(300000),
        };
        if draw.below(64) == 0 {
            return LAST.saturating_add(draw.below(2));
        }
        self.slow.noted.saturating_sub(draw.below(3)).saturating_add(far)
    }

    /// The tick of a poll: mostly near, at times as far as an entry is filed, and now and then beyond the last tick.
    pub fn some_tick(&self, draw: &mut Draw) -> u64 {
        let far = match draw.below(64) {
            0..32 => draw.below(100),
            32..52 => draw.below(5000),
            52..60 => draw.below(400000),
            60..63 => draw.below(2147483648).saturating_mul(64),
            _ => LAST,
        };
        self.slow.noted.saturating_sub(draw.below(2)).saturating_add(far)
    }

    fn insert(&mut self, value: u64, when: u64) -> bool {
        let refused = self.slow.insert_refusal(when);
        match (self.core.insert(value, when), refused) {
            (Ok(key), None) => {
                self.keep(key);
                let index = key.entry().index();
                self.slow.insert(index, value, when) == Some(key)
            }
            (Err((error, back)), Some(expected)) => error == expected && back == value,
            _ => false,
        }
    }

    fn reset(&mut self, key: Key, when: u64) -> bool {
        let id = key.entry();
        let answer = self.core.reset(&id, when);
        if let Ok(fresh) = answer {
            self.keep(fresh);
        }
        answer == self.slow.reset(&id, when)
    }

    fn remove(&mut self, key: Key) -> bool {
        let id = key.entry();
        let answer = match self.core.remove(&id) {
            Ok(removed) => Ok((removed.key, removed.deadline, removed.value)),
            Err(error) => Err(error),
        };
        answer == self.slow.remove(&id)
    }

    fn poll(&mut self, tick: u64) -> bool {
        let noted = self.slow.note(tick);
        let turn = match (self.core.poll(tick), noted) {
            (Ok(turn), Ok(())) => turn,
            (Err(error), Err(expected)) => return error == expected,
            _ => return false,
        };
        match (turn, self.slow.go_on()) {
            (Turn::Out(out), Expected::SomeDue) => {
                let is_same = self.slow.take_out(&out.key) == Some(out.value)
                    && out.deadline == self.slow.tick
                    && out.noted == self.slow.noted;
                is_same && self.tell_of_the_way()
            }
            (Turn::Waiting { next }, Expected::Waits { next: expected }) => next == expected,
            (Turn::Idle, Expected::Empty) => true,
            _ => false,
        }
    }

    // Before an entry came out, some of those that were filed with it were met: a cancelled one was reaped, and one
    // that is due later was filed anew.
    fn tell_of_the_way(&mut self) -> bool {
        let mut is_same = true;
        for place in (0..self.slow.len()).rev() {
            if let Some(entry) = self.slow.nth(place) {
                is_same = is_same
                    && match self.core.filed(&entry.id) {
                        Some(filed) => self.slow.file_here(entry.id, filed),
                        None => self.slow.reap_here(entry.id),
                    };
            }
        }
        is_same
    }

    /// One call of some kind; whether both answered alike.
    pub fn call(&mut self, turn: u64, draw: &mut Draw) -> bool {
        let kind = draw.below(100);
        let when = self.some_deadline(draw);
        let key = self.some_key(draw);
        match kind {
            0..30 => self.insert(turn, when),
            30..40 => self.reset(key, when),
            40..48 => self.remove(key),
            48..52 => self.core.deadline(&key.entry()) == self.slow.deadline(&key.entry()),
            52..62 => self.core.extend(&key, when) == self.slow.extend(&key, when),
            62..70 => self.core.cancel(&key) == self.slow.cancel(&key),
            70..74 => self.core.look(&key) == self.slow.look(&key),
            74..76 => self.core.sweep() == self.slow.sweep(),
            76 => self.core.clear() == self.slow.clear(),
            _ => {
                let tick = self.some_tick(draw);
                self.poll(tick)
            }
        }
    }
}

fn queue(shard: u32, capacity: usize, last_stamp: u32) -> Result<DelayCore<u64, VecWords>, Fail> {
    let config = CoreConfig {
        shard,
        capacity,
        last_stamp,
    };
    let words = VecWords::new(capacity)?;
    match DelayCore::new(config, words) {
        Ok(core) => Ok(core),
        Err((error, _)) => Err(error.into()),
    }
}

// The calls of a round: a fresh queue comes to the last tick in some more.
const TURNS: u64 = 2000;

// One round: a fresh queue and its model.
fn agree_at(capacity: usize, last_stamp: u32, round: u64) -> Result<(), Fail> {
    let mut both = Both::new(capacity, last_stamp)?;
    let mut draw = Draw::new(round);
    for turn in 0..TURNS {
        let at = || format!("call {turn} of round {round} at capacity {capacity} and last stamp {last_stamp}");
        assert!(both.call(turn, &mut draw), "{}", at());
        assert!(both.agree(), "after {}", at());
    }
    Ok(())
}

// promise: core.answer-reader
#[test]
fn the_queue_agrees_with_its_model() -> Result<(), Fail> {
    let sizes: &[(usize, u32)] = &[(1, 3), (3, 3), (64, 3), (1, 1048575), (3, 1048575), (64, 1048575)];
    for (capacity, last_stamp) in sizes {
        for round in 0..calls().div_ceil(TURNS) {
            agree_at(*capacity, *last_stamp, round)?;
        }
    }
    Ok(())
}

// The queue and its plain twin are given one insert.
fn insert_twice(core: &mut DelayCore<u64, VecWords>, plain: &mut PlainQueue<u64>, value: u64, when: u64) -> bool {
    match (core.insert(value, when), plain.insert(value, when)) {
        (Ok(key), Ok(deadline)) => core.deadline(&key.entry()) == Ok(deadline),
        (Err(refused), Err(expected)) => refused == expected,
        _ => false,
    }
}

// The queue and its plain twin are given one poll.
fn poll_twice(core: &mut DelayCore<u64, VecWords>, plain: &mut PlainQueue<u64>, tick: u64) -> bool {
    let is_same = match (core.poll(tick), plain.poll(tick)) {
        (Ok(Turn::Out(out)), Ok(PlainTurn::PlainOut { deadline, value: _ })) => out.deadline == deadline,
        (Ok(Turn::Waiting { next: _ }), Ok(PlainTurn::PlainWaiting)) => true,
        (Ok(Turn::Idle), Ok(PlainTurn::PlainIdle)) => true,
        (Err(error), Err(expected)) => error == expected,
        _ => false,
    };
    is_same && core.tick() == plain.tick() && core.noted() == plain.noted() && core.len() == plain.len()
}

// The queue and its plain twin are given one insert or one poll.
fn call_twice(core: &mut DelayCore<u64, VecWords>, plain: &mut PlainQueue<u64>, turn: u64, draw: &mut Draw) -> bool {
    let noted = plain.noted();
    if draw.below(2) == 0 {
        let far = match draw.below(3) {
            0 => draw.below(100),
            1 => draw.below(20000),
            _ => draw.below(2147483648).saturating_mul(64),
        };
        insert_twice(core, plain, turn, noted.saturating_add(far))
    } else {
        let far = match draw.below(4) {
            0 => draw.below(2147483648).saturating_mul(4),
            _ => draw.below(9000),
        };
        poll_twice(core, plain, noted.saturating_add(far))
    }
}

// promise: core.answer-reader
#[test]
fn the_queue_agrees_with_its_plain_twin() -> Result<(), Fail> {
    // 300 calls on a fresh queue and on its plain twin.
    for round in 0..calls().div_ceil(300) {
        let (mut core, mut plain) = (queue(0, 16, 1048575)?, PlainQueue::new(16)?);
        let mut draw = Draw::new(round);
        for turn in 0..300 {
            assert!(
                call_twice(&mut core, &mut plain, turn, &mut draw),
                "call {turn} of round {round}"
            );
        }
    }
    Ok(())
}
