//! The calls of a case, their answers, and the keys that were given out so far.

use crate::tests::kit::Pushed;
use crate::core::{CallError, Look, Removed, Tally, Turn};
use crate::shards::QueueError;
use crate::ticks::{EntryId, Key};
use crate::wheels::Place;

/// What a key has in place of what it was given with.
#[derive(Clone, Copy)]
pub enum Part {
    Stamp(u32),
    Index(u32),
    Shard(u32),
}

/// The key that a call is given: keys count from 0, in the order of inserts and resets.
#[derive(Clone, Copy)]
pub enum Named {
    Nth(usize),
    /// That key, with another part.
    Forged(usize, Part),
}

/// A call of a queue of letters, of a handle of it, or of a shard's state alone. A `u64` alone is a tick, a `usize` a
/// shard.
#[derive(Clone, Copy)]
pub enum Call {
    /// By a route.
    Insert(u64, char, u64),
    Reset(Named, u64),
    Remove(Named),
    Deadline(Named),
    Poll(usize, u64),
    NextWake(usize),
    Sweep(usize),
    Clear(usize),
    TellTally(usize),
    /// The moves that the tally counts.
    Moves(usize),
    Ring(usize, u64),
    Parked(usize),
    // By a handle.
    Extend(Named, u64),
    Cancel(Named),
    LookAt(Named),
    // By the state alone.
    Len(usize),
    PlaceOf(Named),
    FiledAt(Named),
}

/// What a call answers. An entry is named by the place of its key among the keys.
#[derive(Clone, Copy, Debug, PartialEq, Eq)]
pub enum Answer {
    /// A new key: its shard, its entry's stamp at birth, and its own.
    Given(u32, u32, u32),
    /// An entry that came out, with its value, its deadline and the noted tick.
    Out(usize, char, u64, u64),
    Gone(usize, char, u64),
    Until(u64),
    Waiting(u64),
    Idle,
    /// A next wake, the tick of a parked poller, or the tick by which an entry is filed.
    Tick(Option<u64>),
    Count(usize),
    Moved(u64),
    Tallies(Tally),
    Rung(bool),
    Seen(Look),
    Stands(Option<Place>),
    Refused(QueueError),
    NotDone(CallError),
    /// A key that is none of those given, or a value that didn't come back.
    Wrong,
}

/// The keys that were given out, in their order, by shards of that many slots.
pub struct Keys {
    given: Vec<Key>,
    capacity: usize,
}

impl Keys {
    pub fn new(capacity: usize) -> Keys {
        Keys {
            given: Vec::new(),
            capacity,
        }
    }

    pub fn len(&self) -> usize {
        self.given.len()
    }

    pub fn last(&self) -> Option<Key> {
        self.given.last().copied()
    }

    /// The key of that name, none where no key was given there.
    pub fn named(&self, named: Named) -> Option<Key> {
        let (nth, forged) = match named {
            Named::Nth(nth) => (nth, None),
            Named::Forged(nth, part) => (nth, Some(part)),
        };
        let key = *self.given.get(nth)?;
        let entry = key.entry();
        let (shard, index, born) = (entry.shard(), entry.index(), entry.born());
        Some(match forged {
            None => key,
            Some(Part::Stamp(stamp)) => Key::new(entry, stamp),
            Some(Part::Index(index)) => Key::new(EntryId::new(shard, index, born), key.stamp()),
            Some(Part::Shard(shard)) => Key::new(EntryId::new(shard, index, born), key.stamp()),
        })
    }

    pub fn entry(&self, named: Named) -> Option<EntryId> {
        Some(self.named(named)?.entry())
    }

    fn place_of(&self, key: &Key) -> Option<usize> {
        self.given.iter().position(|given| given == key)
    }

    /// The answer of an insert, whose value has to come back where it is refused.
    pub fn inserted(&mut self, value: char, answer: Result<Key, (QueueError, char)>) -> Answer {
        match answer {
            Ok(key) => self.given(Ok(key)),
            Err((error, back)) if back == value => Answer::Refused(error),
            Err(_) => Answer::Wrong,
        }
    }

    /// The answer of a reset.
    pub fn given(&mut self, answer: Result<Key, QueueError>) -> Answer {
        match answer {
            Ok(key) => {
                let entry = key.entry();
                if entry.index() as usize >= self.capacity || self.given.pushed(key).is_err() {
                    return Answer::Wrong;
                }
                Answer::Given(entry.shard(), entry.born(), key.stamp())
            }
            Err(error) => Answer::Refused(error),
        }
    }

    pub fn turned(&self, answer: Result<Turn<char>, QueueError>) -> Answer {
        match answer {
            Ok(Turn::Out(out)) => match self.place_of(&out.key) {
                Some(nth) => Answer::Out(nth, out.value, out.deadline, out.noted),
                None => Answer::Wrong,
            },
            Ok(Turn::Waiting { next }) => Answer::Waiting(next),
            Ok(Turn::Idle) => Answer::Idle,
            Err(error) => Answer::Refused(error),
        }
    }

    pub fn removed(&self, answer: Result<Removed<char>, QueueError>) -> Answer {
        match answer {
            Ok(removed) => match self.place_of(&removed.key) {
                Some(nth) => Answer::Gone(nth, removed.value, removed.deadline),
                None => Answer::Wrong,
            },
            Err(error) => Answer::Refused(error),
        }
    }
}
