//! The calls of a worked case, each with what it has to answer.

use crate::tests::kit::Pushed;
use super::queues::{Calls, Queue};
use crate::core::{CallError, CoreError, Look, Tally, Turn, Words};
use crate::ticks::{EntryId, Key};
use crate::wheels::Place;

/// The key that a call is given.
#[derive(Clone, Copy)]
pub enum Named {
    /// The key that was given out at that place: keys count from 0, in the order of inserts and resets.
    Given(usize),
    /// That key, but of another stamp.
    OfStamp(usize, u32),
    /// That key, but of another index.
    OfIndex(usize, u32),
    /// That key, but of another shard.
    OfShard(usize, u32),
}

/// A call and its answer, or what a reader has to tell.
#[derive(Clone, Copy)]
pub enum Step {
    /// An insert of that value is accepted.
    Insert(char, u64),
    RefuseInsert(u64, CoreError),
    /// A reset of a key's entry is accepted.
    Reset(usize, u64),
    RefuseReset(usize, u64, CoreError),
    RefuseRemove(usize, CoreError),
    Extend(Named, u64, Result<u64, CallError>),
    Cancel(Named, Result<u64, CallError>),
    Look(Named, Result<Look, CallError>),
    /// A poll at a tick, at which the entry of that key comes out, with its value and deadline.
    Out(u64, usize, char, u64),
    /// A poll, at which one of those values comes out that didn't before, at that deadline.
    OutOneOf(u64, &'static [char], u64),
    /// A poll that waits, and the next wake.
    Wait(u64, u64),
    /// A poll at which nothing is linked.
    Idle(u64),
    RefusePoll(u64, CoreError),
    Sweep(usize),
    Clear(usize),
    /// The stamp of a key, and that at which its entry was born.
    Stamps(usize, u32, u32),
    Deadline(usize, Result<u64, CoreError>),
    Peek(usize),
    /// The level and the slot of a key's entry.
    Place(usize, usize, usize),
    Filed(usize, u64),
    NextWake(u64),
    Tick(u64),
    /// How many entries are linked, and how many slots are worn.
    Counts(usize, usize),
    Tallies(Tally),
    Moves(u64),
}

// The key that a call is given, by the one that was given out.
fn key_by(named: Named, given: Key) -> Key {
    let (entry, stamp) = (given.entry(), given.stamp());
    match named {
        Named::Given(_) => given,
        Named::OfStamp(_, stamp) => Key::new(entry, stamp),
        Named::OfIndex(_, index) => Key::new(EntryId::new(0, index, entry.born()), stamp),
        Named::OfShard(_, shard) => {
            Key::new(EntryId::new(shard, entry.index(), entry.born()), stamp)
        }
    }
}

impl<W: Words, C: Calls<W>> Queue<W, C> {
    /// Does a step, and tells whether it answers as it has to. None where no key was given out at the place that it
    /// names.
    pub fn takes(&mut self, step: Step) -> Option<bool> {
        match step {
            Step::Extend(named, _, _) | Step::Cancel(named, _) | Step::Look(named, _) => {
                self.takes_by_key(step, named)
            }
            Step::Reset(at, _)
            | Step::RefuseReset(at, _, _)
            | Step::RefuseRemove(at, _)
            | Step::Deadline(at, _) => self.takes_by_name(step, at),
            Step::Insert(value, when) => Some(self.inserts(value, when)),
            Step::RefuseInsert(when, error) => {
                Some(self.core.insert('z', when) == Err((error, 'z')))
            }
            Step::Sweep(count) => Some(self.core.sweep() == count),
            Step::Clear(count) => Some(self.core.clear() == count),
            _ => self.polls(step),
        }
    }

    fn takes_by_key(&mut self, step: Step, named: Named) -> Option<bool> {
        let key = self.key(named)?;
        let core = &mut self.core;
        Some(match step {
            Step::Extend(_, when, answer) => self.calls.extend_by(core, &key, when) == answer,
            Step::Cancel(_, answer) => self.calls.cancel_by(core, &key) == answer,
            Step::Look(_, answer) => self.calls.look_by(core, &key) == answer,
            _ => false,
        })
    }

    // By the name of the entry whose key was given out at that place.
    fn takes_by_name(&mut self, step: Step, at: usize) -> Option<bool> {
        let entry = self.given(at)?.entry();
        Some(match step {
            Step::Reset(_, when) => self.resets(&entry, when),
            Step::RefuseReset(_, when, error) => self.core.reset(&entry, when) == Err(error),
            Step::RefuseRemove(_, error) => self.refuses_remove(&entry, error),
            Step::Deadline(_, answer) => self.core.deadline(&entry) == answer,
            _ => false,
        })
    }

    fn polls(&mut self, step: Step) -> Option<bool> {
        match step {
            Step::Out(tick, at, value, deadline) => {
                let key = self.given(at)?;
                Some(self.gives(tick, deadline) == Some((key, value)))
            }
            Step::OutOneOf(tick, values, deadline) => {
                Some(self.gives_one_of(tick, values, deadline))
            }
            Step::Wait(_, _) | Step::Idle(_) | Step::RefusePoll(_, _) => {
                Some(self.gives_none(step))
            }
            Step::Stamps(at, _, _) | Step::Peek(at) | Step::Place(at, _, _) | Step::Filed(at, _) =>
                self.tells_of(step, at),
            _ => Some(self.tells(step)),
        }
    }

    // A poll at which no entry comes out.
    fn gives_none(&mut self, step: Step) -> bool {
        match step {
            Step::Wait(tick, wake) =>
                matches!(self.core.poll(tick), Ok(Turn::Waiting { next }) if next == wake),
            Step::Idle(tick) => matches!(self.core.poll(tick), Ok(Turn::Idle)),
            Step::RefusePoll(tick, error) =>
                matches!(self.core.poll(tick), Err(refusal) if refusal == error),
            _ => false,
        }
    }

    // What a reader tells of the entry whose key was given out at that place.
    fn tells_of(&self, step: Step, at: usize) -> Option<bool> {
        let key = self.given(at)?;
        let entry = key.entry();
        Some(match step {
            Step::Stamps(_, stamp, born) => {
                (key.stamp(), entry.born(), entry.shard()) == (stamp, born, 0)
                    && (entry.index() as usize) < self.core.capacity()
            }
            Step::Peek(_) => self.core.peek() == Some(key),
            Step::Place(_, level, slot) => {
                self.core.place(&entry) == Some(Place::InSlot { level, slot })
            }
            Step::Filed(_, tick) => self.core.filed(&entry) == Some(tick),
            _ => false,
        })
    }

    // What a reader tells.
    fn tells(&self, step: Step) -> bool {
        match step {
            Step::NextWake(tick) => self.core.next_wake() == Some(tick),
            Step::Tick(tick) => self.core.tick() == tick,
            Step::Counts(linked, worn) => (self.core.len(), self.core.worn()) == (linked, worn),
            Step::Tallies(tally) => self.core.tally() == tally,
            Step::Moves(moves) => self.core.tally().moves == moves,
            _ => false,
        }
    }

    fn key(&self, named: Named) -> Option<Key> {
        let (Named::Given(at)
        | Named::OfStamp(at, _)
        | Named::OfIndex(at, _)
        | Named::OfShard(at, _)) = named;
        let given = self.given(at)?;
        Some(key_by(named, given))
    }

    fn given(&self, at: usize) -> Option<Key> {
        self.keys.get(at).copied()
    }

    fn refuses_remove(&mut self, entry: &EntryId, error: CoreError) -> bool {
        match self.core.remove(entry) {
            Ok(_removed) => false,
            Err(refusal) => refusal == error,
        }
    }

    fn inserts(&mut self, value: char, when: u64) -> bool {
        match self.core.insert(value, when) {
            Ok(key) => self.keys.pushed(key).is_ok(),
            Err(_refused) => false,
        }
    }

    fn resets(&mut self, entry: &EntryId, when: u64) -> bool {
        match self.core.reset(entry, when) {
            Ok(key) => self.keys.pushed(key).is_ok(),
            Err(_error) => false,
        }
    }

    // A poll at which an entry comes out at that deadline: its key and its value.
    fn gives(&mut self, tick: u64, deadline: u64) -> Option<(Key, char)> {
        match self.core.poll(tick) {
            Ok(Turn::Out(out)) if out.deadline == deadline && out.noted == tick => {
                let value = out.value;
                Some((out.key, value))
            }
            _ => None,
        }
    }

    // A poll at which one of those values comes out that didn't before.
    fn gives_one_of(&mut self, tick: u64, values: &[char], deadline: u64) -> bool {
        match self.gives(tick, deadline) {
            Some((_key, value)) => values.contains(&value) && self.is_new(value),
            None => false,
        }
    }

    // Whether the value didn't come out before.
    fn is_new(&mut self, value: char) -> bool {
        !self.out.contains(&value) && self.out.pushed(value).is_ok()
    }
}
