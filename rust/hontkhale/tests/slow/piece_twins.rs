//! Two queues are given the same calls; one is polled whole, the other in pieces. Each gives the same entries out, in
//! the same order. No two deadlines are the same, so the order is one.

use super::draw::{calls, Draw};
use super::value::{Living, Value};
use super::Fail;
use hontkhale::parts::owner::{Key, Piece, Turn};
use hontkhale::parts::shards::{Handle, QueueConfig, QueueError, SharedDelayQueue};

// The calls of a round, which is over fresh queues. A deadline is told from the others by its call.
const TURNS: u64 = 400;

// A queue of 1 shard, a handle of it, and the key of each value.
struct Side {
    queue: SharedDelayQueue<Value>,
    handle: Handle,
    keys: Vec<Key>,
}

impl Side {
    fn new() -> Result<Side, QueueError> {
        let queue = SharedDelayQueue::new(QueueConfig::of(1, 512))?;
        let handle = queue.handle()?;
        Ok(Side {
            queue,
            handle,
            keys: Vec::new(),
        })
    }

    // Makes the call of that kind: answers whether it was accepted.
    fn call(&mut self, living: &Living, kind: u64, value: u64, when: u64) -> Result<bool, Fail> {
        if kind < 3 {
            let value = living.value(self.keys.len() as u64);
            self.keys.push(self.queue.insert_or_drop(0, value, when)?);
            return Ok(true);
        }
        let Some(key) = self.keys.get(value as usize) else {
            return Ok(false);
        };
        Ok(match kind {
            3 => self.handle.extend(key, when).is_ok(),
            4 => self.handle.cancel(key).is_ok(),
            _ => self.queue.remove(&key.entry()).is_ok(),
        })
    }

    // The next entry that is out at a tick: its value and its deadline.
    fn whole(&self, tick: u64) -> Result<Option<(u64, u64)>, QueueError> {
        match self.queue.poll(0, tick)? {
            Turn::Out(out) => Ok(Some((out.value.number(), out.deadline))),
            _ => Ok(None),
        }
    }

    // The same in pieces of so many steps.
    fn in_pieces(&self, tick: u64, most: u32) -> Result<Option<(u64, u64)>, Fail> {
        for _ in 0..100_000 {
            match self.queue.poll_some(0, tick, most)? {
                Piece::Working => {}
                Piece::Answer(Turn::Out(out)) => return Ok(Some((out.value.number(), out.deadline))),
                Piece::Answer(_) => return Ok(None),
            }
        }
        Err("working for ever".into())
    }
}

// Polls both until nothing is due, and answers how many came out of each.
fn drain(one: &Side, other: &Side, tick: u64, most: u32) -> Result<u64, Fail> {
    for came in 0..10_000 {
        let whole = one.whole(tick)?;
        assert_eq!(other.in_pieces(tick, most)?, whole, "at {tick} by {most} steps");
        if whole.is_none() {
            return Ok(came);
        }
    }
    Err("too many came out".into())
}

// Each turn is a call, whose deadline is after the noted tick and of this turn alone. At times both are drained, and at
// the end nothing is left in them.
fn give_the_same(one: &mut Side, other: &mut Side, draw: &mut Draw) -> Result<(), Fail> {
    let living = Living::default();
    let (mut tick, mut came) = (0, 0);
    for turn in 0..TURNS {
        let (kind, value) = (draw.below(6), draw.below(turn));
        let blocks = tick / 512 + 1 + draw.below(1 << (turn % 14));
        let when = blocks * 512 + turn;
        let accepted = one.call(&living, kind, value, when)?;
        assert_eq!(other.call(&living, kind, value, when)?, accepted, "call {turn}");
        if turn % 8 == 7 {
            tick += draw.below(1 << 16);
            came += drain(one, other, tick, 1 + draw.below(17) as u32)?;
        }
    }
    came += drain(one, other, 1 << 40, 3)?;
    assert!(came >= 100, "{came} came out");
    assert_eq!(living.count(), 0, "values that live");
    Ok(())
}

fn end(side: Side) -> Result<(u64, hontkhale::parts::shards::Totals), Fail> {
    let cancels = side.handle.give_back();
    Ok((cancels, side.queue.audit()?))
}

// promise: shards.pieces-give
#[test]
fn pieces_give_what_whole_polls_give() -> Result<(), Fail> {
    for round in 0..calls() / TURNS {
        let (mut one, mut other) = (Side::new()?, Side::new()?);
        give_the_same(&mut one, &mut other, &mut Draw::new(round))?;
        assert_eq!(end(other)?, end(one)?, "the ends of round {round}");
    }
    Ok(())
}
