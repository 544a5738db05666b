//! The calls of a wheel, each with what it has to answer.

use crate::tests::kit::Fail;
use super::same;
use crate::ticks::{LAST_TICK, LEVELS, REACH};
use crate::wheels::{Place, Wheel};

/// A call and its answer, or what a reader has to tell.
#[derive(Clone, Copy)]
pub enum Call {
    /// An index, and the tick that it is filed at.
    Link(usize, u64),
    Unlink(usize),
    /// Up to a limit: whether a wake is up to it.
    Advance(u64, bool),
    /// Likewise.
    Arrive(u64, bool),
    /// What is due leaves, or is linked at its later deadline: how many were due.
    Settle(&'static [u64], u64),
    Pop(Option<usize>),
    Law,
    Tick(u64),
    /// The tick that an index is filed at, its place, and how often it moved.
    Stands(usize, Option<u64>, Place, u8),
    Moved(u64),
    /// The slots of a level that are filled, each a bit.
    Occupied(usize, u64),
    Least(Option<usize>),
    NextWake(Option<u64>),
}

/// Links an index where the wheel allows it.
pub fn link(wheel: &mut Wheel, index: usize, filed: u64) {
    let tick = wheel.tick();
    let is_near = tick <= filed && filed <= LAST_TICK && filed <= tick + REACH;
    assert!(
        is_near && index < wheel.capacity() && wheel.filed(index).is_none(),
        "link {index} at {filed}"
    );
    wheel.link(index, filed);
}

// Unlinks an index that is linked.
fn unlink(wheel: &mut Wheel, index: usize) {
    assert!(
        index < wheel.capacity() && wheel.filed(index).is_some(),
        "unlink {index}"
    );
    wheel.unlink(index);
}

/// Advances a wheel of which nothing is due.
pub fn advance(wheel: &mut Wheel, limit: u64) -> bool {
    assert!(
        wheel.tick() <= limit && limit <= LAST_TICK && wheel.pop_due().is_none(),
        "advance to {limit}"
    );
    wheel.advance(limit)
}

/// Arrives with a wheel of which nothing is due.
pub fn arrive(wheel: &mut Wheel, limit: u64) -> bool {
    assert!(
        wheel.tick() <= limit && limit <= LAST_TICK && wheel.pop_due().is_none(),
        "arrive by {limit}"
    );
    wheel.arrive(limit)
}

/// Takes out what is due, links what has a later deadline anew, and counts how many were due.
pub fn settle(wheel: &mut Wheel, deadlines: &[u64]) -> u64 {
    let mut due = 0u64;
    for _turn in 0..deadlines.len() {
        let Some(index) = wheel.pop_due() else {
            break;
        };
        due = due.wrapping_add(1);
        match deadlines.get(index) {
            Some(deadline) if wheel.tick() < *deadline => link(wheel, index, *deadline),
            _ => {}
        }
    }
    due
}

/// The tick that an index is filed at, its place, and how often it moved.
pub fn stands(wheel: &Wheel, index: usize) -> (Option<u64>, Place, u8) {
    assert!(index < wheel.capacity(), "index {index}");
    (wheel.filed(index), wheel.place(index), wheel.moves(index))
}

fn occupied(wheel: &Wheel, level: usize) -> u64 {
    assert!(level < LEVELS, "level {level}");
    wheel.occupancy(level)
}

fn law(wheel: &Wheel) {
    assert!(wheel.next_wake().is_none_or(|wake| wheel.tick() <= wake));
}

// The call at that number of a table answers as it has to.
fn answers(wheel: &mut Wheel, number: usize, call: Call) {
    match call {
        Call::Link(index, filed) => link(wheel, index, filed),
        Call::Unlink(index) => unlink(wheel, index),
        Call::Advance(limit, reached) => same(number, advance(wheel, limit), reached),
        Call::Arrive(limit, reached) => same(number, arrive(wheel, limit), reached),
        Call::Settle(deadlines, due) => same(number, settle(wheel, deadlines), due),
        Call::Pop(index) => same(number, wheel.pop_due(), index),
        Call::Law => law(wheel),
        Call::Tick(tick) => same(number, wheel.tick(), tick),
        Call::Stands(index, filed, place, moves) => {
            same(number, stands(wheel, index), (filed, place, moves))
        }
        Call::Moved(moves) => same(number, wheel.moved(), moves),
        Call::Occupied(level, slots) => same(number, occupied(wheel, level), slots),
        Call::Least(index) => same(number, wheel.least(), index),
        Call::NextWake(tick) => same(number, wheel.next_wake(), tick),
    }
}

/// Each call of a table answers as it has to.
pub fn each_answers(wheel: &mut Wheel, calls: &[Call]) {
    for (number, call) in calls.iter().enumerate() {
        answers(wheel, number, *call);
    }
}

/// Likewise, over a fresh wheel of that capacity.
pub fn plays(capacity: usize, calls: &[Call]) -> Result<(), Fail> {
    let mut wheel = Wheel::new(capacity)?;
    each_answers(&mut wheel, calls);
    Ok(())
}
