//! The wheel alone, its places and its ways, over a table of ticks.

use crate::tests::kit::Fail;
use super::ticks::seen_from;
use super::same;
use super::wheel_calls::Call::{
    Advance, Arrive, Law, Least, Link, Moved, NextWake, Occupied, Pop, Settle, Stands, Tick, Unlink,
};
use super::wheel_calls::{advance, arrive, each_answers, link, plays, settle, stands};
use crate::ticks::{CAPACITY_LIMIT, LAST_TICK, REACH};
use crate::wheels::{Place, Wheel, WheelError};

// promise: wheel.link-unlink
#[test]
fn wheel_cascade() -> Result<(), Fail> {
    let calls = &[
        Link(0, 130),
        Occupied(1, 4),
        Least(Some(0)),
        Stands(0, Some(130), Place::InSlot { level: 1, slot: 2 }, 0),
        Advance(128, true),
        Occupied(1, 0),
        Occupied(0, 4),
        Stands(0, Some(130), Place::InSlot { level: 0, slot: 2 }, 1),
        Advance(129, false),
        Tick(129),
        Advance(130, true),
        Stands(0, Some(130), Place::Due, 1),
        Moved(1),
        Pop(Some(0)),
        Pop(None),
        Stands(0, None, Place::Loose, 0),
        Moved(1),
    ];
    plays(2, calls)
}

// Where the empty wheel goes to a tick, an index that is filed then stands there, and its slot is the next wake.
fn waits_at(wheel: &mut Wheel, tick: u64, filed: u64, slot: (Place, u64)) {
    let (place, wake) = slot;
    let reached = advance(wheel, tick);
    link(wheel, 0, filed);
    let stands = stands(wheel, 0);
    same(
        filed,
        (reached, wheel.tick(), stands, wheel.next_wake()),
        (false, tick, (Some(filed), place, 0), Some(wake)),
    );
}

fn waits(
    tick: u64,
    filed: u64,
    slot: (Place, u64),
) -> Result<(), Fail> {
    let mut wheel = Wheel::new(1)?;
    waits_at(&mut wheel, tick, filed, slot);
    Ok(())
}

// promise: wheel.advance-goes
#[test]
fn beyond_one_lap() -> Result<(), Fail> {
    let slot = (Place::InSlot { level: 5, slot: 0 }, 68719476736);
    // The tick that the empty wheel goes to, and the tick filed then.
    let rows: &[(u64, u64)] = &[(68719476735, 68719476736), (5, 68719476740)];
    for (tick, filed) in rows {
        waits(*tick, *filed, slot)?;
    }
    Ok(())
}

// The place of what is filed so, and the start of its slot: as the digits of the ticks tell it, which place_table holds
// against a table for each of the pairs below.
fn slot_of(tick: u64, filed: u64) -> (Place, u64) {
    match seen_from(tick, filed) {
        None => (Place::Due, tick),
        Some((level, slot, start)) => {
            let slot = slot as usize;
            (Place::InSlot { level, slot }, start)
        }
    }
}

// promise: wheel.place-filed
#[test]
fn places_by_tick() -> Result<(), Fail> {
    let rows: &[(u64, u64)] = &[
        (0, 63),
        (0, 64),
        (63, 64),
        (64, 127),
        (64, 128),
        (100, 150),
        (4095, 4096),
        (10, 5000),
        (4096, 5000),
        (4992, 5000),
        (0, REACH),
    ];
    for (tick, filed) in rows {
        let slot = slot_of(*tick, *filed);
        waits(*tick, *filed, slot)?;
    }
    let at_once = &[
        Link(0, 0),
        Stands(0, Some(0), Place::Due, 0),
        NextWake(Some(0)),
    ];
    plays(1, at_once)
}

// promise: wheel.link-unlink
#[test]
fn unlinks_from_a_shared_slot() -> Result<(), Fail> {
    // The first, the last and the one between leave in turn: the slot's bit stays until the last one left.
    let calls = &[
        Link(0, 70),
        Link(1, 65),
        Link(2, 127),
        Law,
        Unlink(1),
        Stands(1, None, Place::Loose, 0),
        Least(Some(0)),
        Occupied(1, 2),
        Unlink(2),
        Stands(2, None, Place::Loose, 0),
        Least(Some(0)),
        Occupied(1, 2),
        Unlink(0),
        Stands(0, None, Place::Loose, 0),
        Least(None),
        Occupied(1, 0),
        NextWake(None),
        Moved(0),
    ];
    plays(3, calls)
}

// promise: wheel.new-tick
#[test]
fn bad_configs() {
    for capacity in [0, 65537] {
        let made = Wheel::new(capacity);
        same(capacity, made.err(), Some(WheelError::BadConfig));
    }
}

// The tick of an index is its number in the high digits and the same number turned in the low ones.
fn fill(wheel: &mut Wheel) {
    for index in 0..65536usize {
        let tick = index as u64 * 1048576 + (65535 - index as u64);
        link(wheel, index, tick);
    }
}

// Pops until the last tick: how many were popped, and the tick of the last one.
fn empty(wheel: &mut Wheel) -> (u64, u64) {
    let mut popped = 0u64;
    let mut last = 0;
    for _ in 0..10_000_000u64 {
        match wheel.pop_due() {
            Some(index) => {
                // The ticks rise with the numbers.
                same("pop", index as u64, popped);
                popped = popped.wrapping_add(1);
                last = wheel.tick();
            }
            None if wheel.tick() == LAST_TICK => break,
            None => {
                let _ = wheel.advance(LAST_TICK);
            }
        }
    }
    (popped, last)
}

fn fills_and_empties(wheel: &mut Wheel) {
    same("capacity", wheel.capacity(), CAPACITY_LIMIT);
    fill(wheel);
    same("pops", empty(wheel), (65536, 68718428160));
    let end = &[Tick(LAST_TICK), NextWake(None), Least(None), Occupied(5, 0)];
    each_answers(wheel, end);
}

// promise: wheel.pop-due-nothing
#[test]
fn full_wheel_to_the_last_tick() -> Result<(), Fail> {
    let mut wheel = Wheel::new(CAPACITY_LIMIT)?;
    fills_and_empties(&mut wheel);
    Ok(())
}

const DEADLINES: [u64; 4] = [130, 191, 200, 5000];

// The limit, whether a wake is up to it, the tick then, how many are due, and the next wake once they were settled.
const ARRIVALS: &[(u64, bool, u64, u64, Option<u64>)] = &[
    (100, false, 100, 0, Some(128)),
    (LAST_TICK, true, 128, 2, Some(130)),
    (129, false, 129, 0, Some(130)),
    (130, true, 130, 1, Some(191)),
    (LAST_TICK, true, 191, 1, Some(192)),
    (LAST_TICK, true, 192, 1, Some(200)),
    (LAST_TICK, true, 200, 1, Some(4096)),
    (LAST_TICK, true, 4096, 1, Some(4992)),
    (LAST_TICK, true, 4992, 1, Some(5000)),
    (LAST_TICK, true, 5000, 1, None),
    (LAST_TICK, false, LAST_TICK, 0, None),
];

fn arrives(wheel: &mut Wheel) {
    each_answers(
        wheel,
        &[Link(0, 130), Link(1, 191), Link(2, 200), Link(3, 5000)],
    );
    for (limit, reached, tick, due, next) in ARRIVALS {
        let arrived = (arrive(wheel, *limit), wheel.tick());
        let settled = (settle(wheel, &DEADLINES), wheel.next_wake());
        same(
            *tick,
            (arrived, settled),
            ((*reached, *tick), (*due, *next)),
        );
    }
    // No index went from a level to a lower one.
    same("moved", wheel.moved(), 0);
}

// promise: wheel.arrive-does
#[test]
fn arrives_at_each_slot() -> Result<(), Fail> {
    let mut wheel = Wheel::new(4)?;
    arrives(&mut wheel);
    Ok(())
}

// promise: wheel.arrive-does
#[test]
fn due_while_a_slot_is_open() -> Result<(), Fail> {
    let calls = &[
        Link(0, 130),
        Link(1, 191),
        Link(2, 150),
        Link(3, 200),
        Arrive(128, true),
        // The three of the slot are due, filed at its start. The fourth waits in the next slot of level 1.
        Stands(0, Some(128), Place::Due, 0),
        Stands(1, Some(128), Place::Due, 0),
        Stands(2, Some(128), Place::Due, 0),
        Stands(3, Some(200), Place::InSlot { level: 1, slot: 3 }, 0),
        Stands(4, None, Place::Loose, 0),
        Occupied(0, 0),
        Occupied(1, 8),
        NextWake(Some(128)),
        // One leaves from between, and one is filed at the tick itself: it is due with the others.
        Unlink(2),
        Link(4, 128),
        Law,
        Settle(&[130, 191, 150, 200, 128], 3),
        Least(Some(0)),
        NextWake(Some(130)),
    ];
    plays(5, calls)
}

// promise: wheel.arrive-does
#[test]
fn arrives_a_lap_ahead() -> Result<(), Fail> {
    let calls = &[
        Arrive(5, false),
        Link(0, 68719476740),
        Arrive(LAST_TICK, true),
        // While the top level's own slot is open, an index is filed as far ahead as the wheel reaches.
        Link(1, 68719476736 + REACH),
        Tick(68719476736),
        Stands(0, Some(68719476736), Place::Due, 0),
        Stands(
            1,
            Some(68719476736 + REACH),
            Place::InSlot { level: 5, slot: 63 },
            0,
        ),
        Settle(&[68719476740], 1),
        NextWake(Some(68719476740)),
    ];
    plays(2, calls)
}
