use crate::tests::kit::Fail;
use super::same;
use crate::core::Slots;

fn fills(slots: &mut Slots<char>, value: char, answer: Result<usize, char>) {
    let filled = match slots.fill(value) {
        Ok((index, _displaced)) => Ok(index),
        Err(refused) => Err(refused),
    };
    same("fill", filled, answer);
}

fn counts(slots: &Slots<char>, linked: usize, worn: usize) {
    same("counts", (slots.linked(), slots.worn()), (linked, worn));
}

// Vacates the slot 0, which holds the letter that it was given under that stamp.
fn vacates(slots: &mut Slots<char>, stamp: u32, value: char) {
    assert!(slots.capacity() > 0 && slots.is_held(0));
    same(
        "stamps",
        (slots.stamp(0), slots.born(0)),
        (stamp, Some(stamp)),
    );
    let held = slots.vacate(0);
    same("vacate", (held.born, held.value), (stamp, value));
}

// promise: slots.slot-filled
#[test]
fn a_slot_wears_out_at_its_last_stamp() -> Result<(), Fail> {
    wears_out(&mut Slots::new(1, 2)?);
    Ok(())
}

// Slots of one slot, whose last stamp is 2.
fn wears_out(slots: &mut Slots<char>) {
    same("limits", (slots.capacity(), slots.last()), (1, 2));
    counts(slots, 0, 0);
    for stamp in &[1, 2] {
        fills(slots, 'a', Ok(0));
        fills(slots, 'b', Err('b'));
        vacates(slots, *stamp, 'a');
    }
    counts(slots, 0, 1);
    fills(slots, 'c', Err('c'));
}

// Raises the slot 1 from stamp 1, which stays its birth stamp.
fn raises(slots: &mut Slots<char>) {
    assert!(slots.capacity() > 1 && slots.is_held(1) && slots.stamp(1) < slots.last());
    slots.raise(1);
    assert!(slots.capacity() > 1);
    same("raise", (slots.stamp(1), slots.born(1)), (2, Some(1)));
}

// promise: slots.slot-filled
#[test]
fn a_raise_keeps_the_birth_stamp() -> Result<(), Fail> {
    fills_and_raises(&mut Slots::new(3, 5)?);
    Ok(())
}

// Three slots, all of which are filled.
fn fills_and_raises(slots: &mut Slots<char>) {
    for index in &[0, 1, 2] {
        fills(slots, 'a', Ok(*index));
    }
    raises(slots);
    counts(slots, 3, 0);
}
