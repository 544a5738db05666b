//! The queue over a row of cores for long: it wears its slots out, grows and shrinks, and keeps no more than before.

use super::draw::{calls, Draw};
use super::queue::{Growing, Sizes};
use super::refusing::{refusing_large, used};
use super::value::{Living, Value};
use hontkhale::parts::owner::{CoreError, Turn};

// Whether the whole is asked for, and not a part that takes seconds.
fn is_whole() -> bool {
    calls() >= 1_000_000
}

const SIZES: Sizes = Sizes {
    least: 64,
    most: 65_536,
    last_stamp: 1_048_575,
};

/// Takes out all that is due at a tick, in the order of the deadlines: how many these were, and the sum of the values.
fn take_all(queue: &mut Growing<Value>, tick: u64) -> (u64, u64) {
    let (mut count, mut sum, mut last) = (0, 0, 0);
    let poll = |queue: &mut Growing<Value>| match tick % 2 {
        0 => queue.poll(tick),
        _ => queue.poll_in_pieces(tick, 16),
    };
    while let Turn::Out(expired) = poll(queue).expect("a tick") {
        assert!(last <= expired.deadline && expired.deadline <= tick);
        last = expired.deadline;
        count += 1;
        sum += expired.value.number();
    }
    (count, sum)
}

fn lives(last_stamp: u32, count: u64) {
    let (living, mut draw) = (Living::default(), Draw::new(u64::from(last_stamp)));
    let mut queue = Growing::new(Sizes {
        least: 4,
        most: 64,
        last_stamp,
    });
    let (mut taken, mut sum, mut at_first) = (0, 0, 0);
    for number in 0..count {
        let when = number + 1 + draw.below(20);
        assert!(queue.insert(living.value(number), when).is_ok());
        let (more, values) = take_all(&mut queue, number);
        (taken, sum) = (taken + more, sum + values);
        if number % 16 == 0 {
            queue.maintain();
        }
        if number == count / 10 {
            at_first = used();
        }
    }
    assert!(
        used() <= 2 * at_first,
        "{} bytes after {count} lives, {at_first} after a tenth of them",
        used()
    );
    let (more, values) = take_all(&mut queue, count + 20);
    assert_eq!((taken + more, sum + values), (count, count * (count - 1) / 2));
    drop(queue);
    assert_eq!(living.count(), 0);
}

// promise: growing.sizing
#[test]
fn lives_without_end_by_slots_of_few_stamps() {
    let count = if is_whole() { 1_000_000 } else { 30_000 };
    for last_stamp in 1..=3 {
        lives(last_stamp, count);
    }
}

/// Grows to so many entries, of which each comes out or is removed, and is maintained until nothing is left to do.
fn grow_and_shrink(queue: &mut Growing<Value>, living: &Living, draw: &mut Draw, most: u64, now: u64) {
    let mut keys = Vec::with_capacity(most as usize);
    for number in 0..most {
        let answer = queue.insert(living.value(number), now + 1 + draw.below(5_000));
        keys.push(answer.map_err(|refused| refused.0).expect("a key"));
        if number % 100 == 0 {
            queue.maintain();
        }
    }
    for key in &keys {
        match draw.below(3) {
            0 => assert!(queue.remove(&key.entry()).is_ok()),
            1 => assert!(queue.reset(&key.entry(), now + 1 + draw.below(5_000)).is_ok()),
            _ => {}
        }
    }
    take_all(queue, now + 5_000);
    (0..40).for_each(|_| queue.maintain());
    assert_eq!((queue.len(), queue.count(), living.count()), (0, 1, 0));
}

// promise: growing.sizing growing.folds
#[test]
fn growing_and_shrinking_again_keeps_no_more_than_once() {
    let (most, times) = if is_whole() { (100_000, 100) } else { (5_000, 10) };
    let (living, mut draw) = (Living::default(), Draw::new(9));
    let mut queue = Growing::new(SIZES);
    let mut kept = Vec::with_capacity(times as usize);
    for time in 0..times {
        grow_and_shrink(&mut queue, &living, &mut draw, most, time * 5_000);
        kept.push(used());
    }
    let (once, most) = (kept[0], kept.iter().copied().max());
    assert_eq!(most, Some(once), "{kept:?}");
}

/// Inserts and polls of which an allocation is refused: the value comes back, and goes in once there is memory.
fn goes_on(queue: &mut Growing<Value>, values: Vec<Value>, refused: &mut u64) {
    for (tick, mut value) in (0..).zip(values) {
        loop {
            match queue.insert(value, tick + 100) {
                Ok(_) => break,
                Err((error, back)) => {
                    assert_eq!(error, CoreError::NoMemory);
                    (*refused, value) = (*refused + 1, back);
                }
            }
        }
        queue.maintain();
        while let Ok(Turn::Out(_)) = queue.poll(tick) {}
    }
}

// promise: growing.take-in
#[test]
fn each_allocation_of_a_growing_queue_is_refused() {
    let (mut met, before) = (0, used());
    for grants in 0.. {
        let living = Living::default();
        let values = (0..600).map(|number| living.value(number)).collect();
        let mut queue = Growing::new(Sizes { last_stamp: 2, ..SIZES });
        let mut refused = 0;
        let ((), asked) = refusing_large(grants, || goes_on(&mut queue, values, &mut refused));
        assert_eq!(take_all(&mut queue, 1_000).0, 100);
        drop(queue);
        drop(living);
        assert_eq!(used(), before, "behind {grants} grants something leaks");
        met += refused;
        if asked <= grants {
            break;
        }
    }
    assert!(met > 0, "no insert is refused");
}
