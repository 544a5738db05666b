//! The slow model and the queue's plain twin are given the same inserts and polls, and agree.

use super::draw::{calls, Draw};
use super::queue::{Expected, SlowQueue};
use super::Fail;
use hontkhale::parts::owner::{PlainQueue, PlainTurn};

// The model and the plain queue answer a poll alike.
fn poll_both(slow: &mut SlowQueue, plain: &mut PlainQueue<u64>, tick: u64) -> bool {
    if slow.note(tick).is_err() {
        return plain.poll(tick).is_err();
    }
    let expected = slow.go_on();
    let is_same = match (expected, plain.poll(tick)) {
        (Expected::SomeDue, Ok(PlainTurn::PlainOut { deadline, value: _ })) => match slow.due() {
            Some(key) => slow.take_out(&key).is_some() && deadline == slow.tick,
            None => false,
        },
        (Expected::Waits { next }, Ok(PlainTurn::PlainWaiting)) => next > slow.noted,
        (Expected::Empty, Ok(PlainTurn::PlainIdle)) => true,
        _ => false,
    };
    is_same && slow.tick == plain.tick() && slow.noted == plain.noted()
}

// The model and the plain queue answer an insert alike. The model is told a free slot, and has one where neither is
// full.
fn insert_both(slow: &mut SlowQueue, plain: &mut PlainQueue<u64>, value: u64, when: u64) -> bool {
    let answer = plain.insert(value, when);
    if let Some(error) = slow.insert_refusal(when) {
        return answer == Err((error, value));
    }
    let mut free = 0u32;
    for index in 0..16u32 {
        if slow.at(index).is_none() {
            free = index;
        }
    }
    answer == Ok(when.max(slow.tick)) && slow.insert(free, value, when).is_some()
}

// promise: plain.comes-out
#[test]
fn the_model_agrees_with_the_plain_queue() -> Result<(), Fail> {
    // 300 calls of a fresh queue and a fresh model.
    for round in 0..calls().div_ceil(300) {
        let (mut slow, mut plain) = (SlowQueue::new(0, 16, 1048575), PlainQueue::new(16)?);
        let mut draw = Draw::new(round);
        for turn in 0..300 {
            let is_same = if draw.below(2) == 0 {
                let when = slow.noted.saturating_add(draw.below(137438953472));
                insert_both(&mut slow, &mut plain, turn, when)
            } else {
                let tick = slow.noted.saturating_add(draw.below(17179869184));
                poll_both(&mut slow, &mut plain, tick)
            };
            assert!(is_same, "call {turn} of round {round}");
            assert_eq!(slow.len(), plain.len(), "after call {turn} of round {round}");
        }
    }
    Ok(())
}
