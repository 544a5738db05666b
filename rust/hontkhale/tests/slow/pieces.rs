//! Polls in pieces, with every other call between two of them: the queue and the slow model of it agree after each.

use super::draw::{calls, Draw};
use super::queue::LAST;
use super::same_calls::Both;
use super::Fail;
use hontkhale::parts::owner::{Piece, Turn};

impl Both {
    // The model is told which entries were reaped, and where the others are filed.
    fn tell(&mut self) -> bool {
        let mut is_same = true;
        for place in (0..self.slow.len()).rev() {
            if let Some(entry) = self.slow.nth(place) {
                let is_lawful = match self.core.filed(&entry.id) {
                    Some(filed) => self.slow.file(entry.id, filed),
                    None => self.slow.reap(entry.id),
                };
                is_same = is_same && is_lawful;
            }
        }
        is_same
    }

    // What an answer says is what the model has, which was told how far the wheel came.
    fn is_answer(&mut self, turn: Turn<u64>) -> bool {
        let noted = self.slow.noted;
        let due = self.slow.least_deadline();
        match turn {
            Turn::Out(out) => {
                due == Some(out.deadline) && out.noted == noted && self.slow.take_out(&out.key) == Some(out.value)
            }
            Turn::Waiting { next } => {
                due.is_none_or(|least| least > noted)
                    && self.core.tick() == noted
                    && self.core.next_wake() == Some(next)
                    && next > noted
            }
            Turn::Idle => due.is_none() && self.core.tick() == noted && self.core.is_empty(),
        }
    }

    // A piece of a poll. One of no step moves nothing.
    fn poll_some(&mut self, tick: u64, most: u32) -> bool {
        let (before, len) = (self.core.tick(), self.core.len());
        let noted = self.slow.note(tick);
        let piece = match (self.core.poll_some(tick, most), noted) {
            (Ok(piece), Ok(())) => piece,
            (Err(error), Err(expected)) => return error == expected,
            _ => return false,
        };
        let is_on_the_way = self.slow.come_to(self.core.tick());
        let is_same = match piece {
            Piece::Answer(turn) => most > 0 && self.is_answer(turn),
            Piece::Working => most > 0 || (self.core.tick() == before && self.core.len() == len),
        };
        is_on_the_way && is_same
    }

    // A sweep of some slots: as many entries leave as it tells.
    fn sweep_some(&mut self, from: usize, count: usize) -> bool {
        let before = self.core.len();
        let swept = self.core.sweep_some(from, count);
        before.saturating_sub(self.core.len()) == swept.reaped
    }

    // A piece of a poll, or another call.
    fn piece_or_call(&mut self, turn: u64, draw: &mut Draw) -> bool {
        let tick = self.some_tick(draw);
        let is_same = match draw.below(12) {
            0 => self.poll_some(tick, 0),
            1..3 => self.poll_some(tick, 1),
            3..5 => self.poll_some(self.slow.noted, 2),
            5 => self.poll_some(tick, some_steps(draw)),
            6 => self.sweep_some((draw.below(70) & 127) as usize, 8),
            _ => self.call(turn, draw),
        };
        is_same && self.tell()
    }

    // Pieces at the noted tick with no call between them come to an answer: each entry is settled, reaped or filed
    // anew, and the wheel arrives on its way to it, at most so often.
    fn comes_to_an_answer(&mut self, most: u32) -> bool {
        let (noted, pieces) = (self.slow.noted, self.slow.len().saturating_add(1));
        for _piece in 0..pieces.saturating_mul(600) {
            let outs = self.slow.totals.expired;
            if !(self.poll_some(noted, most) && self.tell()) {
                return false;
            }
            let is_done = self.slow.least().is_none_or(|filed| filed > noted);
            if outs < self.slow.totals.expired || (is_done && self.core.tick() == noted) {
                return true;
            }
        }
        false
    }

    // Pieces to the last tick, until nothing is linked.
    fn is_drained(&mut self) -> bool {
        for _piece in 0..1000u64 {
            if !(self.poll_some(LAST, 16) && self.tell() && self.agree()) {
                return false;
            }
            if self.slow.len() == 0 && self.slow.tick == LAST {
                return true;
            }
        }
        false
    }
}

// The steps of a piece: 1 to 17.
fn some_steps(draw: &mut Draw) -> u32 {
    draw.below(17) as u32 + 1
}

// The calls of a round.
const TURNS: u64 = 5000;

// One round: a fresh queue and its model, and then pieces until it is empty.
fn agree_at(capacity: usize, last_stamp: u32, round: u64) -> Result<(), Fail> {
    let mut both = Both::new(capacity, last_stamp)?;
    let mut draw = Draw::new(round);
    for turn in 0..TURNS {
        let at = || format!("call {turn} of round {round} at capacity {capacity} and last stamp {last_stamp}");
        assert!(both.piece_or_call(turn, &mut draw), "{}", at());
        assert!(
            turn % 16 != 0 || both.comes_to_an_answer(some_steps(&mut draw)),
            "still Working after {}",
            at()
        );
        assert!(both.agree(), "after {}", at());
    }
    assert!(both.is_drained(), "drained at capacity {capacity}");
    Ok(())
}

// promise: core.answer-reader
#[test]
fn pieces_agree_with_the_model() -> Result<(), Fail> {
    let sizes: &[(usize, u32)] = &[(1, 3), (3, 1048575), (64, 3), (64, 1048575)];
    for (capacity, last_stamp) in sizes {
        for round in 0..calls().div_ceil(TURNS) {
            agree_at(*capacity, *last_stamp, round)?;
        }
    }
    Ok(())
}
