//! A poll in pieces, for an owner who can't wait for a whole one.
//!
//! A poll that comes to the start of a full slot takes a step for each of its entries. Here the slot is opened as it
//! is, in constant time, and its entries are gone through one by one. A call makes at most so many of these steps,
//! and leaves the queue lawful behind each.
//!
//! Most entries of a slot are due later than at its start, which a look at the word tells. Where words are shared a
//! look is a plain load and a step that may end an entry is a fence, which takes longer than all else: so the look
//! comes first there.

use crate::core::errors::CoreError;
use crate::core::outcomes::{Pace, Piece, Progress, Turn};
use crate::core::queue::{filing_tick, DelayCore};
use crate::core::words::Words;
use crate::ticks::{Mark, LAST_TICK};

impl<T, W: Words> DelayCore<T, W> {
    /// Does of a poll at most `most` steps, each in constant time. No value is dropped: that of each cancelled entry
    /// which it reaps waits until it is taken out. Over shared words an entry that is due may take two of these steps.
    ///
    /// # Errors
    /// TickTooLarge beyond the last tick, which is not noted then.
    #[inline(always)]
    pub fn poll_some_deferring(&mut self, tick: u64, most: u32) -> Result<Piece<T>, CoreError> {
        if tick > LAST_TICK {
            return Err(CoreError::TickTooLarge { limit: LAST_TICK });
        }
        self.note(tick);
        let mut made = 0;
        while made < most {
            let (progress, steps) = self.look_then_step(most - made);
            made += steps;
            match progress {
                Progress::Gave(expired) => return Ok(Piece::Answer(Turn::Out(expired))),
                Progress::Went => {}
                Progress::Rests => {
                    return match self.next_wake() {
                        Some(next) => Ok(Piece::Answer(Turn::Waiting { next })),
                        None => Ok(Piece::Answer(Turn::Idle)),
                    };
                }
            }
        }
        Ok(Piece::Working)
    }

    // A step of a poll in pieces, and how many steps over the words are made by it: two where a look comes first that
    // doesn't settle what is due, and as many as there are looks where they settle one due index after the other. They
    // come first while a slot is open and two are left. Any other index that is due was filed at just that tick, so a
    // look would mostly be made for nothing.
    #[inline(always)]
    fn look_then_step(&mut self, left: u32) -> (Progress<T>, u32) {
        // requires 0 < left
        if W::FENCED && 2 <= left {
            if let Some(index) = self.wheel.first_open() {
                let (is_settled, next) = self.settle_by_look(index);
                if is_settled {
                    let more = self.settle_more(next, left - 1);
                    return (Progress::Went, 1 + more);
                }
                return (self.step(Pace::InPieces), 2);
            }
        }
        (self.step(Pace::InPieces), 1)
    }

    // Goes from one due index to the next by looks at their words, as long as each settles its own: how many looks it
    // makes. To read what follows from the index at hand, and not from the list's head, takes half the time: each
    // step writes the head's link, and a step that begins there would wait for what the last one wrote.
    #[inline(always)]
    fn settle_more(&mut self, from: Option<usize>, most: u32) -> u32 {
        // requires IfDue self.old.wheel.filing from
        let mut made = 0;
        let mut next = from;
        while made < most {
            let Some(index) = next else {
                return made;
            };
            let (is_settled, after) = self.settle_by_look(index);
            made += 1;
            if !is_settled {
                return made;
            }
            next = after;
        }
        made
    }

    // Looks at the word of a due index, and settles it where the look tells all: an entry that is live at a later tick
    // is filed again, and a cancelled one is reaped. One that is live at the tick is left, since a caller may extend it
    // until a step of its word ends it. Returns whether it settled it, and the index that is due next.
    #[inline(always)]
    fn settle_by_look(&mut self, index: usize) -> (bool, Option<usize>) {
        // requires index < length self.old.wheel.filing.filed
        // requires filed_at self.old.wheel.filing.filed index ≡ Some self.old.wheel.filing.tick
        let word = self.words.look(index);
        let next = self.wheel.next_due(index);
        let Mark::LiveMark = word.mark else {
            self.wheel.unlink(index);
            self.slots.defer(index);
            return (true, next);
        };
        let tick = self.wheel.tick();
        if word.field <= tick {
            return (false, next);
        }
        self.wheel.unlink(index);
        self.wheel.link(index, filing_tick(tick, word.field));
        (true, next)
    }
}
