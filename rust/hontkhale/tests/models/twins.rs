//! Two queues of six shards are given the same drawn calls, one by name and the other by `lend` on its states. After
//! each call both have answered alike, and each shard of the one is as the same shard of the other: so a call by name
//! does what its state's call does, and nothing to any other shard.

use super::draw::{calls, Draw};
use super::ends::ends;
use super::ticks::{deadline, key, tick, Round, ROUND};
use super::twin::{Call, Twin};
use hontkhale::parts::owner::LAST_TICK;

const SHARDS: usize = 6;

// A tick that has more bits than the lower levels of a wheel can tell apart.
const LATE: u64 = 1 << 40;

// The queue that is called by name, the one that is called by `lend`, and how far the time has come.
struct Play {
    one: Twin,
    other: Twin,
    noted: u64,
}

impl Play {
    fn new(round: Round) -> Self {
        Play {
            one: Twin::new(SHARDS, round),
            other: Twin::new(SHARDS, round),
            noted: 0,
        }
    }

    // A shard, at times none.
    fn shard(draw: &mut Draw) -> usize {
        match draw.below(50) {
            0 => SHARDS + draw.below(3) as usize,
            _ => draw.below(SHARDS as u64) as usize,
        }
    }

    fn draw(&mut self, draw: &mut Draw) -> Call {
        let shard = Play::shard(draw);
        let key = key(draw, self.one.keys(), SHARDS as u32);
        match draw.below(40) {
            0..=8 => Call::Insert(draw.next(), deadline(draw, self.noted)),
            9..=11 => Call::Reset(key, deadline(draw, self.noted)),
            12 => Call::Remove(key),
            13 => Call::Deadline(key),
            14..=16 => Call::Extend(key, deadline(draw, self.noted)),
            17..=20 => Call::Cancel(key),
            21..=22 => Call::Reap(key),
            23..=31 => self.polls(draw, shard),
            _ => Play::of_a_shard(draw, shard, self.noted),
        }
    }

    // A poll by any of the calls that make one.
    fn polls(&mut self, draw: &mut Draw, shard: usize) -> Call {
        let at = tick(draw, self.noted, None);
        if at <= LAST_TICK {
            self.noted = self.noted.max(at);
        }
        let most = draw.below(5) as u32;
        match draw.below(4) {
            0 => Call::Poll(shard, at),
            1 => Call::PollSome(shard, at, most),
            2 => Call::Stream(shard, at),
            _ => Call::Paced(shard, at, most + 1),
        }
    }

    fn of_a_shard(draw: &mut Draw, shard: usize, noted: u64) -> Call {
        match draw.below(16) {
            0 | 1 => Call::Sweep(shard),
            2..=4 => Call::SweepSome(shard, draw.below(80) as usize, draw.below(80) as usize),
            5 => Call::Clear(shard),
            6 | 7 => Call::Ring(shard, tick(draw, noted, None)),
            8 => Call::NextWake(shard),
            9 => Call::TellTally(shard),
            10 => Call::Parked(shard),
            11 => Call::Audit,
            12 => Call::Handle,
            _ => Call::Poll(shard, noted),
        }
    }

    // Makes a call on both: the answers and all shards of both are the same.
    fn makes(&mut self, call: &Call) {
        let answers = (self.one.by_name(call), self.other.by_lend(call));
        assert_eq!(answers.0, answers.1, "{call:?}");
        assert_eq!(self.one.lives(), self.other.lives(), "values that live after {call:?}");
        for shard in 0..SHARDS {
            let seen = (self.one.seen(shard), self.other.seen(shard));
            assert_eq!(seen.0, seen.1, "shard {shard} after {call:?}");
        }
    }

    // Whatever is left comes out of each shard of both alike.
    fn ends(mut self) {
        for shard in 0..SHARDS {
            for _ in 0..200 {
                self.makes(&Call::Poll(shard, LAST_TICK));
            }
        }
        assert_eq!(self.one.ends(), self.other.ends(), "totals");
    }
}

fn by_name_and_by_lend(seed: u64, first: u64) {
    let mut draw = Draw::new(seed);
    for _ in 0..calls().div_ceil(2 * ROUND) {
        let mut play = Play::new(Round::draw(&mut draw));
        for shard in 0..SHARDS {
            play.makes(&Call::Poll(shard, first));
        }
        play.noted = first;
        for _ in 0..ROUND / 2 {
            let call = play.draw(&mut draw);
            play.makes(&call);
        }
        play.ends();
    }
}

// promise: shards.six-shards stream.paced-polls
#[test]
fn six_shards_by_name_and_by_lend_agree() {
    ends(|| by_name_and_by_lend(7, 0));
}

// promise: shards.six-shards
#[test]
fn six_shards_by_name_and_by_lend_agree_late() {
    ends(|| by_name_and_by_lend(8, LATE));
}
