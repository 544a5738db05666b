//! What is drawn, and in which order: README.md says it in words, and the program of the other side draws the same.

use std::ops::Range;

/// Where every run of a peer begins to draw.
pub const SEED: u64 = 20_251_122;

/// The idle limit of a session, and the horizon of the deadlines that are drawn, in ticks.
pub const IDLE: u64 = 60_000;

/// How often a session is touched in the row of mixed calls.
pub const BEATS: u64 = 100;

/// The beats of the rows of churn and of heartbeats.
pub const HEARTBEATS: u64 = 30;

/// The ticks from one touch of a session to its next.
pub const BEAT: u64 = 1_000;

/// A life of more sessions has a tenth of the beats.
pub const MANY: usize = 1 << 18;

/// The most entries of one core of ours, and the most entries of a row.
pub const LARGEST_CORE: usize = 65_536;
pub const LARGEST: usize = 1 << 20;

/// Of so many sessions one is left to expire, the others are cancelled.
pub const KEPT: usize = 10;

/// Of so many requests one isn't answered in time.
pub const UNANSWERED: usize = 20;

/// The ticks from the start of one pass to the start of the next.
pub const PASS: u64 = 1_300_021;

/// The beats of the rows of the longest call, in which each session is touched, and their runs: the least of each call counts.
pub const LONG_BEATS: u64 = 5;
pub const RUNS: usize = 5;

/// The ticks from the start of one of these runs to the start of the next: a power of two, so that all meet the same slots.
pub const LONG_PASS: u64 = 1 << 24;

/// The touches that each caller has in its list, and how often it goes over the list.
pub const TOUCHES: usize = 131_072;
pub const TURNS: u64 = 4;

/// How far a poller goes beside the callers in one poll, in ticks, and what it rests after it, in milliseconds.
pub const STRIDE: u64 = 600;
pub const REST: u64 = 1;

/// The polls of a pass with nothing due.
pub const RESTS: usize = 65_536;

/// The calls that a thread makes in a burst under one lock.
pub const BURST: usize = 64;

/// The calls that a round of a short row makes at least, but for what a whole pass leaves over.
const ROUND: usize = 65_536;

/// The most passes of a round of a row of shards.
const MOST_PASSES: usize = 1_024;

/// The passes of a round of a short row.
pub fn passes(entries: usize) -> usize {
    (ROUND / entries).max(1)
}

/// The passes of a round of a row of shards, which have so many entries together.
pub fn shard_passes(total: usize) -> usize {
    passes(total).min(MOST_PASSES)
}

/// The ticks of a pass of a row of shards: the last of its extends is due by then, however many there are.
pub fn shard_pass(total: usize) -> u64 {
    PASS.max(IDLE + 1 + total as u64)
}

/// The room of a shard for its entries: where they come in bursts, a shard may get one more than its share.
pub fn shard_room(entries: usize) -> usize {
    (entries + BURST).min(LARGEST_CORE.max(entries))
}

/// The places of a list that are dealt out to one of so many threads.
pub fn part(length: usize, thread: usize, threads: usize) -> Range<usize> {
    length * thread / threads..length * (thread + 1) / threads
}

/// For each of so many places in a beat, the ticks from the start of the beat.
pub fn steps(entries: usize) -> Vec<u64> {
    (0..entries as u64).map(|place| place * BEAT / entries as u64).collect()
}

/// The generator of Steele, Lea and Flood, "Fast splittable pseudorandom number generators" (2014).
pub struct SplitMix64 {
    state: u64,
}

impl SplitMix64 {
    pub fn new(seed: u64) -> SplitMix64 {
        SplitMix64 { state: seed }
    }

    pub fn draw(&mut self) -> u64 {
        self.state = self.state.wrapping_add(0x9e37_79b9_7f4a_7c15);
        let mixed = (self.state ^ (self.state >> 30)).wrapping_mul(0xbf58_476d_1ce4_e5b9);
        let mixed = (mixed ^ (mixed >> 27)).wrapping_mul(0x94d0_49bb_1331_11eb);
        mixed ^ (mixed >> 31)
    }

    /// A number below `bound`, by the remainder.
    pub fn below(&mut self, bound: u64) -> u64 {
        self.draw() % bound
    }

    /// The indexes below `count` in an order drawn from the last place to the second.
    pub fn shuffled(&mut self, count: usize) -> Vec<usize> {
        let mut order: Vec<usize> = (0..count).collect();
        for place in (1..count).rev() {
            let other = self.below(place as u64 + 1) as usize;
            order.swap(place, other);
        }
        order
    }

    /// For each entry a deadline of 1 to `IDLE` ticks after `now`.
    pub fn deadlines(&mut self, now: u64, entries: usize) -> Vec<u64> {
        (0..entries).map(|_| now + 1 + self.below(IDLE)).collect()
    }

    /// As many indexes below `count`, by Zipf's law: the one at place r is drawn as often as 1 in r.
    pub fn zipf(&mut self, count: usize) -> Vec<usize> {
        let parts = |drawn: u64| (drawn >> 11) as f64 / (1u64 << 53) as f64;
        let place = |share: f64| (count as f64).powf(share) as usize;
        (0..count).map(|_| place(parts(self.draw())).clamp(1, count) - 1).collect()
    }

    /// So many indexes below `entries`, one as likely as another.
    pub fn picks(&mut self, count: usize, entries: usize) -> Vec<usize> {
        (0..count).map(|_| self.below(entries as u64) as usize).collect()
    }
}

#[cfg(test)]
mod tests {
    use super::*;

    /// The first numbers of the generator from 1234567, as its authors' C code prints them.
    #[test]
    fn draws_the_published_numbers() {
        let mut draws = SplitMix64::new(1_234_567);
        let drawn: Vec<u64> = (0..5).map(|_| draws.draw()).collect();
        assert_eq!(
            drawn,
            [
                6_457_827_717_110_365_317,
                3_203_168_211_198_807_973,
                9_817_491_932_198_370_423,
                4_593_380_528_125_082_431,
                16_408_922_859_458_223_821
            ]
        );
    }

    #[test]
    fn shuffles_every_index_once() {
        let mut order = SplitMix64::new(SEED).shuffled(1_000);
        assert_ne!(order, (0..1_000).collect::<Vec<_>>());
        order.sort_unstable();
        assert_eq!(order, (0..1_000).collect::<Vec<_>>());
    }
}
