//! Free indexes given out in rising order: the last ones freed in a small stack, all others as bits.

const RECENT: usize = 64;

/// Which indexes are free.
pub struct Free {
    recent: [u32; RECENT],
    count: usize,
    /// A bit for each index that is free and not in the stack or in hand.
    bits: Vec<u64>,
    /// A bit for each word of `bits` that isn't 0.
    summary: Vec<u64>,
    /// A word taken from `bits`, and the index of its lowest bit.
    hand: u64,
    base: usize,
}

impl Free {
    /// All indexes below `capacity` are free.
    pub fn new(capacity: usize) -> Free {
        let mut free = Free {
            recent: [0; RECENT],
            count: 0,
            bits: vec![0; capacity.div_ceil(64)],
            summary: vec![0; capacity.div_ceil(4096)],
            hand: 0,
            base: 0,
        };
        for index in 0..capacity {
            free.set(index);
        }
        free
    }

    fn set(&mut self, index: usize) {
        self.bits[index / 64] |= 1 << (index % 64);
        self.summary[index / 4096] |= 1 << (index / 64 % 64);
    }

    #[inline(always)]
    pub fn give(&mut self, index: u32) {
        if self.count < RECENT {
            self.recent[self.count] = index;
            self.count += 1;
        } else {
            self.set(index as usize);
        }
    }

    #[inline(always)]
    pub fn take(&mut self) -> Option<u32> {
        if self.count > 0 {
            self.count -= 1;
            return Some(self.recent[self.count]);
        }
        if self.hand == 0 && !self.refill() {
            return None;
        }
        let bit = self.hand.trailing_zeros();
        self.hand &= self.hand - 1;
        Some(self.base as u32 + bit)
    }

    /// Takes the next word with a bit, in a circle from the one taken last.
    fn refill(&mut self) -> bool {
        let word = self.base / 64;
        let ahead = self.summary[word / 64] & (u64::MAX << (word % 64));
        if ahead != 0 {
            return self.hold(word / 64, ahead);
        }
        let groups = self.summary.len();
        for step in 1..=groups {
            let group = (word / 64 + step) % groups;
            if self.summary[group] != 0 {
                return self.hold(group, self.summary[group]);
            }
        }
        false
    }

    fn hold(&mut self, group: usize, choices: u64) -> bool {
        let bit = choices.trailing_zeros() as usize;
        let word = group * 64 + bit;
        self.hand = std::mem::take(&mut self.bits[word]);
        self.summary[group] &= !(1 << bit);
        self.base = word * 64;
        true
    }
}

#[cfg(test)]
mod tests {
    use super::*;

    #[test]
    fn gives_every_index_once() {
        for capacity in [1, 64, 100, 65_536, 300_000] {
            let mut free = Free::new(capacity);
            for _ in 0..3 {
                let mut taken: Vec<u32> = std::iter::from_fn(|| free.take()).collect();
                taken.sort_unstable();
                assert_eq!(taken, (0..capacity as u32).collect::<Vec<_>>());
                for index in taken.iter().rev() {
                    free.give(*index);
                }
            }
        }
    }
}
