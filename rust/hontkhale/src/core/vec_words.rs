//! A plain row of words, for a queue that nobody shares.

use crate::core::errors::CoreError;
use crate::core::packed_row::PackedRow;
use crate::core::words::{shown, CallError, Look, Settled, Steps};
use crate::ticks::{Key, Mark, Parts, CAPACITY_LIMIT, LAST_STAMP, LAST_TICK};

/// A row of words that its owner alone changes: so nothing comes between the steps of a queue over it.
pub struct VecWords {
    row: PackedRow,
    begins: u64,
    expiries: u64,
    removals: u64,
}

impl VecWords {
    /// A row of words that were never used; BadConfig for a capacity of 0 or beyond [`CAPACITY_LIMIT`].
    pub fn new(capacity: usize) -> Result<VecWords, CoreError> {
        if capacity == 0 || capacity > CAPACITY_LIMIT {
            return Err(CoreError::BadConfig);
        }
        let row = PackedRow::new(capacity)?;
        Ok(VecWords {
            row,
            begins: 0,
            expiries: 0,
            removals: 0,
        })
    }

    // A word.
    #[inline]
    pub(crate) fn word(&self, index: usize) -> Parts {
        // requires index < length self.now.known
        self.row.get(index)
    }

    // The word that a key names, where the key's stamp is its stamp.
    #[inline]
    fn named(&self, key: &Key) -> Result<Parts, CallError> {
        let index = key.entry().index() as usize;
        if index >= self.row.len() || key.stamp() == 0 {
            return Err(CallError::Unknown);
        }
        let word = self.row.get(index);
        if word.stamp < key.stamp() {
            return Err(CallError::Unknown);
        }
        if key.stamp() < word.stamp {
            return Err(CallError::Stale { seen: word.stamp });
        }
        Ok(word)
    }

    // The deadline of the word that a key names, where it is live at the key's stamp. LLVM calls it where two callers
    // share it, and the call costs an extend a fifth of its instructions.
    #[inline(always)]
    fn live_by(&self, key: &Key) -> Option<u64> {
        let index = key.entry().index() as usize;
        let stamp = key.stamp();
        if index >= self.row.len() || stamp == 0 || stamp > LAST_STAMP {
            return None;
        }
        self.row.live_at(index, stamp)
    }

    // Why a call by a key is refused.
    fn refusal(&self, key: &Key) -> CallError {
        // requires ¬ IsCallable self.now.known key.now
        match self.named(key) {
            Err(refused) => refused,
            Ok(word) => CallError::Ended {
                how: shown(word.mark, word.field),
            },
        }
    }

    /// Raises the deadline of a live word, and answers the deadline that is then in force.
    #[inline]
    pub fn extend(&mut self, key: &Key, when: u64) -> Result<u64, CallError> {
        if when > LAST_TICK {
            return Err(CallError::TooFar { limit: LAST_TICK });
        }
        let Some(deadline) = self.live_by(key) else {
            return Err(self.refusal(key));
        };
        let later = when.max(deadline);
        self.row.set(
            key.entry().index() as usize,
            Parts {
                stamp: key.stamp(),
                mark: Mark::LiveMark,
                field: later,
            },
        );
        Ok(later)
    }

    /// Cancels a live word, and answers the deadline that is given up.
    #[inline]
    pub fn cancel(&mut self, key: &Key) -> Result<u64, CallError> {
        let Some(deadline) = self.live_by(key) else {
            return Err(self.refusal(key));
        };
        self.row.set(
            key.entry().index() as usize,
            Parts {
                stamp: key.stamp(),
                mark: Mark::CancelledMark,
                field: 0,
            },
        );
        Ok(deadline)
    }

    /// What the word that a key names shows.
    pub fn look_key(&self, key: &Key) -> Result<Look, CallError> {
        let word = self.named(key)?;
        Ok(shown(word.mark, word.field))
    }
}

impl Steps for VecWords {
    const FENCED: bool = false;

    fn rows(&self) -> usize {
        self.row.len()
    }

    // No step of a plain word is a fence, so the processor itself goes on to the next read.
    #[inline(always)]
    fn once_read(&self, _index: usize, number: u64) -> u64 {
        number
    }

    #[inline]
    fn begin(&mut self, index: usize, stamp: u32, when: u64) {
        self.row.set(
            index,
            Parts {
                stamp,
                mark: Mark::LiveMark,
                field: when,
            },
        );
        self.begins += 1;
    }

    #[inline]
    fn look(&mut self, index: usize) -> Parts {
        self.row.get(index)
    }

    #[inline]
    fn settle(&mut self, index: usize, stamp: u32, at: u64) -> Settled {
        let word = self.row.get(index);
        match word.mark {
            Mark::LiveMark if word.field == at => {
                self.row.set(
                    index,
                    Parts {
                        stamp,
                        mark: Mark::ExpiredMark,
                        field: at,
                    },
                );
                self.expiries += 1;
                Settled::SettledExpired
            }
            Mark::LiveMark => Settled::Later(word.field),
            _ => Settled::SettledCancelled,
        }
    }

    #[inline]
    fn renew(&mut self, index: usize, stamp: u32, when: u64) -> Option<u64> {
        let word = self.row.get(index);
        match word.mark {
            Mark::LiveMark => {
                self.row.set(
                    index,
                    Parts {
                        stamp: stamp + 1,
                        mark: Mark::LiveMark,
                        field: when,
                    },
                );
                Some(word.field)
            }
            _ => None,
        }
    }

    #[inline]
    fn finish(&mut self, index: usize, stamp: u32) -> Option<u64> {
        let word = self.row.get(index);
        match word.mark {
            Mark::LiveMark => {
                self.row.set(
                    index,
                    Parts {
                        stamp,
                        mark: Mark::RemovedMark,
                        field: word.field,
                    },
                );
                self.removals += 1;
                Some(word.field)
            }
            _ => None,
        }
    }

    #[inline]
    fn finish_by(&mut self, index: usize, stamp: u32, tick: u64) -> Look {
        let word = self.row.get(index);
        match word.mark {
            Mark::LiveMark if word.field <= tick => {
                self.row.set(
                    index,
                    Parts {
                        stamp,
                        mark: Mark::RemovedMark,
                        field: word.field,
                    },
                );
                self.removals += 1;
                Look::LookRemoved(word.field)
            }
            Mark::LiveMark => Look::StillLive(word.field),
            _ => Look::LookCancelled,
        }
    }
}
