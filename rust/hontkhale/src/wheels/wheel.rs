//! The wheel: where each index is filed, and the calls that file, move and find them.

use crate::memory::AllocError;
use crate::ticks::{digit, CAPACITY_LIMIT, LEVELS, SLOTS};
use crate::wheels::beside::{Beside, Nothing};
use crate::wheels::lists::{due_list, list_of, start_of, Lists, NOT_FILED};
use core::fmt;

/// Where an index stands.
#[derive(Clone, Copy, Debug, PartialEq, Eq)]
pub enum Place {
    /// It is not linked.
    Loose,
    /// It is filed at the wheel's tick.
    Due,
    /// It waits in a slot of a level.
    InSlot {
        /// The level, from 0 to 5.
        level: usize,
        /// The slot, from 0 to 63.
        slot: usize,
    },
}

/// Why a wheel isn't made.
#[derive(Clone, Copy, Debug, PartialEq, Eq)]
#[non_exhaustive]
pub enum WheelError {
    /// The capacity is 0 or above [`CAPACITY_LIMIT`].
    BadConfig,
    /// An allocation was refused.
    NoMemory,
}

impl fmt::Display for WheelError {
    fn fmt(&self, f: &mut fmt::Formatter<'_>) -> fmt::Result {
        match self {
            WheelError::BadConfig => f.write_str("bad capacity"),
            WheelError::NoMemory => f.write_str("out of memory"),
        }
    }
}

#[cfg(feature = "std")]
impl std::error::Error for WheelError {}

impl From<AllocError> for WheelError {
    fn from(_error: AllocError) -> WheelError {
        WheelError::NoMemory
    }
}

/// A hierarchical timing wheel over the indexes below its capacity. Its ticks are milliseconds.
pub struct Wheel {
    tick: u64,
    moved: u64,
    pub(crate) lists: Lists,
}

// What the number says that is kept for an index.
fn filed_of(number: u64) -> Option<u64> {
    if number == NOT_FILED {
        None
    } else {
        Some(number)
    }
}

// The place that a home stands for.
fn place_of(tick: u64, home: u16) -> Place {
    // requires tick ≤ LAST_TICK
    // requires home ≤ LISTS
    if home == 0 {
        return Place::Loose;
    }
    let list = home as usize - 1;
    if list == due_list(tick) {
        Place::Due
    } else {
        Place::InSlot {
            level: list / SLOTS,
            slot: list % SLOTS,
        }
    }
}

// The first list that holds something, with its start, where that isn't after the limit.
fn next_stop(lists: &Lists, tick: u64, limit: u64) -> Option<(usize, u64)> {
    // requires tick ≤ LAST_TICK
    let own = digit(tick, LEVELS - 1) as usize;
    let list = lists.first_filled(own)?;
    let start = start_of(tick, list);
    if start > limit {
        return None;
    }
    Some((list, start))
}

impl Wheel {
    /// A wheel at tick 0 with nothing linked, over 1 to [`CAPACITY_LIMIT`] indexes. Another capacity is `BadConfig`;
    /// where an allocation is refused it is `NoMemory`. No other call takes memory.
    pub fn new(capacity: usize) -> Result<Wheel, WheelError> {
        if capacity == 0 || capacity > CAPACITY_LIMIT {
            return Err(WheelError::BadConfig);
        }
        let lists = Lists::new(capacity)?;
        Ok(Wheel {
            tick: 0,
            moved: 0,
            lists,
        })
    }

    /// The number of indexes.
    #[cfg(feature = "all-parts")]
    pub fn capacity(&self) -> usize {
        self.lists.capacity()
    }

    /// The tick.
    pub fn tick(&self) -> u64 {
        self.tick
    }

    /// The tick at which an index is filed, if it is linked.
    pub fn filed(&self, index: usize) -> Option<u64> {
        // requires index < length self.now.filing.filed
        filed_of(self.lists.filed(index))
    }

    /// The place of an index.
    pub fn place(&self, index: usize) -> Place {
        // requires index < length self.now.filing.filed
        place_of(self.tick, self.lists.home(index))
    }

    /// The occupancy map of a level: bit k is 1 exactly where its slot k isn't empty.
    #[cfg(feature = "all-parts")]
    pub fn occupancy(&self, level: usize) -> u64 {
        // requires level < LEVELS
        self.lists.map_without(level, due_list(self.tick))
    }

    /// How often an index went from a level to a lower one since it was linked.
    #[cfg(feature = "all-parts")]
    pub fn moves(&self, index: usize) -> u8 {
        // requires index < length self.now.filing.filed
        self.lists.moves(index)
    }

    /// How often any index did so since the wheel was made, or the greatest `u64`.
    pub fn moved(&self) -> u64 {
        self.moved
    }

    /// The tick at which something has to be done next: the wheel's own where an index is due, else the start of the
    /// first slot that isn't empty.
    pub fn next_wake(&self) -> Option<u64> {
        // While an index is due, the first list is the due one, which starts at the tick.
        match self.lists.first_filled(digit(self.tick, LEVELS - 1) as usize) {
            Some(list) => Some(start_of(self.tick, list)),
            None => None,
        }
    }

    /// A linked index that is filed least.
    pub fn least(&self) -> Option<usize> {
        if let Some(index) = self.lists.first(due_list(self.tick)) {
            return Some(index);
        }
        let list = self.lists.first_filled(digit(self.tick, LEVELS - 1) as usize)?;
        self.lists.least_in(list)
    }

    /// An index that is due while a slot is open, as [`Self::arrive`] leaves it: most of its indexes are due only since
    /// they were filed there, and whoever knows more of them may file them later. Else none, which tells nothing: what
    /// is due at any other tick was filed at just that tick.
    #[inline]
    pub fn first_open(&self) -> Option<usize> {
        self.lists.first_open(due_list(self.tick))
    }

    /// The index that follows a due one among those that are due, or none where that is the last.
    #[inline]
    pub fn next_due(&self, index: usize) -> Option<usize> {
        // requires index < length self.now.filing.filed
        // requires filed_at self.now.filing.filed index ≡ Some self.now.filing.tick
        self.lists.after(index)
    }

    /// Goes on with the count of moves of another wheel, whose place this one takes.
    pub fn count_from(&mut self, moved: u64) {
        self.moved = moved;
    }

    /// Files a loose index at a tick from the wheel's own on, at most [`REACH`](crate::parts::wheel::REACH) ticks ahead. It has not moved then.
    pub fn link(&mut self, index: usize, filed: u64) {
        // requires index < length self.old.filing.filed
        // requires filed_at self.old.filing.filed index ≡ None
        // requires self.old.filing.tick ≤ filed
        // requires filed ≤ LAST_TICK
        // requires filed ≤ self.old.filing.tick + REACH
        let list = list_of(self.tick, filed);
        self.lists.link(index, list, filed);
    }

    /// The number itself, once what an unlink of the index will write was read. Where the number goes into an atomic
    /// step, which is a fence, these reads go out before it, together with those of the step: after it each would wait
    /// alone.
    #[inline]
    pub fn once_near(&self, index: usize, number: u32) -> u32 {
        // requires index < length self.now.filing.filed
        // requires filed_at self.now.filing.filed index ≢ None
        self.lists.once_near(index, number)
    }

    /// Takes a linked index out, wherever it stands.
    #[inline]
    pub fn unlink(&mut self, index: usize) {
        // requires index < length self.old.filing.filed
        // requires filed_at self.old.filing.filed index ≢ None
        self.lists.unlink(index);
    }

    /// Takes one index off the due list, or tells that nothing is filed at the tick.
    pub fn pop_due(&mut self) -> Option<usize> {
        self.lists.take_first(due_list(self.tick))
    }

    /// Goes on to the next wake, but not past the limit, once nothing is due. True where the wake was reached: its list
    /// is opened, and each of its indexes goes down to a lower level or is due. A way to a lower level is a move.
    pub fn advance(&mut self, limit: u64) -> bool {
        // requires NoneFiledAt self.old.filing.filed self.old.filing.tick
        // requires self.old.filing.tick ≤ limit
        // requires limit ≤ LAST_TICK
        self.advance_reading(limit, &Nothing)
    }

    /// Goes on as [`Self::advance`] does. Where it opens a list of level 1 in a large wheel it reads what lies beside
    /// its indexes, so that whoever takes them off soon doesn't wait for memory.
    pub fn advance_reading<B: Beside>(&mut self, limit: u64, beside: &B) -> bool {
        // requires NoneFiledAt self.old.filing.filed self.old.filing.tick
        // requires self.old.filing.tick ≤ limit
        // requires limit ≤ LAST_TICK
        let Some((list, start)) = next_stop(&self.lists, self.tick, limit) else {
            self.tick = limit;
            self.lists.close();
            return false;
        };
        self.tick = start;
        // All that stands in a list of level 0 is due at its start, where that list is the due list.
        if list < SLOTS {
            self.lists.close();
            return true;
        }
        let tick = self.lists.once_read(list, beside, start);
        let made = self.lists.open(list, tick);
        self.moved = self.moved.saturating_add(made);
        true
    }

    /// Goes on as [`Self::advance`] does, in constant time. Where the wake was reached each index of its slot counts
    /// from now on as filed at that tick, so it is due, and none is moved.
    pub fn arrive(&mut self, limit: u64) -> bool {
        // requires NoneFiledAt self.old.filing.filed self.old.filing.tick
        // requires self.old.filing.tick ≤ limit
        // requires limit ≤ LAST_TICK
        let Some((list, start)) = next_stop(&self.lists, self.tick, limit) else {
            self.tick = limit;
            self.lists.close();
            return false;
        };
        self.tick = start;
        // All that stands in a list of level 0 is due at its start already, where that list is the due list.
        if list < SLOTS {
            self.lists.close();
        } else {
            self.lists.hang(list, start);
        }
        true
    }
}
