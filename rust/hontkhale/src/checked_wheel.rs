//! The wheel for who files indexes of their own: each call checks what the proofs require of the queue's own calls.

use crate::ticks::{LAST_TICK, LEVELS, REACH};
use crate::wheels::{Place, WheelError};

/// A hierarchical timing wheel over the indexes below its capacity. Its ticks are milliseconds.
///
/// A queue has one inside. Who keeps values by indexes of their own may use a wheel alone:
///
/// ```
/// use hontkhale::parts::wheel::Wheel;
///
/// let mut wheel = Wheel::new(16)?;
/// wheel.link(3, 250);
/// while wheel.tick() < 300 {
///     while let Some(index) = wheel.pop_due() {
///         assert_eq!((index, wheel.tick()), (3, 250));
///     }
///     wheel.advance(300);
/// }
/// # Ok::<(), hontkhale::parts::wheel::WheelError>(())
/// ```
pub struct Wheel(crate::wheels::Wheel);

impl Wheel {
    /// A wheel at tick 0 with nothing linked, over so many indexes. No other call takes memory.
    ///
    /// # Errors
    /// BadConfig where the capacity isn't 1 to [`CAPACITY_LIMIT`](crate::parts::owner::CAPACITY_LIMIT), and else NoMemory.
    pub fn new(capacity: usize) -> Result<Wheel, WheelError> {
        crate::wheels::Wheel::new(capacity).map(Wheel)
    }

    /// The number of indexes.
    pub fn capacity(&self) -> usize {
        self.0.capacity()
    }

    /// The tick.
    pub fn tick(&self) -> u64 {
        self.0.tick()
    }

    /// The tick at which an index is filed, if it is linked.
    ///
    /// # Panics
    /// Where there is no such index.
    pub fn filed(&self, index: usize) -> Option<u64> {
        self.check(index);
        self.0.filed(index)
    }

    /// The place of an index.
    ///
    /// # Panics
    /// Where there is no such index.
    pub fn place(&self, index: usize) -> Place {
        self.check(index);
        self.0.place(index)
    }

    /// How often an index went from a level to a lower one since it was linked.
    ///
    /// # Panics
    /// Where there is no such index.
    pub fn moves(&self, index: usize) -> u8 {
        self.check(index);
        self.0.moves(index)
    }

    /// The occupancy map of a level, from 0 to 5: bit k is 1 exactly where its slot k isn't empty.
    ///
    /// # Panics
    /// Where there is no such level.
    pub fn occupancy(&self, level: usize) -> u64 {
        assert!(level < LEVELS, "there is no such level");
        self.0.occupancy(level)
    }

    /// The moves of all indexes since the wheel was made, or the greatest `u64`.
    pub fn moved(&self) -> u64 {
        self.0.moved()
    }

    /// The next wake: the tick at which the wheel has something to do, none where nothing is linked.
    pub fn next_wake(&self) -> Option<u64> {
        self.0.next_wake()
    }

    /// A linked index that is filed least.
    pub fn least(&self) -> Option<usize> {
        self.0.least()
    }

    /// Files a loose index at a tick from the wheel's own on, at most [`REACH`] ticks ahead. Constant time.
    ///
    /// # Panics
    /// Where there is no such index, where it is linked, and where the tick is out of that range or beyond
    /// [`LAST_TICK`].
    pub fn link(&mut self, index: usize, filed: u64) {
        let tick = self.tick();
        assert!(self.filed(index).is_none(), "the index is linked");
        let reached = tick..=LAST_TICK.min(tick + REACH);
        assert!(reached.contains(&filed), "the tick is out of the wheel's reach");
        self.0.link(index, filed);
    }

    /// Takes a linked index out, wherever it stands. Constant time.
    ///
    /// # Panics
    /// Where there is no such index, and where it isn't linked.
    pub fn unlink(&mut self, index: usize) {
        assert!(self.filed(index).is_some(), "the index isn't linked");
        self.0.unlink(index);
    }

    /// Takes one index off the due list, or tells that nothing is filed at the tick.
    pub fn pop_due(&mut self) -> Option<usize> {
        self.0.pop_due()
    }

    /// Goes on to the next wake, but not past the limit, once nothing is due. True where the wake was reached: its list
    /// is opened, and each of its indexes goes down to a lower level or is due.
    ///
    /// # Panics
    /// Where an index is due, and where the limit lies before the tick or beyond [`LAST_TICK`].
    pub fn advance(&mut self, limit: u64) -> bool {
        self.check_way(limit);
        self.0.advance(limit)
    }

    /// Goes on as [`Wheel::advance`] does, in constant time: where the wake was reached each index of its slot counts
    /// from now on as filed at that tick.
    ///
    /// # Panics
    /// As [`Wheel::advance`].
    pub fn arrive(&mut self, limit: u64) -> bool {
        self.check_way(limit);
        self.0.arrive(limit)
    }

    fn check(&self, index: usize) {
        assert!(index < self.capacity(), "there is no such index");
    }

    fn check_way(&self, limit: u64) {
        let ahead = self.tick()..=LAST_TICK;
        assert!(ahead.contains(&limit), "the limit is out of the wheel's range");
        let first = self.least().and_then(|index| self.filed(index));
        assert!(first != Some(self.tick()), "an index is due");
    }
}
