//! The fixed row of slots, and which of them are free.
//!
//! A slot has a stamp, at first 0, which rises by one with each value that is put there and with each reset of what
//! is held there. A slot that holds nothing at the last stamp is worn: it is never used again. All the memory is
//! taken by `new`. Every other call is of constant time but `forget`, which goes over every slot.
//!
//! A value that is freed stays in its slot, which holds nothing from then on, until somebody takes it out. Until then
//! the slot isn't among the free ones: a fill takes it only where no slot is free, and hands the value over. No call
//! drops a value: no impl here says that one may be dropped.

use crate::core::free_slots::{DeferredDrops, FreeSlots};
use crate::core::words::Words;
use crate::index::{nth, nth_mut};
use crate::memory::{room_for, AllocError};
use crate::ticks::LAST_STAMP;
use crate::wheels::Beside;
use alloc::vec::Vec;
use core::mem;

/// What is held at a slot.
pub struct Held<T> {
    /// The stamp under which the value was put there.
    pub born: u32,
    /// The value.
    pub value: T,
}

// A slot as it lies in memory: one row, so that an insert and a removal touch one line.
pub(crate) struct Cell<T> {
    pub(crate) stamp: u32,
    // The birth stamp of what it holds, and 0 where it holds nothing.
    pub(crate) born: u32,
    // What it holds, or a value that was freed and is deferred here.
    pub(crate) value: Option<T>,
}

impl<T> Cell<T> {
    fn unused() -> Self {
        Cell {
            stamp: 0,
            born: 0,
            value: None,
        }
    }

    // One that holds nothing, at a stamp.
    fn at(stamp: u32) -> Self {
        Cell {
            stamp,
            born: 0,
            value: None,
        }
    }

    #[inline]
    fn stamp(&self) -> u32 {
        self.stamp
    }

    // The number, once the stamp was read. None is above the last one, so what is added is 0, which the compiler can't
    // know: it keeps the read.
    #[inline(always)]
    fn once_read(&self, number: u64) -> u64 {
        // requires self.now.row.stamp ≤ LAST_STAMP
        number + (self.stamp / (LAST_STAMP + 1)) as u64
    }

    #[inline]
    fn is_held(&self) -> bool {
        self.born > 0
    }

    #[inline]
    fn born(&self) -> Option<u32> {
        if self.born > 0 {
            Some(self.born)
        } else {
            None
        }
    }

    #[inline]
    fn held(&self) -> Option<(u32, &T)> {
        if self.born == 0 {
            return None;
        }
        match &self.value {
            Some(value) => Some((self.born, value)),
            None => None,
        }
    }

    // Puts a value in, and returns the one that was deferred here.
    #[inline]
    fn fill(&mut self, value: T) -> Option<T> {
        // requires self.old.row.stamp + 1 < 2 ^ 32
        self.stamp += 1;
        self.born = self.stamp;
        self.value.replace(value)
    }

    #[inline]
    fn vacate(&mut self) -> Held<T> {
        // requires is_held self.old.row ≡ true
        let value = self.value.take().unwrap();
        let born = self.born;
        self.born = 0;
        Held { born, value }
    }

    // Frees the value that it holds, and defers its drop.
    fn defer(&mut self) {
        self.born = 0;
    }

    // Takes out what was deferred here, if anything was.
    fn take_deferred(&mut self) -> Option<T> {
        if self.born != 0 {
            return None;
        }
        self.value.take()
    }

    // What a closure makes of the value that it holds.
    #[inline]
    fn with_value<R, F: FnOnce(&mut T) -> R>(&mut self, call: F) -> R {
        // requires is_held self.old.row ≡ true
        // requires F.IsAlwaysCallable call
        match &mut self.value {
            Some(value) => call(value),
            None => unreachable!(),
        }
    }

    // As if it had never been used; but what was deferred stays.
    fn forget(&mut self) {
        self.stamp = 0;
        self.born = 0;
    }

    #[inline]
    fn raise(&mut self) {
        // requires self.old.row.stamp + 1 < 2 ^ 32
        self.stamp += 1;
    }
}

/// The fixed row of slots.
pub struct Slots<T> {
    last: u32,
    pub(crate) held_count: usize,
    /// How many slots a fill may take: the free ones, and those of `deferred`.
    pub(crate) free_count: usize,
    pub(crate) cells: Vec<Cell<T>>,
    pub(crate) free: FreeSlots,
    /// The slots whose value waits for its drop, and which have a stamp left.
    pub(crate) deferred: DeferredDrops,
    /// The worn slots whose value waits for its drop.
    pub(crate) deferred_worn: DeferredDrops,
    /// Whether a freed value waits for its drop: not one whose drop does nothing.
    drops: bool,
}

impl<T> Slots<T> {
    /// A row of slots that were never used.
    pub fn new(capacity: usize, last: u32) -> Result<Slots<T>, AllocError> {
        // requires capacity ≤ CAPACITY_LIMIT
        // requires 0 < last
        // requires last ≤ LAST_STAMP
        let deferred = DeferredDrops::new(capacity)?;
        let deferred_worn = DeferredDrops::new(capacity)?;
        let mut free = FreeSlots::new(capacity)?;
        // No cell is made before all memory is there: one might hold a value, for all that its type says.
        let mut cells = room_for(capacity)?;
        for index in 0..capacity {
            cells.push(Cell::unused());
            free.set(index);
        }
        Ok(Slots {
            last,
            held_count: 0,
            free_count: capacity,
            cells,
            free,
            deferred,
            deferred_worn,
            drops: mem::needs_drop::<T>(),
        })
    }
}

impl<T> Slots<T> {
    /// A row of slots that hold nothing, each at its word's stamp.
    pub fn over<W: Words>(last: u32, words: &mut W) -> Result<Slots<T>, AllocError> {
        // requires length (W.known words.old) ≤ CAPACITY_LIMIT
        // requires 0 < last
        // requires last ≤ LAST_STAMP
        // requires AreOver last (W.known words.old)
        let capacity = words.rows();
        let deferred = DeferredDrops::new(capacity)?;
        let deferred_worn = DeferredDrops::new(capacity)?;
        let mut free = FreeSlots::new(capacity)?;
        // No cell is made and no word is looked at before all memory is there.
        let mut cells = room_for(capacity)?;
        let mut free_count = 0;
        for index in 0..capacity {
            let stamp = words.look(index).stamp;
            cells.push(Cell::at(stamp));
            if stamp < last {
                free.set(index);
                free_count += 1;
            }
        }
        Ok(Slots {
            last,
            held_count: 0,
            free_count,
            cells,
            free,
            deferred,
            deferred_worn,
            drops: mem::needs_drop::<T>(),
        })
    }
}

// Notes that the value of a worn slot was freed there, and waits for its drop where values do.
#[inline(always)]
fn mark(deferred: &mut DeferredDrops, drops: bool, index: usize) {
    // requires index < defers_room deferred.old
    if drops {
        deferred.add(index);
    }
}

// Gives a slot, whose value was freed, to the next fills: as a free one, or where the value waits for its drop as one
// that is taken where none is free.
#[inline(always)]
fn defer_slot(free: &mut FreeSlots, deferred: &mut DeferredDrops, drops: bool, index: usize) {
    // requires index < room_of free.old
    // requires free_times free.old index ≡ 0
    // requires index < defers_room deferred.old
    // requires deferred_at deferred.old index ≡ 0
    if drops {
        deferred.add(index);
    } else {
        free.give(index);
    }
}

// Gives a slot that isn't worn any more to the next fills, in its order. Where its value waits for its drop it is taken
// where no slot is free.
fn renew_slot(free: &mut FreeSlots, deferred: &mut DeferredDrops, waits: bool, index: usize) {
    // requires index < room_of free.old
    // requires free_times free.old index ≡ 0
    // requires index < defers_room deferred.old
    // requires deferred_at deferred.old index ≡ 0
    if waits {
        deferred.add(index);
    } else {
        free.set(index);
    }
}

// Takes out a value that waits for its drop, with the slot that it waited in; none comes exactly where none waits.
fn take_waiting<T>(cells: &mut [Cell<T>], waiting: &mut DeferredDrops) -> Option<(usize, T)> {
    // requires AreThere cells.old.items waiting.old
    let index = waiting.take()?;
    let cell = nth_mut(cells, index);
    let value = cell.take_deferred().unwrap();
    Some((index, value))
}

// Takes out a value that waits for its drop, in a worn slot only where none waits in another, which is free then. None
// comes exactly where none waits.
fn take_any<T>(
    cells: &mut [Cell<T>],
    free: &mut FreeSlots,
    deferred: &mut DeferredDrops,
    deferred_worn: &mut DeferredDrops,
) -> Option<T> {
    // requires AreThere cells.old.items deferred.old
    // requires AreThere cells.old.items deferred_worn.old
    // requires AreTaken free.old deferred.old
    if deferred.count() == 0 {
        let (_, value) = take_waiting(cells, deferred_worn)?;
        return Some(value);
    }
    let (index, value) = take_waiting(cells, deferred)?;
    free.give(index);
    Some(value)
}

// A poll reads a slot whose index is due. So its wheel reads these rows ahead.
impl<T> Beside for Slots<T> {
    #[inline(always)]
    fn once_read(&self, index: usize, number: u64) -> u64 {
        if index >= self.cells.len() {
            return number;
        }
        let cell = nth(&self.cells, index);
        cell.once_read(number)
    }
}

impl<T> Slots<T> {
    /// How many slots there are.
    #[inline]
    pub fn capacity(&self) -> usize {
        self.cells.len()
    }

    /// How many slots hold a value.
    #[inline]
    pub fn linked(&self) -> usize {
        self.held_count
    }

    /// How many slots are worn: they hold nothing and have no stamp left.
    #[inline]
    pub fn worn(&self) -> usize {
        self.cells.len() - self.held_count - self.free_count
    }

    /// The last stamp.
    #[inline]
    pub fn last(&self) -> u32 {
        self.last
    }

    /// The present stamp of a slot.
    #[inline]
    pub fn stamp(&self, index: usize) -> u32 {
        // requires index < length self.now.rows
        let cell = nth(&self.cells, index);
        cell.stamp()
    }

    /// Whether a slot holds a value.
    #[inline]
    pub fn is_held(&self, index: usize) -> bool {
        // requires index < length self.now.rows
        let cell = nth(&self.cells, index);
        cell.is_held()
    }

    /// The birth stamp of what a slot holds.
    #[inline]
    pub fn born(&self, index: usize) -> Option<u32> {
        // requires index < length self.now.rows
        let cell = nth(&self.cells, index);
        cell.born()
    }

    /// What a slot holds: its birth stamp, and a reference to the value.
    #[inline]
    pub fn held(&self, index: usize) -> Option<(u32, &T)> {
        // requires index < length self.now.rows
        let cell = nth(&self.cells, index);
        cell.held()
    }

    /// The slot that the next fill takes, where one is free in which no value waits.
    #[inline]
    pub fn next(&self) -> Option<usize> {
        self.free.next()
    }

    /// Puts a value into a free slot, under that slot's next stamp, and returns its index. Where a value waits in each
    /// of the free slots it returns the one that waited there too. It hands the value back where no slot is free.
    #[inline(always)]
    pub fn fill(&mut self, value: T) -> Result<(usize, Option<T>), T> {
        let Some(index) = self.free.take(&mut self.deferred) else {
            return Err(value);
        };
        let cell = nth_mut(&mut self.cells, index);
        let displaced = cell.fill(value);
        self.held_count += 1;
        self.free_count -= 1;
        Ok((index, displaced))
    }

    /// Takes out what a slot holds.
    #[inline(always)]
    pub fn vacate(&mut self, index: usize) -> Held<T> {
        // requires is_held (row_at self.old.rows index) ≡ true
        let cell = nth_mut(&mut self.cells, index);
        let held = cell.vacate();
        if cell.stamp() < self.last {
            self.free.give(index);
            self.free_count += 1;
        }
        self.held_count -= 1;
        held
    }

    /// Frees what a slot holds. The value is deferred: it stays in the slot, and waits for its drop where it has one.
    #[inline]
    pub fn defer(&mut self, index: usize) {
        // requires is_held (row_at self.old.rows index) ≡ true
        let cell = nth_mut(&mut self.cells, index);
        cell.defer();
        if cell.stamp() < self.last {
            defer_slot(&mut self.free, &mut self.deferred, self.drops, index);
            self.free_count += 1;
        } else {
            mark(&mut self.deferred_worn, self.drops, index);
        }
        self.held_count -= 1;
    }

    /// How many values wait for their drop.
    #[inline(always)]
    pub fn deferred(&self) -> usize {
        self.deferred.count() + self.deferred_worn.count()
    }

    /// Takes out a value that waits for its drop; none comes exactly where none does.
    pub fn take_deferred(&mut self) -> Option<T> {
        take_any(
            &mut self.cells,
            &mut self.free,
            &mut self.deferred,
            &mut self.deferred_worn,
        )
    }

    // Takes out a value that waits for its drop where one waits in each slot that a fill may take.
    #[inline(never)]
    fn take_from_next(&mut self) -> Option<T> {
        let waiting = self.deferred.count();
        if waiting == 0 || waiting < self.free_count {
            return None;
        }
        take_any(
            &mut self.cells,
            &mut self.free,
            &mut self.deferred,
            &mut self.deferred_worn,
        )
    }

    /// Takes out the value that is deferred where the next fill puts its own; none comes exactly where a slot is free
    /// in which none is, or where a fill is refused.
    #[inline(always)]
    pub fn take_displaced(&mut self) -> Option<T> {
        if self.deferred() == 0 {
            return None;
        }
        self.take_from_next()
    }

    /// What a closure makes of the value that a slot holds, and may change there.
    #[inline]
    pub fn with_value<R, F: FnOnce(&mut T) -> R>(&mut self, index: usize, call: F) -> R {
        // requires is_held (row_at self.old.rows index) ≡ true
        // requires F.IsAlwaysCallable call
        let cell = nth_mut(&mut self.cells, index);
        cell.with_value(call)
    }

    /// Gives what a slot holds its next stamp.
    #[inline]
    pub fn raise(&mut self, index: usize) {
        // requires is_held (row_at self.old.rows index) ≡ true
        // requires (row_at self.old.rows index).stamp < self.old.last_stamp
        let cell = nth_mut(&mut self.cells, index);
        cell.raise();
    }

    // Makes a slot that holds nothing as if it had never been used.
    fn forget_at(&mut self, index: usize) {
        // requires index < length self.old.rows
        // requires is_held (row_at self.old.rows index) ≡ false
        let cell = nth_mut(&mut self.cells, index);
        let was_worn = cell.stamp() >= self.last;
        cell.forget();
        if was_worn {
            let waits = self.deferred_worn.remove(index);
            renew_slot(&mut self.free, &mut self.deferred, waits, index);
            self.free_count += 1;
        }
    }

    /// Makes each slot of a row that holds nothing as if it had never been used. It goes over every slot.
    pub fn forget(&mut self) {
        // requires count_by is_held self.old.rows ≡ 0
        for index in 0..self.cells.len() {
            self.forget_at(index);
        }
    }
}
