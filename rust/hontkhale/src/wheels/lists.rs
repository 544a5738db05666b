//! The lists of indexes, linked both ways in a fixed row, with what is kept of each index; and the occupancy maps.
//!
//! There is a row for each entry and, behind them, one for the head of each list. Each list is a circle through a head
//! of its own, so an entry always has a neighbour on either side, and no call asks where a list begins or ends. What is
//! kept of an entry lies beside its links, so that a call touches one line for it.
//!
//! Of the lists of six levels one is the due list. A map for each level has a bit for each list, by which the next list
//! is found.

use crate::index::{nth, nth_mut};
use crate::memory::{room_for, AllocError, TryPush};
use crate::ticks::{digit, level_of, slot_start, LEVELS, SLOTS};
use crate::wheels::beside::Beside;
use crate::wheels::LISTS;
use alloc::vec::Vec;

// The rows of so many indexes, and what lies beside them, mostly are in a processor's own cache: to read them ahead
// would cost more than it saves.
const CACHED: usize = 16_384;

/// Stands for the tick of an index that is loose.
pub const NOT_FILED: u64 = u64::MAX;

/// The links of an entry or of a list's head, the list in which it stands, and the tick and the moves of an entry.
#[derive(Clone, Copy)]
pub struct Row {
    pub filed: u64,
    pub next: u32,
    pub prev: u32,
    /// One more than the number of the list, or 0.
    pub home: u16,
    pub moves: u8,
}

/// Which list each index stands in, if any, with a bit for each list that isn't empty.
pub struct Lists {
    /// The entries, and behind them the heads of the lists.
    pub(crate) rows: Vec<Row>,
    capacity: usize,
    /// The list that is open: its circle hangs on the head of list 0, and its entries are seen there.
    pub(crate) opened: Option<usize>,
    /// The tick at which it was opened, where they are seen to be filed.
    since: u64,
    pub(crate) maps: Maps,
}

/// The list of what is filed at the tick: that of its digit at level 0.
pub fn due_list(tick: u64) -> usize {
    // requires tick ≤ LAST_TICK
    digit(tick, 0) as usize
}

/// The list in which an index stands that is filed at `when`: list `64 * level + slot` is that slot.
pub fn list_of(tick: u64, when: u64) -> usize {
    // requires tick ≤ when
    // requires when ≤ LAST_TICK
    let level = level_of(tick, when).unwrap_or(0);
    SLOTS * level + digit(when, level) as usize
}

/// The tick at which the slot of a list starts. Level 0 comes nearly every time, and is the shortest way.
pub fn start_of(tick: u64, list: usize) -> u64 {
    // requires tick ≤ LAST_TICK
    // requires list < LISTS
    if list < SLOTS {
        tick / SLOTS as u64 * SLOTS as u64 + list as u64
    } else {
        slot_start(tick, list / SLOTS, (list % SLOTS) as u64)
    }
}

/// The list to which an index goes from an opened one. What a list of level 1 spans is level 0 and no more; what one
/// of level 2 spans is level 1, and level 0 where the second digit is 0.
pub fn list_from(list: usize, tick: u64, when: u64) -> usize {
    // requires tick ≤ when
    // requires when ≤ LAST_TICK
    // requires list < 128 → level tick when ≡ 0
    // requires 128 ≤ list → list < 192 → level tick when ≡ (if digit_of when 1 == 0 then 0 else 1)
    if list < 2 * SLOTS {
        return digit(when, 0) as usize;
    }
    if list < 3 * SLOTS {
        return match digit(when, 1) as usize {
            0 => digit(when, 0) as usize,
            second => SLOTS + second,
        };
    }
    list_of(tick, when)
}

/// A map for each level, whose bit k is the list of its slot k.
pub type Maps = [u64; LEVELS];

/// Sets the bit of a list.
pub fn set_bit(maps: &mut Maps, list: usize) {
    // requires list < LISTS
    *nth_mut(maps, list / SLOTS) |= 1 << (list % SLOTS);
}

/// Clears the bit of a list.
pub fn clear_bit(maps: &mut Maps, list: usize) {
    // requires list < LISTS
    *nth_mut(maps, list / SLOTS) &= !(1 << (list % SLOTS));
}

// The place of the lowest bit that is 1.
fn lowest_bit(bits: u64) -> Option<usize> {
    if bits == 0 {
        None
    } else {
        Some(bits.trailing_zeros() as usize)
    }
}

// The place of the first bit after the own one that is 1, in a circle.
fn first_after(bits: u64, own: usize) -> Option<usize> {
    // requires own < 64
    match lowest_bit((bits >> own) >> 1) {
        Some(ahead) => Some(own + 1 + ahead),
        None => lowest_bit(bits),
    }
}

/// The list of the lowest level that has a bit, there the first after the own one.
pub fn first_list(maps: &Maps, own: usize) -> Option<usize> {
    // requires own < 64
    for level in 0..LEVELS - 1 {
        if let Some(slot) = lowest_bit(*nth(maps, level)) {
            return Some(SLOTS * level + slot);
        }
    }
    match first_after(*nth(maps, LEVELS - 1), own) {
        Some(slot) => Some(SLOTS * (LEVELS - 1) + slot),
        None => None,
    }
}

// Writes what follows a number.
fn set_next(rows: &mut [Row], at: usize, next: u32) {
    // requires at < length rows.old
    nth_mut(rows, at).next = next;
}

// Writes what a number follows.
fn set_prev(rows: &mut [Row], at: usize, prev: u32) {
    // requires at < length rows.old
    nth_mut(rows, at).prev = prev;
}

/// A number's row.
pub fn row_at(rows: &[Row], at: usize) -> Row {
    // requires at < length rows.now
    *nth(rows, at)
}

/// Writes an entry as the last of a list, filed at a tick, after so many moves.
pub fn append(rows: &mut [Row], head: usize, index: usize, list: usize, filed: u64, moves: u8) {
    // requires list < LISTS
    // requires length rows.old ≤ CAPACITY_LIMIT + LISTS
    // requires head < length rows.old
    // requires index < length rows.old
    // requires slice_index (prevs rows.old) head < length rows.old
    let last = nth(rows, head).prev;
    *nth_mut(rows, index) = Row {
        filed,
        next: head as u32,
        prev: last,
        home: list as u16 + 1,
        moves,
    };
    nth_mut(rows, last as usize).next = index as u32;
    nth_mut(rows, head).prev = index as u32;
}

/// Takes an entry out of its list.
pub fn detach(rows: &mut [Row], index: usize) {
    // requires index < length rows.old
    // requires HasNeighbours rows.old index
    let row = row_at(rows, index);
    nth_mut(rows, row.prev as usize).next = row.next;
    nth_mut(rows, row.next as usize).prev = row.prev;
    let own = nth_mut(rows, index);
    own.home = 0;
    own.filed = NOT_FILED;
    own.moves = 0;
}

/// The number, once the row of a linked entry and those of its neighbours were read. A neighbour's link back is the
/// entry itself, so the difference of the two is 0, which the compiler can't know: it keeps the reads.
#[inline(always)]
pub fn once_near(rows: &[Row], index: usize, number: u32) -> u32 {
    // requires index < length rows.now
    // requires HasNeighbours rows.now index
    let row = row_at(rows, index);
    let before = row_at(rows, row.prev as usize);
    let after = row_at(rows, row.next as usize);
    let zero = before.next - after.prev;
    number + zero
}

/// Takes the entry that follows the head of a list out of it.
pub fn detach_first(rows: &mut [Row], head: usize, first: usize) {
    // requires length rows.old ≤ CAPACITY_LIMIT + LISTS
    // requires head < length rows.old
    // requires first < length rows.old
    // requires slice_index (nexts rows.old) first < length rows.old
    let after = nth(rows, first).next;
    nth_mut(rows, head).next = after;
    nth_mut(rows, after as usize).prev = head as u32;
    let row = nth_mut(rows, first);
    row.home = 0;
    row.filed = NOT_FILED;
    row.moves = 0;
}

/// Hangs the whole circle of a head on another head, which stands alone. The entries themselves keep their rows.
pub fn hang(rows: &mut [Row], from: usize, onto: usize) {
    // requires length rows.old ≤ CAPACITY_LIMIT + LISTS
    // requires from < length rows.old
    // requires onto < length rows.old
    // requires slice_index (nexts rows.old) from < length rows.old
    // requires slice_index (prevs rows.old) from < length rows.old
    let row = row_at(rows, from);
    set_next(rows, row.prev as usize, onto as u32);
    set_prev(rows, row.next as usize, onto as u32);
    set_next(rows, onto, row.next);
    set_prev(rows, onto, row.prev);
    set_next(rows, from, from as u32);
    set_prev(rows, from, from as u32);
}

/// Takes a whole list off its head, and gives the first of its entries, or the head where there is none.
pub fn take_off(rows: &mut [Row], capacity: usize, list: usize) -> usize {
    // requires AreCircles capacity rows.old
    // requires list < LISTS
    let head = capacity + list;
    let first = row_at(rows, head).next as usize;
    set_next(rows, head, head as u32);
    set_prev(rows, head, head as u32);
    first
}

/// Puts the first entry of a list that was taken off at the end of another list, after so many moves, and gives the
/// entry that followed it.
pub fn put_last(rows: &mut [Row], capacity: usize, _list: usize, index: usize, to: usize, moves: u8) -> usize {
    // requires AreTakenFrom capacity list index rows.old
    // requires index < capacity
    // requires list < LISTS
    // requires to < LISTS
    // requires to ≢ list
    let row = row_at(rows, index);
    append(rows, capacity + to, index, to, row.filed, moves);
    row.next as usize
}

/// The rows of entries and heads that stand alone.
pub fn lone_rows(capacity: usize) -> Result<Vec<Row>, AllocError> {
    // requires capacity ≤ CAPACITY_LIMIT
    let count = (capacity + LISTS) as u32;
    let mut rows = room_for(capacity + LISTS)?;
    for at in 0..count {
        let home = (at as usize + 1).saturating_sub(capacity) as u16;
        rows.try_push(Row {
            filed: NOT_FILED,
            next: at,
            prev: at,
            home,
            moves: 0,
        })?;
    }
    Ok(rows)
}

// Whether a home is that of the open list.
fn is_open(opened: Option<usize>, home: u16) -> bool {
    match opened {
        Some(list) => home != 0 && home as usize - 1 == list,
        None => false,
    }
}

// The number that is seen, which says where a number's row is filed.
fn number_at(rows: &[Row], opened: Option<usize>, since: u64, at: usize) -> u64 {
    // requires at < length rows.now
    let row = row_at(rows, at);
    if is_open(opened, row.home) {
        since
    } else {
        row.filed
    }
}

// The one of two indexes that is filed earlier.
fn earlier(rows: &[Row], opened: Option<usize>, since: u64, one: usize, other: usize) -> usize {
    // requires one < length rows.now
    // requires other < length rows.now
    if number_at(rows, opened, since, other) < number_at(rows, opened, since, one) {
        other
    } else {
        one
    }
}

// Places each index of a list again by the new tick, and gives how many of them aren't due yet. Meanwhile the list's
// bit stays, and what waits in it is linked only forward.
fn scatter(rows: &mut [Row], capacity: usize, maps: &mut Maps, list: usize, tick: u64) -> u64 {
    // requires AreCircles capacity rows.old
    // requires list < LISTS
    // requires IsOccupied maps.old (entry_homes capacity rows.old)
    // requires (i : ℕ) → StandsIn (entry_homes capacity rows.old) list i → CanGo tick list (slice_index (entry_filed capacity rows.old) i) (slice_index (entry_moves capacity rows.old) i)
    let mut made = 0;
    let mut index = take_off(rows, capacity, list);
    while index < capacity {
        let row = row_at(rows, index);
        let to = list_from(list, tick, row.filed);
        let moved = if row.filed == tick { 0 } else { 1 };
        let after = put_last(rows, capacity, list, index, to, row.moves + moved);
        set_bit(maps, to);
        made += moved as u64;
        index = after;
    }
    clear_bit(maps, list);
    made
}

// The first index of a list, whichever list is open.
fn first_of(rows: &[Row], capacity: usize, list: usize) -> Option<usize> {
    // requires list < LISTS
    // requires length rows.now ≡ capacity + LISTS
    // requires capacity ≤ CAPACITY_LIMIT
    let first = nth(rows, capacity + list).next as usize;
    if first < capacity {
        Some(first)
    } else {
        None
    }
}

// Clears the bit of a list where its last index has left it.
fn clear_if_empty(rows: &[Row], capacity: usize, maps: &mut Maps, list: usize) {
    // requires list < LISTS
    // requires length rows.now ≡ capacity + LISTS
    // requires capacity ≤ CAPACITY_LIMIT
    // requires bit_of maps.old list ≡ 1
    if nth(rows, capacity + list).next as usize >= capacity {
        *nth_mut(maps, list / SLOTS) &= !(1 << (list % SLOTS));
    }
}

impl Lists {
    /// No index stands in a list.
    pub fn new(capacity: usize) -> Result<Lists, AllocError> {
        // requires capacity ≤ CAPACITY_LIMIT
        let rows = lone_rows(capacity)?;
        Ok(Lists {
            rows,
            capacity,
            opened: None,
            since: 0,
            maps: [0; LEVELS],
        })
    }

    /// The number of indexes.
    #[cfg(feature = "all-parts")]
    pub fn capacity(&self) -> usize {
        self.capacity
    }

    /// The list of an index, and one more, or 0.
    pub fn home(&self, index: usize) -> u16 {
        // requires index < length self.now.homes
        let home = row_at(&self.rows, index).home;
        if is_open(self.opened, home) {
            1
        } else {
            home
        }
    }

    /// The number that says where an index is filed.
    pub fn filed(&self, index: usize) -> u64 {
        // requires index < length self.now.homes
        number_at(&self.rows, self.opened, self.since, index)
    }

    /// How often an index moved.
    #[cfg(feature = "all-parts")]
    pub fn moves(&self, index: usize) -> u8 {
        // requires index < length self.now.homes
        row_at(&self.rows, index).moves
    }

    /// The first index of a list.
    pub fn first(&self, list: usize) -> Option<usize> {
        // requires list < LISTS
        first_of(&self.rows, self.capacity, list)
    }

    /// The first index of a list while a slot is open, or none, which tells nothing.
    #[inline]
    pub fn first_open(&self, list: usize) -> Option<usize> {
        // requires list < LISTS
        let _opened = self.opened?;
        self.first(list)
    }

    /// The index that follows another in its list, or none where that is the last.
    #[inline]
    pub fn after(&self, index: usize) -> Option<usize> {
        // requires index < length self.now.homes
        // requires 0 < slice_index self.now.homes index
        let after = row_at(&self.rows, index).next as usize;
        if after < self.capacity {
            Some(after)
        } else {
            None
        }
    }

    /// An index of a list that is filed least there.
    pub fn least_in(&self, list: usize) -> Option<usize> {
        // requires list < LISTS
        let first = first_of(&self.rows, self.capacity, list)?;
        let mut best = first;
        let mut at = first;
        for _turn in 0..self.capacity {
            if at >= self.capacity {
                break;
            }
            best = earlier(&self.rows, self.opened, self.since, best, at);
            at = row_at(&self.rows, at).next as usize;
        }
        Some(best)
    }

    /// The occupancy map of a level, in which a list shows as empty.
    #[cfg(feature = "all-parts")]
    pub fn map_without(&self, level: usize, list: usize) -> u64 {
        // requires level < LEVELS
        // requires list < LISTS
        let mut maps = self.maps;
        clear_bit(&mut maps, list);
        *crate::index::nth::<u64>(&maps, level)
    }

    /// The filled list of the lowest level that has one, there the first after the own one.
    pub fn first_filled(&self, own: usize) -> Option<usize> {
        // requires own < 64
        first_list(&self.maps, own)
    }

    /// Puts a loose index at the end of a list, filed at a tick.
    pub fn link(&mut self, index: usize, list: usize, filed: u64) {
        // requires IsLoose self.old.homes index
        // requires TakesMore self.old.opened list
        append(&mut self.rows, self.capacity + list, index, list, filed, 0);
        set_bit(&mut self.maps, list);
    }

    /// The number, once the rows were read that an unlink of the index writes.
    #[inline]
    pub fn once_near(&self, index: usize, number: u32) -> u32 {
        // requires index < length self.now.homes
        // requires 0 < slice_index self.now.homes index
        once_near(&self.rows, index, number)
    }

    /// Takes an index out of its list.
    // Out of line it costs a removal and a reset a call.
    #[inline(always)]
    pub fn unlink(&mut self, index: usize) {
        // requires index < length self.old.homes
        // requires 0 < slice_index self.old.homes index
        let list = self.home(index) as usize - 1;
        detach(&mut self.rows, index);
        clear_if_empty(&self.rows, self.capacity, &mut self.maps, list);
    }

    /// Takes the first index out of a list.
    pub fn take_first(&mut self, list: usize) -> Option<usize> {
        // requires list < LISTS
        let first = first_of(&self.rows, self.capacity, list)?;
        detach_first(&mut self.rows, self.capacity + list, first);
        clear_if_empty(&self.rows, self.capacity, &mut self.maps, list);
        Some(first)
    }

    /// The number, once what lies beside the indexes of a list was read, where they are many, and due next: of level 1.
    pub fn once_read<B: Beside>(&self, list: usize, beside: &B, number: u64) -> u64 {
        // requires list < LISTS
        if list >= 2 * SLOTS || self.capacity <= CACHED {
            return number;
        }
        let mut same = number;
        let mut at = row_at(&self.rows, self.capacity + list).next as usize;
        for _turn in 0..self.capacity {
            if at >= self.capacity {
                break;
            }
            same = beside.once_read(at, same);
            at = row_at(&self.rows, at).next as usize;
        }
        same
    }

    /// Opens a list: each of its indexes is placed again by the new tick. Gives how many of them aren't due yet.
    pub fn open(&mut self, list: usize, tick: u64) -> u64 {
        // requires list < LISTS
        // requires IsListEmpty self.old.homes 0
        // requires (i : ℕ) → StandsIn self.old.homes list i → CanGo tick list (slice_index self.old.filed i) (slice_index self.old.moves i)
        self.opened = None;
        scatter(&mut self.rows, self.capacity, &mut self.maps, list, tick)
    }

    /// Opens a list as it is: its circle hangs on the head of list 0, where none stands. From now on its indexes are
    /// seen there, filed at the tick. This writes six links, however many they are.
    pub fn hang(&mut self, list: usize, tick: u64) {
        // requires list < LISTS
        // requires 0 < list
        // requires IsListEmpty self.old.homes 0
        // requires IsListFilled self.old.homes list
        hang(&mut self.rows, self.capacity + list, self.capacity);
        self.opened = Some(list);
        self.since = tick;
        set_bit(&mut self.maps, 0);
        clear_bit(&mut self.maps, list);
    }

    /// Ends the opening, once all of its indexes have left. Nothing is seen to change.
    pub fn close(&mut self) {
        // requires IsListEmpty self.old.homes 0
        self.opened = None;
    }
}
