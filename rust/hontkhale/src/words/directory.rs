//! A directory of what is made later. A [`Clerk`] adds a thing, and gets a number for it. Whoever has the [`Directory`]
//! finds the thing by its number, from any thread and without a lock, for as long as the directory lasts: a thing stays
//! where it was put, and no number is given twice.
//!
//! Row k has 2^k places, and stays where it was made: so whoever reads takes no lock. A place is written once, by the
//! clerk.

mod clerk;

use crate::memory::{room_for, AllocError};
pub use clerk::{AddError, Clerk};
use std::sync::{Arc, OnceLock};

/// How many numbers a directory can give: they are 0 to `MOST` - 1.
pub const MOST: u32 = u32::MAX;

const ROWS: usize = 32;

type Row<X> = OnceLock<Vec<OnceLock<X>>>;

/// Things by their numbers. A clone has the same things.
pub struct Directory<X> {
    rows: Arc<Vec<Row<X>>>,
}

impl<X> Clone for Directory<X> {
    fn clone(&self) -> Directory<X> {
        Directory {
            rows: Arc::clone(&self.rows),
        }
    }
}

/// The row and the place of a number. `None` beyond the last number.
#[inline]
fn locate(number: u32) -> Option<(usize, usize)> {
    let above = number.checked_add(1)?;
    let row = above.ilog2();
    Some((row as usize, (above - (1 << row)) as usize))
}

impl<X> Directory<X> {
    pub(crate) fn new() -> Result<Directory<X>, AllocError> {
        let mut rows = room_for(ROWS)?;
        rows.resize_with(ROWS, OnceLock::new);
        Ok(Directory { rows: Arc::new(rows) })
    }

    #[inline]
    fn place(&self, number: u32) -> Option<&OnceLock<X>> {
        let (row, place) = locate(number)?;
        self.rows.get(row)?.get()?.get(place)
    }

    /// Makes the places of the number's row, unless they are there.
    pub(crate) fn make_row(&self, number: u32) -> Result<(), AllocError> {
        let Some((at, _)) = locate(number) else {
            return Err(AllocError);
        };
        let row = &self.rows[at];
        if row.get().is_none() {
            let mut places = room_for(1 << at)?;
            places.resize_with(1 << at, OnceLock::new);
            // Where somebody else has made them, these are dropped.
            let _ = row.set(places);
        }
        Ok(())
    }

    /// Puts a thing where its number stands. It comes back where something stands there, or the row has no places.
    pub(crate) fn put(&self, number: u32, thing: X) -> Result<(), X> {
        match self.place(number) {
            Some(place) => place.set(thing),
            None => Err(thing),
        }
    }

    /// The thing of a number. `None` if nothing was added under that number yet. It takes no lock and no memory.
    #[inline]
    pub fn get(&self, number: u32) -> Option<&X> {
        self.place(number)?.get()
    }
}
