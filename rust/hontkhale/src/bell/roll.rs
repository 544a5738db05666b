//! Who is in line, by index: O(1) to join, to leave and to hand the lead over.
//!
//! Each index stands at one place, and those at the first places are in line (the sparse set of Briggs and Torczon,
//! 1993). Who leaves changes places with the last in line. So no call searches, none but a join takes memory, and the
//! first stays first until it leaves.

use crate::index::{nth, nth_mut};
use crate::memory::{AllocError, TryPush};
use alloc::vec::Vec;

/// Indexes, some of which are in line.
pub(crate) struct Roll {
    /// The index that stands at each place.
    indexes: Vec<usize>,
    /// The place of each index.
    places: Vec<usize>,
    /// How many are in line.
    count: usize,
}

// Two places exchange their indexes.
fn exchange(indexes: &mut [usize], places: &mut [usize], one: usize, other: usize) {
    // requires IsRoll indexes.old places.old 0
    // requires one < length indexes.old
    // requires other < length indexes.old
    let index_of_one = *nth(indexes, one);
    let index_of_other = *nth(indexes, other);
    *nth_mut(indexes, one) = index_of_other;
    *nth_mut(indexes, other) = index_of_one;
    *nth_mut(places, index_of_one) = other;
    *nth_mut(places, index_of_other) = one;
}

impl Roll {
    /// Nobody is in line.
    pub fn new(indexes: Vec<usize>, places: Vec<usize>) -> Roll {
        // requires (length indexes.items ≡ 0) × (length places.items ≡ 0)
        Roll {
            indexes,
            places,
            count: 0,
        }
    }

    /// How many indexes there are.
    pub fn len(&self) -> usize {
        self.places.len()
    }

    /// Whether an index is in line.
    pub fn is_in_line(&self, index: usize) -> bool {
        index < self.places.len() && *nth(&self.places, index) < self.count
    }

    /// The first in line.
    pub fn first(&self) -> Option<usize> {
        if self.count == 0 {
            return None;
        }
        Some(self.indexes[0])
    }

    /// Whether an index is the first in line.
    pub fn is_first(&self, index: usize) -> bool {
        self.count != 0 && self.indexes[0] == index
    }

    /// Whether there is an index that isn't in line.
    pub fn has_free(&self) -> bool {
        self.count < self.places.len()
    }

    /// One index more, which isn't in line.
    pub fn grow(&mut self) -> Result<(), AllocError> {
        let index = self.places.len();
        self.indexes.try_push(index)?;
        if self.places.try_push(index).is_err() {
            self.indexes.pop();
            return Err(AllocError);
        }
        Ok(())
    }

    /// A free index joins the line.
    pub fn join(&mut self) -> usize {
        // requires self.old.count < length self.old.places
        let index = *nth(&self.indexes, self.count);
        self.count += 1;
        index
    }

    /// An index leaves the line. Where it is the first, the last in line is the first from then on.
    pub fn leave(&mut self, index: usize) {
        // requires StandsInLine self.old index
        let place = *nth(&self.places, index);
        let last = self.count - 1;
        exchange(&mut self.indexes, &mut self.places, place, last);
        self.count = last;
    }

    // The first and an index behind it exchange their places: that one is the first.
    fn exchange_first(&mut self, index: usize, _first: usize) {
        // requires first_in self.old ≡ Some first
        // requires StandsInLine self.old index
        // requires first ≢ index
        let place = *nth(&self.places, index);
        exchange(&mut self.indexes, &mut self.places, 0, place);
    }

    /// The first leaves the line, and an index that stands behind it is the first from then on.
    pub fn hand_lead(&mut self, index: usize, first: usize) {
        // requires first_in self.old ≡ Some first
        // requires StandsInLine self.old index
        // requires first ≢ index
        self.exchange_first(index, first);
        self.leave(first);
    }
}
