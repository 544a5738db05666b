//! The one place where a row is indexed.

/// What stands at an index of a row.
#[cfg(not(feature = "proved-bounds"))]
#[inline(always)]
pub(crate) fn nth<T>(row: &[T], index: usize) -> &T {
    #[cfg(all(test, feature = "std"))]
    looked::one_more();
    &row[index]
}

/// What stands at an index of a row, to be changed.
#[cfg(not(feature = "proved-bounds"))]
#[inline(always)]
pub(crate) fn nth_mut<T>(row: &mut [T], index: usize) -> &mut T {
    #[cfg(all(test, feature = "std"))]
    looked::one_more();
    &mut row[index]
}

/// What stands at an index of a row.
#[cfg(feature = "proved-bounds")]
#[allow(unsafe_code)]
#[inline(always)]
pub(crate) fn nth<T>(row: &[T], index: usize) -> &T {
    #[cfg(all(test, feature = "std"))]
    looked::one_more();
    debug_assert!(index < row.len());
    // SAFETY: each index is within its row: the prover showed it of each call from what that function requires, and no
    // function that requires anything is reached from outside of the crate without a check.
    unsafe { row.get_unchecked(index) }
}

/// What stands at an index of a row, to be changed.
#[cfg(feature = "proved-bounds")]
#[allow(unsafe_code)]
#[inline(always)]
pub(crate) fn nth_mut<T>(row: &mut [T], index: usize) -> &mut T {
    #[cfg(all(test, feature = "std"))]
    looked::one_more();
    debug_assert!(index < row.len());
    // SAFETY: as for `nth`.
    unsafe { row.get_unchecked_mut(index) }
}

/// How many indexes this thread has looked at.
#[cfg(all(test, feature = "std"))]
pub(crate) mod looked {
    use std::cell::Cell;

    thread_local! {
        static LOOKED: Cell<usize> = const { Cell::new(0) };
    }

    pub(super) fn one_more() {
        LOOKED.with(|looked| looked.set(looked.get() + 1));
    }

    /// How many a call looks at.
    pub(crate) fn by(call: impl FnOnce()) -> usize {
        let before = LOOKED.with(Cell::get);
        call();
        LOOKED.with(Cell::get) - before
    }
}
