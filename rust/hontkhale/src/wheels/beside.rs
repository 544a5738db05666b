//! What lies beside an index in the rows of others.

/// Rows in which something lies for each index, and is wanted once it is due. It is read ahead while the index's list
/// is opened, where the reads wait for memory together.
pub trait Beside {
    /// The number itself, once what lies beside an index was read. An index beyond the rows has nothing there.
    fn once_read(&self, index: usize, number: u64) -> u64;
}

/// Nothing lies beside an index.
pub struct Nothing;

impl Beside for Nothing {
    fn once_read(&self, _index: usize, number: u64) -> u64 {
        number
    }
}
