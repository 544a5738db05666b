//! Memory that may be refused: std's collections by calls that answer so.

use alloc::collections::TryReserveError;
use alloc::vec::Vec;
use core::fmt;

/// Memory was refused.
#[derive(Clone, Copy, Debug, PartialEq, Eq)]
pub struct AllocError;

impl fmt::Display for AllocError {
    fn fmt(&self, f: &mut fmt::Formatter<'_>) -> fmt::Result {
        f.write_str("out of memory")
    }
}

#[cfg(feature = "std")]
impl std::error::Error for AllocError {}

impl From<TryReserveError> for AllocError {
    fn from(_: TryReserveError) -> AllocError {
        AllocError
    }
}

/// An empty vector with room for exactly so many.
pub(crate) fn room_for<T>(count: usize) -> Result<Vec<T>, AllocError> {
    let mut items = Vec::new();
    items.try_reserve_exact(count)?;
    Ok(items)
}

/// A vector of so many copies.
pub(crate) fn filled<T: Clone>(item: T, count: usize) -> Result<Vec<T>, AllocError> {
    let mut items = room_for(count)?;
    items.resize(count, item);
    Ok(items)
}

/// Growth that may be refused.
pub(crate) trait TryPush<P> {
    /// Puts a piece at the end.
    fn try_push(&mut self, piece: P) -> Result<(), AllocError>;
}

impl<T> TryPush<T> for Vec<T> {
    fn try_push(&mut self, item: T) -> Result<(), AllocError> {
        self.try_reserve(1)?;
        self.push(item);
        Ok(())
    }
}

#[cfg(all(feature = "std", feature = "all-parts"))]
pub(crate) use texts::*;

#[cfg(all(feature = "std", feature = "all-parts"))]
mod texts {
    use super::AllocError;
    use std::fmt;

    /// A text's growth that may be refused.
    pub(crate) trait TryPushStr {
        /// Puts a text at the end.
        fn try_push_str(&mut self, text: &str) -> Result<(), AllocError>;
    }

    impl TryPushStr for String {
        fn try_push_str(&mut self, text: &str) -> Result<(), AllocError> {
            self.try_reserve(text.len())?;
            self.push_str(text);
            Ok(())
        }
    }

    /// A copy of a text.
    pub(crate) fn copy_of(text: &str) -> Result<String, AllocError> {
        let mut copy = String::new();
        copy.try_push_str(text)?;
        Ok(copy)
    }

    struct Text(String);

    impl fmt::Write for Text {
        fn write_str(&mut self, piece: &str) -> fmt::Result {
            self.0.try_push_str(piece).map_err(|_| fmt::Error)
        }
    }

    /// The text that a format gives. What is formatted here fails for want of memory alone.
    pub(crate) fn text_of(what: fmt::Arguments<'_>) -> Result<String, AllocError> {
        let mut text = Text(String::new());
        fmt::write(&mut text, what).map_err(|_| AllocError)?;
        Ok(text.0)
    }
}
