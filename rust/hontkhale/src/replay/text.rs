//! A short text that lies in its value.

use core::str;

/// A text of at most `N` bytes.
#[derive(Clone, Copy, Debug)]
pub(crate) struct ArrayString<const N: usize> {
    bytes: [u8; N],
    len: usize,
}

impl<const N: usize> ArrayString<N> {
    /// The text; none where it is longer.
    pub(crate) fn from(text: &str) -> Option<ArrayString<N>> {
        let mut bytes = [0; N];
        bytes.get_mut(..text.len())?.copy_from_slice(text.as_bytes());
        Some(ArrayString { bytes, len: text.len() })
    }

    pub(crate) fn as_str(&self) -> &str {
        str::from_utf8(&self.bytes[..self.len]).expect("the bytes are those of a text")
    }
}
