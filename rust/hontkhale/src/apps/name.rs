//! The names of sessions.

use crate::memory::{copy_of, AllocError};
use alloc::string::String;
use core::fmt;

/// The name of a session: the text by which it was logged in.
pub struct Name {
    text: String,
}

impl Name {
    // A name of this text, of which it takes a copy.
    pub(crate) fn of(text: &str) -> Result<Name, AllocError> {
        Ok(Name { text: copy_of(text)? })
    }

    /// Its text.
    pub fn text(&self) -> &str {
        self.text.as_str()
    }
}

impl fmt::Display for Name {
    fn fmt(&self, f: &mut fmt::Formatter<'_>) -> fmt::Result {
        let text = self.text();
        write!(f, "{text}")
    }
}
