//! The name of an entry.

use crate::replay::text::ArrayString;
use core::cmp::Ordering;
use core::hash::{Hash, Hasher};
use core::{fmt, str};

/// The longest name, in bytes.
pub const NAME_LIMIT: usize = 32;

/// 1 to 32 bytes of `a` to `z`, `0` to `9`, `_` and `-`, kept in the value itself.
pub struct Name {
    text: ArrayString<32>,
}

impl Name {
    /// The name that a token is.
    pub fn parse(token: &[u8]) -> Option<Name> {
        if !is_name(token) {
            return None;
        }
        let text = as_text(token);
        Some(Name {
            text: ArrayString::from(text).unwrap(),
        })
    }

    /// The same name once more.
    pub fn twin(&self) -> Name {
        Name { text: self.text }
    }

    pub fn text(&self) -> &str {
        self.text.as_str()
    }
}

impl PartialEq for Name {
    fn eq(&self, other: &Name) -> bool {
        self.text() == other.text()
    }
}

impl Eq for Name {}

impl PartialOrd for Name {
    fn partial_cmp(&self, other: &Name) -> Option<Ordering> {
        Some(self.cmp(other))
    }
}

/// Names are in the order of their bytes.
impl Ord for Name {
    fn cmp(&self, other: &Name) -> Ordering {
        self.text().cmp(other.text())
    }
}

impl Hash for Name {
    fn hash<H: Hasher>(&self, state: &mut H) {
        self.text().hash(state);
    }
}

impl fmt::Display for Name {
    fn fmt(&self, f: &mut fmt::Formatter<'_>) -> fmt::Result {
        let text = self.text();
        write!(f, "{text}")
    }
}

fn is_name(token: &[u8]) -> bool {
    !token.is_empty() && token.len() <= NAME_LIMIT && are_name_bytes(token)
}

fn are_name_bytes(token: &[u8]) -> bool {
    token.iter().all(|byte| is_name_byte(*byte))
}

fn is_name_byte(byte: u8) -> bool {
    byte.is_ascii_lowercase() || byte.is_ascii_digit() || byte == b'_' || byte == b'-'
}

// A name's bytes as text.
fn as_text(token: &[u8]) -> &str {
    // requires list_all is_name_byte token.now ≡ true
    str::from_utf8(token).unwrap()
}
