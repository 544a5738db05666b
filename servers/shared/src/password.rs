//! A password that clients tell before all else.

use std::{fmt, fs};

#[derive(Clone)]
pub struct Password(Vec<u8>);

/// It is written nowhere.
impl fmt::Debug for Password {
    fn fmt(&self, f: &mut fmt::Formatter<'_>) -> fmt::Result {
        write!(f, "Password")
    }
}

impl Password {
    /// The first line of a text, none where that is empty.
    pub fn of(text: &str) -> Option<Password> {
        text.lines().next().filter(|line| !line.is_empty()).map(|line| Password(line.into()))
    }

    /// It stands in a file, since a command line is everybody's to read.
    pub fn of_file(path: &str) -> Result<Password, String> {
        let text = fs::read_to_string(path).map_err(|error| format!("{path} can't be read: {error}"))?;
        Password::of(&text).ok_or(format!("{path} has no password in its first line"))
    }

    /// Whether it is this one. How long that takes tells nothing of what it is.
    pub fn is(&self, told: &[u8]) -> bool {
        let at = |place: usize| self.0[place % self.0.len()];
        let differs = told.iter().enumerate().fold(0, |all, (place, byte)| all | (byte ^ at(place)));
        differs == 0 && told.len() == self.0.len()
    }
}
