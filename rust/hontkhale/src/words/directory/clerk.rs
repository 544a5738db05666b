//! Who adds things.

use crate::memory::AllocError;
use crate::words::directory::Directory;
use core::fmt;

/// Why a thing isn't added.
#[derive(Clone, Copy, Debug, PartialEq, Eq)]
#[non_exhaustive]
pub enum AddError {
    /// Each number was given.
    Full {
        /// How many numbers the directory gives.
        most: u32,
    },
    /// Memory was refused.
    NoMemory,
}

impl fmt::Display for AddError {
    fn fmt(&self, f: &mut fmt::Formatter<'_>) -> fmt::Result {
        match self {
            AddError::Full { most } => write!(f, "the directory is full: {most} numbers were given"),
            AddError::NoMemory => f.write_str("out of memory"),
        }
    }
}

#[cfg(feature = "std")]
impl std::error::Error for AddError {}

/// Adds things to a directory of its own. A directory has one clerk.
pub struct Clerk<X> {
    directory: Directory<X>,
    given: u32,
    most: u32,
}

impl<X> Clerk<X> {
    /// The clerk of a new directory, with nothing in it, that gives the numbers 0 to `most` - 1.
    ///
    /// # Errors
    /// If memory is refused.
    pub fn new(most: u32) -> Result<Clerk<X>, AllocError> {
        let directory = Directory::new()?;
        Ok(Clerk {
            directory,
            given: 0,
            most,
        })
    }

    /// Adds a thing under the next number, which it returns. If it is refused, nothing changes, and the thing comes back.
    ///
    /// # Errors
    /// - `Full` if each number was given.
    /// - `NoMemory` if memory is refused.
    pub fn add(&mut self, thing: X) -> Result<u32, (AddError, X)> {
        let (number, most) = (self.given, self.most);
        if number == most {
            return Err((AddError::Full { most }, thing));
        }
        if self.directory.make_row(number).is_err() {
            return Err((AddError::NoMemory, thing));
        }
        match self.directory.put(number, thing) {
            Ok(()) => {
                self.given += 1;
                Ok(number)
            }
            Err(thing) => Err((AddError::NoMemory, thing)),
        }
    }
}

impl<X> Clerk<X> {
    /// The directory.
    pub fn directory(&self) -> &Directory<X> {
        &self.directory
    }

    /// How many numbers were given.
    pub fn given(&self) -> u32 {
        self.given
    }
}
