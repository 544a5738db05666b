//! Writing whole texts, with one try for each write.

use crate::replay::fault::ReplayFault;
use std::io;

/// Writes all of a text, or the front of it.
pub fn write_whole<W: io::Write>(writer: &mut W, text: &[u8]) -> Result<(), ReplayFault> {
    let mut written = 0;
    while written < text.len() {
        match writer.write(&text[written..]) {
            Ok(0) | Err(_) => return Err(ReplayFault::Write),
            Ok(n) => written += n,
        }
    }
    Ok(())
}
