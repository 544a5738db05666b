//! What people are told of a fault.

use crate::replay::fault::ReplayFault;
use std::io;
use std::io::Write;

/// Tells a fault on the writer, in one line, and gives the status that the program ends with: 1 for a script's fault,
/// 2 for a bad capacity, 3 for a fault of the reader or the writer, 4 for want of memory.
///
/// A fault of this writer is ignored.
pub fn report<W: Write>(fault: &ReplayFault, writer: &mut W) -> u8 {
    let _ = tell(fault, writer);
    match fault {
        ReplayFault::Script { .. } => 1,
        ReplayFault::BadConfig => 2,
        ReplayFault::Read | ReplayFault::Write => 3,
        ReplayFault::NoMemory => 4,
    }
}

// Writes the line that tells a fault.
fn tell<W: Write>(fault: &ReplayFault, writer: &mut W) -> io::Result<()> {
    writeln!(writer, "delay-replay: {fault}")
}
