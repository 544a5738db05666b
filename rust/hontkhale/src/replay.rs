//! The replay of a script of delays, from bytes to bytes: what is written is a function of the
//! bytes that are read.

mod command;
mod fault;
mod header;
mod leases;
mod line;
mod name;
mod names;
mod output;
mod replay;
mod session;
mod status;
mod text;
mod texts;

pub use fault::{FaultKind, ReplayFault};
pub use replay::run;
pub use status::report;
