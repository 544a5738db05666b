//! What servers build on the delay queue: an expiring cache, and sessions that end when they were idle.

mod cache;
mod calls;
mod counted;
mod kept;
mod memo;
mod moves;
mod name;
mod refresh;
mod seen;
mod sessions;
mod steps;
mod stock;
mod timers;

pub use cache::TtlCache;
pub use calls::PutAnswer;
pub use counted::CountedCache;
pub use memo::MemoAnswer;
pub use name::Name;
pub use seen::Seen;
pub use sessions::IdleSessions;
