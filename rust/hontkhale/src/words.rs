//! Words shared without a lock: the keeper and its callers.
//!
//! Each slot of a queue has one word of 64 bits, which says how its entry stands: its stamp, its mark and a deadline.
//! The [`Keeper`] belongs to the queue's owner and begins and ends entries. Up to 1,024 [`Caller`]s, each in a thread
//! of its own, extend and cancel entries by one atomic step on that word, whatever the owner does meanwhile. So does
//! any thread that has a `&` to its [`OpenWords`], with no caller.
//!
//! The module `directory` has things by numbers, which any thread finds without a lock too.

mod caller;
#[cfg(feature = "std")]
pub mod directory;
mod front;
mod keeper;
#[cfg(all(feature = "std", feature = "all-parts"))]
mod many;
mod open;
mod seated;
#[cfg(all(feature = "std", feature = "all-parts"))]
mod shards;
pub(crate) mod table;

pub use caller::Caller;
pub use front::{numbered_queue, shared_queue};
pub use keeper::{Keeper, WordsError, HANDLE_LIMIT};
#[cfg(all(feature = "std", feature = "all-parts"))]
pub use many::{poll_into, ManyTurn};
pub use seated::OpenWords;
#[cfg(all(feature = "std", feature = "all-parts"))]
pub use shards::locked_shards;
