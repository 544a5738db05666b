//! A hierarchical timing wheel over indexes (Varghese and Lauck, SOSP 1987, Scheme 7).
//!
//! The wheel stands at a tick of one millisecond, and an index is filed at a tick at most `REACH` ahead. It waits at
//! the level of the highest base-64 digit in which its tick differs from the wheel's, in the slot that this digit
//! names. The top level goes round: the tick\'s own slot comes last. Each slot is a list of indexes.
//!
//! When the wheel comes to the start of a slot, its list is opened: each of its indexes goes to a list of a lower
//! level, or is due where it is filed at just that tick. A list of level 0 has one tick alone, so when the wheel comes
//! to it, it is itself the due list, and nothing moves.
//!
//! `arrive` opens a list as it is: its circle is hung on the head of the due list, which is empty then, and each of its
//! indexes counts from now on as filed at that tick. So it takes the same time, however full the list is. Who takes
//! them off one by one links each anew where its own deadline puts it, and may stop after any of them.
//!
//! The lists are linked by indexes in one row that is made with the wheel, so no other call takes memory. To link, to
//! unlink and to take a due index off needs no search, and no test of where a list ends. The next list is found in at
//! most six occupancy maps of 64 bits. `advance` opens a list by one step for each of its indexes.
//!
//! What comes to level 0 is due within 64 ticks, and whoever takes it reads other rows for it. In a large wheel each
//! such read waits for memory. So `advance_reading` reads what lies beside an index while its list is opened: these
//! reads wait together.

mod beside;
pub(crate) mod lists;
mod wheel;

pub use beside::Beside;
#[cfg(feature = "all-parts")]
pub use wheel::WheelError;
pub use wheel::{Place, Wheel};

/// The lists of a wheel, one for each slot of each level: list `64 * level + slot`.
pub const LISTS: usize = 384;
