//! Tests of the proved parts, which were erased once from tests in Rattle and are written by hand since. What they are
//! given stands in kit.rs.

// They keep the shape of their source, and ask for a newer Rust than the crate.
#![allow(
    clippy::assertions_on_constants,
    clippy::drop_non_drop,
    clippy::empty_line_after_outer_attr,
    clippy::incompatible_msrv,
    clippy::let_unit_value,
    clippy::needless_range_loop,
    clippy::ok_expect,
    clippy::redundant_closure,
    clippy::type_complexity,
    clippy::unit_arg,
    clippy::useless_format
)]

mod kit;

mod apps_checks;

// What reads the memory that a call left by a panic.
#[path = "../../tests/panics/mod.rs"]
mod panics;

mod checks {
    //! Ticks, packed words and keys, and the laws of them; the worked cases of the queue over plain words and over shared
    //! ones, of its parts and of shared words alone; limits; when a store is to be of another size; what is sent to a thread.

    use crate::tests::kit::same;

    pub mod cases;
    pub mod front;
    pub mod plain_queue;
    pub mod plain_words;
    pub mod queues;
    pub mod sent;
    pub mod sizing;
    pub mod slots;
    pub mod step;
    pub mod ticks;
    pub mod wheel;
    pub mod wheel_calls;
    pub mod words;
    pub mod worked;
}

mod scripts {
    pub mod faults;
    pub mod readers;
    pub mod scripts;
    pub mod table;
    pub mod writers;
}

mod shard_checks {
    use crate::tests::kit::same;

    pub mod calls;
    pub mod cases;
    pub mod handles;
    pub mod keys;
    pub mod pieces;
    pub mod play;
    pub mod rows;
    pub mod shards;
    pub mod swapped;
    pub mod twins;
}

mod stream_checks;

mod owned {
    //! Tests of the same parts over what the modules beside this one have.

    mod apps_checks;
    mod checks;
    mod shard_checks;
    mod stream_checks;
}
