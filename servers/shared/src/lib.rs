//! What the store and the jobs have alike.

pub mod password;
pub mod resp;
