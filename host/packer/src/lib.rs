//! Rows checked, packed and unpacked in plain Rust, by 01's "Rows and their packing" alone.
//!
//! The proved functions are compared with these and timed beside them. Nothing here knows how those
//! are written: the sequence is a table of what may follow what, and a packed row one number of 56
//! bits. Room is no matter of this crate: its output grows.

mod check;
mod rows;

pub use rows::{
    judge_and_pack_into, judge_and_unpack_into, pack_into, unpack_into, BadRows, LAST_PLACE,
};

/// Numbers of a row, and bytes of a packed one.
pub const NUMBERS: usize = 4;
pub const BYTES: usize = 7;
