//! Files to try a reader on: put together from parts, drawn at random by grammar or without,
//! damaged, and real ones. Rows to try a packer on. Texts with rows of chunks to try a writer on. And
//! literals, and files with names, to try a resolver on; among them names that an index cannot tell apart.

mod bytes;
pub mod chunks;
pub mod collisions;
mod damage;
pub mod fields;
mod files;
mod grammar;
pub mod literals;
mod random;
pub mod rows;
pub mod symbols;

pub use bytes::Bytes;
pub use damage::{damage, tear};
pub use files::files;
pub use grammar::Grammar;
pub use random::Random;
