//! The library, and plain Rust of the same contract to measure it against.

pub mod arrivals;
pub mod bytes;
pub mod cases;
pub mod measured;
pub mod plain;
pub mod receivers;
pub mod split;

pub use siljuvatt::raw::slices as library;
