//! What the comparisons with the second program, the benchmark and the library's tests are made of: numbers that a seed
//! fixes (`random`), keys and fields (`keys`), frames of many streams (`traffic`) and what makes them wrong (`damage`).
//!
//! Formats, fields and pieces are the second program's. The calls of the library are declared in the crate `siljuvatt`
//! (`siljuvatt::calls!`), so that this needs no library to be built.

pub mod damage;
pub mod keys;
pub mod random;
pub mod traffic;

pub use keys::FORMATS;
pub use random::Random;
