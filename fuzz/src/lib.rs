//! Makes calls of the library and of the second program's model of it, on random and mutated inputs, and
//! compares the answers and every byte that a call may write, or must not.
//!
//! `sequence` and the modules with `calls` in their names make the calls up, `mutate` the states that they are given;
//! `bench` makes them and compares, argument by `argument`, in `memory` that shows what is touched outside; `huge` is
//! for lengths over 2^32; `tally` counts the cases; `record` writes the calls for fuzz/replay.c. `library`, `call`,
//! `bench` and `faulty` take the calls from their one declaration, so that a new one needs there nothing of its own.

pub mod argument;
pub mod bench;
pub mod call;
pub mod crash;
pub mod driver;
pub mod huge;
pub mod library;
pub mod master_calls;
pub mod memory;
pub mod mutate;
pub mod plain_calls;
pub mod record;
pub mod sequence;
pub mod station_calls;
pub mod tally;
pub mod watch_calls;

#[cfg(test)]
mod faulty;
