//! The receiving and sending rules of document 01, with L3 and L4 of document 02,
//! written a second time and in plain form, so that two programs can be
//! compared answer by answer.
//!
//! The rules stand in `format`, `key`, `frame`, `split`, `stream`, `station`,
//! `trace`, `filter`, `master` and `watch`; `listing` and `script` are the two
//! programs over them, and `interface` has the calls of the library for C.

pub mod filter;
pub mod format;
pub mod frame;
pub mod input;
pub mod interface;
pub mod key;
pub mod listing;
pub mod master;
pub mod refusal;
pub mod script;
pub mod split;
pub mod station;
pub mod stream;
pub mod trace;
pub mod watch;

pub use crate::listing::listing;
pub use crate::script::calls;
