//! Satellite avionics units on their two CAN lines, to GB/T 43671-2024: frames of both formats, split and joined; up to
//! sixteen streams a [`Station`]; acceptance filters ([`Filter`], [`Row`]); a [`Master`]'s exchanges over both buses; a
//! [`Watch`] for a bus gone silent.
//!
//! The functions behind this crate are proved to answer as document 01 of the order says, with requests L3 and L4 of
//! its document 02, for every input. The crate itself is thin, and tested: it hands slices to those functions and names
//! their answers. No call asks anything of its caller; what cannot be done is a [`Refusal`], and nothing has changed
//! then, but for the stream that lost its place ([`Refusal::Step`], [`Refusal::Long`]).
//!
//! ```
//! use siljuvatt::{pieces, Bus, Fields, Format, Key, Reply, Station, Store};
//!
//! # fn main() -> Result<(), siljuvatt::Refusal> {
//! let fields = Fields::Extended { priority: 1, source: 5, group: 0, destination: 0, function: 2 };
//! let mut station = Station::new(Format::Extended);
//! let mut store = Store::new();
//! let slot = station.open(Key { bus: Bus::A, fields })?;
//!
//! // A packet is bytes, so the serial keeps its zeros. Nine bytes travel as two pieces.
//! let mut images = pieces(fields, b"004127019")?;
//! let (first, second) = (images.next().unwrap(), images.next().unwrap());
//! assert_eq!(station.receive(&mut store, Bus::A, &first)?, Reply::Kept { broke: false });
//! assert_eq!(station.receive(&mut store, Bus::A, &second)?, Reply::Packet { length: 9, broke: false });
//! assert_eq!(station.read(&store, slot)?, b"004127019");
//! # Ok(())
//! # }
//! ```
//!
//! # Memory
//!
//! The crate is `no_std`. Only the type [`Store`] needs an allocator; it is there with the feature `alloc`, which is on
//! by default. Without it a store is any slice of [`numbers::STORE_SIZE`] bytes.
//!
//! # Releases
//!
//! Later releases add refusals, answers and kinds of exchanges: the enums that they add to are `non_exhaustive`.
//! [`version`] says which release of the library is linked; it should be [`VERSION`]. An answer that this release does
//! not know is [`Refusal::Unknown`]; none is taken for another, and none makes a call panic. A library that does not
//! know this release's stations, masters or watches refuses every call on them by [`Refusal::State`].

#![no_std]
#![deny(missing_docs)]
#![deny(unsafe_code)]
#![forbid(unsafe_op_in_unsafe_fn)]

#[cfg(feature = "alloc")]
extern crate alloc;

/// C's own interface, for those who need it: bytes and numbers go in, and answers of 32 bits come out.
/// `include/siljuvatt.h` says of each call what it does; [`numbers`] has the header's numbers. A program that uses the
/// types of this crate needs none of it.
#[allow(unsafe_code)]
pub mod raw;

pub mod numbers;

mod answer;
mod fields;
mod filter;
mod master;
mod refusal;
mod split;
mod station;
#[cfg(feature = "alloc")]
mod store;
mod version;
mod watch;

pub use fields::{Bus, Fields, Format, Key};
pub use filter::{id_of, Filter, Row};
pub use master::{Kind, Master, Step};
pub use refusal::{NoRefusal, Refusal};
pub use split::{piece_count, pieces, write_piece, Image, Pieces};
pub use station::{Reply, Station};
#[cfg(feature = "alloc")]
pub use store::Store;
pub use version::{version, Version, VERSION};
pub use watch::{Silent, Watch};

// The examples in Rust of the page for programmers run with the tests of this crate.
#[cfg(doctest)]
#[doc = include_str!("../../README.md")]
struct Readme;

/// A program names what it does with what a later release adds:
///
/// ```
/// fn kind(kind: siljuvatt::Kind) { match kind { siljuvatt::Kind::Poll => (), _ => () } }
/// fn reply(reply: siljuvatt::Reply) { match reply { siljuvatt::Reply::Filtered => (), _ => () } }
/// fn step(step: siljuvatt::Step) { match step { siljuvatt::Step::Done => (), _ => () } }
/// ```
///
/// and is none where it does not:
///
/// ```compile_fail,E0004
/// use siljuvatt::Kind;
/// fn kind(kind: Kind) { match kind { Kind::Poll | Kind::DataBlock | Kind::Command => () } }
/// ```
///
/// ```compile_fail,E0004
/// use siljuvatt::Reply;
/// fn reply(reply: Reply) { match reply { Reply::Packet { .. } | Reply::Kept { .. } | Reply::Filtered => () } }
/// ```
///
/// ```compile_fail,E0004
/// use siljuvatt::Step;
/// fn step(step: Step) { match step { Step::Send(_) | Step::Done | Step::GaveUp => () } }
/// ```
#[cfg(doctest)]
struct NonExhaustive;
