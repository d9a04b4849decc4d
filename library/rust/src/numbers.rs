//! The numbers of `include/siljuvatt.h`, under its names without the prefix, but for those of refusals, which
//! [`Refusal`](crate::Refusal) has. The types of this crate stand for them; by themselves they are for callers of
//! [`raw`](crate::raw) and for programs without a [`Store`](crate::Store).

use crate::VERSION as RELEASE;

macro_rules! numbers {
    ($($(#[$text:meta])* $name:ident: $type:ty = $value:expr;)*) => {
        $($(#[$text])* pub const $name: $type = $value;)*

        /// All of them, with their names.
        pub const ALL: &[(&str, u64)] = &[$((stringify!($name), $name as u64)),*];
    };
}

numbers! {
    /// The first number of this release.
    VERSION_MAJOR: u16 = RELEASE.major;
    /// The second number of this release.
    VERSION_MINOR: u8 = RELEASE.minor;
    /// The third number of this release.
    VERSION_PATCH: u8 = RELEASE.patch;
    /// This release as one number: 65,536 × major + 256 × minor + patch.
    VERSION: u32 = RELEASE.number();

    /// The format with identifiers of 29 bits.
    EXTENDED: u8 = 0;
    /// The format with identifiers of 11 bits.
    STANDARD: u8 = 1;
    /// Bus A.
    BUS_A: u8 = 0;
    /// Bus B.
    BUS_B: u8 = 1;
    /// How many fields an extended identifier has, but for flag and number.
    EXTENDED_FIELDS: usize = 5;
    /// How many fields a standard identifier has, but for flag and number.
    STANDARD_FIELDS: usize = 3;
    /// Most bytes in a packet in extended.
    EXTENDED_LIMIT: usize = 2048;
    /// Most bytes in a packet in standard.
    STANDARD_LIMIT: usize = 1792;
    /// Most bytes in an extended image.
    EXTENDED_IMAGE: usize = 13;
    /// Most bytes in a standard image.
    STANDARD_IMAGE: usize = 10;

    /// The bytes of a station.
    STATION_SIZE: usize = 130;
    /// The last byte of a station: the number of its layout.
    STATION_LAYOUT: u8 = 1;
    /// The slots of a station.
    SLOTS: usize = 16;
    /// The bytes of a store.
    STORE_SIZE: usize = 32_768;
    /// The bytes of a store that each slot owns: slot `i` those from 2,048 × `i` on.
    AREA_SIZE: usize = 2048;
    /// Kind of an answer to a frame: the stream has a packet.
    PACKET: u8 = 4;
    /// Kind of an answer to a frame: more of the packet is awaited.
    KEPT: u8 = 5;
    /// Kind of an answer to a frame: no slot is open with its key.
    FILTERED: u8 = 6;

    /// The bytes of a row of filters.
    ROW_SIZE: usize = 8;

    /// The bytes of a master.
    MASTER_SIZE: usize = 68;
    /// The last byte of a master: the number of its layout.
    MASTER_LAYOUT: u8 = 1;
    /// Kind of an exchange: a poll.
    POLL: u8 = 1;
    /// Kind of an exchange: a data block.
    DATA_BLOCK: u8 = 2;
    /// Kind of an exchange: a command.
    COMMAND: u8 = 3;
    /// Kind of a master's answer: send on the bus that the answer's number is.
    SEND: u8 = 7;
    /// Kind of a master's answer: the exchange is answered.
    DONE: u8 = 8;
    /// Kind of a master's answer: the exchange has ended unanswered.
    GAVE_UP: u8 = 9;

    /// The bytes of a watch.
    WATCH_SIZE: usize = 9;
    /// The last byte of a watch: the number of its layout.
    WATCH_LAYOUT: u8 = 1;
    /// The milliseconds after which a silent bus is to be reset.
    SILENCE: u32 = 16_000;
}
