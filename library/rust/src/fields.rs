//! Formats, buses, and the fields of an identifier.

use crate::numbers;

/// One of the two frame formats. A station works in one.
#[derive(Clone, Copy, Debug, PartialEq, Eq, Hash)]
pub enum Format {
    /// Identifiers of 29 bits.
    Extended,
    /// Identifiers of 11 bits.
    Standard,
}

impl Format {
    /// Most bytes in a packet: 2,048 in extended, 1,792 in standard.
    #[must_use]
    pub const fn limit(self) -> usize {
        match self {
            Format::Extended => numbers::EXTENDED_LIMIT,
            Format::Standard => numbers::STANDARD_LIMIT,
        }
    }

    /// Most bytes in the image of a frame: 13 in extended, 10 in standard.
    #[must_use]
    pub const fn image_size(self) -> usize {
        match self {
            Format::Extended => numbers::EXTENDED_IMAGE,
            Format::Standard => numbers::STANDARD_IMAGE,
        }
    }

    pub(crate) fn number(self) -> u8 {
        match self {
            Format::Extended => numbers::EXTENDED,
            Format::Standard => numbers::STANDARD,
        }
    }
}

/// One of the two lines.
#[derive(Clone, Copy, Debug, PartialEq, Eq, PartialOrd, Ord, Hash)]
pub enum Bus {
    /// Bus A, number 0.
    A,
    /// Bus B, number 1.
    B,
}

impl Bus {
    // A call on a state with this bus is refused: STATE if the state is not sound, else FIELD.
    pub(crate) const NONE: u8 = 2;

    /// 0 for A, 1 for B, as in a trace.
    #[must_use]
    pub const fn number(self) -> u8 {
        match self {
            Bus::A => numbers::BUS_A,
            Bus::B => numbers::BUS_B,
        }
    }

    /// The bus of a number, if there is one: that of a record of a trace, for one.
    ///
    /// ```
    /// use siljuvatt::Bus;
    /// assert_eq!(Bus::of_number(1), Some(Bus::B));
    /// assert_eq!(Bus::of_number(2), None);
    /// ```
    #[must_use]
    pub const fn of_number(number: u8) -> Option<Bus> {
        match number {
            numbers::BUS_A => Some(Bus::A),
            numbers::BUS_B => Some(Bus::B),
            _ => None,
        }
    }
}

/// The fields of an identifier, all but flag and number. Any numbers may stand here; a call to which they are handed
/// refuses those out of range by [`Refusal::Field`](crate::Refusal::Field).
///
/// ```
/// use siljuvatt::{pieces, Fields, Format, Refusal};
///
/// let slave = Fields::Standard { priority: 2, address: 22, side: 1 };
/// assert_eq!(slave.format(), Format::Standard);
/// let nobody = Fields::Standard { priority: 2, address: 64, side: 1 };
/// assert_eq!(pieces(nobody, b"").err(), Some(Refusal::Field));
/// ```
#[derive(Clone, Copy, Debug, PartialEq, Eq, Hash)]
pub enum Fields {
    /// Of an extended identifier.
    Extended {
        /// 0 to 3.
        priority: u8,
        /// 0 to 63.
        source: u8,
        /// 0 to 3.
        group: u8,
        /// 0 to 63.
        destination: u8,
        /// 0 to 31.
        function: u8,
    },
    /// Of a standard identifier.
    Standard {
        /// 0 to 3.
        priority: u8,
        /// 0 to 63.
        address: u8,
        /// Who sent the frame: 0 the master, 1 a slave.
        side: u8,
    },
}

impl Fields {
    /// The format that has these fields.
    #[must_use]
    pub const fn format(&self) -> Format {
        match self {
            Fields::Extended { .. } => Format::Extended,
            Fields::Standard { .. } => Format::Standard,
        }
    }

    /// The fields as the library takes them: five or three bytes at the head of an array, and how many.
    pub(crate) fn bytes(&self) -> ([u8; numbers::EXTENDED_FIELDS], usize) {
        match *self {
            Fields::Extended {
                priority,
                source,
                group,
                destination,
                function,
            } => (
                [priority, source, group, destination, function],
                numbers::EXTENDED_FIELDS,
            ),
            Fields::Standard {
                priority,
                address,
                side,
            } => ([priority, address, side, 0, 0], numbers::STANDARD_FIELDS),
        }
    }
}

/// What tells one stream from all others: a bus, and every field of the identifier but flag and number.
#[derive(Clone, Copy, Debug, PartialEq, Eq, Hash)]
pub struct Key {
    /// The bus on which its frames come.
    pub bus: Bus,
    /// The fields that its frames have.
    pub fields: Fields,
}
