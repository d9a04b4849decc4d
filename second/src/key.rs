//! The identifier fields and the key of a stream.

use crate::format::Format;

/// All identifier fields except flag and number. They may be out of range
/// when a caller hands them in.
#[derive(Clone, Copy, Debug, PartialEq, Eq)]
pub enum Fields {
    Extended {
        priority: u8,
        source: u8,
        group: u8,
        destination: u8,
        function: u8,
    },
    Standard {
        priority: u8,
        address: u8,
        side: u8,
    },
}

impl Fields {
    /// The format to which the fields belong.
    pub fn format(&self) -> Format {
        match self {
            Fields::Extended { .. } => Format::Extended,
            Fields::Standard { .. } => Format::Standard,
        }
    }

    /// Whether each field fits into its bits of the identifier.
    pub fn in_range(&self) -> bool {
        match *self {
            Fields::Extended {
                priority,
                source,
                group,
                destination,
                function,
            } => priority <= 3 && source <= 63 && group <= 3 && destination <= 63 && function <= 31,
            Fields::Standard {
                priority,
                address,
                side,
            } => priority <= 3 && address <= 63 && side <= 1,
        }
    }
}

/// Whether the number names a bus: 0 is A, 1 is B.
pub fn is_bus(bus: u8) -> bool {
    bus <= 1
}

/// What tells one stream from another: the bus and the identifier fields.
#[derive(Clone, Copy, Debug, PartialEq, Eq)]
pub struct Key {
    pub bus: u8,
    pub fields: Fields,
}

impl Key {
    /// Whether the key is one for a station of this format. Formats are not
    /// mixed on a station, so fields of the other one are out of range.
    pub fn in_range(&self, format: Format) -> bool {
        is_bus(self.bus) && self.fields.format() == format && self.fields.in_range()
    }
}

#[cfg(test)]
mod tests {
    use super::*;

    fn extended(f: [u8; 5]) -> Fields {
        Fields::Extended {
            priority: f[0],
            source: f[1],
            group: f[2],
            destination: f[3],
            function: f[4],
        }
    }

    fn standard(f: [u8; 3]) -> Fields {
        Fields::Standard {
            priority: f[0],
            address: f[1],
            side: f[2],
        }
    }

    #[test]
    fn extended_ranges() {
        let largest = [3, 63, 3, 63, 31];
        assert!(extended(largest).in_range());
        for i in 0..5 {
            let mut fields = largest;
            fields[i] += 1;
            assert!(!extended(fields).in_range(), "field {i}");
        }
    }

    #[test]
    fn standard_ranges() {
        let largest = [3, 63, 1];
        assert!(standard(largest).in_range());
        for i in 0..3 {
            let mut fields = largest;
            fields[i] += 1;
            assert!(!standard(fields).in_range(), "field {i}");
        }
    }

    #[test]
    fn key_ranges() {
        let key = |bus| Key {
            bus,
            fields: standard([0, 0, 0]),
        };
        assert!(key(0).in_range(Format::Standard));
        assert!(key(1).in_range(Format::Standard));
        assert!(!key(2).in_range(Format::Standard));
        assert!(!key(0).in_range(Format::Extended));
    }

    #[test]
    fn every_field_and_the_bus_tell_keys_apart() {
        let key = Key {
            bus: 0,
            fields: extended([0; 5]),
        };
        assert_ne!(key, Key { bus: 1, ..key });
        for i in 0..5 {
            let mut f = [0; 5];
            f[i] = 1;
            let fields = extended(f);
            assert_ne!(key, Key { fields, ..key }, "field {i}");
        }
    }
}
