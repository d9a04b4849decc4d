//! Fields and keys of streams: any, hard to tell apart, or out of range.

use second::format::Format;
use second::interface::fields_of;
use second::key::{is_bus, Fields, Key};

use crate::random::Random;

pub const FORMATS: [Format; 2] = [Format::Extended, Format::Standard];

/// Bus numbers that name no bus; of one of them the low bit alone would.
pub const NO_BUSES: [u8; 5] = [2, 3, 128, 129, 255];

pub fn name(format: Format) -> &'static str {
    match format {
        Format::Extended => "extended",
        Format::Standard => "standard",
    }
}

/// The number by which programs and library are told a format.
pub fn number(format: Format) -> u8 {
    match format {
        Format::Extended => 0,
        Format::Standard => 1,
    }
}

pub fn other(format: Format) -> Format {
    match format {
        Format::Extended => Format::Standard,
        Format::Standard => Format::Extended,
    }
}

/// How many values each field has, in the order of its bytes.
pub fn ranges(format: Format) -> &'static [usize] {
    match format {
        Format::Extended => &[4, 64, 4, 64, 32],
        Format::Standard => &[4, 64, 2],
    }
}

/// Fields as bytes, as they are handed over.
pub fn field_bytes(fields: &Fields) -> Vec<u8> {
    match *fields {
        Fields::Extended {
            priority,
            source,
            group,
            destination,
            function,
        } => vec![priority, source, group, destination, function],
        Fields::Standard {
            priority,
            address,
            side,
        } => vec![priority, address, side],
    }
}

/// The fields of a byte for each.
fn of_bytes(format: Format, bytes: &[u8]) -> Fields {
    fields_of(format, bytes).expect("a byte for each field")
}

/// Any fields in range.
pub fn any_fields(format: Format, random: &mut Random) -> Fields {
    let ranges = ranges(format).iter();
    let bytes: Vec<u8> = ranges.map(|&range| random.below(range) as u8).collect();
    of_bytes(format, &bytes)
}

/// Fields of which one is out of range.
pub fn bad_fields(format: Format, random: &mut Random) -> Fields {
    let mut bytes = field_bytes(&any_fields(format, random));
    let i = random.below(bytes.len());
    let first = ranges(format)[i];
    let any = random.within(first, 255) as u8;
    bytes[i] = random.pick(&[first as u8, first as u8 | 128, 255, any]);
    of_bytes(format, &bytes)
}

/// Any key in range.
pub fn any_key(format: Format, random: &mut Random) -> Key {
    Key {
        bus: random.below(2) as u8,
        fields: any_fields(format, random),
    }
}

/// A key with its bus or one field out of range.
pub fn bad_key(format: Format, random: &mut Random) -> Key {
    let key = any_key(format, random);
    if random.chance(300) {
        let bus = random.pick(&NO_BUSES);
        return Key { bus, ..key };
    }
    let fields = bad_fields(format, random);
    Key { fields, ..key }
}

/// That many different keys, about half of them differing from another in one place only.
pub fn different_keys(format: Format, count: usize, random: &mut Random) -> Vec<Key> {
    let mut keys: Vec<Key> = Vec::new();
    while keys.len() < count {
        let key = if keys.is_empty() || random.chance(400) {
            any_key(format, random)
        } else {
            neighbour(&random.pick(&keys), random)
        };
        if !keys.contains(&key) {
            keys.push(key);
        }
    }
    keys
}

/// A key that differs in the bus or in one field, if at all.
fn neighbour(key: &Key, random: &mut Random) -> Key {
    debug_assert!(is_bus(key.bus));
    let format = key.fields.format();
    let mut bytes = field_bytes(&key.fields);
    let place = random.below(bytes.len() + 1);
    if place == bytes.len() {
        let bus = 1 - key.bus;
        return Key { bus, ..*key };
    }
    bytes[place] = random.below(ranges(format)[place]) as u8;
    let fields = of_bytes(format, &bytes);
    Key { fields, ..*key }
}

#[cfg(test)]
mod tests {
    use super::*;

    #[test]
    fn keys_differ_and_are_in_range() {
        let mut random = Random::new(3);
        for format in FORMATS {
            let keys = different_keys(format, 24, &mut random);
            for (i, key) in keys.iter().enumerate() {
                assert!(key.in_range(format));
                assert!(!keys[..i].contains(key));
            }
        }
    }

    #[test]
    fn bad_ones_are_out_of_range() {
        let mut random = Random::new(4);
        for format in FORMATS {
            let (mut buses, mut fields) = (0, 0);
            for _ in 0..1000 {
                let key = bad_key(format, &mut random);
                assert!(!key.in_range(format), "{key:?}");
                buses += usize::from(!is_bus(key.bus));
                fields += usize::from(!key.fields.in_range());
            }
            assert!(buses > 200 && fields > 500, "{buses} {fields}");
        }
    }

    #[test]
    fn ranges_are_those_of_the_fields() {
        for format in FORMATS {
            let largest: Vec<u8> = ranges(format).iter().map(|&r| (r - 1) as u8).collect();
            assert!(of_bytes(format, &largest).in_range());
            for i in 0..largest.len() {
                let mut bytes = largest.clone();
                bytes[i] += 1;
                assert!(!of_bytes(format, &bytes).in_range(), "{format:?} {i}");
            }
        }
    }
}
