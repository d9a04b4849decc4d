//! Calls on no lasting part: the version, filters, rows and splitting.

use second::format::Format;
use second::split::{piece, pieces_for};
use testkit::keys::{any_fields, field_bytes, number};
use testkit::{Random, FORMATS};

use crate::call::{Bytes, Call};
use crate::station_calls::bad_fields;

/// Rows of Table A.1, as document 01 reads them.
const ROWS: [[u8; 8]; 4] = [
    [0x00, 0xFF, 0x00, 0xFF, 0x00, 0xFF, 0x00, 0xFF],
    [0x00, 0xC0, 0x05, 0x00, 0x00, 0xC0, 0x40, 0x3F],
    [0x00, 0xC0, 0x16, 0x00, 0x00, 0xC0, 0x16, 0x00],
    [0x00, 0xC0, 0x20, 0x00, 0x07, 0xC0, 0x5F, 0xA0],
];

/// A call of a filter or of a row, and now and then of the version.
pub fn filtering(random: &mut Random) -> Call {
    if random.chance(10) {
        return Call::version {};
    }
    if random.chance(500) {
        let (code, mask) = (random.next_u64() as u16, any_mask(random));
        let id = near(code, mask, random);
        return Call::filter_accepts { code, mask, id };
    }
    let row = match random.chance(400) {
        true => random.pick(&ROWS),
        false => random.next_u64().to_be_bytes(),
    };
    let at = random.pick(&[0, 4]);
    let code = u16::from_be_bytes([row[at], row[at + 2]]);
    let mask = u16::from_be_bytes([row[at + 1], row[at + 3]]);
    let id = near(code, mask, random);
    Call::row_accepts { row, id }
}

/// A mask with few bits, many, or half of them.
fn any_mask(random: &mut Random) -> u16 {
    let bits = random.next_u64();
    let (one, two) = (bits as u16, (bits >> 16) as u16);
    match random.below(4) {
        0 => 0,
        1 => one & two,
        2 => one | two,
        _ => one,
    }
}

/// Bits that the filter accepts, or that differ in one bit from some that it does, or any.
fn near(code: u16, mask: u16, random: &mut Random) -> u16 {
    let accepted = code ^ random.next_u64() as u16 & mask;
    match random.below(10) {
        0..=4 => accepted,
        5..=8 => accepted ^ 1 << random.below(16),
        _ => random.next_u64() as u16,
    }
}

/// The format and the packet size that a sequence has by its number, so that every size comes up; the last are over the
/// limit.
fn own_size(number: u64) -> (Format, usize) {
    let format = FORMATS[(number % 2) as usize];
    (format, (number / 2 % 2100) as usize)
}

/// The call for some piece of a packet of the sequence's own size, with nothing to refuse but that.
pub fn own_piece(sequence: u64, random: &mut Random) -> Call {
    let (format, size) = own_size(sequence);
    Call::write_piece {
        format: number(format),
        fields: Bytes::Own(field_bytes(&any_fields(format, random))),
        packet: Bytes::Own(random.bytes(size)),
        k: random.below(pieces_for(format, size)),
        output: Bytes::Own(vec![random.byte(); 13]),
    }
}

/// A call of splitting.
pub fn splitting(number: u64, random: &mut Random) -> Call {
    let (format, own) = own_size(number);
    let size = match random.chance(300) {
        true => any_size(format, random),
        false => own,
    };
    match random.chance(200) {
        true => count(format, size, random),
        false => write(format, size, random),
    }
}

fn count(format: Format, size: usize, random: &mut Random) -> Call {
    let size = match random.below(20) {
        0 => random.next_u64() as usize,
        1 => usize::MAX - size,
        2 => size + (1 << 32),
        3 => size + 65_536,
        _ => size,
    };
    let format = any_format(format, random);
    Call::piece_count { format, size }
}

fn write(format: Format, size: usize, random: &mut Random) -> Call {
    let fields = match random.chance(20) {
        true => bad_fields(format, random),
        false => field_bytes(&any_fields(format, random)),
    };
    let packet = random.bytes(size);
    let k = any_index(format, size, random);
    let output = any_output(format, &packet, k, random);
    Call::write_piece {
        format: any_format(format, random),
        fields: Bytes::Own(fields),
        packet: Bytes::Own(packet),
        k,
        output: Bytes::Own(output),
    }
}

fn any_format(format: Format, random: &mut Random) -> u8 {
    match random.chance(15) {
        true => random.pick(&[2, 3, 128, 255]),
        false => number(format),
    }
}

/// Sizes near the limits are the likelier; some are such as 16 bits take for a short one.
fn any_size(format: Format, random: &mut Random) -> usize {
    let limit = format.packet_limit();
    match random.below(10) {
        0..=2 => random.within(0, 20),
        3 | 4 => random.within(limit - 10, limit),
        5 => random.within(limit + 1, limit + 10),
        6 if random.chance(100) => random.within(65_536, 65_556),
        _ => random.within(0, limit),
    }
}

fn any_index(format: Format, size: usize, random: &mut Random) -> usize {
    let count = pieces_for(format, size);
    match random.below(20) {
        0 => count,
        1 => random.pick(&[count + 1, 256, usize::MAX]),
        2 => random.below(count) + random.pick(&[256, 65_536, 1 << 32]),
        3..=5 => count - 1,
        6 | 7 => 0,
        _ => random.below(count),
    }
}

/// An output with room, or with just enough, or with one byte too few, or any.
fn any_output(format: Format, packet: &[u8], k: usize, random: &mut Random) -> Vec<u8> {
    let fields = any_fields(format, random);
    let needed = match k < pieces_for(format, packet.len()) && packet.len() < 4_000 {
        true => piece(&fields, packet, k).len(),
        false => 13,
    };
    let length = match random.below(10) {
        0..=3 => needed,
        4 => needed - 1,
        5 => random.below(needed),
        6 => random.within(0, 20),
        7 => random.pick(&[64, 256, 260]),
        _ => 13,
    };
    vec![random.byte(); length]
}

#[cfg(test)]
mod tests {
    use super::*;
    use second::interface;

    #[test]
    fn every_size_has_a_sequence_of_its_own() {
        let mut random = Random::new(1);
        let mut written = [0, 0];
        for number in 0..2 * 2100 {
            let Call::write_piece {
                format,
                fields: Bytes::Own(fields),
                packet: Bytes::Own(packet),
                k,
                output: Bytes::Own(mut output),
            } = own_piece(number, &mut random)
            else {
                panic!("another call");
            };
            let answer = interface::write_piece(format, &fields, &packet, k, &mut output);
            written[usize::from(format)] += usize::from(answer <= 13);
        }
        assert_eq!(written, [2049, 1793]);
    }

    #[test]
    fn filters_accept_about_as_often_as_not() {
        let mut random = Random::new(2);
        let accepted = (0..1000)
            .filter(|_| match filtering(&mut random) {
                Call::filter_accepts { code, mask, id } => {
                    interface::filter_accepts(code, mask, id)
                }
                Call::row_accepts { row, id } => interface::row_accepts(&row, id),
                Call::version {} => false,
                _ => panic!("another call"),
            })
            .count();
        assert!((300..800).contains(&accepted), "{accepted}");
    }
}
