//! Splitting a packet into pieces and writing their images.

use crate::format::{Format, MAX_COUNT};
use crate::frame::Flag;
use crate::key::Fields;
use crate::refusal::Refusal;

/// How many pieces a packet of this size takes.
pub fn piece_count(format: Format, size: usize) -> Result<usize, Refusal> {
    if size > format.packet_limit() {
        Err(Refusal::Size)
    } else {
        Ok(pieces_for(format, size))
    }
}

/// How many pieces hold so many bytes, also more than a packet may have.
pub fn pieces_for(format: Format, size: usize) -> usize {
    if size <= MAX_COUNT {
        1
    } else {
        size.div_ceil(format.piece_size())
    }
}

/// Writes the image of piece `k` to the head of the output and answers its
/// length. The output's other bytes stay, and all of them on a refusal.
pub fn write_piece(
    fields: &Fields,
    packet: &[u8],
    k: usize,
    output: &mut [u8],
) -> Result<usize, Refusal> {
    if !fields.in_range() {
        return Err(Refusal::Field);
    }
    let count = piece_count(fields.format(), packet.len())?;
    if k >= count {
        return Err(Refusal::Index);
    }
    let image = piece(fields, packet, k);
    if output.len() < image.len() {
        return Err(Refusal::Room);
    }
    output[..image.len()].copy_from_slice(&image);
    Ok(image.len())
}

/// The image of piece `k`, which there is. The packet may be one that is too
/// long to be sent.
pub fn piece(fields: &Fields, packet: &[u8], k: usize) -> Vec<u8> {
    let format = fields.format();
    let flag = flag_of(k, pieces_for(format, packet.len()));
    let number = format.piece_number(k) as u8;
    image(fields, flag, number, part_of(format, packet, flag, k))
}

/// The flag of piece `k` among `count`.
fn flag_of(k: usize, count: usize) -> Flag {
    if count == 1 {
        Flag::Single
    } else if k == 0 {
        Flag::Start
    } else if k + 1 == count {
        Flag::End
    } else {
        Flag::Middle
    }
}

/// The packet bytes that piece `k` carries.
fn part_of(format: Format, packet: &[u8], flag: Flag, k: usize) -> &[u8] {
    if flag == Flag::Single {
        return packet;
    }
    let size = format.piece_size();
    let end = packet.len().min((k + 1) * size);
    &packet[k * size..end]
}

/// The image with this flag, number and part of a packet, whether or not they
/// go together.
pub fn image(fields: &Fields, flag: Flag, number: u8, part: &[u8]) -> Vec<u8> {
    let mut image = match *fields {
        Fields::Extended {
            priority,
            source,
            group,
            destination,
            function,
        } => vec![
            0x80 | part.len() as u8,
            priority << 6 | source,
            group << 6 | destination,
            flag.bits() << 6 | number,
            function << 3,
        ],
        // The number of a piece that is no single is a data byte.
        Fields::Standard {
            priority,
            address,
            side,
        } => {
            let numbered = flag != Flag::Single;
            let count = part.len() as u8 + u8::from(numbered);
            let mut head = vec![
                priority << 6 | address,
                side << 7 | flag.bits() << 5 | count,
            ];
            head.extend(numbered.then_some(number));
            head
        }
    };
    image.extend_from_slice(part);
    image
}

#[cfg(test)]
mod tests {
    use super::*;
    use crate::frame::judge;

    const EXTENDED: Fields = Fields::Extended {
        priority: 1,
        source: 5,
        group: 2,
        destination: 9,
        function: 17,
    };
    const STANDARD: Fields = Fields::Standard {
        priority: 2,
        address: 22,
        side: 1,
    };

    fn packet(size: usize) -> Vec<u8> {
        (0..size).map(|i| (i * 7 + i / 256) as u8).collect()
    }

    #[test]
    fn what_is_written_is_the_piece() {
        let packet = packet(30);
        let mut output = [0; 13];
        for fields in [EXTENDED, STANDARD] {
            for k in 0..4 {
                let length = write_piece(&fields, &packet, k, &mut output).unwrap();
                assert_eq!(output[..length], piece(&fields, &packet, k));
            }
        }
    }

    #[test]
    fn pieces_of_a_packet_too_long_to_be_sent() {
        let packet = packet(2100);
        assert_eq!(pieces_for(Format::Extended, 2100), 263);
        let flag = |k| judge(Format::Extended, &piece(&EXTENDED, &packet, k)).map(|f| f.flag);
        assert_eq!(flag(0), Ok(Flag::Start));
        assert_eq!(flag(256), Ok(Flag::Middle));
        assert_eq!(flag(262), Ok(Flag::End));
    }

    #[test]
    fn piece_counts() {
        let counts = |format, sizes: &[usize]| -> Vec<Result<usize, Refusal>> {
            sizes
                .iter()
                .map(|&size| piece_count(format, size))
                .collect()
        };
        assert_eq!(
            counts(Format::Extended, &[0, 8, 9, 16, 17, 2048, 2049]),
            [
                Ok(1),
                Ok(1),
                Ok(2),
                Ok(2),
                Ok(3),
                Ok(256),
                Err(Refusal::Size)
            ]
        );
        assert_eq!(
            counts(Format::Standard, &[0, 8, 9, 14, 15, 1792, 1793]),
            [
                Ok(1),
                Ok(1),
                Ok(2),
                Ok(2),
                Ok(3),
                Ok(256),
                Err(Refusal::Size)
            ]
        );
    }

    #[test]
    fn numbers_of_the_longest_extended_packet() {
        let packet = packet(2048);
        assert_eq!(piece(&EXTENDED, &packet, 0)[3], 0x40);
        assert_eq!(piece(&EXTENDED, &packet, 63)[3], 0x3F);
        assert_eq!(piece(&EXTENDED, &packet, 64)[3], 0x00);
        assert_eq!(piece(&EXTENDED, &packet, 255)[3], 0xBF);
    }

    #[test]
    fn images_of_document_01() {
        let poll = Fields::Extended {
            priority: 1,
            source: 5,
            group: 0,
            destination: 0,
            function: 2,
        };
        assert_eq!(piece(&poll, &[7], 0), [0x81, 0x45, 0x00, 0xC0, 0x10, 0x07]);
        assert_eq!(piece(&STANDARD, &[7, 8, 9], 0), [0x96, 0xE3, 7, 8, 9]);
    }

    #[test]
    fn standard_pieces_carry_their_number() {
        let packet = packet(15);
        let head = |k| piece(&STANDARD, &packet, k)[..3].to_vec();
        assert_eq!(head(0), [0x96, 0xA8, 0]);
        assert_eq!(head(1), [0x96, 0x88, 1]);
        assert_eq!(head(2), [0x96, 0xC2, 2]);
        assert_eq!(piece(&STANDARD, &packet, 2)[3..], packet[14..]);
    }

    #[test]
    fn the_pieces_of_every_size_are_sound_and_hold_the_packet() {
        for fields in [EXTENDED, STANDARD] {
            let format = fields.format();
            for size in 0..=format.packet_limit() {
                let packet = packet(size);
                let mut joined = Vec::new();
                for k in 0..piece_count(format, size).unwrap() {
                    let image = piece(&fields, &packet, k);
                    let frame = judge(format, &image).unwrap();
                    assert_eq!(frame.fields, fields);
                    assert_eq!(usize::from(frame.number), format.piece_number(k));
                    joined.extend_from_slice(frame.packet);
                }
                assert_eq!(joined, packet);
            }
        }
    }

    #[test]
    fn only_the_bytes_of_the_image_are_written() {
        let mut output = [0xEE; 9];
        let length = write_piece(&EXTENDED, &[1, 2], 0, &mut output);
        assert_eq!(length, Ok(7));
        assert_eq!(output[..7], [0x82, 0x45, 0x89, 0xC0, 0x88, 1, 2]);
        assert_eq!(output[7..], [0xEE, 0xEE]);
    }

    #[test]
    fn refusals_come_in_order_and_write_nothing() {
        let wrong = Fields::Standard {
            priority: 4,
            address: 0,
            side: 0,
        };
        let (long, longest) = (packet(1793), packet(1792));
        let mut output = [0xEE; 9];
        let mut refusal =
            |fields: &Fields, packet: &[u8], k| write_piece(fields, packet, k, &mut output).err();
        assert_eq!(refusal(&wrong, &long, 999), Some(Refusal::Field));
        assert_eq!(refusal(&STANDARD, &long, 999), Some(Refusal::Size));
        assert_eq!(refusal(&STANDARD, &longest, 256), Some(Refusal::Index));
        assert_eq!(refusal(&STANDARD, &longest, 255), Some(Refusal::Room));
        assert_eq!(refusal(&STANDARD, &[], 1), Some(Refusal::Index));
        assert_eq!(output, [0xEE; 9]);
        assert_eq!(write_piece(&STANDARD, &[0; 7], 0, &mut output), Ok(9));
    }
}
