//! Judging a frame image: refusals 1 to 5 and 25, or the frame it holds.

use std::cmp::Ordering;

use crate::format::{Format, MAX_COUNT};
use crate::key::Fields;
use crate::refusal::Refusal;

/// The place of a piece in its packet; the discriminant is the flag's two bits.
#[derive(Clone, Copy, Debug, PartialEq, Eq)]
pub enum Flag {
    Middle = 0,
    Start = 1,
    End = 2,
    Single = 3,
}

impl Flag {
    /// The flag in the two low bits; the others are not looked at.
    fn from_low_bits(bits: u8) -> Flag {
        match bits & 0b11 {
            0 => Flag::Middle,
            1 => Flag::Start,
            2 => Flag::End,
            _ => Flag::Single,
        }
    }

    /// The flag as its two bits.
    pub fn bits(self) -> u8 {
        self as u8
    }
}

/// A frame that refusals 1 to 5 and 25 let pass.
#[derive(Clone, Copy, Debug, PartialEq, Eq)]
pub struct Frame<'a> {
    pub fields: Fields,
    pub flag: Flag,
    /// The piece number; 0 in a single piece.
    pub number: u8,
    /// The count of data bytes, a standard number byte included; 8 for every
    /// code over 8.
    pub count: u8,
    /// The packet's bytes, without a standard number byte.
    pub packet: &'a [u8],
}

/// Judges an image. The checks stand in the order of the refusal numbers, with
/// 25 in the place of 4.
pub fn judge(format: Format, image: &[u8]) -> Result<Frame<'_>, Refusal> {
    if !format.allows_image_of(image.len()) {
        return Err(Refusal::Length);
    }
    let (header, data) = image.split_at(format.header_size());
    match format {
        Format::Extended => judge_extended(header, data),
        Format::Standard => judge_standard(header, data),
    }
}

fn judge_extended<'a>(header: &[u8], data: &'a [u8]) -> Result<Frame<'a>, Refusal> {
    // Fixed are the top bits 1_00 around RTR, and three zeros after the function.
    if header[0] & 0b1011_0000 != 0b1000_0000 || header[4] & 0b111 != 0 {
        return Err(Refusal::Form);
    }
    if header[0] & 0b0100_0000 != 0 {
        return Err(Refusal::Remote);
    }
    let count = judge_count(header[0], data)?;
    let flag = Flag::from_low_bits(header[3] >> 6);
    let number = header[3] & 0b11_1111;
    let obeys = match flag {
        Flag::Single => number == 0,
        Flag::Start => count == 8 && number == 0,
        Flag::Middle => count == 8,
        Flag::End => count >= 1,
    };
    if !obeys {
        return Err(Refusal::Piece);
    }
    Ok(Frame {
        fields: Fields::Extended {
            priority: header[1] >> 6,
            source: header[1] & 0b11_1111,
            group: header[2] >> 6,
            destination: header[2] & 0b11_1111,
            function: header[4] >> 3,
        },
        flag,
        number,
        count,
        packet: data,
    })
}

fn judge_standard<'a>(header: &[u8], data: &'a [u8]) -> Result<Frame<'a>, Refusal> {
    if header[1] & 0b0001_0000 != 0 {
        return Err(Refusal::Remote);
    }
    let count = judge_count(header[1], data)?;
    let flag = Flag::from_low_bits(header[1] >> 5);
    let (number, packet) = match flag {
        Flag::Single => (0, data),
        // Without a number byte the piece cannot keep any rule.
        _ => match data {
            [number, packet @ ..] => (*number, packet),
            [] => return Err(Refusal::Piece),
        },
    };
    let obeys = match flag {
        Flag::Single => true,
        Flag::Start => count == 8 && number == 0,
        Flag::Middle => count == 8 && (1..=254).contains(&number),
        // After one piece of 7 bytes a single byte more would have made a single.
        Flag::End => number >= 1 && count >= if number == 1 { 3 } else { 2 },
    };
    if !obeys {
        return Err(Refusal::Piece);
    }
    Ok(Frame {
        fields: Fields::Standard {
            priority: header[0] >> 6,
            address: header[0] & 0b11_1111,
            side: header[1] >> 7,
        },
        flag,
        number,
        count,
        packet,
    })
}

/// The count of the code in the low four bits, if it is that of the data
/// bytes at hand.
fn judge_count(byte: u8, data: &[u8]) -> Result<u8, Refusal> {
    // L3 overrules document 01, which refuses the codes 9 to 15: they are read
    // as 8, here and thus in the piece rules.
    let count = (byte & 0b1111).min(MAX_COUNT as u8);
    // L4 tells apart the two ways in which the length can disagree.
    match data.len().cmp(&usize::from(count)) {
        Ordering::Less => Err(Refusal::Count),
        Ordering::Equal => Ok(count),
        Ordering::Greater => Err(Refusal::Surplus),
    }
}

#[cfg(test)]
mod tests {
    use super::*;

    fn refusal(format: Format, image: &[u8]) -> Option<Refusal> {
        judge(format, image).err()
    }

    fn extended(image: &[u8]) -> Option<Refusal> {
        refusal(Format::Extended, image)
    }

    fn standard(image: &[u8]) -> Option<Refusal> {
        refusal(Format::Standard, image)
    }

    const EXTENDED_0: Fields = Fields::Extended {
        priority: 0,
        source: 0,
        group: 0,
        destination: 0,
        function: 0,
    };
    const STANDARD_0: Fields = Fields::Standard {
        priority: 0,
        address: 0,
        side: 0,
    };

    /// A piece, also one that breaks rules.
    #[derive(Clone, Copy, Debug)]
    struct Piece {
        format: Format,
        flag: Flag,
        /// The four bits of the count, as they are.
        code: u8,
        number: u8,
        /// How many data bytes there are, a standard number byte included.
        size: usize,
    }

    impl Piece {
        /// Its image, of which the other fields are 0.
        fn image(&self) -> Vec<u8> {
            let mut data = [0x51, 0x52, 0x53, 0x54, 0x55, 0x56, 0x57, 0x58, 0x59];
            let mut image = match self.format {
                Format::Extended => {
                    let flag_and_number = self.flag_bits() << 6 | self.number;
                    vec![0x80 | self.code, 0, 0, flag_and_number, 0]
                }
                Format::Standard => {
                    data[0] = self.number;
                    vec![0, self.flag_bits() << 5 | self.code]
                }
            };
            image.extend_from_slice(&data[..self.size]);
            image
        }

        fn flag_bits(&self) -> u8 {
            match self.flag {
                Flag::Start => 0b01,
                Flag::Middle => 0b00,
                Flag::End => 0b10,
                Flag::Single => 0b11,
            }
        }

        /// The answer in the words of document 01, L3 and L4: "received counts
        /// 9 to 15 are read as 8, in both formats, before the piece rules"; 4 is
        /// "the image that is too short for its count", 25 "the one too long, at
        /// the same place in the order".
        fn expected<'a>(&self, image: &'a [u8]) -> Result<Frame<'a>, Refusal> {
            let count = match self.code {
                9..=15 => 8,
                code => code,
            };
            if self.size > 8 {
                Err(Refusal::Length)
            } else if self.size < usize::from(count) {
                Err(Refusal::Count)
            } else if self.size > usize::from(count) {
                Err(Refusal::Surplus)
            } else if !self.keeps_the_piece_rule(count) {
                Err(Refusal::Piece)
            } else {
                Ok(self.frame(count, image))
            }
        }

        fn keeps_the_piece_rule(&self, count: u8) -> bool {
            match (self.format, self.flag, self.number) {
                (Format::Extended, Flag::Single, number) => number == 0,
                (Format::Standard, Flag::Single, _) => true,
                (_, Flag::Start, number) => count == 8 && number == 0,
                (Format::Extended, Flag::Middle, _) => count == 8,
                (Format::Standard, Flag::Middle, 1..=254) => count == 8,
                (Format::Standard, Flag::Middle, _) => false,
                (Format::Extended, Flag::End, _) => (1..=8).contains(&count),
                (Format::Standard, Flag::End, 0) => false,
                (Format::Standard, Flag::End, 1) => (3..=8).contains(&count),
                (Format::Standard, Flag::End, _) => (2..=8).contains(&count),
            }
        }

        /// The frame, if the image is sound.
        fn frame<'a>(&self, count: u8, image: &'a [u8]) -> Frame<'a> {
            let (fields, number, packet) = match (self.format, self.flag) {
                (Format::Extended, _) => (EXTENDED_0, self.number, &image[5..]),
                (Format::Standard, Flag::Single) => (STANDARD_0, 0, &image[2..]),
                (Format::Standard, _) => (STANDARD_0, self.number, &image[3..]),
            };
            Frame {
                fields,
                flag: self.flag,
                number,
                count,
                packet,
            }
        }
    }

    /// Every piece of a format, also with one data byte more than there may be.
    fn every_piece(format: Format) -> Vec<Piece> {
        let numbers = match format {
            Format::Extended => 0..=63,
            Format::Standard => 0..=255,
        };
        let mut pieces = Vec::new();
        for flag in [Flag::Middle, Flag::Start, Flag::End, Flag::Single] {
            for code in 0..=15 {
                for size in 0..=9 {
                    pieces.extend(numbers.clone().map(|number| Piece {
                        format,
                        flag,
                        code,
                        number,
                        size,
                    }));
                }
            }
        }
        pieces
    }

    #[test]
    fn extended_single_of_one_byte() {
        let image = [0x81, 0x45, 0x00, 0xC0, 0x10, 0x07];
        let frame = Frame {
            fields: Fields::Extended {
                priority: 1,
                source: 5,
                group: 0,
                destination: 0,
                function: 2,
            },
            flag: Flag::Single,
            number: 0,
            count: 1,
            packet: &[0x07],
        };
        assert_eq!(judge(Format::Extended, &image), Ok(frame));
    }

    #[test]
    fn extended_single_empty_with_all_field_bits() {
        let image = [0x80, 0xFF, 0xFF, 0xC0, 0xF8];
        let frame = Frame {
            fields: Fields::Extended {
                priority: 3,
                source: 63,
                group: 3,
                destination: 63,
                function: 31,
            },
            flag: Flag::Single,
            number: 0,
            count: 0,
            packet: &[],
        };
        assert_eq!(judge(Format::Extended, &image), Ok(frame));
    }

    #[test]
    fn extended_refusals() {
        let piece = [0x81, 0x45, 0x00, 0xC1, 0x10, 0x07];
        assert_eq!(extended(&piece), Some(Refusal::Piece));
        let first = |byte| [byte, 0x45, 0x00, 0xC0, 0x10, 0x07];
        assert_eq!(extended(&first(0x91)), Some(Refusal::Form));
        assert_eq!(extended(&first(0xD1)), Some(Refusal::Form));
        assert_eq!(extended(&first(0xA1)), Some(Refusal::Form));
        assert_eq!(extended(&first(0x01)), Some(Refusal::Form));
        assert_eq!(extended(&first(0xC1)), Some(Refusal::Remote));
        assert_eq!(extended(&first(0x80)), Some(Refusal::Surplus));
        assert_eq!(extended(&first(0x82)), Some(Refusal::Count));
    }

    #[test]
    fn extended_zeros_after_the_function_are_fixed() {
        for low in 1..8 {
            let image = [0x81, 0x45, 0x00, 0xC0, 0x10 | low, 0x07];
            assert_eq!(extended(&image), Some(Refusal::Form));
        }
    }

    #[test]
    fn extended_count_and_length() {
        let mut image = vec![0x88, 0x45, 0x00, 0xC0, 0x10];
        image.resize(13, 0);
        assert_eq!(extended(&image), None);
        image.push(0);
        assert_eq!(extended(&image), Some(Refusal::Length));
        // Length comes before any bit.
        assert_eq!(extended(&[0xFF; 14]), Some(Refusal::Length));
        assert_eq!(extended(&[0x80, 0x45, 0x00, 0xC0]), Some(Refusal::Length));
        assert_eq!(extended(&[]), Some(Refusal::Length));
    }

    #[test]
    fn every_code_with_every_length_flag_and_number() {
        for format in [Format::Extended, Format::Standard] {
            for piece in every_piece(format) {
                let image = piece.image();
                assert_eq!(judge(format, &image), piece.expected(&image), "{piece:?}");
            }
        }
    }

    #[test]
    fn the_case_89_of_document_01_is_sound_by_l3() {
        let image = [0x89, 0x45, 0x00, 0xC0, 0x10, 1, 2, 3, 4, 5, 6, 7, 8];
        let frame = judge(Format::Extended, &image).unwrap();
        assert_eq!((frame.count, frame.packet), (8, &image[5..]));
        assert_eq!(extended(&image[..12]), Some(Refusal::Count));
        let piece = [0x8C, 0x45, 0x00, 0xC1, 0x10, 1, 2, 3, 4, 5, 6, 7, 8];
        assert_eq!(extended(&piece), Some(Refusal::Piece));
    }

    #[test]
    fn form_and_remote_come_before_the_count() {
        let data = [1, 2, 3, 4, 5, 6, 7, 8];
        for (code, size) in (0..=15).flat_map(|code| (0..=8).map(move |size| (code, size))) {
            let with = |header: &[u8]| [header, &data[..size]].concat();
            for first in [0x90 | code, 0xD0 | code, 0xA0 | code, code] {
                let image = with(&[first, 0x45, 0x00, 0xC0, 0x10]);
                assert_eq!(extended(&image), Some(Refusal::Form));
            }
            let image = with(&[0xC0 | code, 0x45, 0x00, 0xC0, 0x10]);
            assert_eq!(extended(&image), Some(Refusal::Remote));
            let image = with(&[0xC0 | code, 0x45, 0x00, 0xC0, 0x11]);
            assert_eq!(extended(&image), Some(Refusal::Form));
            let image = with(&[0x96, 0xF0 | code]);
            assert_eq!(standard(&image), Some(Refusal::Remote));
        }
    }

    #[test]
    fn standard_single_of_three_bytes() {
        let image = [0x96, 0xE3, 7, 8, 9];
        let frame = Frame {
            fields: Fields::Standard {
                priority: 2,
                address: 22,
                side: 1,
            },
            flag: Flag::Single,
            number: 0,
            count: 3,
            packet: &[7, 8, 9],
        };
        assert_eq!(judge(Format::Standard, &image), Ok(frame));
    }

    #[test]
    fn standard_end_of_number_one() {
        assert_eq!(standard(&[0x16, 0x42, 1, 7]), Some(Refusal::Piece));
        let frame = judge(Format::Standard, &[0x16, 0x43, 1, 7, 8]).unwrap();
        assert_eq!(frame.number, 1);
        assert_eq!(frame.count, 3);
        assert_eq!(frame.packet, [7, 8]);
    }

    #[test]
    fn standard_refusals() {
        assert_eq!(standard(&[]), Some(Refusal::Length));
        assert_eq!(standard(&[0x96]), Some(Refusal::Length));
        assert_eq!(standard(&[0xFF; 11]), Some(Refusal::Length));
        assert_eq!(standard(&[0x96, 0xF3, 1, 2, 3]), Some(Refusal::Remote));
        assert_eq!(standard(&[0x96, 0xF3]), Some(Refusal::Remote));
        assert_eq!(standard(&[0x96, 0xE3, 1, 2]), Some(Refusal::Count));
        assert_eq!(standard(&[0x96, 0xE1, 1, 2]), Some(Refusal::Surplus));
        assert_eq!(standard(&[0x96, 0xE9, 1]), Some(Refusal::Count));
        assert_eq!(standard(&[0x96, 0xE0]), None);
    }
}
