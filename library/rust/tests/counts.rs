//! Counts and lengths, by requests L3 and L4 of document 02, which overrule document 01, in both formats: a count of 9
//! to 15 is read as 8, and an image too short for its count is told from one too long.
#![cfg(feature = "alloc")]

mod common;

use common::{fields, image, kept, packet, piece_size, split, whole, Bench};
use common::{BOTH, END, MIDDLE, SINGLE, START};
use second::frame::Flag;
use siljuvatt::{Format, Refusal, Reply};

const CODES: std::ops::RangeInclusive<u8> = 9..=15;

/// The place of the byte whose low half is the count, the bit of RTR in it, and the bytes before the data.
fn layout(format: Format) -> (usize, u8, usize) {
    match format {
        Format::Extended => (0, 0x40, 5),
        Format::Standard => (1, 0x10, 2),
    }
}

/// The image with another count.
fn with_count(format: Format, image: &[u8], code: u8) -> Vec<u8> {
    let (at, _, _) = layout(format);
    let mut image = image.to_vec();
    image[at] = image[at] & 0xF0 | code;
    image
}

/// A filled piece of each flag: its number, how many pieces were kept before it, and its answer.
fn filled(format: Format) -> [(Flag, u8, usize, Result<Reply, Refusal>); 4] {
    let size = piece_size(format);
    [
        (SINGLE, 0, 0, whole(8)),
        (START, 0, 0, kept()),
        (MIDDLE, 2, 2, kept()),
        (END, 2, 2, whole(3 * size)),
    ]
}

/// The filled pieces of a format: a stream that awaits each, its image with a count of 8, and its answer.
fn awaited(format: Format) -> impl Iterator<Item = (Bench, Vec<u8>, Result<Reply, Refusal>)> {
    let size = piece_size(format);
    filled(format)
        .into_iter()
        .map(move |(flag, number, before, answer)| {
            let mut bench = Bench::new(fields(format));
            bench.collect(before * size);
            let length = if flag == SINGLE { 8 } else { size };
            let image = image(fields(format), flag, number, &packet(length, 3));
            (bench, image, answer)
        })
}

#[test]
fn with_eight_data_bytes_all_is_as_with_8() {
    for format in BOTH {
        for (mut with_8, image, answer) in awaited(format) {
            let (station, store) = (with_8.station.clone(), with_8.store.clone());
            assert_eq!(with_8.receive(&image), answer, "{image:02X?}");
            for code in CODES {
                let mut bench = Bench {
                    station: station.clone(),
                    store: store.clone(),
                    ..with_8
                };
                let image = with_count(format, &image, code);
                assert_eq!(bench.receive(&image), answer, "{image:02X?}");
                assert_eq!(bench.station, with_8.station, "{image:02X?}");
                assert!(bench.store == with_8.store, "{image:02X?}");
            }
        }
    }
}

/// Every count before every number of data bytes that an image may have.
#[test]
fn too_short_is_told_from_too_long() {
    for format in BOTH {
        let (_, _, header) = layout(format);
        for (mut bench, image, _) in awaited(format) {
            for code in 0..=15 {
                let image = with_count(format, &image, code);
                let said = header + usize::from(code.min(8));
                for length in header..said {
                    bench.refuses(&image[..length], Refusal::Count);
                }
                for length in said + 1..=image.len() {
                    bench.refuses(&image[..length], Refusal::Surplus);
                }
            }
        }
    }
}

#[test]
fn length_form_and_remote_come_first() {
    for format in BOTH {
        let (at, rtr, _) = layout(format);
        for (mut bench, image, _) in awaited(format) {
            for code in 0..=15 {
                let mut image = with_count(format, &image, code);
                image[at] |= rtr;
                bench.refuses(&image, Refusal::Remote);
                bench.refuses(&image[..image.len() - 1], Refusal::Remote);
                if format == Format::Extended {
                    image[4] |= 1;
                    bench.refuses(&image, Refusal::Form);
                    bench.refuses(&image[..image.len() - 1], Refusal::Form);
                }
                image.push(9);
                bench.refuses(&image, Refusal::Length);
            }
        }
    }
}

/// With eight data bytes the length is right, and the piece rules are read from 8.
#[test]
fn piece_rules_come_after_it() {
    let broken: [(Format, &[(Flag, u8)]); 2] = [
        (Format::Extended, &[(SINGLE, 1), (START, 1)]),
        (
            Format::Standard,
            &[(START, 1), (MIDDLE, 0), (MIDDLE, 255), (END, 0)],
        ),
    ];
    for (format, pieces) in broken {
        let mut bench = Bench::new(fields(format));
        for &(flag, number) in pieces {
            let image = image(fields(format), flag, number, &packet(piece_size(format), 3));
            for code in CODES {
                let image = with_count(format, &image, code);
                bench.refuses(&image, Refusal::Piece);
                bench.refuses(&image[..image.len() - 1], Refusal::Count);
            }
            for code in 0..8 {
                bench.refuses(&with_count(format, &image, code), Refusal::Surplus);
            }
        }
    }
}

/// What is refused for its length between the pieces of a packet does not touch it.
#[test]
fn a_packet_comes_out_between_wrong_lengths() {
    for format in BOTH {
        let mut bench = Bench::new(fields(format));
        let bytes = packet(30, 4);
        let (at, _, _) = layout(format);
        let mut last = kept();
        for image in split(fields(format), &bytes) {
            assert_eq!(last, kept());
            bench.refuses(&image[..image.len() - 1], Refusal::Count);
            let less = (image[at] & 0x0F) - 1;
            bench.refuses(&with_count(format, &image, less), Refusal::Surplus);
            last = bench.receive(&image);
        }
        assert_eq!(last, whole(30));
        assert_eq!(bench.read(), Ok(&bytes[..]), "{format:?}");
    }
}

/// Packets of every number of pieces, each filled, with the counts of 9 to 15 in turn: what was sent comes out.
#[test]
fn a_packet_comes_out_byte_for_byte() {
    for format in BOTH {
        let mut bench = Bench::new(fields(format));
        for count in 2..=256 {
            let size = count * piece_size(format);
            let bytes = packet(size, count);
            let mut answers = Vec::new();
            for (code, image) in CODES.cycle().zip(split(fields(format), &bytes)) {
                answers.push(bench.receive(&with_count(format, &image, code)));
            }
            assert_eq!(answers.pop(), Some(whole(size)), "{format:?} {size}");
            assert!(answers.iter().all(|&answer| answer == kept()), "{size}");
            assert_eq!(answers.len(), count - 1);
            assert_eq!(bench.read(), Ok(&bytes[..]), "{format:?} {size}");
        }
    }
}
