//! Splitting, and what is split comes out whole.
#![cfg(feature = "alloc")]

mod common;

use common::{extended_fields, fields, packet, split, standard_fields, Bench, BOTH};
use siljuvatt::{piece_count, pieces, write_piece, Bus, Fields, Format, Refusal, Reply};

/// Packets of every size: the images are those of the tables, and a station joins them.
fn every_size(format: Format) {
    let fields = fields(format);
    let mut bench = Bench::new(fields);
    for size in 0..=format.limit() {
        let bytes = packet(size, size);
        let images = pieces(fields, &bytes).unwrap();
        let expected = split(fields, &bytes);
        assert_eq!(piece_count(format, size), Ok(expected.len()), "{size}");
        assert_eq!(images.len(), expected.len(), "{size}");

        let mut last = Reply::Filtered;
        for (k, image) in images.enumerate() {
            assert_eq!(image[..], expected[k][..], "{size}, piece {k}");
            last = bench.receive(&image).unwrap();
        }
        assert_eq!(
            last,
            Reply::Packet {
                length: size,
                broke: false
            }
        );
        assert_eq!(bench.read(), Ok(&bytes[..]));
    }
    assert_eq!(
        pieces(fields, &packet(format.limit() + 1, 0)).err(),
        Some(Refusal::Size)
    );
}

#[test]
fn every_size_in_extended() {
    every_size(Format::Extended);
}

#[test]
fn every_size_in_standard() {
    every_size(Format::Standard);
}

#[test]
fn the_longest_image_is_as_long_as_the_format_says() {
    for format in BOTH {
        let bytes = packet(format.limit(), 0);
        let lengths = pieces(fields(format), &bytes)
            .unwrap()
            .map(|image| image.len());
        assert_eq!(lengths.max(), Some(format.image_size()));
        let mut output = [0; 20];
        let (short, enough) = (format.image_size() - 1, format.image_size());
        assert_eq!(
            write_piece(fields(format), &bytes, 0, &mut output[..short]),
            Err(Refusal::Room)
        );
        assert_eq!(
            write_piece(fields(format), &bytes, 0, &mut output[..enough]),
            Ok(enough)
        );
    }
}

#[test]
fn only_the_bytes_of_the_image_are_written() {
    for format in BOTH {
        for size in [0, 3, 8, 9, 20] {
            let bytes = packet(size, 1);
            for (k, image) in split(fields(format), &bytes).iter().enumerate() {
                let mut output = [0xEE; 20];
                assert_eq!(
                    write_piece(fields(format), &bytes, k, &mut output),
                    Ok(image.len())
                );
                assert_eq!(output[..image.len()], image[..]);
                assert!(output[image.len()..].iter().all(|&byte| byte == 0xEE));
            }
        }
    }
}

#[test]
fn refusals_in_their_order_and_nothing_written() {
    let good = extended_fields(5, 2);
    let bad = extended_fields(64, 2);
    let (long, short) = (packet(2049, 0), packet(9, 0));
    let mut output = [0xEE; 4];
    assert_eq!(
        write_piece(bad, &long, 999, &mut output),
        Err(Refusal::Field)
    );
    assert_eq!(
        write_piece(good, &long, 999, &mut output),
        Err(Refusal::Size)
    );
    assert_eq!(
        write_piece(good, &short, 2, &mut output),
        Err(Refusal::Index)
    );
    assert_eq!(
        write_piece(good, &short, usize::MAX, &mut output),
        Err(Refusal::Index)
    );
    assert_eq!(
        write_piece(good, &short, 1, &mut output),
        Err(Refusal::Room)
    );
    assert_eq!(write_piece(good, &short, 1, &mut []), Err(Refusal::Room));
    assert_eq!(output, [0xEE; 4]);
    assert_eq!(pieces(bad, &long).err(), Some(Refusal::Field));
}

#[test]
fn room_is_the_length_of_the_image() {
    for format in BOTH {
        let bytes = packet(9, 0);
        for (k, image) in split(fields(format), &bytes).iter().enumerate() {
            for room in 0..20 {
                let mut output = vec![0; room];
                let answer = write_piece(fields(format), &bytes, k, &mut output);
                let expected = if room < image.len() {
                    Err(Refusal::Room)
                } else {
                    Ok(image.len())
                };
                assert_eq!(answer, expected, "piece {k}, room {room}");
            }
        }
    }
}

/// Each field has its largest value, and one more is refused.
#[test]
fn fields_in_range() {
    let extended = |[priority, source, group, destination, function]: [u8; 5]| Fields::Extended {
        priority,
        source,
        group,
        destination,
        function,
    };
    let largest = [3, 63, 3, 63, 31];
    let image = pieces(extended(largest), b"").unwrap().next().unwrap();
    assert_eq!(image[..], *b"\x80\xFF\xFF\xC0\xF8");
    for place in 0..5 {
        let mut over = largest;
        over[place] += 1;
        assert_eq!(
            pieces(extended(over), b"").err(),
            Some(Refusal::Field),
            "{over:?}"
        );
    }
    for (priority, address, side) in [(4, 63, 1), (3, 64, 1), (3, 63, 2), (255, 0, 0)] {
        let over = Fields::Standard {
            priority,
            address,
            side,
        };
        assert_eq!(pieces(over, b"").err(), Some(Refusal::Field), "{over:?}");
    }
    let largest = Fields::Standard {
        priority: 3,
        address: 63,
        side: 1,
    };
    assert_eq!(
        pieces(largest, b"").unwrap().next().unwrap()[..],
        *b"\xFF\xE0"
    );
}

#[test]
fn the_iterator_says_how_many_are_left_and_ends() {
    let bytes = packet(20, 0);
    let mut images = pieces(standard_fields(1), &bytes).unwrap();
    for left in (0..3).rev() {
        assert!(images.next().is_some());
        assert_eq!(images.len(), left);
    }
    assert_eq!(images.next(), None);
    assert_eq!(images.next(), None);
}

#[test]
fn leading_zeros_of_a_serial_are_kept() {
    for format in BOTH {
        for serial in [
            &b"000000000"[..],
            b"0",
            b"",
            b"004127019",
            b"\0\0\0\x2A",
            b"000000000000000000000000000000001",
        ] {
            let mut bench = Bench::new(fields(format));
            assert_eq!(bench.bus, Bus::A);
            for image in pieces(fields(format), serial).unwrap() {
                assert!(bench.receive(&image).is_ok());
            }
            assert_eq!(bench.read(), Ok(serial));
        }
    }
}
