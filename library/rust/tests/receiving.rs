//! Document 01's rules on receiving, one by one, in both formats.
#![cfg(feature = "alloc")]

mod common;

use common::{
    extended_fields, fields, image, kept, packet, piece_size, standard_fields, whole, Bench,
};
use common::{BOTH, END, MIDDLE, SINGLE, START};
use siljuvatt::{Bus, Fields, Format, Key, Refusal, Reply, Station, Store};

const BROKE: Result<Reply, Refusal> = Ok(Reply::Kept { broke: true });

#[test]
fn single_goes_to_the_head_of_the_area() {
    for format in BOTH {
        let mut bench = Bench::new(fields(format));
        assert_eq!(bench.hear(SINGLE, 0, b"00000007"), whole(8));
        assert_eq!(bench.read(), Ok(&b"00000007"[..]));
        assert_eq!(bench.hear(SINGLE, 0, b"12"), whole(2));
        assert_eq!(bench.read(), Ok(&b"12"[..]));
        assert_eq!(
            bench.store[..9],
            *b"12000007\0",
            "bytes that are not written stay"
        );
    }
}

#[test]
fn start_middle_end_follow_one_another() {
    for format in BOTH {
        let piece = piece_size(format);
        let bytes = packet(2 * piece + 3, 1);
        let mut bench = Bench::new(fields(format));
        assert_eq!(bench.hear(START, 0, &bytes[..piece]), kept());
        assert_eq!(bench.read(), Err(Refusal::NoPacket));
        assert_eq!(bench.hear(MIDDLE, 1, &bytes[piece..2 * piece]), kept());
        assert_eq!(
            bench.hear(END, 2, &bytes[2 * piece..]),
            whole(2 * piece + 3)
        );
        assert_eq!(bench.read(), Ok(&bytes[..]));
    }
}

#[test]
fn start_or_single_while_collecting_breaks_the_older_packet() {
    for format in BOTH {
        let piece = piece_size(format);
        let mut bench = Bench::new(fields(format));
        bench.collect(3 * piece);
        assert_eq!(bench.hear(START, 0, &vec![9; piece]), BROKE);
        assert_eq!(
            bench.hear(END, 1, &[8, 7]),
            whole(piece + 2),
            "the new packet is whole"
        );
        assert_eq!(
            bench.read().map(|packet| packet[piece..].to_vec()),
            Ok(vec![8, 7])
        );
        bench.collect(piece);
        assert_eq!(
            bench.hear(SINGLE, 0, b"01"),
            Ok(Reply::Packet {
                length: 2,
                broke: true
            })
        );
        assert_eq!(
            bench.hear(START, 0, &vec![9; piece]),
            kept(),
            "a whole packet is not broken"
        );
    }
}

#[test]
fn orphan_changes_nothing_and_keeps_a_done_packet() {
    for format in BOTH {
        let piece = piece_size(format);
        let (middle, end) = (vec![1; piece], [2, 3]);
        let mut bench = Bench::new(fields(format));
        bench.refuses(&image(fields(format), MIDDLE, 1, &middle), Refusal::Orphan);
        bench.refuses(&image(fields(format), END, 1, &end), Refusal::Orphan);
        assert_eq!(bench.hear(SINGLE, 0, b"0042"), whole(4));
        bench.refuses(&image(fields(format), MIDDLE, 1, &middle), Refusal::Orphan);
        bench.refuses(&image(fields(format), END, 1, &end), Refusal::Orphan);
        assert_eq!(bench.read(), Ok(&b"0042"[..]));
    }
}

#[test]
fn step_makes_the_stream_idle_and_writes_no_byte() {
    for format in BOTH {
        let piece = piece_size(format);
        for (flag, number) in [(MIDDLE, 1), (MIDDLE, 3), (END, 1), (END, 63)] {
            let mut bench = Bench::new(fields(format));
            bench.collect(2 * piece);
            let before = bench.store.clone();
            assert_eq!(
                bench.hear(flag, number, &vec![0xEE; piece]),
                Err(Refusal::Step)
            );
            assert!(bench.store == before);
            assert_eq!(bench.read(), Err(Refusal::NoPacket));
            assert_eq!(
                bench.hear(MIDDLE, 2, &vec![0xEE; piece]),
                Err(Refusal::Orphan),
                "idle"
            );
            assert_eq!(
                bench.hear(START, 0, &vec![0xEE; piece]),
                kept(),
                "idle, so nothing breaks"
            );
        }
    }
}

#[test]
fn long_at_2048_makes_the_stream_idle() {
    for flag in [MIDDLE, END] {
        let mut bench = Bench::new(extended_fields(5, 2));
        bench.collect(2048);
        let before = bench.store.clone();
        assert_eq!(bench.hear(flag, 0, &[0xEE; 8]), Err(Refusal::Long));
        assert!(bench.store == before);
        assert_eq!(bench.hear(flag, 0, &[0xEE; 8]), Err(Refusal::Orphan));
    }
}

#[test]
fn long_stands_behind_step() {
    let mut bench = Bench::new(extended_fields(5, 2));
    bench.collect(2048);
    assert_eq!(
        bench.hear(END, 1, &[1]),
        Err(Refusal::Step),
        "0 is awaited: 256 modulo 64"
    );
    bench.collect(2040);
    assert_eq!(bench.hear(END, 63, &[1; 8]), whole(2048));
    bench.collect(2048);
    assert_eq!(
        bench.hear(END, 0, &[1]),
        Err(Refusal::Long),
        "one byte is too many"
    );
}

#[test]
fn extended_number_is_taken_modulo_64() {
    let mut bench = Bench::new(extended_fields(5, 2));
    bench.collect(64 * 8);
    assert_eq!(bench.hear(END, 0, b"x"), whole(513));
    assert_eq!(bench.read(), Ok(&[&packet(512, 0)[..], b"x"].concat()[..]));
}

#[test]
fn standard_number_runs_to_255() {
    let mut bench = Bench::new(standard_fields(22));
    bench.collect(64 * 7);
    assert_eq!(
        bench.hear(MIDDLE, 0, &[1; 7]),
        Err(Refusal::Piece),
        "no middle has number 0"
    );
    assert_eq!(bench.hear(MIDDLE, 64, &[1; 7]), kept());
    let mut bench = Bench::new(standard_fields(22));
    bench.collect(255 * 7);
    assert_eq!(
        bench.hear(MIDDLE, 255, &[1; 7]),
        Err(Refusal::Piece),
        "no middle has number 255"
    );
    assert_eq!(bench.hear(END, 255, &[1; 7]), whole(1792));
}

#[test]
fn key_is_bus_and_every_field() {
    let base = [1, 5, 1, 7, 2];
    let mut station = Station::new(Format::Extended);
    let mut store = Store::new();
    let key = Key {
        bus: Bus::A,
        fields: of_bytes(base),
    };
    assert_eq!(station.open(key), Ok(0));
    assert_eq!(
        station.receive(&mut store, Bus::B, &image(of_bytes(base), SINGLE, 0, b"1")),
        Ok(Reply::Filtered)
    );
    for place in 0..5 {
        let mut other = base;
        other[place] ^= 1;
        let frame = image(of_bytes(other), SINGLE, 0, b"1");
        assert_eq!(
            station.receive(&mut store, Bus::A, &frame),
            Ok(Reply::Filtered),
            "{other:?}"
        );
    }
    assert_eq!(station.read(&store, 0), Err(Refusal::NoPacket));
    assert_eq!(
        station.receive(&mut store, Bus::A, &image(of_bytes(base), SINGLE, 0, b"1")),
        whole(1)
    );
}

fn of_bytes([priority, source, group, destination, function]: [u8; 5]) -> Fields {
    Fields::Extended {
        priority,
        source,
        group,
        destination,
        function,
    }
}

#[test]
fn standard_key_is_bus_and_every_field() {
    let key = Key {
        bus: Bus::B,
        fields: standard_fields(22),
    };
    let mut station = Station::new(Format::Standard);
    let mut store = Store::new();
    assert_eq!(station.open(key), Ok(0));
    for (priority, address, side) in [(3, 22, 1), (2, 23, 1), (2, 22, 0)] {
        let other = image(
            Fields::Standard {
                priority,
                address,
                side,
            },
            SINGLE,
            0,
            b"1",
        );
        assert_eq!(
            station.receive(&mut store, Bus::B, &other),
            Ok(Reply::Filtered)
        );
    }
    let own = image(key.fields, SINGLE, 0, b"1");
    assert_eq!(
        station.receive(&mut store, Bus::A, &own),
        Ok(Reply::Filtered)
    );
    assert_eq!(station.receive(&mut store, Bus::B, &own), whole(1));
}

#[test]
fn filtered_changes_nothing() {
    let mut station = Station::new(Format::Extended);
    let mut store = Store::new();
    let before = (station.clone(), store.clone());
    assert_eq!(
        station.receive(&mut store, Bus::A, b"\x81\x45\x00\xC0\x10\x07"),
        Ok(Reply::Filtered)
    );
    assert!(before == (station, store));
}

#[test]
fn piece_rules_of_extended() {
    let own = extended_fields(5, 2);
    let mut bench = Bench::new(own);
    bench.collect(8);
    for (flag, number, size) in [
        (SINGLE, 1, 3),
        (START, 0, 7),
        (START, 1, 8),
        (MIDDLE, 1, 7),
        (MIDDLE, 1, 0),
        (END, 1, 0),
    ] {
        bench.refuses(&image(own, flag, number, &packet(size, 2)), Refusal::Piece);
    }
    assert_eq!(
        bench.hear(END, 1, &[1]),
        whole(9),
        "the packet is not touched by what was refused"
    );
}

#[test]
fn piece_rules_of_standard() {
    let own = standard_fields(22);
    let mut bench = Bench::new(own);
    bench.collect(14);
    for (flag, number, size) in [
        (START, 0, 6),
        (START, 1, 7),
        (MIDDLE, 2, 6),
        (MIDDLE, 0, 7),
        (END, 0, 2),
        (END, 2, 0),
    ] {
        bench.refuses(&image(own, flag, number, &packet(size, 2)), Refusal::Piece);
    }
    bench.refuses(b"\x96\xC0", Refusal::Piece); // an end without a number
    assert_eq!(
        bench.hear(END, 2, &[1]),
        whole(15),
        "the packet is not touched by what was refused"
    );
}

#[test]
fn standard_images_refused_in_their_order() {
    let mut bench = Bench::new(standard_fields(22));
    bench.refuses(b"", Refusal::Length);
    bench.refuses(b"\x96", Refusal::Length);
    bench.refuses(&[0x96; 11], Refusal::Length);
    bench.refuses(b"\x96\xFF", Refusal::Remote); // RTR before a count of 15
    bench.refuses(b"\x96\xEF", Refusal::Count);
    bench.refuses(b"\x96\xE9\x01\x02\x03\x04\x05\x06\x07", Refusal::Count);
    bench.refuses(b"\x96\xE2\x01", Refusal::Count);
    bench.refuses(b"\x96\xF0\x00", Refusal::Remote); // too long too
    bench.refuses(b"\x96\xA0\x00", Refusal::Surplus); // a start of count 0 too
    bench.refuses(b"\x96\xA1\x00", Refusal::Piece);
}

#[test]
fn extended_images_refused_in_their_order() {
    let mut bench = Bench::new(extended_fields(5, 2));
    bench.refuses(b"\x7F\x00\x00\x00", Refusal::Length); // the length before any bit
    bench.refuses(b"\x7F\x45\x00\xC1\x17", Refusal::Form); // the first bit
    bench.refuses(b"\xEF\x45\x00\xC1\x10", Refusal::Form); // RTR is 1 too
    bench.refuses(b"\x80\x45\x00\xC0\x11", Refusal::Form); // the last three bits of byte 4
    bench.refuses(b"\xCF\x45\x00\xC1\x10", Refusal::Remote); // a count of 15 too
    bench.refuses(b"\x8F\x45\x00\xC1\x10", Refusal::Count); // the number of a single is 1 too
    bench.refuses(b"\x82\x45\x00\xC1\x10\x01", Refusal::Count);
    bench.refuses(b"\xC0\x45\x00\xC1\x10\x01", Refusal::Remote); // too long too
    bench.refuses(b"\x80\x45\x00\xC1\x10\x01", Refusal::Surplus);
    bench.refuses(b"\x81\x45\x00\xC1\x10\x01", Refusal::Piece);
}
