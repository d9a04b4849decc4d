//! The examples of document 01, one by one.
#![cfg(feature = "alloc")]

mod common;

use common::{extended_fields, kept, packet, standard_fields, whole, Bench};
use siljuvatt::{id_of, piece_count, pieces, write_piece};
use siljuvatt::{
    Bus, Fields, Filter, Format, Key, Kind, Master, Refusal, Reply, Row, Silent, Station, Step,
    Store, Watch,
};

#[test]
fn extended_single_of_one_byte() {
    let mut bench = Bench::new(extended_fields(5, 2));
    assert_eq!(bench.receive(b"\x81\x45\x00\xC0\x10\x07"), whole(1));
    assert_eq!(bench.read(), Ok(&[7][..]));
}

#[test]
fn extended_single_with_the_largest_fields_and_no_byte() {
    let fields = Fields::Extended {
        priority: 3,
        source: 63,
        group: 3,
        destination: 63,
        function: 31,
    };
    let mut bench = Bench::new(fields);
    assert_eq!(bench.receive(b"\x80\xFF\xFF\xC0\xF8"), whole(0));
    assert_eq!(bench.read(), Ok(&[][..]));
}

#[test]
fn extended_images_refused() {
    let mut bench = Bench::new(extended_fields(5, 2));
    bench.refuses(b"\x81\x45\x00\xC1\x10\x07", Refusal::Piece);
    bench.refuses(b"\x91\x45\x00\xC0\x10\x07", Refusal::Form);
    bench.refuses(b"\xD1\x45\x00\xC0\x10\x07", Refusal::Form);
    bench.refuses(b"\xC1\x45\x00\xC0\x10\x07", Refusal::Remote);
    bench.refuses(b"\x81\x45\x00\xC0", Refusal::Length);
    bench.refuses(&[0x81; 14], Refusal::Length);
}

/// COUNT in document 01, and sound by request L3 of document 02, which overrules it.
#[test]
fn a_count_of_9_before_eight_data_bytes() {
    let mut bench = Bench::new(extended_fields(5, 2));
    let image = b"\x89\x45\x00\xC0\x10\x01\x02\x03\x04\x05\x06\x07\x08";
    assert_eq!(bench.receive(image), whole(8));
    assert_eq!(bench.read(), Ok(&[1, 2, 3, 4, 5, 6, 7, 8][..]));
}

#[test]
fn standard_single_of_three_bytes() {
    let mut bench = Bench::new(Fields::Standard {
        priority: 2,
        address: 22,
        side: 1,
    });
    assert_eq!(bench.receive(b"\x96\xE3\x01\x02\x03"), whole(3));
    assert_eq!(bench.read(), Ok(&[1, 2, 3][..]));
}

#[test]
fn standard_end_with_number_1() {
    let mut bench = Bench::new(standard_fields(22));
    assert_eq!(
        bench.receive(b"\x96\xA8\x00\x01\x02\x03\x04\x05\x06\x07"),
        kept()
    );
    bench.refuses(b"\x96\xC2\x01\x08", Refusal::Piece);
    assert_eq!(bench.receive(b"\x96\xC3\x01\x08\x09"), whole(9));
    assert_eq!(bench.read(), Ok(&[1, 2, 3, 4, 5, 6, 7, 8, 9][..]));
}

#[test]
fn piece_counts() {
    for (size, count) in [(0, 1), (8, 1), (9, 2), (16, 2), (17, 3), (2048, 256)] {
        assert_eq!(piece_count(Format::Extended, size), Ok(count), "{size}");
    }
    assert_eq!(piece_count(Format::Extended, 2049), Err(Refusal::Size));
    for (size, count) in [(0, 1), (8, 1), (9, 2), (14, 2), (15, 3), (1792, 256)] {
        assert_eq!(piece_count(Format::Standard, size), Ok(count), "{size}");
    }
    assert_eq!(piece_count(Format::Standard, 1793), Err(Refusal::Size));
    assert_eq!(
        piece_count(Format::Standard, usize::MAX),
        Err(Refusal::Size)
    );
}

#[test]
fn byte_3_of_pieces_64_and_255() {
    let bytes = packet(2048, 0);
    let images: Vec<_> = pieces(extended_fields(5, 2), &bytes).unwrap().collect();
    assert_eq!(images.len(), 256);
    assert_eq!(images[64][3], 0x00);
    assert_eq!(images[255][3], 0xBF);
    let mut output = [0; 13];
    assert_eq!(
        write_piece(extended_fields(5, 2), &bytes, 64, &mut output),
        Ok(13)
    );
    assert_eq!(output[..], images[64][..]);
}

#[test]
fn filter_of_groups_1_and_3() {
    let filter = Filter {
        code: 0x00C0,
        mask: 0xFFBF,
    };
    let row = Row([0x00, 0xFF, 0xC0, 0xBF, 0x00, 0xFF, 0xC0, 0xBF]);
    for group in 0..4u8 {
        for source in 0..64u8 {
            for destination in 0..64u8 {
                let image = [0x80, 0x40 | source, group << 6 | destination, 0xC0, 0x10];
                let id = id_of(&image).unwrap();
                let expected = group == 1 || group == 3;
                assert_eq!(filter.accepts(id), expected, "{image:02X?}");
                assert_eq!(row.accepts(id), expected, "{image:02X?}");
            }
        }
    }
}

#[test]
fn command_to_node_22() {
    let mut master = Master::new();
    assert_eq!(master.start(Kind::Command, 22), Ok(Step::Send(Bus::A)));
    assert_eq!(master.timeout(), Ok(Step::Send(Bus::A)));
    assert_eq!(master.timeout(), Ok(Step::Send(Bus::B)));
    assert_eq!(master.reply(Bus::A, 22, 4), Err(Refusal::NotAwaited));
    assert_eq!(master.reply(Bus::B, 22, 4), Ok(Step::Done));
    assert_eq!(master.start(Kind::Command, 22), Ok(Step::Send(Bus::B)));
}

#[test]
fn silence() {
    let neither = Ok(Silent { a: false, b: false });
    let both = Ok(Silent { a: true, b: true });
    assert_eq!(Watch::new(0).check(15_999), neither);
    assert_eq!(Watch::new(0).check(16_000), both);
    assert_eq!(Watch::new(4_294_967_000).check(15_703), neither);
    assert_eq!(Watch::new(4_294_967_000).check(15_704), both);
}

/// The input of the listing, with the keys opened as they are first seen.
#[test]
fn records_of_the_listing() {
    let mut station = Station::new(Format::Extended);
    let mut store = Store::new();
    let keys = [(Bus::A, 1, 5), (Bus::B, 0, 6)];
    for (slot, (bus, priority, source)) in keys.into_iter().enumerate() {
        let fields = Fields::Extended {
            priority,
            source,
            group: 0,
            destination: 0,
            function: 2,
        };
        assert_eq!(station.open(Key { bus, fields }), Ok(slot));
    }
    let records: [(Bus, &[u8], Result<Reply, Refusal>); 4] = [
        (Bus::A, b"\x81\x45\x00\xC0\x10\x07", whole(1)),
        (Bus::B, b"\x88\x06\x00\x40\x1000412701", kept()),
        (Bus::B, b"\x81\x06\x00\x81\x109", whole(9)),
        (Bus::A, b"\xC0\x45\x00\xC0\x10", Err(Refusal::Remote)),
    ];
    for (bus, image, expected) in records {
        assert_eq!(
            station.receive(&mut store, bus, image),
            expected,
            "{image:02X?}"
        );
    }
    assert_eq!(station.read(&store, 0), Ok(&[7][..]));
    assert_eq!(station.read(&store, 1), Ok(&b"004127019"[..]));
}
