//! Tallies, by request L5 of document 02, in both formats: each image raises that of its answer, and none passes its
//! largest value.
#![cfg(feature = "alloc")]

mod common;

use common::{assert_raised, extended_fields, fields, image, packet, piece_size, standard_fields};
use common::{whole, Bench, BOTH, END, SINGLE, START, TALLIES_AT};
use siljuvatt::{Bus, Fields, Format, Key, Refusal, Reply, Station, Store};

/// The station with a tally set by hand.
fn with_tally(station: &Station, index: usize, value: u64) -> Station {
    let mut bytes = *station.as_bytes();
    bytes[TALLIES_AT + 8 * index..][..8].copy_from_slice(&value.to_le_bytes());
    Station::from_bytes(&bytes).unwrap()
}

fn values(station: &Station) -> Vec<u64> {
    let tallies = station.tallies().unwrap();
    tallies.named().map(|(_, tally)| tally).collect()
}

/// An image for each answer and each refusal of a format, whether its stream collects before it, and its tally's name.
fn images(format: Format) -> Vec<(Vec<u8>, bool, &'static str)> {
    let own = fields(format);
    let other = match format {
        Format::Extended => extended_fields(6, 2),
        Format::Standard => standard_fields(23),
    };
    let piece = packet(piece_size(format), 1);
    let single = image(own, SINGLE, 0, b"7");
    let start = image(own, START, 0, &piece);
    // The byte with the count in its low half has RTR too.
    let (at, rtr) = match format {
        Format::Extended => (0, 0x40),
        Format::Standard => (1, 0x10),
    };
    let edited = |xor: u8| {
        let mut image = single.clone();
        image[at] ^= xor;
        image
    };
    let mut images = vec![
        (single.clone(), false, "packet"),
        (single.clone(), true, "packet broke"),
        (start.clone(), false, "kept"),
        (start.clone(), true, "kept broke"),
        (image(other, SINGLE, 0, b"7"), false, "filtered"),
        (single[..1].to_vec(), false, "refused 1"),
        (edited(rtr), false, "refused 3"),
        (edited(1 ^ 2), false, "refused 4"),
        (image(own, START, 0, b"7"), false, "refused 5"),
        (image(own, END, 2, &piece), false, "refused 6"),
        (image(own, END, 2, &piece), true, "refused 7"),
        (edited(1), false, "refused 25"),
    ];
    if format == Format::Extended {
        images.push((edited(0x10), false, "refused 2"));
    }
    images
}

/// A stream that awaits an image: idle, or after a start.
fn awaiting(format: Format, collecting: bool) -> Bench {
    let mut bench = Bench::new(fields(format));
    if collecting {
        bench.collect(piece_size(format));
    }
    bench
}

/// The name of the tally of an answer.
fn name_of(answer: Result<Reply, Refusal>) -> String {
    match answer {
        Ok(Reply::Packet { broke: false, .. }) => "packet".into(),
        Ok(Reply::Packet { .. }) => "packet broke".into(),
        Ok(Reply::Kept { broke: false }) => "kept".into(),
        Ok(Reply::Kept { .. }) => "kept broke".into(),
        Ok(Reply::Filtered) => "filtered".into(),
        Ok(other) => panic!("{other:?}"),
        Err(refusal) => format!("refused {}", refusal.number()),
    }
}

/// All fourteen, in the report's order.
const NAMES: [&str; 14] = [
    "packet",
    "packet broke",
    "kept",
    "kept broke",
    "filtered",
    "refused 1",
    "refused 2",
    "refused 3",
    "refused 4",
    "refused 5",
    "refused 6",
    "refused 7",
    "refused 8",
    "refused 25",
];

#[test]
fn a_new_station_has_all_0() {
    for format in BOTH {
        let tallies = Station::new(format).tallies().unwrap();
        assert!(tallies.named().eq(NAMES.map(|name| (name, 0))));
        assert_eq!(tallies.total(), 0);
    }
}

#[test]
fn each_image_raises_the_tally_of_its_answer() {
    for format in BOTH {
        for (image, collecting, name) in images(format) {
            let mut bench = awaiting(format, collecting);
            let before = values(&bench.station);
            assert_eq!(name_of(bench.receive(&image)), name, "{image:02X?}");
            for ((index, before), after) in before.iter().enumerate().zip(values(&bench.station)) {
                assert_eq!(after, before + u64::from(NAMES[index] == name), "{name}");
            }
        }
    }
    let mut bench = Bench::new(extended_fields(5, 2));
    bench.collect(2048);
    assert_eq!(bench.hear(END, 0, b"7"), Err(Refusal::Long));
    let tallies = bench.station.tallies().unwrap();
    assert_eq!(
        (tallies.kept, tallies.refused_8, tallies.total()),
        (256, 1, 257)
    );
}

/// Up to the largest value; then every image is refused, and nothing changes.
#[test]
fn a_tally_stops_at_its_largest_value() {
    for format in BOTH {
        for (image, collecting, name) in images(format) {
            let own = NAMES.iter().position(|&one| one == name).unwrap();
            for full in 0..NAMES.len() {
                let mut bench = awaiting(format, collecting);
                bench.station = with_tally(&bench.station, full, u64::MAX - 1);
                assert_eq!(name_of(bench.receive(&image)), name);
                let expected = u64::MAX - u64::from(full != own);
                assert_eq!(values(&bench.station)[full], expected, "{name}");

                bench.station = with_tally(&bench.station, full, u64::MAX);
                let before = (bench.station.clone(), bench.store.clone());
                assert_eq!(bench.receive(&image), Err(Refusal::Tally), "{name}");
                assert_eq!(bench.receive(b""), Err(Refusal::Tally));
                assert!(before == (bench.station, bench.store), "{name}");
            }
        }
    }
}

#[test]
fn the_store_is_refused_before_a_full_tally() {
    for format in BOTH {
        let mut station = with_tally(&Station::new(format), 13, u64::MAX);
        let before = station.clone();
        let short = &mut vec![0; Store::SIZE - 1];
        assert_eq!(station.receive(short, Bus::A, b""), Err(Refusal::Store));
        let store = &mut Store::new();
        assert_eq!(station.receive(store, Bus::A, b""), Err(Refusal::Tally));
        assert_eq!(station, before);
    }
}

/// No other call looks at a tally or moves one.
#[test]
fn other_calls_do_without_tallies() {
    for format in BOTH {
        let mut bench = Bench::new(fields(format));
        assert_eq!(bench.hear(SINGLE, 0, b"007"), whole(3));
        for index in 0..NAMES.len() {
            bench.station = with_tally(&bench.station, index, u64::MAX - index as u64);
        }
        let before = values(&bench.station);
        let key = Key {
            bus: Bus::B,
            fields: fields(format),
        };
        assert_eq!(bench.station.open(key), Ok(1));
        assert_eq!(bench.station.open(key), Err(Refusal::Taken));
        assert_eq!(bench.read(), Ok(&b"007"[..]));
        assert_eq!(bench.station.close(1), Ok(()));
        assert_eq!(bench.station.close(1), Err(Refusal::Closed));
        assert_eq!(values(&bench.station), before);
    }
}

/// Frames for a stream and damage beside it: the total is how many images were judged.
#[test]
fn the_total_is_the_number_of_images_judged() {
    for format in BOTH {
        let mut bench = Bench::new(fields(format));
        let mut judged = 0;
        for size in [0, 9, 40, 200] {
            for image in common::split(fields(format), &packet(size, size)) {
                assert!(bench.receive(&image).is_ok());
                bench.refuses(&image[..1], Refusal::Length);
                assert_eq!(
                    bench.station.receive(&mut [], bench.bus, &image),
                    Err(Refusal::Store)
                );
                judged += 2;
            }
        }
        assert_eq!(bench.station.tallies().unwrap().total(), judged);
    }
}

/// A station of layout 1 in the midst of a packet, carried over as `Station::from_bytes` says.
#[test]
fn a_station_without_tallies_is_carried_over() {
    let own = Fields::Extended {
        priority: 1,
        source: 5,
        group: 0,
        destination: 0,
        function: 2,
    };
    let mut bench = Bench::new(own);
    bench.collect(8);
    let mut old = bench.station.as_bytes()[..TALLIES_AT].to_vec();
    old[129] = 1;
    let mut bytes = [0; Station::SIZE];
    bytes[..TALLIES_AT].copy_from_slice(&old);
    assert_eq!(Station::from_bytes(&bytes), Err(Refusal::State));
    bytes[129] = Station::LAYOUT;
    bench.station = Station::from_bytes(&bytes).unwrap();
    let before = bench.station.clone();
    assert_eq!(values(&before), [0; 14]);
    bench.refuses(b"\x80", Refusal::Length);
    assert_raised(&before, &bench.station, "refused 1");
    assert_eq!(bench.hear(END, 1, b"7"), whole(9));
}
