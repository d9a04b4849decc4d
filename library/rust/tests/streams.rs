//! Slots, and many streams at once.
#![cfg(feature = "alloc")]

mod common;

use common::{extended_fields, fields, image, packet, split, standard_fields, whole, BOTH, SINGLE};
use siljuvatt::{Bus, Fields, Format, Key, Refusal, Reply, Station, Store};

const SLOTS: u8 = Station::SLOTS as u8;

fn key(source: u8) -> Key {
    Key {
        bus: Bus::A,
        fields: extended_fields(source, 2),
    }
}

fn full_station() -> Station {
    let mut station = Station::new(Format::Extended);
    for source in 0..SLOTS {
        assert_eq!(station.open(key(source)), Ok(usize::from(source)));
    }
    station
}

#[test]
fn opening_takes_the_lowest_closed_slot() {
    let mut station = full_station();
    for (slot, source) in [(11, 20), (3, 21)] {
        assert_eq!(station.close(slot), Ok(()));
        assert_eq!(station.open(key(source)), Ok(slot));
    }
    assert_eq!((station.close(9), station.close(4)), (Ok(()), Ok(())));
    assert_eq!(station.open(key(22)), Ok(4));
    assert_eq!(station.open(key(23)), Ok(9));
}

#[test]
fn opening_is_refused_in_order() {
    let mut station = full_station();
    let before = station.clone();
    let out_of_range = Key {
        bus: Bus::A,
        fields: extended_fields(64, 2),
    };
    let other_format = Key {
        bus: Bus::A,
        fields: standard_fields(22),
    };
    assert_eq!(station.open(out_of_range), Err(Refusal::Field));
    assert_eq!(station.open(other_format), Err(Refusal::Field));
    assert_eq!(station.open(key(3)), Err(Refusal::Taken));
    assert_eq!(station.open(key(60)), Err(Refusal::Full));
    assert_eq!(station, before);
}

#[test]
fn closing_and_reading_are_refused_in_order() {
    let mut station = full_station();
    let store = Store::new();
    for slot in [16, 17, usize::MAX] {
        assert_eq!(station.close(slot), Err(Refusal::Closed));
        assert_eq!(station.read(&store, slot), Err(Refusal::Closed));
    }
    assert_eq!(station.close(5), Ok(()));
    assert_eq!(station.close(5), Err(Refusal::Closed));
    assert_eq!(station.read(&store, 5), Err(Refusal::Closed));
    assert_eq!(station.read(&store, 6), Err(Refusal::NoPacket));
    for size in [0, Store::SIZE - 1, Store::SIZE + 1] {
        assert_eq!(station.read(&vec![0; size], 99), Err(Refusal::Store));
    }
}

#[test]
fn store_of_another_size_is_refused_before_the_image() {
    let mut station = full_station();
    let before = station.clone();
    for size in [0, Store::SIZE - 1, Store::SIZE + 1] {
        assert_eq!(
            station.receive(&mut vec![0; size], Bus::A, b""),
            Err(Refusal::Store)
        );
    }
    assert_eq!(station, before);
}

/// The packet is the part of the store itself, and other slots' areas are not written to.
#[test]
fn each_slot_owns_its_part_of_the_store() {
    let mut station = full_station();
    let mut store = Store::new();
    for source in 0..SLOTS {
        let before = store.clone();
        for image in split(key(source).fields, &packet(2048, source.into())) {
            assert!(station.receive(&mut store, Bus::A, &image).is_ok());
        }
        let slot = usize::from(source);
        let area = Store::AREA_SIZE * slot..Store::AREA_SIZE * (slot + 1);
        assert_eq!(
            station.read(&store, slot).unwrap().as_ptr_range(),
            store[area.clone()].as_ptr_range()
        );
        assert_eq!(store[..area.start], before[..area.start]);
        assert_eq!(store[area.end..], before[area.end..]);
    }
    for slot in 0..usize::from(SLOTS) {
        assert_eq!(station.read(&store, slot), Ok(&packet(2048, slot)[..]));
    }
}

#[test]
fn closing_changes_no_byte_of_the_store_and_a_new_stream_is_idle() {
    let mut station = full_station();
    let mut store = Store::new();
    let single = image(key(7).fields, SINGLE, 0, b"007");
    assert_eq!(station.receive(&mut store, Bus::A, &single), whole(3));
    assert_eq!(station.close(7), Ok(()));
    assert_eq!(
        station.receive(&mut store, Bus::A, &single),
        Ok(Reply::Filtered)
    );
    assert_eq!(store[7 * 2048..7 * 2048 + 3], *b"007");
    assert_eq!(station.open(key(7)), Ok(7));
    assert_eq!(station.read(&store, 7), Err(Refusal::NoPacket));
}

/// Buses, and functions of one node, are streams of their own even while they collect at the same time.
#[test]
fn buses_and_functions_are_kept_apart() {
    let keys = [
        Key {
            bus: Bus::A,
            fields: extended_fields(5, 2),
        },
        Key {
            bus: Bus::B,
            fields: extended_fields(5, 2),
        },
        Key {
            bus: Bus::A,
            fields: extended_fields(5, 4),
        },
    ];
    let mut station = Station::new(Format::Extended);
    let mut store = Store::new();
    for (slot, key) in keys.iter().enumerate() {
        assert_eq!(station.open(*key), Ok(slot));
    }
    let sent: Vec<_> = (0..3).map(|i| packet(100, i)).collect();
    let mut images: Vec<_> = (0..3)
        .map(|i| split(keys[i].fields, &sent[i]).into_iter())
        .collect();
    for turn in 0..images[0].len() * 3 {
        let which = turn % 3;
        let image = images[which].next().unwrap();
        assert!(station.receive(&mut store, keys[which].bus, &image).is_ok());
    }
    for (slot, bytes) in sent.iter().enumerate() {
        assert_eq!(station.read(&store, slot), Ok(&bytes[..]));
    }
}

/// Two boards, five frames each: all 252 orders in which they can lie between one another.
#[test]
fn two_boards_in_every_order() {
    for format in BOTH {
        let boards = two_boards(format);
        let mut orders = 0;
        for order in 0u32..1 << 10 {
            if order.count_ones() == 5 {
                interleave(format, &boards, order);
                orders += 1;
            }
        }
        assert_eq!(orders, 252);
    }
}

struct Board {
    key: Key,
    packet: Vec<u8>,
    images: Vec<Vec<u8>>,
}

fn two_boards(format: Format) -> [Board; 2] {
    let board = |bus, fields: Fields, seed| {
        let packet = packet(33, seed);
        let images = split(fields, &packet);
        assert_eq!(images.len(), 5);
        Board {
            key: Key { bus, fields },
            packet,
            images,
        }
    };
    let other = match format {
        Format::Extended => extended_fields(6, 2),
        Format::Standard => standard_fields(23),
    };
    [board(Bus::A, fields(format), 1), board(Bus::A, other, 2)]
}

/// Bit i of the order says which board sends frame i. Each answer is what the board alone would get.
fn interleave(format: Format, boards: &[Board; 2], order: u32) {
    let mut station = Station::new(format);
    let mut store = Store::new();
    for (slot, board) in boards.iter().enumerate() {
        assert_eq!(station.open(board.key), Ok(slot));
    }
    let mut sent = [0, 0];
    for i in 0..10 {
        let which = (order >> i & 1) as usize;
        let board = &boards[which];
        let reply = station.receive(&mut store, board.key.bus, &board.images[sent[which]]);
        sent[which] += 1;
        let expected = if sent[which] == 5 {
            whole(33)
        } else {
            common::kept()
        };
        assert_eq!(reply, expected, "order {order:b}, frame {i}");
    }
    for (slot, board) in boards.iter().enumerate() {
        assert_eq!(
            station.read(&store, slot),
            Ok(&board.packet[..]),
            "order {order:b}"
        );
    }
}

/// A board that loses frames, and frames that are none, do not touch the other board.
#[test]
fn damage_stays_with_its_stream() {
    let boards = two_boards(Format::Extended);
    let mut station = Station::new(Format::Extended);
    let mut store = Store::new();
    for (slot, board) in boards.iter().enumerate() {
        assert_eq!(station.open(board.key), Ok(slot));
    }
    let (good, bad) = (&boards[0].images, &boards[1].images);
    let mut receive = |image: &[u8]| station.receive(&mut store, Bus::A, image);
    assert_eq!(receive(&good[0]), common::kept());
    assert_eq!(receive(&bad[0]), common::kept());
    assert_eq!(receive(&good[1]), common::kept());
    assert_eq!(receive(&bad[2]), Err(Refusal::Step));
    assert_eq!(receive(&good[2]), common::kept());
    assert_eq!(receive(&bad[3]), Err(Refusal::Orphan));
    assert_eq!(receive(b"\x00"), Err(Refusal::Length));
    assert_eq!(receive(&good[3]), common::kept());
    assert_eq!(receive(&good[4]), whole(33));
    assert_eq!(station.read(&store, 0), Ok(&boards[0].packet[..]));
    assert_eq!(station.read(&store, 1), Err(Refusal::NoPacket));
}

/// A station may be stored between two frames and made again from its bytes.
#[test]
fn bytes_carry_a_station_over() {
    let bytes = packet(50, 3);
    let mut station = full_station();
    let mut store = Store::new();
    for image in split(key(9).fields, &bytes) {
        station = Station::from_bytes(station.as_bytes()).unwrap();
        assert!(station.receive(&mut store, Bus::A, &image).is_ok());
    }
    assert_eq!(station.read(&store, 9), Ok(&bytes[..]));
}

#[test]
fn bytes_that_are_no_sound_station_are_refused() {
    let sound = *full_station().as_bytes();
    let refused = |edit: &dyn Fn(&mut [u8; Station::SIZE])| {
        let mut bytes = sound;
        edit(&mut bytes);
        assert_eq!(
            Station::from_bytes(&bytes).err(),
            Some(Refusal::State),
            "{bytes:02X?}"
        );
    };
    assert!(Station::from_bytes(&sound).is_ok());
    assert_eq!(Station::from_bytes(&sound[1..]).err(), Some(Refusal::State));
    assert_eq!(Station::from_bytes(&[]).err(), Some(Refusal::State));
    assert_eq!(
        Station::from_bytes(&[0; Station::SIZE]).err(),
        Some(Refusal::State)
    );
    assert_eq!(
        Station::from_bytes(&[0; Station::SIZE + 1]).err(),
        Some(Refusal::State)
    );
    refused(&|bytes| bytes[128] = 2); // a format that is none
    assert_eq!(sound[129], Station::LAYOUT);
    for layout in [0, 2, 255] {
        refused(&|bytes| bytes[129] = layout); // another layout
    }
    refused(&|bytes| bytes[1] = 64); // a source out of range
    refused(&|bytes| bytes.copy_within(0..8, 8)); // one key in two slots
    refused(&|bytes| bytes[6] = 4); // a progress that is none
    refused(&|bytes| bytes[4..7].copy_from_slice(&[9, 0, 2])); // 9 bytes held in extended
    refused(&|bytes| bytes[4..7].copy_from_slice(&[1, 8, 3])); // a packet of 2,049 bytes
}

/// Streams on two threads: a station is a value like any other.
#[test]
fn stations_go_to_other_threads() {
    let work = |seed: usize| {
        let mut station = full_station();
        let mut store = Store::new();
        for image in split(key(1).fields, &packet(2000, seed)) {
            assert!(station.receive(&mut store, Bus::A, &image).is_ok());
        }
        (station, store)
    };
    let threads: Vec<_> = (0..2)
        .map(|seed| std::thread::spawn(move || work(seed)))
        .collect();
    for (seed, thread) in threads.into_iter().enumerate() {
        let (station, store) = thread.join().unwrap();
        assert_eq!(station.read(&store, 1), Ok(&packet(2000, seed)[..]));
    }
}
