//! The calls as a C program would make them.

use super::*;
use crate::station::STORE_SIZE;

const STATE: u32 = 0x8000_0015;
const STORE: u32 = 0x8000_000D;
const FIELD: u32 = 0x8000_0009;
const LENGTH: u32 = 0x8000_0001;
const COUNT: u32 = 0x8000_0004;
const SURPLUS: u32 = 0x8000_0019;
const CLOSED: u32 = 0x8000_0010;
const NOPACKET: u32 = 0x8000_0011;

fn new_station(format: u8) -> Vec<u8> {
    let mut station = vec![0xFF; STATION_SIZE];
    assert_eq!(station_new(&mut station, format), 0);
    station
}

#[test]
fn a_new_station_is_all_0_but_for_format_and_layout() {
    for format in [0, 1] {
        assert_eq!(new_station(format)[..128], [0; 128]);
        assert_eq!(new_station(format)[128..], [format, 1]);
    }
    let mut short = [7; 129];
    assert_eq!(station_new(&mut short, 9), STATE);
    assert_eq!(short, [7; 129]);
    let mut bytes = [7; 130];
    assert_eq!(station_new(&mut bytes, 2), FIELD);
    assert_eq!(bytes, [7; 130]);
}

#[test]
fn opening_closing_receiving_reading() {
    let mut station = new_station(0);
    let mut store = vec![0xAA; STORE_SIZE];
    assert_eq!(open(&mut station, 1, &[0, 6, 0, 0, 2]), 0);
    assert_eq!(open(&mut station, 0, &[1, 5, 0, 0, 2]), 1);
    assert_eq!(station[..8], [0x88, 6, 0, 0, 0, 0, 1, 0]);
    assert_eq!(station[8..16], [0x09, 5, 0, 0, 0, 0, 1, 0]);
    let image = [0x81, 0x45, 0, 0xC0, 0x10, 7];
    assert_eq!(receive(&mut station, &mut store, 0, &image), 0x0004_0001);
    assert_eq!(station[8..16], [0x09, 5, 0, 0, 1, 0, 3, 0]);
    let mut start = 9;
    assert_eq!(read(&station, &store, 0, &mut start), NOPACKET);
    assert_eq!(start, 9);
    assert_eq!(read(&station, &store, 1, &mut start), 1);
    assert_eq!(start, 2048);
    assert_eq!(store[2048..2050], [7, 0xAA]);
    assert_eq!(close(&mut station, 1), 1);
    assert_eq!(station[8..16], [0; 8]);
    assert_eq!(read(&station, &store, 1, &mut start), CLOSED);
    assert_eq!(receive(&mut station, &mut store, 0, &image), 0x0006_0000);
}

#[test]
fn a_code_over_8_is_received_as_8() {
    let images: [&[u8]; 2] = [
        &[0x8C, 0x45, 0, 0xC0, 0x10, 1, 2, 3, 4, 5, 6, 7, 8],
        &[0x45, 0x6C, 1, 2, 3, 4, 5, 6, 7, 8],
    ];
    let fields: [&[u8]; 2] = [&[1, 5, 0, 0, 2], &[1, 5, 0]];
    for format in [0, 1] {
        let (image, fields) = (images[format], fields[format]);
        let mut station = new_station(format as u8);
        let mut store = vec![0xAA; STORE_SIZE];
        assert_eq!(open(&mut station, 0, fields), 0);
        let idle = station.clone();
        let short = &image[..image.len() - 1];
        assert_eq!(receive(&mut station, &mut store, 0, short), COUNT);
        // With a code of 7 in the place of 12 the image is too long.
        let mut long = image.to_vec();
        long[format] ^= 0x0C ^ 0x07;
        assert_eq!(receive(&mut station, &mut store, 0, &long), SURPLUS);
        assert_eq!((&station, store[0]), (&idle, 0xAA));
        assert_eq!(receive(&mut station, &mut store, 0, image), 0x0004_0008);
        assert_eq!(store[..9], [1, 2, 3, 4, 5, 6, 7, 8, 0xAA]);
    }
}

#[test]
fn refusals_of_a_station_come_in_order() {
    let mut station = new_station(1);
    let sound = station.clone();
    let mut store = vec![0; STORE_SIZE + 1];
    let mut start = 9;
    assert_eq!(receive(&mut station, &mut store, 2, &[]), STORE);
    assert_eq!(read(&station, &store, 16, &mut start), STORE);
    store.pop();
    assert_eq!(receive(&mut station, &mut store, 2, &[]), FIELD);
    assert_eq!(receive(&mut station, &mut store, 1, &[]), LENGTH);
    assert_eq!(read(&station, &store, usize::MAX, &mut start), CLOSED);
    assert_eq!(open(&mut station, 0, &[0, 0, 0, 0, 0]), FIELD);
    assert_eq!(open(&mut station, 0, &[]), FIELD);
    assert_eq!(station, sound);
    station[0] = 1;
    store.push(0);
    assert_eq!(receive(&mut station, &mut store, 2, &[]), STATE);
    assert_eq!(open(&mut station, 2, &[]), STATE);
    assert_eq!(close(&mut station, 99), STATE);
    assert_eq!(read(&station, &store, 99, &mut start), STATE);
    station.clone_from(&sound);
    station[STATION_SIZE - 1] = 2;
    assert_eq!(close(&mut station, 99), STATE);
    assert_eq!(start, 9);
}

#[test]
fn the_same_key_twice_is_no_station() {
    let mut station = new_station(1);
    open(&mut station, 0, &[0, 1, 0]);
    station.copy_within(..8, 120);
    let before = station.clone();
    let mut store = vec![0; STORE_SIZE];
    assert_eq!(receive(&mut station, &mut store, 0, &[0, 0x60]), STATE);
    assert_eq!(station, before);
}

#[test]
fn a_lost_place_is_written_to_the_record() {
    let mut station = new_station(0);
    let mut store = vec![0; STORE_SIZE];
    open(&mut station, 0, &[0; 5]);
    let start = [0x88, 0, 0, 0x40, 0, 1, 2, 3, 4, 5, 6, 7, 8];
    assert_eq!(receive(&mut station, &mut store, 0, &start), 0x0005_0000);
    assert_eq!(station[4..8], [8, 0, 2, 0]);
    let end = [0x81, 0, 0, 0x82, 0, 9];
    assert_eq!(receive(&mut station, &mut store, 0, &end), 0x8000_0007);
    assert_eq!(station[4..8], [0, 0, 1, 0]);
}

#[test]
fn pieces() {
    assert_eq!(piece_count(0, 2048), 256);
    assert_eq!(piece_count(1, 1793), 0x8000_000A);
    assert_eq!(piece_count(2, 0), FIELD);
    let mut output = [0xEE; 6];
    assert_eq!(write_piece(1, &[2, 22, 1], &[7, 8, 9], 0, &mut output), 5);
    assert_eq!(output, [0x96, 0xE3, 7, 8, 9, 0xEE]);
    assert_eq!(write_piece(0, &[2, 22, 1], &[7], 0, &mut output), FIELD);
    assert_eq!(write_piece(2, &[2, 22, 1], &[7], 0, &mut output), FIELD);
    assert_eq!(write_piece(1, &[2, 22, 2], &[7], 0, &mut output), FIELD);
}

#[test]
fn filters_and_rows() {
    assert!(filter_accepts(0x00C0, 0xFFBF, 0x1240));
    assert!(!filter_accepts(0x00C0, 0xFFBF, 0x1280));
    let row = [0x00, 0xC0, 0x05, 0x00, 0x00, 0xC0, 0x40, 0x3F];
    assert!(row_accepts(&row, 0x007F));
    assert!(!row_accepts(&row, 0x0006));
}

#[test]
fn a_masters_exchange() {
    let mut master = [9; MASTER_SIZE];
    assert_eq!(master_start(&mut master, 1, 0), STATE);
    assert_eq!(master_new(&mut master), 0);
    assert_eq!(master[..67], [0; 67]);
    assert_eq!(master[67], 1);
    for kind in [0, 4, 255] {
        assert_eq!(master_start(&mut master, kind, 0), FIELD);
    }
    assert_eq!(master_start(&mut master, 3, 22), 0x0007_0000);
    assert_eq!(master[64..], [3, 22, 1, 1]);
    assert_eq!(master_start(&mut master, 0, 22), FIELD);
    assert_eq!(master_start(&mut master, 3, 22), 0x8000_0012);
    assert_eq!(master_timeout(&mut master), 0x0007_0000);
    assert_eq!(master_timeout(&mut master), 0x0007_0001);
    assert_eq!(master_reply(&mut master, 0, 22, 4), 0x8000_0014);
    assert_eq!(master_reply(&mut master, 1, 22, 4), 0x0008_0000);
    assert_eq!(master[64..], [0, 0, 0, 1]);
    assert_eq!(master[22], 1);
    assert_eq!(master_timeout(&mut master), 0x8000_0013);
    assert_eq!(master_new(&mut master[1..]), STATE);
}

#[test]
fn a_watch() {
    let mut watch = [0xFF; WATCH_SIZE];
    assert_eq!(watch_new(&mut watch, 0x0403_0201), 0);
    assert_eq!(watch, [1, 2, 3, 4, 1, 2, 3, 4, 1]);
    assert_eq!(watch_heard(&mut watch, 1, 0x0403_0202), 1);
    assert_eq!(watch[4], 2);
    assert_eq!(watch_check(&mut watch, 0x0403_0201 + 16_000), 1 << 25);
    assert_eq!(watch_check(&mut watch, 0x0403_0202 + 16_000), 1 << 26);
    assert_eq!(watch_check(&mut watch, 0), 3 << 25);
    assert_eq!(watch_check(&mut watch, 1), 0);
    assert_eq!(watch_heard(&mut watch, 2, 0), FIELD);
    for length in [0, 8] {
        assert_eq!(watch_new(&mut watch[..length], 0), STATE);
        assert_eq!(watch_heard(&mut watch[..length], 2, 0), STATE);
        assert_eq!(watch_check(&mut watch[..length], 0), STATE);
    }
    assert_eq!(watch, [0, 0, 0, 0, 0, 0, 0, 0, 1]);
}

#[test]
fn the_release_is_0_2_0() {
    assert_eq!(version(), 512);
}
