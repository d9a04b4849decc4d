//! The second program's numbers, written from the header, are the header's.

use second::format::Format;
use second::interface as model;
use second::master::Kind;
use second::refusal::Refusal;
use second::station::{SLOT_COUNT, STORE_SIZE};
use second::stream::AREA_SIZE;
use second::watch::SILENCE;

const HEADER: &str = include_str!("../../library/include/siljuvatt.h");

/// The numbers of the header's list of refusals, with their names.
fn refusals() -> Vec<(String, u8)> {
    let lines = HEADER.lines().map(str::trim_start);
    lines
        .filter_map(|line| line.strip_prefix("REFUSAL("))
        .map(|line| {
            let mut words = line.splitn(3, ',').map(str::trim);
            let name = words.next().expect("a name").to_string();
            (name, words.next().and_then(|n| n.parse().ok()).expect(line))
        })
        .collect()
}

/// A number that the header defines.
fn defined(name: &str) -> usize {
    let start = format!("#define SILJUVATT_{name} ");
    let mut lines = HEADER.lines().filter_map(|line| line.strip_prefix(&start));
    let word = lines.next().and_then(|rest| rest.split(' ').next());
    word.and_then(|word| word.parse().ok()).expect(name)
}

#[test]
fn refusals_are_the_headers() {
    let own = Refusal::ALL.iter().map(|r| (r.name(), r.number()));
    assert_eq!(refusals(), own.collect::<Vec<_>>());
}

#[test]
fn sizes_and_kinds_are_the_headers() {
    let numbers = [
        ("STATION_SIZE", model::STATION_SIZE),
        ("STATION_LAYOUT", model::STATION_LAYOUT.into()),
        ("MASTER_SIZE", model::MASTER_SIZE),
        ("MASTER_LAYOUT", model::MASTER_LAYOUT.into()),
        ("WATCH_SIZE", model::WATCH_SIZE),
        ("WATCH_LAYOUT", model::WATCH_LAYOUT.into()),
        ("SLOTS", SLOT_COUNT),
        ("STORE_SIZE", STORE_SIZE),
        ("AREA_SIZE", AREA_SIZE),
        ("SILENCE", SILENCE as usize),
        ("PACKET", model::PACKET as usize),
        ("KEPT", model::KEPT as usize),
        ("FILTERED", model::FILTERED as usize),
        ("SEND", model::SEND as usize),
        ("DONE", model::DONE as usize),
        ("GAVE_UP", model::GAVE_UP as usize),
        ("POLL", Kind::Poll as usize),
        ("DATA_BLOCK", Kind::DataBlock as usize),
        ("COMMAND", Kind::Command as usize),
        ("EXTENDED", testkit::keys::number(Format::Extended).into()),
        ("STANDARD", testkit::keys::number(Format::Standard).into()),
        ("EXTENDED_LIMIT", Format::Extended.packet_limit()),
        ("STANDARD_LIMIT", Format::Standard.packet_limit()),
    ];
    for (name, number) in numbers {
        assert_eq!(defined(name), number, "{name}");
    }
}
