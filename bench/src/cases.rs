//! What is measured: each case is one row of a table for one contestant.

use std::hint::black_box;

use crate::arrivals::{
    fields_at, images_of, kinds, one_source, packet_of, refused_name, station_with, Arrival,
    FORMATS,
};
use crate::bytes::fields_bytes;
use crate::library;
use crate::measured;
use crate::plain::{Format, Key, Progress, Refusal, Station, SLOTS, STORE_SIZE};
use crate::receivers::{Library, Plain, PlainBytes, Receiver};
use crate::split;

/// A row of a table for one contestant. One run makes some calls and works on some packet bytes.
pub struct Case {
    pub table: &'static str,
    pub row: String,
    pub contestant: &'static str,
    pub calls: usize,
    pub bytes: usize,
    /// Makes that many runs.
    pub run: Box<dyn FnMut(u64)>,
}

/// A row, and what one run of it is.
struct Row {
    table: &'static str,
    name: String,
    calls: usize,
    bytes: usize,
}

impl Row {
    fn new(table: &'static str, name: impl Into<String>, calls: usize, bytes: usize) -> Row {
        let name = name.into();
        Row {
            table,
            name,
            calls,
            bytes,
        }
    }

    /// The contestant's case; once is one run of it.
    fn case(&self, contestant: &'static str, mut once: impl FnMut() + 'static) -> Case {
        let run = move |runs| {
            for _ in 0..runs {
                once();
            }
        };
        Case {
            table: self.table,
            row: self.name.clone(),
            contestant,
            calls: self.calls,
            bytes: self.bytes,
            run: Box::new(run),
        }
    }
}

fn name(format: Format) -> &'static str {
    match format {
        Format::Extended => "extended",
        Format::Standard => "standard",
    }
}

fn sizes(format: Format) -> [usize; 5] {
    [8, 64, 256, 1_024, format.packet_limit()]
}

fn receive_case<R: Receiver>(row: &Row, arrival: &Arrival) -> Case {
    let first = R::from_station(&arrival.station);
    let mut receiver = first.clone();
    let mut store = vec![0; arrival.store];
    let (bus, images, anew) = (arrival.bus, arrival.images.clone(), arrival.anew);
    row.case(R::NAME, move || {
        if anew {
            receiver = first.clone();
        }
        for image in &images {
            let store = black_box(&mut store[..]);
            black_box(&receiver.receive(store, black_box(bus), black_box(image)));
        }
    })
}

fn receive_pair(row: &Row, arrival: &Arrival) -> [Case; 2] {
    [
        receive_case::<Library>(row, arrival),
        receive_case::<Plain>(row, arrival),
    ]
}

fn copy_case(row: &Row) -> Case {
    let packet = packet_of(row.bytes);
    let mut target = vec![0; row.bytes];
    row.case("memcpy", move || {
        measured::plain_copy(black_box(&mut target), black_box(&packet));
    })
}

/// A packet of that size for the stream of a slot.
fn packet_for(format: Format, open: usize, slot: usize, size: usize) -> Arrival {
    let station = station_with(format, open, Progress::Idle);
    Arrival::new(station, images_of(format, slot, size))
}

fn single_cases() -> Vec<Case> {
    let row = Row::new("single", "extended", 1, 8);
    let arrival = packet_for(Format::Extended, SLOTS, SLOTS - 1, 8);
    let mut cases = Vec::from(receive_pair(&row, &arrival));
    cases.push(receive_case::<PlainBytes>(&row, &arrival));
    cases.push(copy_case(&row));
    cases
}

fn key_cases() -> Vec<Case> {
    let by_source = packet_for(Format::Extended, SLOTS, SLOTS - 1, 8);
    let mut cases = Vec::new();
    for (title, arrival) in [("source", by_source), ("function", one_source())] {
        cases.extend(receive_pair(&Row::new("keys", title, 1, 8), &arrival));
    }
    cases
}

fn stream_cases() -> Vec<Case> {
    let mut cases = Vec::new();
    for format in FORMATS {
        for open in [0usize, 1, 2, 4, 8, 16] {
            let row = Row::new("streams", format!("{} {open}", name(format)), 1, 8);
            let arrival = packet_for(format, open, open.saturating_sub(1), 8);
            cases.extend(receive_pair(&row, &arrival));
        }
    }
    cases
}

fn packet_cases() -> Vec<Case> {
    let mut cases = Vec::new();
    for format in FORMATS {
        for size in sizes(format) {
            let arrival = packet_for(format, SLOTS, SLOTS - 1, size);
            let title = format!("{} {size}", name(format));
            let row = Row::new("packet", title.clone(), arrival.images.len(), size);
            cases.extend(receive_pair(&row, &arrival));
            cases.push(copy_case(&Row::new("packet", title, 1, size)));
        }
    }
    cases
}

fn frame_cases() -> Vec<Case> {
    let mut cases = Vec::new();
    for format in FORMATS {
        for kind in kinds(format) {
            let title = format!("{} {}", name(format), kind.name());
            let row = Row::new("frame", title, 1, 8);
            cases.extend(receive_pair(&row, &kind.arrival));
        }
    }
    cases
}

/// Every piece of a packet is written, one call each.
fn piece_pair(format: Format, size: usize) -> [Case; 2] {
    let count = split::piece_count(format, size).expect("within the limit");
    let row = Row::new("split", format!("{} {size}", name(format)), count, size);
    let fields = fields_at(format, 5);
    let (number, handed) = (format as u8, fields_bytes(fields));
    let packet = packet_of(size);
    let (own, mut output) = (packet.clone(), [0; 13]);
    let by_library = row.case("library", move || {
        for k in 0..count {
            let (number, handed) = (black_box(number), black_box(&handed));
            let (own, output) = (black_box(&own), black_box(&mut output));
            black_box(&library::write_piece(
                number,
                handed,
                own,
                black_box(k),
                output,
            ));
        }
    });
    let by_plain = row.case("plain", move || {
        for k in 0..count {
            let (fields, packet, output) = (
                black_box(fields),
                black_box(&packet),
                black_box(&mut output),
            );
            black_box(&measured::plain_write_piece(
                fields,
                packet,
                black_box(k),
                output,
            ));
        }
    });
    [by_library, by_plain]
}

fn count_pair(format: Format, size: usize) -> [Case; 2] {
    let row = Row::new("count", format!("{} {size}", name(format)), 1, size);
    let by_library = row.case("library", move || {
        black_box(&library::piece_count(
            black_box(format as u8),
            black_box(size),
        ));
    });
    let by_plain = row.case("plain", move || {
        black_box(&measured::plain_piece_count(
            black_box(format),
            black_box(size),
        ));
    });
    [by_library, by_plain]
}

fn split_cases() -> Vec<Case> {
    let mut cases = Vec::new();
    for format in FORMATS {
        for size in sizes(format) {
            cases.extend(piece_pair(format, size));
            cases.extend(count_pair(format, size));
        }
    }
    cases
}

fn read_pair(title: &str, size: usize, slot: usize) -> [Case; 2] {
    let row = Row::new("read", title, 1, size);
    let station = station_with(Format::Extended, SLOTS, Progress::Done(size));
    let Library(bytes) = Library::from_station(&station);
    let store = vec![0; STORE_SIZE];
    let (own, mut start) = (store.clone(), 0);
    let by_library = row.case("library", move || {
        let (bytes, own) = (black_box(&bytes), black_box(&own));
        black_box(&library::read(bytes, own, black_box(slot), &mut start));
    });
    let by_plain = row.case("plain", move || {
        let (station, store) = (black_box(&station), black_box(&store));
        black_box(&measured::plain_read(station, store, black_box(slot)));
    });
    [by_library, by_plain]
}

fn read_cases() -> Vec<Case> {
    let closed = refused_name(Refusal::Closed);
    let mut cases = Vec::from(read_pair(&closed, 2_048, SLOTS));
    for size in [1, 8, 64, 256, 1_024, 2_048] {
        cases.extend(read_pair(&size.to_string(), size, SLOTS - 1));
    }
    cases
}

/// A call that changes a station, each time the same one.
fn change_pair(
    title: String,
    station: Station,
    by_library: impl Fn(&mut [u8]) -> u32 + 'static,
    by_plain: impl Fn(&mut Station) -> Result<usize, Refusal> + 'static,
) -> [Case; 2] {
    let row = Row::new("change", title, 1, 0);
    let Library(bytes) = Library::from_station(&station);
    let of_library = row.case("library", move || {
        let mut state = bytes;
        black_box(&by_library(black_box(&mut state)));
    });
    let of_plain = row.case("plain", move || {
        let mut state = station.clone();
        black_box(&by_plain(black_box(&mut state)));
    });
    [of_library, of_plain]
}

fn change_cases() -> Vec<Case> {
    let format = Format::Extended;
    let mut cases = Vec::new();
    for open in [0, 15] {
        let fields = fields_at(format, open);
        let (key, handed) = (Key { bus: 0, fields }, fields_bytes(fields));
        cases.extend(change_pair(
            format!("open, {open} open before"),
            station_with(format, open, Progress::Idle),
            move |state| library::open(state, 0, black_box(&handed)),
            move |state| measured::plain_open(state, black_box(key)),
        ));
    }
    for open in [1, 16] {
        let slot = open - 1;
        cases.extend(change_pair(
            format!("close, {open} open before"),
            station_with(format, open, Progress::Idle),
            move |state| library::close(state, black_box(slot)),
            move |state| measured::plain_close(state, black_box(slot)),
        ));
    }
    cases
}

/// All cases, or those of the first table and of the targets.
pub fn all(quick: bool) -> Vec<Case> {
    let mut cases = single_cases();
    cases.extend(split_cases());
    cases.extend(read_cases());
    if !quick {
        cases.extend(key_cases());
        cases.extend(stream_cases());
        cases.extend(packet_cases());
        cases.extend(frame_cases());
        cases.extend(change_cases());
    }
    cases
}
