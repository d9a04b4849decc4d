//! What a station is given to receive: frames of every kind, by the answer that they get.

use crate::plain::{
    Fields, Format, Key, Progress, Refusal, Station, Stream, AREA_SIZE, SLOTS, STORE_SIZE,
};
use crate::receivers::Receiver;
use crate::split;

const LAST: usize = SLOTS - 1;

pub const FORMATS: [Format; 2] = [Format::Extended, Format::Standard];

/// The fields of the stream that is open in a slot.
pub fn fields_at(format: Format, slot: usize) -> Fields {
    let slot = slot as u8;
    match format {
        Format::Extended => Fields::Extended {
            priority: 1,
            source: slot,
            group: 0,
            destination: 0,
            function: 2,
        },
        Format::Standard => Fields::Standard {
            priority: 1,
            address: slot,
            side: 1,
        },
    }
}

fn stream_at(format: Format, slot: usize, progress: Progress) -> Option<Stream> {
    let key = Key {
        bus: 0,
        fields: fields_at(format, slot),
    };
    Some(Stream { key, progress })
}

/// A station with the first slots open, all idle but the last of them.
pub fn station_with(format: Format, open: usize, last: Progress) -> Station {
    let mut station = Station::new(format);
    for slot in 0..open {
        let is_last = slot + 1 == open;
        let progress = if is_last { last } else { Progress::Idle };
        station.slots[slot] = stream_at(format, slot, progress);
    }
    station
}

pub fn packet_of(size: usize) -> Vec<u8> {
    (0..size).map(|i| (i % 251) as u8).collect()
}

/// The images of a packet of that size, with these fields.
fn images_with(fields: Fields, size: usize) -> Vec<Vec<u8>> {
    let packet = packet_of(size);
    let count = split::piece_count(fields.format(), size).expect("within the limit");
    let image = |k| {
        let mut output = [0; 13];
        let length = split::write_piece(fields, &packet, k, &mut output).expect("a piece");
        output[..length].to_vec()
    };
    (0..count).map(image).collect()
}

/// The images of a packet of that size from the stream of a slot.
pub fn images_of(format: Format, slot: usize, size: usize) -> Vec<Vec<u8>> {
    images_with(fields_at(format, slot), size)
}

/// A station and the images that it receives, on a bus and with a store of a length.
#[derive(Clone)]
pub struct Arrival {
    pub station: Station,
    pub store: usize,
    pub bus: u8,
    pub images: Vec<Vec<u8>>,
    /// Whether each run begins with the station as it was; else each goes on from the last.
    pub anew: bool,
}

impl Arrival {
    pub fn new(station: Station, images: Vec<Vec<u8>>) -> Arrival {
        Arrival {
            station,
            store: STORE_SIZE,
            bus: 0,
            images,
            anew: false,
        }
    }

    /// The same images, each time to the same station.
    fn anew(station: &Station, images: Vec<Vec<u8>>) -> Arrival {
        Arrival {
            anew: true,
            ..Arrival::new(station.clone(), images)
        }
    }

    /// The answer to the last image.
    pub fn answer<R: Receiver>(&self) -> Option<u32> {
        let mut receiver = R::from_station(&self.station);
        let mut store = vec![0; self.store];
        let mut answers = self
            .images
            .iter()
            .map(|image| R::word(receiver.receive(&mut store, self.bus, image)));
        answers.by_ref().last()
    }
}

/// The single of 8 bytes for the last slot, with some bits of one byte turned over.
fn bent(format: Format, (at, bits): (usize, u8)) -> Vec<Vec<u8>> {
    let mut images = images_of(format, LAST, 8);
    images[0][at] ^= bits;
    images
}

/// The single of 8 bytes for the last slot, with another count.
fn counted(format: Format, count: u8) -> Vec<Vec<u8>> {
    let at = match format {
        Format::Extended => 0,
        Format::Standard => 1,
    };
    bent(format, (at, 8 ^ count))
}

/// The single of 8 bytes for the last slot, without its last byte.
fn cut(format: Format) -> Vec<Vec<u8>> {
    let mut images = images_of(format, LAST, 8);
    images[0].pop();
    images
}

/// One piece of a packet of that size for the last slot.
fn piece_of(format: Format, size: usize, k: usize) -> Vec<Vec<u8>> {
    vec![images_of(format, LAST, size).swap_remove(k)]
}

/// What a row is answered.
#[derive(Clone, Copy, Debug, PartialEq, Eq)]
pub enum Answered {
    Packet,
    Kept,
    Filtered,
    Refused(Refusal),
}

/// A row of a table: what it is answered, what is told of it besides, and what is received.
pub struct Row {
    pub answered: Answered,
    told: &'static str,
    pub arrival: Arrival,
}

impl Row {
    pub fn name(&self) -> String {
        let answered = match self.answered {
            Answered::Packet => "packet".into(),
            Answered::Kept => "kept".into(),
            Answered::Filtered => "filtered".into(),
            Answered::Refused(refusal) => refused_name(refusal),
        };
        match self.told {
            "" => answered,
            told => format!("{answered}: {told}"),
        }
    }
}

/// A refusal as rows name it.
pub fn refused_name(refusal: Refusal) -> String {
    format!("refused {} {}", refusal.number(), refusal.name())
}

fn row(answered: Answered, told: &'static str, arrival: Arrival) -> Row {
    Row {
        answered,
        told,
        arrival,
    }
}

fn refusal(refusal: Refusal, arrival: Arrival) -> Row {
    row(Answered::Refused(refusal), "", arrival)
}

fn taken(format: Format) -> Vec<Row> {
    use Answered::{Filtered, Kept, Packet};
    let piece = format.piece_size();
    let idle = station_with(format, SLOTS, Progress::Idle);
    let collecting = station_with(format, SLOTS, Progress::Collecting(piece));
    let single = |slot, size| Arrival::anew(&idle, images_of(format, slot, size));
    let next = |size| Arrival::anew(&collecting, piece_of(format, size, 1));
    let start = Arrival::anew(&idle, piece_of(format, 64, 0));
    let with_12 = Arrival::anew(&idle, counted(format, 12));
    vec![
        row(Packet, "a single of 8 for slot 0", single(0, 8)),
        row(Packet, "a single of 8 for slot 15", single(LAST, 8)),
        row(Packet, "a single of 8 with count 12", with_12),
        row(Packet, "a single of 0 for slot 15", single(LAST, 0)),
        row(Kept, "a start", start),
        row(Kept, "a middle", next(64)),
        row(Packet, "an end, filled", next(2 * piece)),
        row(Filtered, "", single(SLOTS, 8)),
    ]
}

/// Refused for the image or for its stream.
fn refused(format: Format) -> Vec<Row> {
    let idle = station_with(format, SLOTS, Progress::Idle);
    let collecting = station_with(format, SLOTS, Progress::Collecting(format.piece_size()));
    let on_idle = |images| Arrival::anew(&idle, images);
    let wrong = |place| on_idle(bent(format, place));
    let mut rows = vec![refusal(Refusal::Length, on_idle(vec![vec![0x81]]))];
    match format {
        Format::Extended => rows.extend([
            refusal(Refusal::Form, wrong((4, 1))),
            refusal(Refusal::Remote, wrong((0, 0x40))),
            refusal(Refusal::Piece, wrong((3, 1))),
        ]),
        Format::Standard => rows.extend([
            refusal(Refusal::Remote, wrong((1, 0x10))),
            refusal(Refusal::Piece, wrong((1, 0x20))),
        ]),
    }
    rows.push(refusal(Refusal::Count, on_idle(cut(format))));
    rows.push(refusal(Refusal::Surplus, on_idle(counted(format, 7))));
    rows.push(refusal(Refusal::Orphan, on_idle(piece_of(format, 64, 1))));
    let skipped = Arrival::anew(&collecting, piece_of(format, 64, 2));
    rows.push(refusal(Refusal::Step, skipped));
    if format == Format::Extended {
        let full = station_with(format, SLOTS, Progress::Collecting(AREA_SIZE));
        let more = piece_of(format, AREA_SIZE, 64);
        rows.push(refusal(Refusal::Long, Arrival::anew(&full, more)));
    }
    rows
}

/// A stream with one field above its range.
fn beyond(format: Format) -> Option<Stream> {
    let mut stream = stream_at(format, 0, Progress::Idle)?;
    match &mut stream.key.fields {
        Fields::Extended { group, .. } => *group = 4,
        Fields::Standard { side, .. } => *side = 2,
    }
    Some(stream)
}

/// Refused for what else is handed in.
fn refused_before(format: Format) -> Vec<Row> {
    let idle = station_with(format, SLOTS, Progress::Idle);
    let good = Arrival::anew(&idle, images_of(format, LAST, 8));
    let mut alike = good.clone();
    alike.station.slots[LAST] = alike.station.slots[LAST - 1];
    let mut outside = good.clone();
    outside.station.slots[0] = beyond(format);
    let bus = Arrival {
        bus: 2,
        ..good.clone()
    };
    let short = Arrival {
        store: STORE_SIZE - 1,
        ..good
    };
    let unsound = Answered::Refused(Refusal::State);
    vec![
        refusal(Refusal::Field, bus),
        refusal(Refusal::Store, short),
        row(unsound, "slots 14 and 15 alike", alike),
        row(unsound, "slot 0 out of range", outside),
    ]
}

/// A single for the last of sixteen streams that differ in the function alone, the field that is compared last; in all
/// other cases they differ in the source.
pub fn one_source() -> Arrival {
    let mut station = station_with(Format::Extended, SLOTS, Progress::Idle);
    for (slot, stream) in station.slots.iter_mut().flatten().enumerate() {
        stream.key.fields = Fields::Extended {
            priority: 1,
            source: 5,
            group: 0,
            destination: 0,
            function: slot as u8,
        };
    }
    let images = station.slots[LAST].map(|stream| images_with(stream.key.fields, 8));
    Arrival::new(station, images.unwrap_or_default())
}

/// One frame of each kind, named by its answer, with sixteen streams open.
pub fn kinds(format: Format) -> Vec<Row> {
    let mut rows = taken(format);
    rows.extend(refused(format));
    rows.extend(refused_before(format));
    rows
}
