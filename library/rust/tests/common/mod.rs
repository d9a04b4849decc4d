//! Pieces as the second program makes them, so that the tests do not lean on the library's own splitting, and a station
//! with one stream.
#![allow(dead_code)]

use second::frame::Flag;
use second::{format, key, refusal, split};
use siljuvatt::{Bus, Fields, Format, Key, Refusal, Reply, Station, Store};
use testkit::Random;

pub const MIDDLE: Flag = Flag::Middle;
pub const START: Flag = Flag::Start;
pub const END: Flag = Flag::End;
pub const SINGLE: Flag = Flag::Single;

pub const BOTH: [Format; 2] = [Format::Extended, Format::Standard];

pub fn fields(format: Format) -> Fields {
    match format {
        Format::Extended => extended_fields(5, 2),
        Format::Standard => standard_fields(22),
    }
}

pub fn extended_fields(source: u8, function: u8) -> Fields {
    Fields::Extended {
        priority: 1,
        source,
        group: 0,
        destination: 0,
        function,
    }
}

pub fn standard_fields(address: u8) -> Fields {
    Fields::Standard {
        priority: 2,
        address,
        side: 1,
    }
}

/// The format in the second program.
pub fn second_format(format: Format) -> format::Format {
    match format {
        Format::Extended => format::Format::Extended,
        Format::Standard => format::Format::Standard,
    }
}

/// The fields in the second program.
pub fn second_fields(fields: Fields) -> key::Fields {
    match fields {
        Fields::Extended {
            priority,
            source,
            group,
            destination,
            function,
        } => key::Fields::Extended {
            priority,
            source,
            group,
            destination,
            function,
        },
        Fields::Standard {
            priority,
            address,
            side,
        } => key::Fields::Standard {
            priority,
            address,
            side,
        },
    }
}

/// The key of one in the second program.
pub fn key_of(key: &key::Key) -> Key {
    let bus = Bus::of_number(key.bus).expect("a bus in range");
    let fields = match key.fields {
        key::Fields::Extended {
            priority,
            source,
            group,
            destination,
            function,
        } => Fields::Extended {
            priority,
            source,
            group,
            destination,
            function,
        },
        key::Fields::Standard {
            priority,
            address,
            side,
        } => Fields::Standard {
            priority,
            address,
            side,
        },
    };
    Key { bus, fields }
}

/// The refusal of one in the second program.
pub fn refusal_of(refusal: refusal::Refusal) -> Refusal {
    Refusal::try_from(u16::from(refusal.number())).expect("a number that both have")
}

/// Packet bytes in a piece that is not the last.
pub fn piece_size(format: Format) -> usize {
    second_format(format).piece_size()
}

/// The image of a piece, whether or not flag, number and bytes go together.
pub fn image(fields: Fields, flag: Flag, number: u8, data: &[u8]) -> Vec<u8> {
    split::image(&second_fields(fields), flag, number, data)
}

/// A packet's pieces.
pub fn split(fields: Fields, packet: &[u8]) -> Vec<Vec<u8>> {
    let fields = second_fields(fields);
    let count = split::piece_count(fields.format(), packet.len()).expect("a packet in range");
    (0..count)
        .map(|k| split::piece(&fields, packet, k))
        .collect()
}

/// That many bytes, others for each seed.
pub fn packet(size: usize, seed: usize) -> Vec<u8> {
    Random::of_item(1, seed as u64).bytes(size)
}

/// A station with one stream in slot 0, and its store.
pub struct Bench {
    pub station: Station,
    pub store: Store,
    pub bus: Bus,
    pub fields: Fields,
}

impl Bench {
    pub fn new(fields: Fields) -> Bench {
        let mut station = Station::new(fields.format());
        let bus = Bus::A;
        assert_eq!(station.open(Key { bus, fields }), Ok(0));
        Bench {
            station,
            store: Store::new(),
            bus,
            fields,
        }
    }

    /// A piece of the stream arrives.
    pub fn hear(&mut self, flag: Flag, number: u8, data: &[u8]) -> Result<Reply, Refusal> {
        let image = image(self.fields, flag, number, data);
        self.receive(&image)
    }

    pub fn receive(&mut self, image: &[u8]) -> Result<Reply, Refusal> {
        self.station.receive(&mut self.store, self.bus, image)
    }

    /// An image arrives that is refused and changes nothing.
    pub fn refuses(&mut self, image: &[u8], refusal: Refusal) {
        let before = (self.station.clone(), self.store.clone());
        assert_eq!(self.receive(image), Err(refusal), "{image:02X?}");
        assert!(
            before == (self.station.clone(), self.store.clone()),
            "{refusal} has changed something"
        );
    }

    pub fn read(&self) -> Result<&[u8], Refusal> {
        self.station.read(&self.store, 0)
    }

    /// The stream, which is not collecting, starts and is fed whole pieces until `size` bytes are held.
    pub fn collect(&mut self, size: usize) {
        let format = second_format(self.fields.format());
        let bytes = packet(size, 0);
        for (k, part) in bytes.chunks_exact(format.piece_size()).enumerate() {
            let flag = if k == 0 { START } else { MIDDLE };
            let number = format.piece_number(k) as u8;
            assert_eq!(self.hear(flag, number, part), kept(), "piece {k}");
        }
    }
}

pub fn kept() -> Result<Reply, Refusal> {
    Ok(Reply::Kept { broke: false })
}

pub fn whole(length: usize) -> Result<Reply, Refusal> {
    Ok(Reply::Packet {
        length,
        broke: false,
    })
}
