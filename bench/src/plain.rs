//! A station as a Rust programmer writes it: enums, iterators and derived equality. Each call tests the whole
//! station first, as the library does.

#![forbid(unsafe_code)]

pub use second::refusal::Refusal;
use std::cmp::Ordering;

pub const SLOTS: usize = 16;
pub const AREA_SIZE: usize = 2_048;
pub const STORE_SIZE: usize = SLOTS * AREA_SIZE;

#[derive(Clone, Copy, Debug, PartialEq, Eq)]
pub enum Format {
    Extended,
    Standard,
}

impl Format {
    pub fn packet_limit(self) -> usize {
        match self {
            Format::Extended => 2_048,
            Format::Standard => 1_792,
        }
    }

    pub fn piece_size(self) -> usize {
        match self {
            Format::Extended => 8,
            Format::Standard => 7,
        }
    }

    pub fn number_range(self) -> usize {
        match self {
            Format::Extended => 64,
            Format::Standard => 256,
        }
    }

    /// Most bytes that a stream holds while it is collecting.
    fn collecting_limit(self) -> usize {
        match self {
            Format::Extended => 2_048,
            Format::Standard => 1_785,
        }
    }
}

#[derive(Clone, Copy, Debug, PartialEq, Eq)]
pub enum Fields {
    Extended {
        priority: u8,
        source: u8,
        group: u8,
        destination: u8,
        function: u8,
    },
    Standard {
        priority: u8,
        address: u8,
        side: u8,
    },
}

impl Fields {
    pub fn format(self) -> Format {
        match self {
            Fields::Extended { .. } => Format::Extended,
            Fields::Standard { .. } => Format::Standard,
        }
    }

    pub fn in_range(self) -> bool {
        match self {
            Fields::Extended {
                priority,
                source,
                group,
                destination,
                function,
            } => priority <= 3 && source <= 63 && group <= 3 && destination <= 63 && function <= 31,
            Fields::Standard {
                priority,
                address,
                side,
            } => priority <= 3 && address <= 63 && side <= 1,
        }
    }
}

#[derive(Clone, Copy, Debug, PartialEq, Eq)]
pub enum Flag {
    Middle = 0,
    Start = 1,
    End = 2,
    Single = 3,
}

impl Flag {
    fn from_bits(bits: u8) -> Flag {
        match bits & 3 {
            0 => Flag::Middle,
            1 => Flag::Start,
            2 => Flag::End,
            _ => Flag::Single,
        }
    }
}

#[derive(Clone, Copy, Debug, PartialEq, Eq)]
pub struct Key {
    pub bus: u8,
    pub fields: Fields,
}

impl Key {
    fn fits(self, format: Format) -> bool {
        self.bus <= 1 && self.fields.format() == format && self.fields.in_range()
    }
}

/// How far a stream is. Collecting and Done hold the number of bytes at the head of its area.
#[derive(Clone, Copy, Debug, PartialEq, Eq)]
pub enum Progress {
    Idle,
    Collecting(usize),
    Done(usize),
}

#[derive(Clone, Copy, Debug, PartialEq, Eq)]
pub enum Reply {
    Packet { length: usize, broke: bool },
    Kept { broke: bool },
    Filtered,
}

/// A sound frame.
struct Frame<'a> {
    fields: Fields,
    flag: Flag,
    number: u8,
    bytes: &'a [u8],
}

fn judge(format: Format, image: &[u8]) -> Result<Frame<'_>, Refusal> {
    match format {
        Format::Extended => judge_extended(image),
        Format::Standard => judge_standard(image),
    }
}

/// Whether there are as many data bytes as the count says; from 8 on it says eight.
fn check_count(count: u8, data: &[u8]) -> Result<(), Refusal> {
    match data.len().cmp(&usize::from(count.min(8))) {
        Ordering::Less => Err(Refusal::Count),
        Ordering::Equal => Ok(()),
        Ordering::Greater => Err(Refusal::Surplus),
    }
}

fn judge_extended(image: &[u8]) -> Result<Frame<'_>, Refusal> {
    let [b0, b1, b2, b3, b4, bytes @ ..] = image else {
        return Err(Refusal::Length);
    };
    if bytes.len() > 8 {
        return Err(Refusal::Length);
    }
    if b0 & 0xB0 != 0x80 || b4 & 7 != 0 {
        return Err(Refusal::Form);
    }
    if b0 & 0x40 != 0 {
        return Err(Refusal::Remote);
    }
    check_count(b0 & 15, bytes)?;
    let flag = Flag::from_bits(b3 >> 6);
    let number = b3 & 63;
    if !extended_piece(flag, number, bytes.len()) {
        return Err(Refusal::Piece);
    }
    let fields = Fields::Extended {
        priority: b1 >> 6,
        source: b1 & 63,
        group: b2 >> 6,
        destination: b2 & 63,
        function: b4 >> 3,
    };
    Ok(Frame {
        fields,
        flag,
        number,
        bytes,
    })
}

fn extended_piece(flag: Flag, number: u8, count: usize) -> bool {
    match flag {
        Flag::Single => number == 0,
        Flag::Start => count == 8 && number == 0,
        Flag::Middle => count == 8,
        Flag::End => count >= 1,
    }
}

fn judge_standard(image: &[u8]) -> Result<Frame<'_>, Refusal> {
    let [b0, b1, data @ ..] = image else {
        return Err(Refusal::Length);
    };
    if data.len() > 8 {
        return Err(Refusal::Length);
    }
    if b1 & 0x10 != 0 {
        return Err(Refusal::Remote);
    }
    check_count(b1 & 15, data)?;
    let flag = Flag::from_bits(b1 >> 5);
    let (number, bytes) = match (flag, data) {
        (Flag::Single, _) => (0, data),
        (_, [number, bytes @ ..]) if standard_piece(flag, *number, data.len()) => (*number, bytes),
        _ => return Err(Refusal::Piece),
    };
    let fields = Fields::Standard {
        priority: b0 >> 6,
        address: b0 & 63,
        side: b1 >> 7,
    };
    Ok(Frame {
        fields,
        flag,
        number,
        bytes,
    })
}

fn standard_piece(flag: Flag, number: u8, count: usize) -> bool {
    match flag {
        Flag::Single => true,
        Flag::Start => count == 8 && number == 0,
        Flag::Middle => count == 8 && (1..=254).contains(&number),
        Flag::End => number >= 1 && count >= if number == 1 { 3 } else { 2 },
    }
}

#[derive(Clone, Copy, Debug, PartialEq, Eq)]
pub struct Stream {
    pub key: Key,
    pub progress: Progress,
}

impl Stream {
    fn is_sound(&self, format: Format) -> bool {
        let holds = match self.progress {
            Progress::Idle => true,
            Progress::Collecting(h) => {
                let size = format.piece_size();
                h % size == 0 && (size..=format.collecting_limit()).contains(&h)
            }
            Progress::Done(h) => h <= format.packet_limit(),
        };
        self.key.fits(format) && holds
    }

    fn step(&mut self, format: Format, frame: &Frame, area: &mut [u8]) -> Result<Reply, Refusal> {
        let length = frame.bytes.len();
        let broke = matches!(self.progress, Progress::Collecting(_));
        match frame.flag {
            Flag::Single => {
                area[..length].copy_from_slice(frame.bytes);
                self.progress = Progress::Done(length);
                Ok(Reply::Packet { length, broke })
            }
            Flag::Start => {
                area[..length].copy_from_slice(frame.bytes);
                self.progress = Progress::Collecting(length);
                Ok(Reply::Kept { broke })
            }
            Flag::Middle | Flag::End => self.append(format, frame, area),
        }
    }

    fn append(&mut self, format: Format, frame: &Frame, area: &mut [u8]) -> Result<Reply, Refusal> {
        let Progress::Collecting(held) = self.progress else {
            return Err(Refusal::Orphan);
        };
        let awaited = held / format.piece_size() % format.number_range();
        if usize::from(frame.number) != awaited {
            self.progress = Progress::Idle;
            return Err(Refusal::Step);
        }
        let sum = held + frame.bytes.len();
        if sum > AREA_SIZE {
            self.progress = Progress::Idle;
            return Err(Refusal::Long);
        }
        area[held..sum].copy_from_slice(frame.bytes);
        if frame.flag == Flag::End {
            self.progress = Progress::Done(sum);
            Ok(Reply::Packet {
                length: sum,
                broke: false,
            })
        } else {
            self.progress = Progress::Collecting(sum);
            Ok(Reply::Kept { broke: false })
        }
    }
}

#[derive(Clone, Debug, PartialEq, Eq)]
pub struct Station {
    pub format: Format,
    pub slots: [Option<Stream>; SLOTS],
}

impl Station {
    pub fn new(format: Format) -> Station {
        Station {
            format,
            slots: [None; SLOTS],
        }
    }

    fn keys_differ(&self) -> bool {
        self.slots.iter().enumerate().all(|(i, slot)| match slot {
            Some(stream) => self.slots[i + 1..]
                .iter()
                .flatten()
                .all(|other| other.key != stream.key),
            None => true,
        })
    }

    fn check(&self) -> Result<(), Refusal> {
        let streams_sound = self
            .slots
            .iter()
            .flatten()
            .all(|stream| stream.is_sound(self.format));
        if streams_sound && self.keys_differ() {
            Ok(())
        } else {
            Err(Refusal::State)
        }
    }

    fn find(&self, key: Key) -> Option<usize> {
        self.slots
            .iter()
            .position(|slot| slot.is_some_and(|stream| stream.key == key))
    }

    pub fn receive(&mut self, store: &mut [u8], bus: u8, image: &[u8]) -> Result<Reply, Refusal> {
        self.check()?;
        if store.len() != STORE_SIZE {
            return Err(Refusal::Store);
        }
        if bus > 1 {
            return Err(Refusal::Field);
        }
        let frame = judge(self.format, image)?;
        let key = Key {
            bus,
            fields: frame.fields,
        };
        for (slot, area) in self.slots.iter_mut().zip(store.chunks_exact_mut(AREA_SIZE)) {
            if let Some(stream) = slot {
                if stream.key == key {
                    return stream.step(self.format, &frame, area);
                }
            }
        }
        Ok(Reply::Filtered)
    }

    pub fn open(&mut self, key: Key) -> Result<usize, Refusal> {
        self.check()?;
        if !key.fits(self.format) {
            return Err(Refusal::Field);
        }
        if self.find(key).is_some() {
            return Err(Refusal::Taken);
        }
        let i = self
            .slots
            .iter()
            .position(Option::is_none)
            .ok_or(Refusal::Full)?;
        self.slots[i] = Some(Stream {
            key,
            progress: Progress::Idle,
        });
        Ok(i)
    }

    pub fn close(&mut self, i: usize) -> Result<usize, Refusal> {
        self.check()?;
        let slot = self.slots.get_mut(i).ok_or(Refusal::Closed)?;
        slot.take().map(|_| i).ok_or(Refusal::Closed)
    }

    pub fn read<'a>(&self, store: &'a [u8], i: usize) -> Result<&'a [u8], Refusal> {
        self.check()?;
        if store.len() != STORE_SIZE {
            return Err(Refusal::Store);
        }
        match self.slots.get(i) {
            Some(Some(Stream {
                progress: Progress::Done(h),
                ..
            })) => Ok(&store[i * AREA_SIZE..][..*h]),
            Some(Some(_)) => Err(Refusal::NoPacket),
            _ => Err(Refusal::Closed),
        }
    }
}
