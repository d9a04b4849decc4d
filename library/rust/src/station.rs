//! A station: up to sixteen streams.

use crate::answer::Answer;
use crate::numbers;
use crate::raw::slices;
use crate::{Bus, Format, Key, Refusal};
use core::fmt;

// Over the last slot, so that closing it is refused: STATE if the station is not sound, else CLOSED.
const NO_SLOT: usize = Station::SLOTS;

/// What became of a frame.
#[derive(Clone, Copy, Debug, PartialEq, Eq)]
#[must_use]
#[non_exhaustive]
pub enum Reply {
    /// The stream has a packet: [`Station::read`].
    Packet {
        /// Its length in bytes.
        length: usize,
        /// Whether an older packet of the stream was not whole and is dropped.
        broke: bool,
    },
    /// More of the packet is awaited.
    Kept {
        /// Whether an older packet of the stream was not whole and is dropped.
        broke: bool,
    },
    /// No slot is open with the frame's key; nothing has changed.
    Filtered,
}

/// A station of one format with sixteen slots. It is 130 bytes and nothing else: it may be copied, written to a file
/// and made again from its bytes. The last byte is the number of their layout: a release reads its own.
///
/// Its packets lie in a store of 32,768 bytes that each call is lent: a [`Store`](crate::Store), or any slice.
///
/// ```
/// use siljuvatt::{Bus, Fields, Format, Key, Refusal, Reply, Station, Store};
///
/// let mut station = Station::new(Format::Extended);
/// let mut store = Store::new();
/// let fields = Fields::Extended { priority: 0, source: 6, group: 0, destination: 0, function: 2 };
/// let slot = station.open(Key { bus: Bus::B, fields })?;
///
/// let reply = station.receive(&mut store, Bus::B, b"\x81\x06\x00\xC0\x10\x39")?;
/// assert_eq!(reply, Reply::Packet { length: 1, broke: false });
/// assert_eq!(station.read(&store, slot)?, [0x39]);
///
/// // The same frame on the other bus is no frame of this stream.
/// assert_eq!(station.receive(&mut store, Bus::A, b"\x81\x06\x00\xC0\x10\x39")?, Reply::Filtered);
/// // A frame that is none is refused, with the reason.
/// assert_eq!(station.receive(&mut store, Bus::B, b"\xC0\x06\x00\xC0\x10"), Err(Refusal::Remote));
/// # Ok::<(), Refusal>(())
/// ```
#[derive(Clone, PartialEq, Eq)]
pub struct Station {
    bytes: [u8; Station::SIZE],
}

impl Station {
    /// The bytes of a station.
    pub const SIZE: usize = numbers::STATION_SIZE;

    /// The last of them: the number of their layout.
    pub const LAYOUT: u8 = numbers::STATION_LAYOUT;

    /// The slots of a station, numbered from 0 on.
    pub const SLOTS: usize = numbers::SLOTS;

    /// A station whose slots are all closed.
    #[must_use]
    pub fn new(format: Format) -> Station {
        let mut bytes = [0; Station::SIZE];
        // Only a library of another release refuses; zeros are no station, so every call on them is refused then.
        let _ = slices::station_new(&mut bytes, format.number());
        Station { bytes }
    }

    /// The station that these bytes are, as [`Station::as_bytes`] gave them.
    ///
    /// # Errors
    ///
    /// [`Refusal::State`] if they are no sound station of this release's layout.
    ///
    /// ```
    /// use siljuvatt::{Format, Refusal, Station};
    ///
    /// let station = Station::new(Format::Standard);
    /// assert_eq!(Station::from_bytes(station.as_bytes()), Ok(station));
    /// assert_eq!(Station::from_bytes(b"no station"), Err(Refusal::State));
    /// ```
    pub fn from_bytes(bytes: &[u8]) -> Result<Station, Refusal> {
        let mut bytes: [u8; Station::SIZE] = bytes.try_into().map_err(|_| Refusal::State)?;
        Answer(slices::close(&mut bytes, NO_SLOT)).refused_as(Refusal::Closed)?;
        Ok(Station { bytes })
    }

    /// The bytes that the station is.
    #[must_use]
    pub fn as_bytes(&self) -> &[u8; Station::SIZE] {
        &self.bytes
    }

    /// Opens a key in the lowest closed slot and answers the slot's number, 0 to 15.
    ///
    /// # Errors
    ///
    /// In this order: [`Refusal::Field`], [`Refusal::Taken`], [`Refusal::Full`].
    ///
    /// ```
    /// use siljuvatt::{Bus, Fields, Format, Key, Refusal, Station};
    ///
    /// let mut station = Station::new(Format::Standard);
    /// let fields = Fields::Standard { priority: 2, address: 22, side: 1 };
    /// assert_eq!(station.open(Key { bus: Bus::A, fields }), Ok(0));
    /// assert_eq!(station.open(Key { bus: Bus::B, fields }), Ok(1));
    /// assert_eq!(station.open(Key { bus: Bus::B, fields }), Err(Refusal::Taken));
    /// assert_eq!(station.close(0), Ok(()));
    /// assert_eq!(station.close(0), Err(Refusal::Closed));
    /// ```
    pub fn open(&mut self, key: Key) -> Result<usize, Refusal> {
        let (fields, count) = key.fields.bytes();
        let answer = slices::open(&mut self.bytes, key.bus.number(), &fields[..count]);
        Ok(Answer(answer).accepted()?.number())
    }

    /// Closes a slot. What lies in the store stays there.
    ///
    /// # Errors
    ///
    /// [`Refusal::Closed`].
    pub fn close(&mut self, slot: usize) -> Result<(), Refusal> {
        let answer = slices::close(&mut self.bytes, slot);
        Answer(answer).accepted().map(drop)
    }

    /// Receives the image of a frame on a bus. Only the area of the slot with the frame's key is written to.
    ///
    /// A count of 9 to 15 in the image is read as 8, in both formats: it says eight data bytes (ISO 11898-1, classical
    /// CAN), of which a standard start, middle or end has its number first. Nothing keeps which count it was.
    ///
    /// ```
    /// use siljuvatt::{Bus, Fields, Format, Key, Refusal, Reply, Station, Store};
    ///
    /// let mut station = Station::new(Format::Extended);
    /// let mut store = Store::new();
    /// let fields = Fields::Extended { priority: 0, source: 6, group: 0, destination: 0, function: 2 };
    /// let slot = station.open(Key { bus: Bus::B, fields })?;
    ///
    /// // A count of 12 before eight data bytes, and before seven.
    /// let reply = station.receive(&mut store, Bus::B, b"\x8C\x06\x00\xC0\x1000412701")?;
    /// assert_eq!(reply, Reply::Packet { length: 8, broke: false });
    /// assert_eq!(station.read(&store, slot)?, b"00412701");
    /// assert_eq!(station.receive(&mut store, Bus::B, b"\x8C\x06\x00\xC0\x100041270"), Err(Refusal::Count));
    ///
    /// // A count of 3 before four.
    /// assert_eq!(station.receive(&mut store, Bus::B, b"\x83\x06\x00\xC0\x100041"), Err(Refusal::Surplus));
    /// # Ok::<(), Refusal>(())
    /// ```
    ///
    /// # Errors
    ///
    /// In this order: [`Refusal::Store`]; of the image [`Refusal::Length`], [`Refusal::Form`], [`Refusal::Remote`],
    /// [`Refusal::Count`], [`Refusal::Surplus`], [`Refusal::Piece`]; of the stream [`Refusal::Orphan`],
    /// [`Refusal::Step`], [`Refusal::Long`].
    pub fn receive(&mut self, store: &mut [u8], bus: Bus, image: &[u8]) -> Result<Reply, Refusal> {
        let answer = slices::receive(&mut self.bytes, store, bus.number(), image);
        reply_of(Answer(answer))
    }

    /// The packet of a slot: the part of the store itself, with no copying.
    ///
    /// # Errors
    ///
    /// In this order: [`Refusal::Store`], [`Refusal::Closed`], [`Refusal::NoPacket`].
    ///
    /// The packet is lent from the store, so the store cannot be written to while it is in use:
    ///
    /// ```compile_fail,E0502
    /// use siljuvatt::{Bus, Format, Station, Store};
    ///
    /// let mut station = Station::new(Format::Extended);
    /// let mut store = Store::new();
    /// let packet = station.read(&store, 0).unwrap();
    /// station.receive(&mut store, Bus::A, b"").unwrap();
    /// println!("{packet:?}");
    /// ```
    pub fn read<'s>(&self, store: &'s [u8], slot: usize) -> Result<&'s [u8], Refusal> {
        let mut start = 0;
        let answer = slices::read(&self.bytes, store, slot, &mut start);
        let answer = Answer(answer).accepted()?;
        let packet = store.get(start..).and_then(|at| at.get(..answer.number()));
        packet.ok_or(answer.unknown())
    }
}

fn reply_of(answer: Answer) -> Result<Reply, Refusal> {
    let answer = answer.accepted()?;
    let broke = answer.broke();
    match answer.kind() {
        numbers::PACKET => Ok(Reply::Packet {
            length: answer.number(),
            broke,
        }),
        numbers::KEPT => Ok(Reply::Kept { broke }),
        numbers::FILTERED => Ok(Reply::Filtered),
        _ => Err(answer.unknown()),
    }
}

impl fmt::Debug for Station {
    fn fmt(&self, f: &mut fmt::Formatter<'_>) -> fmt::Result {
        write!(f, "Station({:02X?})", self.bytes)
    }
}

#[cfg(test)]
mod tests {
    use super::*;

    /// Every kind, with and without "broke".
    #[test]
    fn a_kind_that_is_not_known_is_no_reply() {
        for kind in 0..=255 {
            for broke in [false, true] {
                let answer = u32::from(broke) << 24 | kind << 16 | 9;
                let expected = match kind as u8 {
                    numbers::PACKET => Ok(Reply::Packet { length: 9, broke }),
                    numbers::KEPT => Ok(Reply::Kept { broke }),
                    numbers::FILTERED => Ok(Reply::Filtered),
                    _ => Err(Refusal::Unknown(answer)),
                };
                assert_eq!(reply_of(Answer(answer)), expected);
            }
        }
        assert_eq!(
            reply_of(Answer(0xFFFF_FFFF)),
            Err(Refusal::Unknown(0xFFFF_FFFF))
        );
    }
}
