//! The receivers that are measured against each other, behind one trait.

use crate::bytes::{put_station, reply_word, STATION_SIZE};
use crate::library;
use crate::measured;
use crate::plain::{Refusal, Reply, Station};

pub trait Receiver: Clone + 'static {
    const NAME: &'static str;
    type Answer;

    fn from_station(station: &Station) -> Self;

    fn receive(&mut self, store: &mut [u8], bus: u8, image: &[u8]) -> Self::Answer;

    /// The answer as the library's number.
    fn word(answer: Self::Answer) -> u32;
}

#[derive(Clone)]
pub struct Library(pub [u8; STATION_SIZE]);

impl Receiver for Library {
    const NAME: &'static str = "library";
    type Answer = u32;

    fn from_station(station: &Station) -> Self {
        let mut bytes = [0; STATION_SIZE];
        put_station(station, &mut bytes);
        Library(bytes)
    }

    fn receive(&mut self, store: &mut [u8], bus: u8, image: &[u8]) -> u32 {
        library::receive(&mut self.0, store, bus, image)
    }

    fn word(answer: u32) -> u32 {
        answer
    }
}

#[derive(Clone)]
pub struct Plain(pub Station);

impl Receiver for Plain {
    const NAME: &'static str = "plain";
    type Answer = Result<Reply, Refusal>;

    fn from_station(station: &Station) -> Self {
        Plain(station.clone())
    }

    fn receive(&mut self, store: &mut [u8], bus: u8, image: &[u8]) -> Self::Answer {
        measured::plain_receive(&mut self.0, store, bus, image)
    }

    fn word(answer: Self::Answer) -> u32 {
        reply_word(answer)
    }
}

#[derive(Clone)]
pub struct PlainBytes(pub [u8; STATION_SIZE]);

impl Receiver for PlainBytes {
    const NAME: &'static str = "plain_bytes";
    type Answer = Result<Reply, Refusal>;

    fn from_station(station: &Station) -> Self {
        PlainBytes(Library::from_station(station).0)
    }

    fn receive(&mut self, store: &mut [u8], bus: u8, image: &[u8]) -> Self::Answer {
        measured::plain_receive_bytes(&mut self.0, store, bus, image)
    }

    fn word(answer: Self::Answer) -> u32 {
        reply_word(answer)
    }
}
