//! Calls with lengths over 2^32: what takes a length for one of 32 bits takes these for right ones.
//!
//! The addresses are all good, in a mapping that has no memory behind it until it is touched.

use second::format::Format;
use second::interface::{master_bytes, refused, station_bytes, watch_bytes};
use second::interface::{MASTER_SIZE, STATION_SIZE, WATCH_SIZE};
use second::master::Master;
use second::refusal::Refusal;
use second::station::{Station, STORE_SIZE};
use second::watch::Watch;

use crate::library::Library;
use crate::memory::Mapping;

const OVER: usize = 1 << 32;

/// Fields that are all 0, and an empty single of these.
static FIELDS: [u8; 5] = [0; 5];
static IMAGE: [u8; 5] = [0x80, 0, 0, 0xC0, 0];

/// Makes every call that is lent something, with that too long by 2^32 and sound otherwise. Answers how many
/// calls these were, or which was the first with another answer than expected.
pub fn check<L: Library>(library: &L) -> Result<usize, String> {
    let mut huge = Huge {
        library,
        mapping: Mapping::new(OVER + 65_536),
        calls: 0,
    };
    huge.stations()?;
    huge.lent_to_stations()?;
    huge.pieces()?;
    huge.masters()?;
    huge.watches()?;
    Ok(huge.calls)
}

struct Huge<'a, L> {
    library: &'a L,
    mapping: Mapping,
    calls: usize,
}

// SAFETY, for all calls below: every address is good for the length handed over with it.
impl<L: Library> Huge<'_, L> {
    fn same(&mut self, name: &str, expected: u32, got: u32) -> Result<(), String> {
        self.calls += 1;
        match got == expected {
            true => Ok(()),
            false => Err(format!(
                "{name} of over 2^32 bytes: answer {got:#010X}, expected {expected:#010X}"
            )),
        }
    }

    fn refused(&mut self, name: &str, refusal: Refusal, got: u32) -> Result<(), String> {
        self.same(name, refused(refusal), got)
    }

    fn stations(&mut self) -> Result<(), String> {
        let (library, length) = (self.library, OVER + STATION_SIZE);
        let station = self.mapping.begin_with(&new_station());
        let mut store = vec![0; STORE_SIZE];
        let store: *mut u8 = store.as_mut_ptr();
        let (fields, image, mut start) = (FIELDS.as_ptr(), IMAGE.as_ptr(), 0);
        let got = unsafe { library.station_new(station, length, 0) };
        self.refused("station_new: station", Refusal::State, got)?;
        let got = unsafe { library.open(station, length, 0, fields, 5) };
        self.refused("open: station", Refusal::State, got)?;
        let got = unsafe { library.close(station, length, 0) };
        self.refused("close: station", Refusal::State, got)?;
        let got = unsafe { library.receive(station, length, store, STORE_SIZE, 0, image, 5) };
        self.refused("receive: station", Refusal::State, got)?;
        let got = unsafe { library.read(station, length, store, STORE_SIZE, 0, &mut start) };
        self.refused("read: station", Refusal::State, got)
    }

    fn lent_to_stations(&mut self) -> Result<(), String> {
        let (library, mut station) = (self.library, new_station());
        let (station, size) = (station.as_mut_ptr(), STATION_SIZE);
        let mut own = vec![0; STORE_SIZE];
        let own: *mut u8 = own.as_mut_ptr();
        let (image, mut start) = (IMAGE.as_ptr(), 0);
        let (store, length) = (self.mapping.begin_with(&[]), OVER + STORE_SIZE);
        let got = unsafe { library.receive(station, size, store, length, 0, image, 5) };
        self.refused("receive: store", Refusal::Store, got)?;
        let got = unsafe { library.read(station, size, store, length, 0, &mut start) };
        self.refused("read: store", Refusal::Store, got)?;
        let image = self.mapping.begin_with(&IMAGE);
        let got = unsafe { library.receive(station, size, own, STORE_SIZE, 0, image, OVER + 5) };
        self.refused("receive: image", Refusal::Length, got)?;
        let fields = self.mapping.begin_with(&FIELDS);
        let got = unsafe { library.open(station, size, 0, fields, OVER + 5) };
        self.refused("open: fields", Refusal::Field, got)
    }

    fn pieces(&mut self) -> Result<(), String> {
        let (library, huge) = (self.library, self.mapping.begin_with(&FIELDS));
        let (fields, packet, mut output) = (FIELDS.as_ptr(), IMAGE.as_ptr(), [0; 13]);
        let output = output.as_mut_ptr();
        let got = unsafe { library.write_piece(0, huge, OVER + 5, packet, 1, 0, output, 13) };
        self.refused("write_piece: fields", Refusal::Field, got)?;
        let got = unsafe { library.write_piece(0, fields, 5, huge, OVER + 1, 0, output, 13) };
        self.refused("write_piece: packet", Refusal::Size, got)?;
        // Room there is, so this one is written.
        let got = unsafe { library.write_piece(0, fields, 5, packet, 1, 0, huge, OVER + 1) };
        self.same("write_piece: output", 6, got)
    }

    fn masters(&mut self) -> Result<(), String> {
        let (library, length) = (self.library, OVER + MASTER_SIZE);
        let master = self.mapping.begin_with(&master_bytes(&Master::new()));
        let got = unsafe { library.master_new(master, length) };
        self.refused("master_new: master", Refusal::State, got)?;
        let got = unsafe { library.master_start(master, length, 1, 0) };
        self.refused("master_start: master", Refusal::State, got)?;
        let got = unsafe { library.master_reply(master, length, 0, 0, 2) };
        self.refused("master_reply: master", Refusal::State, got)?;
        let got = unsafe { library.master_timeout(master, length) };
        self.refused("master_timeout: master", Refusal::State, got)
    }

    fn watches(&mut self) -> Result<(), String> {
        let (library, length) = (self.library, OVER + WATCH_SIZE);
        let watch = self.mapping.begin_with(&watch_bytes(&Watch::new(0)));
        let got = unsafe { library.watch_new(watch, length, 0) };
        self.refused("watch_new: watch", Refusal::State, got)?;
        let got = unsafe { library.watch_heard(watch, length, 0, 0) };
        self.refused("watch_heard: watch", Refusal::State, got)?;
        let got = unsafe { library.watch_check(watch, length, 0) };
        self.refused("watch_check: watch", Refusal::State, got)
    }
}

fn new_station() -> [u8; STATION_SIZE] {
    station_bytes(&Station::new(Format::Extended))
}
