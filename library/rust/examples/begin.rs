//! What to begin with: a packet is split, a station joins its pieces while a frame is lost and sent again; a master
//! leads a command over both buses; a watch tells of a silent bus.
//!
//! usage: cargo run --example begin

use siljuvatt::{pieces, Bus, Fields, Format, Key, Kind, Master, Refusal, Reply};
use siljuvatt::{Silent, Station, Step, Store, Watch};
use std::error::Error;
use std::io::{self, Write};

/// A board on bus B: what its frames' identifiers have in common.
const BOARD_6: Fields = Fields::Extended {
    priority: 0,
    source: 6,
    group: 0,
    destination: 0,
    function: 2,
};

/// A station receives the frames of one board, of which one is lost.
fn receive(out: &mut impl Write) -> Result<(), Box<dyn Error>> {
    let mut station = Station::new(Format::Extended);
    let mut store = Store::new();
    let bus = Bus::B;
    let slot = station.open(Key {
        bus,
        fields: BOARD_6,
    })?;

    let images: Vec<_> = pieces(BOARD_6, b"serial 004127019 lot 07")?.collect();
    for k in [0, 2, 0, 1, 2] {
        match station.receive(&mut store, bus, &images[k]) {
            Ok(Reply::Packet { length, .. }) => {
                writeln!(out, "piece {k}: packet of {length} bytes")?
            }
            Ok(Reply::Kept { .. }) => writeln!(out, "piece {k}: kept")?,
            // Later releases may have other answers.
            Ok(other) => writeln!(out, "piece {k}: {other:?}")?,
            // The frame is not taken. After STEP and LONG the stream waits for its next start or single.
            Err(refusal) => writeln!(out, "piece {k}: refused {refusal}")?,
        }
    }
    // The packet is the part of the store itself. It is bytes, and the serial keeps its zeros.
    let packet = station.read(&store, slot)?;
    Ok(writeln!(out, "{}", String::from_utf8_lossy(packet))?)
}

/// A master sends a command to node 22, which hears bus B alone.
fn command(out: &mut impl Write) -> Result<(), Box<dyn Error>> {
    let mut master = Master::new();
    let mut step = master.start(Kind::Command, 22)?;
    while let Step::Send(bus) = step {
        writeln!(out, "command: send on bus {bus:?}")?;
        step = match bus {
            Bus::A => master.timeout()?,
            Bus::B => master.reply(bus, 22, 4)?,
        };
    }
    writeln!(out, "command: {step:?}")?;
    match master.reply(Bus::B, 22, 4) {
        Err(Refusal::Idle) => Ok(writeln!(out, "command: a second reply has no exchange")?),
        other => Err(format!("a second reply: {other:?}").into()),
    }
}

/// A watch that hears bus B only.
fn watch(out: &mut impl Write) -> Result<(), Box<dyn Error>> {
    let mut watch = Watch::new(0);
    watch.heard(Bus::B, 8_000)?;
    for now in [Watch::SILENCE - 1, Watch::SILENCE] {
        let Silent { a, b } = watch.check(now)?;
        writeln!(out, "watch: after {now} ms reset A: {a}, reset B: {b}")?;
    }
    Ok(())
}

/// All of it.
pub fn begin(out: &mut impl Write) -> Result<(), Box<dyn Error>> {
    receive(out)?;
    command(out)?;
    watch(out)
}

fn main() -> Result<(), Box<dyn Error>> {
    begin(&mut io::stdout().lock())
}
