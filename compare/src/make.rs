//! Makes a long trace as a busy bench gives it.

use crate::trace::write_record;
use second::format::Format;
use std::io::{self, BufWriter, Write};
use testkit::keys::different_keys;
use testkit::traffic::{Noise, Sizes, Traffic};
use testkit::Random;

/// Writes a trace of that many records, none damaged: twelve streams on both buses, of which one frame in a hundred
/// is lost, repeated or corrupted. Twelve, because a corrupted identifier looks like a stream of its own.
pub fn make(records: u64, seed: u64, output: impl Write) -> io::Result<()> {
    let mut random = Random::new(seed);
    let keys = different_keys(Format::Extended, 12, &mut random);
    let noise = Noise {
        lost: 3,
        repeated: 3,
        corrupt: 4,
        ..Noise::default()
    };
    let mut traffic = Traffic::new(&keys, Sizes::Bench, noise, 13, random);
    let mut output = BufWriter::with_capacity(1 << 16, output);
    for _ in 0..records {
        let arrival = traffic.next_frame();
        write_record(&mut output, arrival.bus, &arrival.image)?;
    }
    output.flush()
}

#[cfg(test)]
mod tests {
    use super::*;
    use crate::trace::read_record;

    #[test]
    fn has_exactly_the_records_on_both_buses() {
        let mut trace = Vec::new();
        make(5000, 3, &mut trace).unwrap();
        let mut rest = &trace[..];
        let mut on_bus = [0; 2];
        while let Some((bus, _)) = read_record(&mut rest).unwrap() {
            on_bus[usize::from(bus)] += 1;
        }
        assert_eq!(on_bus[0] + on_bus[1], 5000);
        assert!(on_bus[0] > 500 && on_bus[1] > 500);
    }
}
