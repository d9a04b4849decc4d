//! Writes the calls of a run for fuzz/replay.c, with what each came to. Numbers have their low byte first.

use std::io::Write;

use crate::argument::record_bytes;
use crate::call::Part;
use crate::library::FUNCTIONS;

/// What the file begins with. Behind it stand the names of the functions in the order of their numbers, a line each,
/// and an empty line.
const MAGIC: &str = "siljuvatt calls 2\n";

/// Besides a call's function number: a part is set, a sequence ends, the file ends.
const SET: u8 = 200;
const END_OF_SEQUENCE: u8 = 220;
const END_OF_FILE: u8 = 221;

/// Writes each step as it was made. A write that fails ends the run, as what reads it is gone.
pub struct Recorder<W> {
    output: W,
}

impl<W: Write> Recorder<W> {
    pub fn new(output: W) -> Recorder<W> {
        let mut recorder = Recorder { output };
        let names: String = FUNCTIONS.iter().map(|name| format!("{name}\n")).collect();
        recorder.write(format!("{MAGIC}{names}\n").as_bytes());
        recorder
    }

    /// A part gets other bytes.
    pub fn set(&mut self, part: Part, bytes: &[u8]) {
        let mut record = vec![SET + part as u8];
        record_bytes(bytes, &mut record);
        self.write(&record);
    }

    /// A call: its function, its arguments, the answer, and all that it was lent, as that is after it.
    pub fn call(&mut self, record: &[u8]) {
        self.write(record);
    }

    /// At the end of a sequence the whole store is compared.
    pub fn end(&mut self, store: &[u8]) {
        let mut record = vec![END_OF_SEQUENCE];
        record_bytes(store, &mut record);
        self.write(&record);
    }

    /// Ends the file with the number of calls.
    pub fn finish(mut self, calls: u64) -> W {
        self.write(&[END_OF_FILE]);
        self.write(&calls.to_le_bytes());
        self.output.flush().expect("the calls cannot be written");
        self.output
    }

    fn write(&mut self, bytes: &[u8]) {
        self.output
            .write_all(bytes)
            .expect("the calls cannot be written");
    }
}

#[cfg(test)]
mod tests {
    use super::*;
    use crate::bench::Bench;
    use crate::call::{Call, WATCH};
    use crate::library::{Function, Linked};
    use crate::memory::Layout;

    #[test]
    fn a_call_is_its_number_arguments_answer_and_what_it_wrote() {
        let mut bench = Bench::new(Linked, 1, true);
        bench.begin(Layout::Guarded);
        bench.set(Part::Watch, &[1, 2, 3, 4, 5, 6, 7, 8, 1]);
        let made = bench.make(&Call::watch_heard {
            watch: WATCH,
            bus: 1,
            now: 0x0A0B_0C0D,
        });
        let mut recorder = Recorder::new(Vec::new());
        recorder.set(Part::Watch, &[9]);
        recorder.call(&made.expect("no difference").record);
        let written = recorder.finish(1);
        let head = format!("{MAGIC}{}\n\n", FUNCTIONS.join("\n"));
        let expected = [
            head.as_bytes(),
            &[203, 1, 0, 0, 0, 9],
            &[Function::watch_heard as u8, 3, 1, 0x0D, 0x0C, 0x0B, 0x0A],
            &[1, 0, 0, 0],
            &[9, 0, 0, 0, 1, 2, 3, 4, 0x0D, 0x0C, 0x0B, 0x0A, 1],
            &[221, 1, 0, 0, 0, 0, 0, 0, 0],
        ];
        assert_eq!(written, expected.concat());
    }
}
