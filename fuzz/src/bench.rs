//! One call at a time, made of the library and of the model, and what both leave compared.

use std::fmt;

use second::interface;
use second::station::STORE_SIZE;

use crate::argument::{Hand, Held, Hold, Raw};
use crate::call::{Call, Hex, Part};
use crate::library::Library;
use crate::memory::{Arena, Layout};

/// The longest buffers that are lent.
const LONGEST: usize = 65_536 + STORE_SIZE + 1_024;

/// Where library and model differ.
#[derive(Debug, PartialEq, Eq)]
pub enum Difference {
    Answer {
        expected: u32,
        got: u32,
    },
    Byte {
        name: &'static str,
        at: usize,
        expected: u8,
        got: u8,
    },
    /// A byte outside the buffer was written.
    Outside {
        name: &'static str,
        at: isize,
    },
}

impl fmt::Display for Difference {
    fn fmt(&self, f: &mut fmt::Formatter) -> fmt::Result {
        match self {
            Difference::Answer { expected, got } => {
                write!(f, "answer {got:#010X}, expected {expected:#010X}")
            }
            Difference::Byte {
                name,
                at,
                expected,
                got,
            } => write!(f, "{name}[{at}] is {got:02X}, expected {expected:02X}"),
            Difference::Outside { name, at } => write!(f, "written outside: {name}[{at}]"),
        }
    }
}

/// The parts that last from call to call, as the model has them. A sequence gives them their first bytes.
#[derive(Clone, Debug, Default, PartialEq, Eq)]
pub struct Parts {
    pub station: Vec<u8>,
    pub store: Vec<u8>,
    pub master: Vec<u8>,
    pub watch: Vec<u8>,
}

impl Parts {
    pub fn get_mut(&mut self, part: Part) -> &mut Vec<u8> {
        match part {
            Part::Station => &mut self.station,
            Part::Store => &mut self.store,
            Part::Master => &mut self.master,
            Part::Watch => &mut self.watch,
        }
    }
}

impl fmt::Display for Parts {
    fn fmt(&self, f: &mut fmt::Formatter) -> fmt::Result {
        writeln!(f, "station {}", Hex(&self.station))?;
        writeln!(f, "master {}", Hex(&self.master))?;
        write!(f, "watch {}", Hex(&self.watch))
    }
}

/// What a call came to, as the model has it; the library was seen to agree.
#[derive(Clone, Debug, PartialEq, Eq)]
pub struct Outcome {
    pub answer: u32,
    /// The call for fuzz/replay.c, if it is recorded.
    pub record: Vec<u8>,
}

/// One buffer lent to the library, by the argument's name.
struct Lent {
    name: &'static str,
    arena: Arena,
}

impl Lent {
    fn new(name: &'static str) -> Lent {
        let arena = Arena::new(LONGEST);
        Lent { name, arena }
    }

    /// Refuses bytes other than expected, and any change around them.
    fn compare(&self, expected: &[u8]) -> Result<(), Difference> {
        self.compare_outside()?;
        let got = self.arena.bytes();
        if got == expected {
            return Ok(());
        }
        let mut pairs = got.iter().zip(expected);
        let at = pairs
            .position(|(got, expected)| got != expected)
            .expect("both have the length that was lent");
        Err(Difference::Byte {
            name: self.name,
            at,
            expected: expected[at],
            got: got[at],
        })
    }

    fn compare_outside(&self) -> Result<(), Difference> {
        let name = self.name;
        match self.arena.changed_outside() {
            Some(at) => Err(Difference::Outside { name, at }),
            None => Ok(()),
        }
    }
}

/// The buffers that the library is lent.
pub struct Lents {
    lents: Vec<Lent>,
    /// The library keeps its store from call to call: a copy of 32 KiB at each would be slow.
    store: Lent,
    layout: Layout,
    /// The store is compared whole at every so many calls.
    store_every: usize,
    /// Calls since the sequence began; shifts buffers to other addresses.
    calls: usize,
    /// Buffers lent in this call.
    in_call: usize,
}

impl Lents {
    fn new(store_every: usize) -> Lents {
        Lents {
            lents: Vec::new(),
            store: Lent::new("store"),
            layout: Layout::Guarded,
            store_every,
            calls: 0,
            in_call: 0,
        }
    }

    fn begin_call(&mut self) {
        self.calls += 1;
        self.in_call = 0;
    }

    /// Lends a copy of the bytes, and answers where it lies. Each buffer of a call is shifted at a pace of its own.
    pub fn lend(&mut self, name: &'static str, bytes: &[u8]) -> *mut u8 {
        let shift = self.calls >> self.in_call;
        self.in_call += 1;
        self.lend_at(name, shift, bytes)
    }

    /// Lends bytes that have to be aligned, and so are never shifted.
    pub fn lend_aligned(&mut self, name: &'static str, bytes: &[u8]) -> *mut u8 {
        self.lend_at(name, 0, bytes)
    }

    fn lend_at(&mut self, name: &'static str, shift: usize, bytes: &[u8]) -> *mut u8 {
        let place = self.lents.iter().position(|lent| lent.name == name);
        let place = place.unwrap_or_else(|| {
            self.lents.push(Lent::new(name));
            self.lents.len() - 1
        });
        let arena = &mut self.lents[place].arena;
        arena.lend(self.layout, shift, bytes);
        arena.pointer(shift)
    }

    pub fn compare(&self, name: &str, expected: &[u8]) -> Result<(), Difference> {
        let lent = self.lents.iter().find(|lent| lent.name == name);
        lent.expect("a buffer that was lent").compare(expected)
    }

    fn set_lasting_store(&mut self, bytes: &[u8]) {
        self.store.arena.lend(self.layout, self.calls, bytes);
    }

    pub fn lasting_store(&self) -> *mut u8 {
        self.store.arena.pointer(self.calls)
    }

    pub fn compare_lasting_store(&self, expected: &[u8]) -> Result<(), Difference> {
        match self.calls.is_multiple_of(self.store_every) {
            true => self.store.compare(expected),
            false => self.store.compare_outside(),
        }
    }
}

/// The library and the model side by side.
pub struct Bench<L> {
    library: L,
    parts: Parts,
    lents: Lents,
    recording: bool,
}

impl<L: Library> Bench<L> {
    pub fn new(library: L, store_every: usize, recording: bool) -> Bench<L> {
        Bench {
            library,
            parts: Parts::default(),
            lents: Lents::new(store_every),
            recording,
        }
    }

    /// Begins a sequence, which gives each part its first bytes.
    pub fn begin(&mut self, layout: Layout) {
        self.lents.layout = layout;
        self.lents.calls = 0;
        self.parts = Parts::default();
        self.lents.set_lasting_store(&[]);
    }

    pub fn parts(&self) -> &Parts {
        &self.parts
    }

    /// Gives a part other bytes, for library and model.
    pub fn set(&mut self, part: Part, bytes: &[u8]) {
        let own = self.parts.get_mut(part);
        own.clear();
        own.extend_from_slice(bytes);
        if part == Part::Store {
            self.lents.set_lasting_store(bytes);
        }
    }

    /// Compares the whole store, as at the end of a sequence.
    pub fn compare_store(&self) -> Result<(), Difference> {
        self.lents.store.compare(&self.parts.store)
    }

    /// The call for fuzz/replay.c: the number of its function, and its arguments.
    fn begin_record(&self, call: &Call) -> Vec<u8> {
        let mut record = Vec::new();
        if self.recording {
            record.push(call.function() as u8);
            for (_, value) in call.arguments() {
                value.record(&mut record);
            }
        }
        record
    }
}

macro_rules! make {
    ($(
        $function:ident as $name:ident($($argument:ident $([$length:ident])?: $kind:ty),*) -> $answer:ty;
    )*) => {
        impl<L: Library> Bench<L> {
            /// Makes the call and compares. After a difference the parts are no more to be used.
            pub fn make(&mut self, call: &Call) -> Result<Outcome, Difference> {
                self.lents.begin_call();
                let mut record = self.begin_record(call);
                let answer = match call {
                    $(Call::$name { $($argument),* } => {
                        $(let mut $argument = $argument.hold(stringify!($argument), &mut self.parts);)*
                        $($argument.lend(&mut self.lents);)*
                        // SAFETY: every buffer is lent with its length.
                        let got = unsafe {
                            self.library.$name(
                                $($argument.raw() $(, { let $length = $argument.length(); $length })?),*
                            )
                        };
                        let expected = interface::$name($($argument.hand()),*);
                        let answer = same(u32::from(expected), u32::from(got))?;
                        $($argument.compare(&self.lents)?;)*
                        if self.recording {
                            record.extend(answer.to_le_bytes());
                            $($argument.record_after(&mut record);)*
                        }
                        $($argument.put_back(&mut self.parts);)*
                        answer
                    })*
                };
                Ok(Outcome { answer, record })
            }
        }
    };
}

siljuvatt::calls!(make);

fn same(expected: u32, got: u32) -> Result<u32, Difference> {
    match expected == got {
        true => Ok(got),
        false => Err(Difference::Answer { expected, got }),
    }
}
