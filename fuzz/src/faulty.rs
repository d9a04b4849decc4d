//! Libraries with one fault each, and tests that each is noticed.

use std::cell::{Cell, RefCell};
use std::io::Sink;
use std::process::Command;
use std::{env, ptr, slice};

use second::interface::{self, refused, KEPT, MASTER_SIZE, SEND, STATION_SIZE};
use second::refusal::Refusal;
use second::station::STORE_SIZE;
use second::stream::AREA_SIZE;
use siljuvatt::raw::Argument;

use crate::bench::Difference;
use crate::call::Call;
use crate::crash;
use crate::driver::{run, Failure, Options};
use crate::huge;
use crate::library::{lent, Library, Raw, RawAnswer, FUNCTIONS, WITH_LENGTH};
use crate::tally::Tally;

/// A buffer that a call was lent.
#[derive(Clone, Copy)]
struct Lent {
    name: &'static str,
    at: *mut u8,
    length: usize,
}

impl Lent {
    /// Changes a bit of the byte at a place, which may lie outside.
    unsafe fn spoil(&self, place: isize) {
        *self.at.offset(place) ^= 0x10;
    }

    /// Whether its length needs more than 32 bits.
    fn is_huge(&self) -> bool {
        self.length > u32::MAX as usize
    }
}

/// What a library is handed, seen as what the model takes.
trait Seen<'a>: Argument {
    unsafe fn seen(raw: Self::Raw, length: usize) -> Self;

    /// Where the bytes are that it is lent, and how many.
    fn lent(_raw: &Self::Raw, _length: usize) -> Option<(*mut u8, usize)> {
        None
    }
}

macro_rules! seen_as_they_are {
    ($($number:ty),*) => {$(
        impl Seen<'_> for $number {
            unsafe fn seen(raw: $number, _: usize) -> $number {
                raw
            }
        }
    )*};
}

seen_as_they_are!(u8, u16, u32, usize);

impl<'a> Seen<'a> for &'a [u8] {
    unsafe fn seen(raw: *const u8, length: usize) -> &'a [u8] {
        match length {
            0 => &[],
            _ => slice::from_raw_parts(raw, length),
        }
    }

    fn lent(raw: &*const u8, length: usize) -> Option<(*mut u8, usize)> {
        Some((raw.cast_mut(), length))
    }
}

impl<'a> Seen<'a> for &'a mut [u8] {
    unsafe fn seen(raw: *mut u8, length: usize) -> &'a mut [u8] {
        match length {
            0 => &mut [],
            _ => slice::from_raw_parts_mut(raw, length),
        }
    }

    fn lent(raw: &*mut u8, length: usize) -> Option<(*mut u8, usize)> {
        Some((*raw, length))
    }
}

impl<'a> Seen<'a> for &'a [u8; 8] {
    unsafe fn seen(raw: *const [u8; 8], _: usize) -> &'a [u8; 8] {
        &*raw
    }

    fn lent(raw: &*const [u8; 8], _: usize) -> Option<(*mut u8, usize)> {
        Some((raw.cast_mut().cast(), 8))
    }
}

impl<'a> Seen<'a> for &'a mut usize {
    unsafe fn seen(raw: *mut usize, _: usize) -> &'a mut usize {
        &mut *raw
    }

    fn lent(raw: &*mut usize, _: usize) -> Option<(*mut u8, usize)> {
        Some((raw.cast(), size_of::<usize>()))
    }
}

/// What a faulty library does after a call that the model made: it may spoil buffers, and it gives the answer.
type Spoil = Box<dyn Fn(&[Lent], u32) -> u32>;

/// The model in the library's place, with a fault in one function.
struct Faulty {
    function: &'static str,
    spoil: Spoil,
    /// How often the function was called; the fault comes up at the seventh call, so that others pass.
    calls: Cell<usize>,
    /// The huge buffers that functions were lent.
    huge: RefCell<Vec<(&'static str, &'static str)>>,
}

impl Faulty {
    fn new(function: &'static str, spoil: impl Fn(&[Lent], u32) -> u32 + 'static) -> Faulty {
        Faulty {
            function,
            spoil: Box::new(spoil),
            calls: Cell::new(0),
            huge: RefCell::default(),
        }
    }

    fn end(&self, function: &'static str, lent: &[Lent], answer: u32) -> u32 {
        let huge = lent.iter().filter(|lent| lent.is_huge());
        self.huge
            .borrow_mut()
            .extend(huge.map(|lent| (function, lent.name)));
        if function != self.function {
            return answer;
        }
        self.calls.set(self.calls.get() + 1);
        match self.calls.get() < 7 {
            true => answer,
            false => (self.spoil)(lent, answer),
        }
    }
}

macro_rules! faulty {
    ($(
        $function:ident as $name:ident($($argument:ident $([$length:ident])?: $kind:ty),*) -> $answer:ty;
    )*) => {
        impl Library for Faulty {
            $(unsafe fn $name(&self, $($argument: Raw<$kind> $(, $length: usize)?),*) -> RawAnswer<$answer> {
                #[allow(unused_mut)]
                let mut lent = Vec::new();
                $(lent.extend(<$kind>::lent(&$argument, 0 $(+ $length)?).map(|(at, length)| {
                    let name = stringify!($argument);
                    Lent { name, at, length }
                }));)*
                let answer = interface::$name($(Seen::seen($argument, 0 $(+ $length)?)),*);
                self.end(stringify!($name), &lent, u32::from(answer)) as RawAnswer<$answer>
            })*
        }
    };
}

siljuvatt::calls!(faulty);

fn options(calls: u64) -> Options {
    Options {
        seed: 1,
        calls,
        sequence: None,
        heap: false,
        print: false,
    }
}

fn run_faulty(
    function: &'static str,
    spoil: impl Fn(&[Lent], u32) -> u32 + 'static,
) -> Result<Tally, Box<Failure>> {
    let library = Faulty::new(function, spoil);
    run::<_, Sink>(library, &options(30_000), &mut None)
}

/// The difference that a fault in a function comes to; it is in a call of that function.
fn noticed(function: &'static str, spoil: impl Fn(&[Lent], u32) -> u32 + 'static) -> Difference {
    let failure = run_faulty(function, spoil).err().expect(function);
    let call = failure.place.call.as_ref().expect("a call");
    assert_eq!(call.name(), function);
    failure.difference
}

#[test]
fn without_a_fault_nothing_is_noticed() {
    let tally =
        run_faulty("none", |_, answer| answer + 1).unwrap_or_else(|failure| panic!("{failure}"));
    assert!(tally.calls >= 30_000);
}

#[test]
fn an_answer_one_too_high() {
    for &function in FUNCTIONS {
        let difference = noticed(function, |_, answer| answer + 1);
        let Difference::Answer { expected, got } = difference else {
            panic!("{function}: {difference}");
        };
        assert_eq!(got, expected + 1);
    }
}

#[test]
fn an_answer_that_differs_in_any_bit() {
    // A kind or a mark of "broke" that is wrong, and a bool other than 0 and 1.
    assert!(matches!(
        noticed("receive", |_, answer| answer ^ 1 << 24),
        Difference::Answer { .. }
    ));
    assert!(matches!(
        noticed("master_timeout", |_, answer| answer ^ 1 << 17),
        Difference::Answer { .. }
    ));
    assert!(matches!(
        noticed("filter_accepts", |_, answer| answer ^ 128),
        Difference::Answer { .. }
    ));
}

#[test]
fn images_too_short_and_too_long_taken_for_each_other_or_for_sound() {
    let (short, long) = (refused(Refusal::Count), refused(Refusal::Surplus));
    for (right, wrong) in [(short, long), (long, short), (long, KEPT << 16)] {
        let difference = noticed("receive", move |_, answer| match answer == right {
            true => wrong,
            false => answer,
        });
        let expected = Difference::Answer {
            expected: right,
            got: wrong,
        };
        assert_eq!(difference, expected);
    }
}

/// Every function that is lent a buffer, with the names of those.
fn lending() -> Vec<(&'static str, Vec<&'static str>)> {
    let functions = FUNCTIONS.iter().copied().zip(lent());
    functions.filter(|(_, lent)| !lent.is_empty()).collect()
}

/// Changes a byte outside each buffer, but where it lies on a page without access.
fn spoil_outside(lent: &[Lent], place: impl Fn(&Lent) -> isize) {
    for lent in lent {
        let address = lent.at.wrapping_offset(place(lent)) as usize;
        let edge = match place(lent) < 0 {
            true => address % 4096 == 4095,
            false => address.is_multiple_of(4096),
        };
        if !lent.at.is_null() && !edge {
            // SAFETY: the arena goes on for its guard bytes at least.
            unsafe { lent.spoil(place(lent)) };
        }
    }
}

#[test]
fn a_byte_written_past_the_end() {
    for (function, _) in lending() {
        let difference = noticed(function, |lent, answer| {
            spoil_outside(lent, |lent| lent.length as isize);
            answer
        });
        assert!(
            matches!(difference, Difference::Outside { at: 0.., .. }),
            "{function}: {difference}"
        );
    }
}

#[test]
fn a_byte_written_before_the_beginning() {
    for (function, _) in lending() {
        let difference = noticed(function, |lent, answer| {
            spoil_outside(lent, |_| -1);
            answer
        });
        let at_minus_1 = matches!(difference, Difference::Outside { at: -1, .. });
        assert!(at_minus_1, "{function}: {difference}");
    }
}

/// Changes the last byte of the buffer of that name, if it has one.
fn spoil_last(lent: &[Lent], name: &str) {
    for lent in lent {
        if lent.name == name && lent.length > 0 {
            // SAFETY: the byte is the buffer's own.
            unsafe { lent.spoil(lent.length as isize - 1) };
        }
    }
}

#[test]
fn a_byte_of_each_buffer_that_is_not_what_it_should_be() {
    for (function, buffers) in lending() {
        for buffer in buffers {
            let difference = noticed(function, move |lent, answer| {
                spoil_last(lent, buffer);
                answer
            });
            let right = matches!(difference, Difference::Byte { name, .. } if name == buffer);
            assert!(right, "{function} {buffer}: {difference}");
        }
    }
}

#[test]
fn a_byte_left_unwritten() {
    // The master before a start has no exchange, so its send count is left at 0.
    const SENDS: usize = MASTER_SIZE - 2;
    let difference = noticed("master_start", |lent, answer| {
        if answer >> 16 == SEND {
            // SAFETY: a master that answers so has all its bytes.
            unsafe { *lent[0].at.add(SENDS) = 0 };
        }
        answer
    });
    let expected = Difference::Byte {
        name: "master",
        at: SENDS,
        expected: 1,
        got: 0,
    };
    assert_eq!(difference, expected);
}

#[test]
fn a_start_written_by_a_refused_read() {
    let difference = noticed("read", |lent, answer| {
        if answer >= 0x8000_0000 {
            // SAFETY: start is one size_t.
            unsafe { ptr::write(lent[2].at.cast::<usize>(), 0) };
        }
        answer
    });
    assert!(matches!(difference, Difference::Byte { name: "start", .. }));
}

/// Whatever is lent with a length is lent once with a huge one.
#[test]
fn every_length_is_once_over_32_bits() {
    let sound = Faulty::new("none", |_, answer| answer);
    assert_eq!(huge::check(&sound), Ok(WITH_LENGTH.len()));
    let mut made = sound.huge.into_inner();
    let mut declared = WITH_LENGTH.to_vec();
    made.sort();
    declared.sort();
    assert_eq!(made, declared);
}

#[test]
fn a_length_taken_for_one_of_32_bits() {
    for &(function, argument) in WITH_LENGTH {
        let wrong = Faulty::new(function, move |lent, answer| {
            let is_it = |lent: &Lent| lent.name == argument && lent.is_huge();
            answer + u32::from(lent.iter().any(is_it))
        });
        wrong.calls.set(100);
        let said = huge::check(&wrong).unwrap_err();
        let expected = format!("{function}: {argument} of over 2^32");
        assert!(said.starts_with(&expected), "{said}");
    }
}

#[test]
fn a_byte_of_another_streams_area() {
    let difference = noticed("receive", |lent, answer| {
        if lent[1].length == STORE_SIZE {
            // SAFETY: the store has this byte.
            unsafe { lent[1].spoil(STORE_SIZE as isize - 1) };
        }
        answer
    });
    let expected = 15 * AREA_SIZE + AREA_SIZE - 1;
    assert!(matches!(difference, Difference::Byte { name: "store", at, .. } if at == expected));
}

/// A read past the end, in a process of its own as it ends it.
#[test]
#[ignore = "run by the test below"]
fn reads_past_the_end() {
    crash::install();
    let _ = run_faulty("open", |lent, answer| {
        let past = lent[1].at.wrapping_add(lent[1].length);
        // SAFETY: none; that is the fault.
        let _ = unsafe { ptr::read_volatile(past) };
        answer
    });
}

#[test]
fn a_byte_read_past_the_end() {
    let child = Command::new(env::current_exe().expect("a path"))
        .args([
            "--ignored",
            "--exact",
            "faulty::reads_past_the_end",
            "--nocapture",
        ])
        .output()
        .expect("a process");
    assert_eq!(child.status.code(), Some(1));
    let said = String::from_utf8_lossy(&child.stderr);
    assert!(said.contains("stopped by signal 11"), "{said}");
    assert!(said.contains("siljuvatt_open(station, bus "), "{said}");
    assert!(said.contains("seed 1, sequence "), "{said}");
}

#[test]
fn a_failure_can_be_run_again_alone() {
    let failure = run_faulty("close", |_, answer| answer + 1)
        .err()
        .expect("a fault");
    let library = Faulty::new("close", |_, answer| answer + 1);
    library.calls.set(100);
    let mut again = options(1);
    again.sequence = Some(failure.place.sequence);
    let second = run::<_, Sink>(library, &again, &mut None)
        .err()
        .expect("a fault");
    // The fault was there from the sequence's first such call on.
    assert_eq!(second.place.sequence, failure.place.sequence);
    assert!(second.place.number <= failure.place.number);
    assert!(matches!(second.place.call, Some(Call::close { .. })));
    let said = failure.to_string();
    assert!(said.contains("answer 0x"));
    assert!(said.contains("siljuvatt_close(station, slot "));
    assert!(said.contains(&format!("station {STATION_SIZE} bytes {{")));
    let place = format!("seed 1, sequence {}, call ", failure.place.sequence);
    assert!(said.contains(&place));
}
