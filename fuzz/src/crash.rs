//! What is said where a call does not come to its end: the system stopped the library's code, as it touched a page
//! without access or trapped, or the model broke down.

use std::fmt::Display;
use std::panic;
use std::sync::atomic::{AtomicPtr, Ordering};

extern "C" {
    fn signal(number: i32, handler: usize) -> usize;
    fn _exit(status: i32) -> !;
}

/// Illegal instruction, trap, abort, bus error, arithmetic, access to memory.
const SIGNALS: [i32; 6] = [4, 5, 6, 7, 8, 11];

/// What the run is at, to be printed.
type Current<'a> = &'a dyn Display;

static CURRENT: AtomicPtr<Current<'static>> = AtomicPtr::new(std::ptr::null_mut());

/// Makes every such signal print what the run is at and end it with 1, and a panic print it too.
pub fn install() {
    panic::set_hook(Box::new(|info| {
        eprintln!("fuzz: {info}");
        say_current();
    }));
    for number in SIGNALS {
        // SAFETY: the handler is a function of the signal's number.
        unsafe { signal(number, handle as *const () as usize) };
    }
}

/// Runs the call with a note of what it is.
pub fn during<T>(current: Current, call: impl FnOnce() -> T) -> T {
    let place: *const Current = &current;
    CURRENT.store(place.cast_mut().cast(), Ordering::SeqCst);
    let result = call();
    CURRENT.store(std::ptr::null_mut(), Ordering::SeqCst);
    result
}

/// The library neither allocates nor locks, so what it was stopped in leaves printing free to do both.
extern "C" fn handle(number: i32) {
    eprintln!("fuzz: stopped by signal {number}");
    say_current();
    // SAFETY: it ends the process.
    unsafe { _exit(1) }
}

fn say_current() {
    let place = CURRENT.load(Ordering::SeqCst);
    // SAFETY: the pointer is that of a call still under way, or null.
    match unsafe { place.as_ref() } {
        Some(current) => eprintln!("{current}"),
        None => eprintln!("outside a call"),
    }
}
