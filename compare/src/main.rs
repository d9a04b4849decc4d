//! Runs the proved programs and the second program on the same inputs and compares what they write, byte for byte.
//! All inputs come from fixed seeds. What occurred is counted, and what must occur but never did is an error.

mod calls;
mod counts;
mod exchange;
mod fronts;
mod full;
mod log;
mod make;
mod observe;
mod pieces;
mod program;
mod request;
mod script;
mod step;
mod tally;
mod trace;
mod traces;
mod wrong;

use std::env;
use std::io;
use std::path::Path;
use std::process::ExitCode;
use traces::Programs;
use wrong::Place;

const USAGE: &str = "usage:
  compare traces LISTING COUNT SEED [--keep FILE] [--also COMMAND]
  compare fronts CALLS COUNT SEED [--keep FILE]
  compare pieces CALLS
  compare full CALLS
  compare counts LISTING CALLS [--also COMMAND]
  compare calls CALLS COUNT SEED [--keep FILE]
  compare make N SEED >TRACE
  compare log <TRACE >LOG
  compare wrong PLACE <OUTPUT >OUTPUT";

fn main() -> ExitCode {
    let arguments: Vec<String> = env::args().skip(1).collect();
    let arguments: Vec<&str> = arguments.iter().map(String::as_str).collect();
    match run(&arguments) {
        Ok(()) => ExitCode::SUCCESS,
        Err(message) => {
            eprintln!("compare: {message}");
            ExitCode::FAILURE
        }
    }
}

fn run(arguments: &[&str]) -> Result<(), String> {
    let mut arguments = arguments.to_vec();
    let keep = take_option(&mut arguments, "--keep").map(Path::new);
    let also = take_option(&mut arguments, "--also");
    match arguments[..] {
        ["traces", program, count, seed] => {
            let listing = Path::new(program);
            let programs = Programs { listing, also };
            traces::compare(&programs, number(count)?, number(seed)?, keep)
        }
        ["counts", program, calls] if keep.is_none() => {
            let listing = Path::new(program);
            counts::compare(&Programs { listing, also }, Path::new(calls))
        }
        ["fronts", program, count, seed] if also.is_none() => {
            fronts::compare(Path::new(program), number(count)?, number(seed)?, keep)
        }
        ["calls", program, count, seed] if also.is_none() => {
            calls::compare(Path::new(program), number(count)?, number(seed)?, keep)
        }
        _ if keep.is_some() || also.is_some() => Err(USAGE.to_string()),
        ["pieces", program] => pieces::compare(Path::new(program)),
        ["full", program] => full::compare(Path::new(program)),
        ["make", records, seed] => {
            let made = make::make(number(records)?, number(seed)?, io::stdout().lock());
            made.map_err(|error| error.to_string())
        }
        ["log"] => {
            let logged = log::log(io::stdin().lock(), io::stdout().lock());
            logged.map_err(|error| error.to_string())
        }
        ["wrong", place] => {
            let place = Place::parse(place)?;
            let made = wrong::wrong(place, io::stdin().lock(), io::stdout().lock());
            made.map_err(|error| error.to_string())
        }
        _ => Err(USAGE.to_string()),
    }
}

/// Takes an option and its value out of the arguments. One without a value stays there and is found wrong.
fn take_option<'a>(arguments: &mut Vec<&'a str>, name: &str) -> Option<&'a str> {
    let place = arguments.iter().position(|&argument| argument == name)?;
    let value = *arguments.get(place + 1)?;
    arguments.drain(place..place + 2);
    Some(value)
}

fn number(text: &str) -> Result<u64, String> {
    text.parse().map_err(|_| format!("not a number: {text}"))
}

#[cfg(test)]
mod tests {
    use super::*;

    #[test]
    fn takes_options_in_any_order() {
        let mut arguments = vec!["traces", "--also", "a b", "x", "--keep", "file"];
        assert_eq!(take_option(&mut arguments, "--keep"), Some("file"));
        assert_eq!(take_option(&mut arguments, "--keep"), None);
        assert_eq!(take_option(&mut arguments, "--also"), Some("a b"));
        assert_eq!(arguments, ["traces", "x"]);
    }

    #[test]
    fn refuses_what_it_does_not_know() {
        let wrong: [&[&str]; 11] = [
            &[],
            &["listing"],
            &["log", "--also", "x"],
            &["calls", "x", "1", "1", "--also", "x"],
            &["fronts", "x", "1", "1", "--also", "x"],
            &["fronts", "x", "1"],
            &["full", "x", "1"],
            &["full", "x", "--keep", "x"],
            &["counts", "x"],
            &["counts", "x", "x", "--keep", "x"],
            &["traces", "x", "1", "1", "--keep"],
        ];
        for arguments in wrong {
            assert_eq!(run(arguments), Err(USAGE.to_string()));
        }
    }
}
