//! The two programs, from standard input to standard output.

use std::env;
use std::io::{self, ErrorKind};
use std::process::ExitCode;

fn main() -> ExitCode {
    let mut arguments = env::args_os().skip(1);
    let (name, more) = (arguments.next(), arguments.next());
    let (input, output) = (io::stdin().lock(), io::stdout().lock());
    let result = match (name.as_ref().and_then(|name| name.to_str()), more) {
        (Some("listing"), None) => second::listing(input, output),
        (Some("calls"), None) => second::calls(input, output),
        _ => {
            eprintln!("usage: second listing | calls");
            return ExitCode::from(2);
        }
    };
    match result {
        Ok(()) => ExitCode::SUCCESS,
        // The reader has seen enough; that is no fault.
        Err(error) if error.kind() == ErrorKind::BrokenPipe => ExitCode::SUCCESS,
        Err(error) => {
            eprintln!("second: {error}");
            ExitCode::FAILURE
        }
    }
}
