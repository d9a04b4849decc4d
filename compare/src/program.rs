//! Runs a program with its input fed and its output taken at the same time, so that neither waits for the other.

use std::io::{self, ErrorKind, Read, Write};
use std::process::{Child, ChildStderr, ChildStdin, ChildStdout, Command, ExitStatus, Stdio};
use std::sync::mpsc::{self, Receiver};
use std::thread;
use std::time::{Duration, Instant};

/// How long a run may take. A program that hangs must not hold up whoever runs it.
const LIMIT: Duration = Duration::from_secs(60);

/// How much is shown of what a program says on standard error.
const SHOWN: u64 = 200;

/// Runs the program: one thread feeds it while this one takes its output. A program that ends with
/// another status than 0, or not at all, or that says something on standard error, is an error, even if
/// its output was taken as right.
pub fn run<T>(
    command: &mut Command,
    feed: impl FnOnce(&mut ChildStdin) -> io::Result<()> + Send,
    take: impl FnOnce(&mut ChildStdout) -> Result<T, String>,
) -> Result<T, String> {
    run_within(LIMIT, command, feed, take)
}

fn run_within<T>(
    limit: Duration,
    command: &mut Command,
    feed: impl FnOnce(&mut ChildStdin) -> io::Result<()> + Send,
    take: impl FnOnce(&mut ChildStdout) -> Result<T, String>,
) -> Result<T, String> {
    let name = command.get_program().to_string_lossy().into_owned();
    let (child, mut input, mut output, errors) =
        start(command).map_err(|error| format!("{name} can't be started: {error}"))?;
    let (stop, stops) = mpsc::channel();
    let (fed, taken, end, said) = thread::scope(|scope| {
        let stop_too = stop.clone();
        let feeder = scope.spawn(move || {
            let fed = feed(&mut input).or_else(unless_left);
            if fed.is_err() {
                stop_too.send(()).ok();
            }
            fed
        });
        let watcher = scope.spawn(move || watch(child, &stops, limit));
        let listener = scope.spawn(move || listen(errors));
        let taken = take(&mut output);
        // The rest of the output is not wanted, and a program waiting to write it must not hold us up.
        drop(output);
        if taken.is_err() {
            stop.send(()).ok();
        }
        drop(stop);
        let fed = feeder.join().expect("the feeder doesn't panic");
        let end = watcher.join().expect("the watcher doesn't panic");
        let said = listener.join().expect("the listener doesn't panic");
        (fed, taken, end, said)
    });
    let result = outcome(&name, fed, taken, end);
    match (said.map_err(|error| format!("{name}: {error}"))?, result) {
        (said, result) if said.is_empty() => result,
        (said, Ok(_)) => Err(format!("{name} said: {said:?}")),
        (said, Err(error)) => Err(format!("{error}\n  {name} said: {said:?}")),
    }
}

/// What was taken, if nothing went wrong.
fn outcome<T>(
    name: &str,
    fed: io::Result<()>,
    taken: Result<T, String>,
    end: io::Result<ExitStatus>,
) -> Result<T, String> {
    let status = end.map_err(|error| format!("{name}: {error}"))?;
    fed.map_err(|error| format!("{name}: {error}"))?;
    let taken = taken?;
    if status.success() {
        Ok(taken)
    } else {
        Err(format!("{name} ended with {status}"))
    }
}

fn start(command: &mut Command) -> io::Result<(Child, ChildStdin, ChildStdout, ChildStderr)> {
    let piped = command.stdin(Stdio::piped()).stdout(Stdio::piped());
    let mut child = piped.stderr(Stdio::piped()).spawn()?;
    let input = child.stdin.take().expect("the input is piped");
    let output = child.stdout.take().expect("the output is piped");
    let errors = child.stderr.take().expect("the errors are piped");
    Ok((child, input, output, errors))
}

/// Takes all that is said, so that a program that says much doesn't wait, and gives the first of it.
fn listen(mut errors: impl Read) -> io::Result<String> {
    let mut first = Vec::new();
    errors.by_ref().take(SHOWN).read_to_end(&mut first)?;
    io::copy(&mut errors, &mut io::sink())?;
    Ok(String::from_utf8_lossy(&first).into_owned())
}

/// A program may stop reading early, at a damaged record.
fn unless_left(error: io::Error) -> io::Result<()> {
    match error.kind() {
        ErrorKind::BrokenPipe => Ok(()),
        _ => Err(error),
    }
}

/// Waits until the program ends by itself, or ends it: at once when told to stop, because it is already known to
/// be wrong, and else when its time is over, which is an error.
fn watch(mut child: Child, stops: &Receiver<()>, limit: Duration) -> io::Result<ExitStatus> {
    let deadline = Instant::now() + limit;
    if stops.recv_timeout(limit) == Ok(()) {
        child.kill()?;
        return child.wait();
    }
    // It was fed and its output taken, or its time is over. A program that closed its output is about to end.
    while Instant::now() < deadline {
        if let Some(status) = child.try_wait()? {
            return Ok(status);
        }
        thread::sleep(Duration::from_micros(50));
    }
    child.kill()?;
    child.wait()?;
    let seconds = limit.as_secs_f32();
    Err(io::Error::other(format!("not ended after {seconds} s")))
}

/// All of the output.
pub fn take_all(output: &mut impl Read) -> Result<Vec<u8>, String> {
    let mut bytes = Vec::new();
    match output.read_to_end(&mut bytes) {
        Ok(_) => Ok(bytes),
        Err(error) => Err(error.to_string()),
    }
}

/// Writes the bytes in small parts. How many of them one read sees depends on when the reader comes.
pub fn drip(input: &mut impl Write, bytes: &[u8], part: usize) -> io::Result<()> {
    for part in bytes.chunks(part) {
        input.write_all(part)?;
        input.flush()?;
        thread::yield_now();
    }
    Ok(())
}

#[cfg(test)]
mod tests {
    use super::*;

    const SHORT: Duration = Duration::from_millis(200);

    fn cat() -> Command {
        Command::new("cat")
    }

    fn shell(script: &str) -> Command {
        let mut command = Command::new("sh");
        command.args(["-c", script]);
        command
    }

    #[test]
    fn passes_more_than_a_pipe_holds() {
        let bytes = vec![7; 3_000_000];
        let copy = run(&mut cat(), |input| input.write_all(&bytes), take_all);
        assert_eq!(copy, Ok(bytes));
    }

    #[test]
    fn passes_single_bytes() {
        let bytes: Vec<u8> = (0..200).collect();
        let copy = run(&mut cat(), |input| drip(input, &bytes, 1), take_all);
        assert_eq!(copy, Ok(bytes));
    }

    #[test]
    fn a_program_may_leave_its_input_but_not_fail() {
        let bytes = vec![7; 3_000_000];
        let mut command = shell("exit 0");
        let output = run(&mut command, |input| input.write_all(&bytes), take_all);
        assert_eq!(output, Ok(Vec::new()));
        let output = run(&mut shell("exit 1"), |_| Ok(()), take_all);
        assert!(output.is_err());
    }

    #[test]
    fn a_program_must_say_nothing() {
        let run = |script: &str| run(&mut shell(script), |_| Ok(()), take_all);
        let found = run("cat; echo oh >&2");
        assert_eq!(found, Err("sh said: \"oh\\n\"".to_string()));
        // It is told beside another error, too.
        let found = run("echo oh >&2; exit 3").unwrap_err();
        assert!(found.contains("ended with exit status: 3\n  sh said: \"oh\\n\""));
    }

    #[test]
    fn a_program_that_says_much_does_not_wait() {
        let mut command = shell("head -c 3000000 /dev/zero | tr '\\0' x >&2; cat");
        let found = run(&mut command, |input| input.write_all(b"in"), take_all);
        assert_eq!(found, Err(format!("sh said: {:?}", "x".repeat(200))));
    }

    #[test]
    fn a_program_that_hangs_is_ended() {
        let bytes = vec![7; 3_000_000];
        for script in ["exec sleep 30", "exec sleep 30 >&-"] {
            let feed = |input: &mut ChildStdin| input.write_all(&bytes);
            let found = run_within(SHORT, &mut shell(script), feed, take_all);
            assert_eq!(found, Err("sh: not ended after 0.2 s".to_string()));
            let found = run_within(SHORT, &mut shell(script), |_| Ok(()), take_all);
            assert_eq!(found, Err("sh: not ended after 0.2 s".to_string()));
        }
    }

    #[test]
    fn a_program_found_wrong_is_ended_at_once() {
        let begin = Instant::now();
        let wrong = |_: &mut ChildStdout| Err::<(), _>("wrong".to_string());
        let found = run(&mut shell("exec sleep 30"), |_| Ok(()), wrong);
        assert_eq!(found, Err("wrong".to_string()));
        let failed = |_: &mut ChildStdin| Err(io::Error::other("no line"));
        let found = run(&mut shell("exec sleep 30"), failed, take_all);
        assert_eq!(found, Err("sh: no line".to_string()));
        assert!(begin.elapsed() < Duration::from_secs(20));
    }
}
