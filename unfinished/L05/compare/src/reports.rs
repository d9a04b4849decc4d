//! Compares the reports of trace files: of none, one or several, among them such as are damaged, empty or named twice, and
//! names under which nothing can be opened or read.

use crate::occurred::Occurred;
use crate::program;
use crate::rise::TALLIES;
use crate::trace::{Trace, DAMAGES, DENSE};
use crate::traces::{check_equal, split};
use std::ffi::OsString;
use std::fs;
use std::os::unix::ffi::{OsStrExt, OsStringExt};
use std::path::{Path, PathBuf};
use std::process::Command;
use testkit::Random;

/// One report in so many is made by the third program too, which takes long to start.
const ALSO_EVERY: u64 = 20;

/// The programs that are compared with the second one.
pub struct Reports<'a> {
    pub report: &'a Path,
    /// A third program, as a command with its arguments.
    pub also: Option<&'a str>,
    /// Where the files are written. Those of a report that differs stay there.
    pub folder: &'a Path,
}

/// What a report can be asked for.
const NO_FILES: &str = "no files";
const ONE: &str = "one file";
const SEVERAL: &str = "several files";

/// What an argument can be, besides a trace.
const TWICE: &str = "file named twice";
const NO_FILE: &str = "no such file";
const NO_TEXT: &str = "no such file, by a name that is no text";
const IN_A_FILE: &str = "no such file, in a file as if it were a folder";
const NO_NAME: &str = "no such file, by a name of no bytes";
const LONG_NAME: &str = "no such file, by a name too long for one";
const FOLDER: &str = "folder";
const EMPTY: &str = "empty file";
const ODD_NAME: &str = "file by a name that is no text";

/// Those that can't be opened.
const MISSING: [&str; 5] = [NO_FILE, NO_TEXT, IN_A_FILE, NO_NAME, LONG_NAME];

/// Has the programs report that many lists of files and compares what they write.
pub fn compare(reports: &Reports, count: u64, seed: u64) -> Result<(), String> {
    let mut occurred = Occurred::requiring(names(reports));
    let mut files = 0;
    for number in 0..count {
        let given = Given::draw(reports.folder, seed, number);
        compare_one(reports, &given, number, &mut occurred).map_err(|difference| {
            let folder = reports.folder.display();
            format!("seed {seed}, report {number}: {difference}\n  the files are in {folder}")
        })?;
        files += given.arguments.len();
        given.remove()?;
    }
    occurred.print();
    occurred.check()?;
    println!("equal: {count} reports, {files} files");
    Ok(())
}

fn names(reports: &Reports) -> Vec<String> {
    let of_lists = [NO_FILES, ONE, SEVERAL];
    let of_files = [TWICE, FOLDER, EMPTY, ODD_NAME, DENSE];
    let fixed = of_lists.into_iter().chain(of_files).chain(MISSING);
    let mut names: Vec<String> = fixed.map(String::from).collect();
    names.extend(DAMAGES.map(|damage| format!("damage: {damage}")));
    names.extend(TALLIES.map(of_tally));
    names.extend(reports.also.map(also_row));
    names
}

fn of_tally(answer: &str) -> String {
    format!("reported: {answer}")
}

fn also_row(also: &str) -> String {
    format!("reported by {also} too")
}

/// One argument, and what is known of it.
struct Argument {
    path: PathBuf,
    what: Option<&'static str>,
    /// The trace, where it is one.
    trace: Option<Trace>,
}

impl Argument {
    /// Whether there is nothing that can be opened.
    fn is_missing(&self) -> bool {
        self.what.is_some_and(|what| MISSING.contains(&what))
    }
}

/// A list of files to report.
struct Given {
    arguments: Vec<Argument>,
}

impl Given {
    /// The list of that number under the seed.
    fn draw(folder: &Path, seed: u64, number: u64) -> Given {
        let mut random = Random::of_item(seed, number);
        let count = match random.below(20) {
            0 => 0,
            1..=5 => 1,
            6..=17 => random.within(2, 5),
            _ => random.within(6, 20),
        };
        let mut given = Given {
            arguments: Vec::new(),
        };
        for place in 0..count {
            let trace = || Trace::generate(seed, 32 * number + place as u64);
            let argument = given.argument(folder, place, trace, &mut random);
            given.arguments.push(argument);
        }
        given
    }

    fn argument(
        &self,
        folder: &Path,
        place: usize,
        trace: impl Fn() -> Trace,
        random: &mut Random,
    ) -> Argument {
        let of_no_trace = |path: PathBuf, what| Argument {
            path,
            what: Some(what),
            trace: None,
        };
        let no_text = OsString::from_vec([b"\xFF trace ", &[b'a' + place as u8][..]].concat());
        match random.below(100) {
            0..=4 => of_no_trace(folder.join("no such file"), NO_FILE),
            5 | 6 => of_no_trace(folder.join(&no_text), NO_TEXT),
            7 | 8 => of_no_trace(folder.join("0/trace"), IN_A_FILE),
            9 => of_no_trace(PathBuf::new(), NO_NAME),
            10 => of_no_trace(folder.join("x".repeat(300)), LONG_NAME),
            11..=13 => of_no_trace(folder.into(), FOLDER),
            14..=16 => self.write(folder.join(place.to_string()), Some(EMPTY), None),
            17..=19 => self.write(folder.join(&no_text), Some(ODD_NAME), Some(trace())),
            20..=29 if place > 0 => self.again(random.below(place)),
            _ => self.write(folder.join(place.to_string()), None, Some(trace())),
        }
    }

    /// Writes a file, of no bytes if there is no trace.
    fn write(&self, path: PathBuf, what: Option<&'static str>, trace: Option<Trace>) -> Argument {
        let bytes = trace.as_ref().map_or(&[][..], |trace| &trace.bytes);
        fs::write(&path, bytes).expect("a file to be written");
        Argument { path, what, trace }
    }

    /// An argument before this one, again.
    fn again(&self, place: usize) -> Argument {
        let first = &self.arguments[place];
        let trace = first.trace.as_ref();
        Argument {
            path: first.path.clone(),
            what: first.what.or(trace.map(|_| TWICE)),
            trace: trace.cloned(),
        }
    }

    fn paths(&self) -> Vec<&Path> {
        let arguments = self.arguments.iter();
        arguments.map(|argument| argument.path.as_path()).collect()
    }

    /// Removes the files that were written.
    fn remove(&self) -> Result<(), String> {
        for argument in &self.arguments {
            if argument.path.is_file() {
                fs::remove_file(&argument.path).map_err(|error| error.to_string())?;
            }
        }
        Ok(())
    }

    /// Refuses what a program said, if it does not name each file that can't be opened, or says something where there is
    /// none. Of a folder, which can be opened and not read, it may say something or nothing.
    fn check_said(&self, program: &str, said: &[u8]) -> Result<(), String> {
        let told = |what: String| format!("{program} {what}: {:?}", String::from_utf8_lossy(said));
        for argument in self
            .arguments
            .iter()
            .filter(|argument| argument.is_missing())
        {
            let name = argument.path.as_os_str().as_bytes();
            if said.is_empty() || !contains(said, name) {
                let path = argument.path.display();
                return Err(told(format!("does not name {path}")));
            }
        }
        let may_speak =
            |argument: &Argument| argument.is_missing() || argument.what == Some(FOLDER);
        match said.is_empty() || self.arguments.iter().any(may_speak) {
            true => Ok(()),
            false => Err(told("said".to_string())),
        }
    }

    fn count(&self, sums: &[u64], occurred: &mut Occurred) {
        occurred.count(match self.arguments.len() {
            0 => NO_FILES,
            1 => ONE,
            _ => SEVERAL,
        });
        for argument in &self.arguments {
            if let Some(what) = argument.what {
                occurred.count(what);
            }
            let Some(trace) = &argument.trace else {
                continue;
            };
            if trace.notes.contains(&DENSE) {
                occurred.count(DENSE);
            }
            if let Some(damage) = trace.damage {
                occurred.count(&format!("damage: {damage}"));
            }
        }
        for (answer, &sum) in TALLIES.into_iter().zip(sums) {
            occurred.count_times(&of_tally(answer), sum);
        }
    }
}

fn contains(bytes: &[u8], part: &[u8]) -> bool {
    part.is_empty() || bytes.windows(part.len()).any(|window| window == part)
}

fn compare_one(
    reports: &Reports,
    given: &Given,
    number: u64,
    occurred: &mut Occurred,
) -> Result<(), String> {
    let (mut second, mut said) = (Vec::new(), Vec::new());
    second::report(&given.paths(), &mut second, &mut said)
        .map_err(|error| format!("second::report: {error}"))?;
    given.check_said("second", &said)?;
    let sums = listed(given)?;
    let from_listings = lines(&sums);
    check_equal(
        ("second's listings", from_listings.as_bytes()),
        ("second", &second),
    )?;
    by_program(Command::new(reports.report), "program", given, &second)?;
    if let Some(also) = reports.also.filter(|_| number.is_multiple_of(ALSO_EVERY)) {
        by_program(split(also), also, given, &second)?;
        occurred.count(&also_row(also));
    }
    given.count(&sums, occurred);
    Ok(())
}

/// Has a program report the files, and refuses another report than the second's.
fn by_program(
    mut command: Command,
    name: &str,
    given: &Given,
    second: &[u8],
) -> Result<(), String> {
    let (output, said) = program::run_saying(command.args(given.paths()))?;
    check_equal((name, &output), ("second", second))?;
    given.check_said(name, &said)
}

/// The lines that L5 asks for.
fn lines(sums: &[u64]) -> String {
    let pairs = TALLIES.iter().zip(sums);
    pairs
        .map(|(answer, sum)| format!("{answer} {sum}\n"))
        .collect()
}

/// How often each answer stands in the second program's listings of the files.
fn listed(given: &Given) -> Result<Vec<u64>, String> {
    let mut sums = vec![0; TALLIES.len()];
    let traces = given.arguments.iter().filter_map(|a| a.trace.as_ref());
    for trace in traces {
        let mut listing = Vec::new();
        second::listing(&trace.bytes[..], &mut listing)
            .map_err(|error| format!("second::listing: {error}"))?;
        let listing = String::from_utf8(listing).map_err(|_| "the listing is no text")?;
        for line in listing.lines() {
            let answer = answer_in(line);
            if let Some(place) = TALLIES.iter().position(|&own| own == answer) {
                sums[place] += 1;
            }
        }
    }
    Ok(sums)
}

/// The answer in a line of a listing, without the length of a packet. Lines that are no record's have none.
fn answer_in(line: &str) -> String {
    let words: Vec<&str> = line.split(' ').collect();
    match words[..] {
        [_, _, "refused", number] => format!("refused {number}"),
        [_, _, _, _, _, _, _, _, _, _, ref answer @ ..] => match answer {
            ["packet", _] => "packet".to_string(),
            ["packet", _, "broke"] => "packet broke".to_string(),
            _ => answer.join(" "),
        },
        _ => String::new(),
    }
}

#[cfg(test)]
mod tests {
    use super::*;

    fn given(arguments: &[(&str, Option<&'static str>)]) -> Given {
        let arguments = arguments.iter().map(|&(path, what)| Argument {
            path: path.into(),
            what,
            trace: None,
        });
        Given {
            arguments: arguments.collect(),
        }
    }

    #[test]
    fn answers_in_lines() {
        for (line, answer) in [
            ("1 A 1 5 0 0 3 0 2 1 packet 1", "packet"),
            ("1 A 1 5 0 0 3 0 2 1 packet 1 broke", "packet broke"),
            ("2 B 0 6 0 0 1 0 2 8 kept", "kept"),
            ("2 B 0 6 0 0 1 0 2 8 kept broke", "kept broke"),
            ("2 B 0 6 0 0 1 0 2 8 filtered", "filtered"),
            ("2 B 0 6 0 0 1 0 2 8 refused 7", "refused 7"),
            ("4 A refused 25", "refused 25"),
            ("5 stopped", ""),
            ("records 4", ""),
        ] {
            assert_eq!(answer_in(line), answer);
        }
        let header = "record bus priority source group dest flag number function count answer";
        assert!(!TALLIES.contains(&answer_in(header).as_str()));
    }

    #[test]
    fn lines_are_document_02s() {
        let lines = lines(&[7, 0, 0, 0, 0, 0, 0, 0, 0, 0, 0, 0, 0, u64::MAX]);
        assert!(lines.starts_with("packet 7\npacket broke 0\nkept 0\n"));
        assert!(lines.ends_with("refused 8 0\nrefused 25 18446744073709551615\n"));
        assert_eq!(lines.lines().count(), 14);
    }

    #[test]
    fn a_missing_file_has_to_be_named_and_nothing_else_said() {
        let missing = given(&[("a", None), ("no/b", Some(NO_FILE)), ("c", Some(TWICE))]);
        assert_eq!(missing.check_said("x", b"no/b: No such file\n"), Ok(()));
        assert!(missing.check_said("x", b"a: No such file\n").is_err());
        assert!(missing.check_said("x", b"").is_err());
        let there = given(&[("a", None), ("b", Some(EMPTY))]);
        assert_eq!(there.check_said("x", b""), Ok(()));
        assert!(there.check_said("x", b"a").is_err());
        let folder = given(&[(".", Some(FOLDER))]);
        assert_eq!(folder.check_said("x", b""), Ok(()));
        assert_eq!(folder.check_said("x", b".: Is a directory\n"), Ok(()));
        let no_name = given(&[("", Some(NO_NAME))]);
        assert!(no_name.check_said("x", b"").is_err());
        assert_eq!(no_name.check_said("x", b": No such file\n"), Ok(()));
    }

    #[test]
    fn lists_are_of_every_kind_and_their_files_are_removed() {
        let folder = std::env::temp_dir().join(format!("compare-reports-{}", std::process::id()));
        fs::create_dir_all(&folder).unwrap();
        let reports = Reports {
            report: Path::new("unused"),
            also: None,
            folder: &folder,
        };
        let mut occurred = Occurred::requiring(names(&reports));
        for number in 0..400 {
            let given = Given::draw(&folder, 1, number);
            for argument in &given.arguments {
                let opens = fs::File::open(&argument.path).is_ok();
                assert_eq!(opens, !argument.is_missing(), "{:?}", argument.what);
            }
            // The sums are not looked at here.
            given.count(&[1; 14], &mut occurred);
            given.remove().unwrap();
            assert_eq!(fs::read_dir(&folder).unwrap().count(), 0);
        }
        fs::remove_dir(&folder).unwrap();
        assert_eq!(occurred.check(), Ok(()));
    }
}
