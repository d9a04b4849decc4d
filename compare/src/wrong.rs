//! Makes an output wrong in one byte, so that a comparison can be seen to tell it.

use std::io::{self, ErrorKind, Read, Write};

/// What is wrong.
#[derive(Clone, Copy, Debug, PartialEq)]
pub enum Place {
    /// The byte of that number, from 0.
    At(usize),
    Last,
    /// A byte too many, at the end.
    More,
}

impl Place {
    pub fn parse(word: &str) -> Result<Place, String> {
        match word {
            "last" => Ok(Place::Last),
            "more" => Ok(Place::More),
            _ => word
                .parse()
                .map(Place::At)
                .map_err(|_| format!("no place: {word}")),
        }
    }
}

/// Copies the input, wrong at that place. What is read is written at once, but for a byte that may be the last one.
pub fn wrong(place: Place, mut input: impl Read, mut output: impl Write) -> io::Result<()> {
    let mut buffer = [0; 1 << 16];
    let mut seen = 0;
    let mut held = Vec::new();
    loop {
        let count = match input.read(&mut buffer) {
            Ok(0) => break,
            Ok(count) => count,
            Err(error) if error.kind() == ErrorKind::Interrupted => continue,
            Err(error) => return Err(error),
        };
        let part = &mut buffer[..count];
        match place {
            Place::At(at) if (seen..seen + count).contains(&at) => part[at - seen] ^= 1,
            _ => {}
        }
        seen += count;
        held.extend_from_slice(part);
        let kept = usize::from(place == Place::Last);
        output.write_all(&held[..held.len() - kept])?;
        output.flush()?;
        held.drain(..held.len() - kept);
    }
    match place {
        Place::At(_) => Ok(()),
        Place::Last => output.write_all(&held.iter().map(|byte| byte ^ 1).collect::<Vec<u8>>()),
        Place::More => output.write_all(b"+"),
    }
}

#[cfg(test)]
mod tests {
    use super::*;

    /// Gives single bytes.
    struct Single<'a>(&'a [u8]);

    impl Read for Single<'_> {
        fn read(&mut self, buffer: &mut [u8]) -> io::Result<usize> {
            self.0.read(&mut buffer[..1])
        }
    }

    #[test]
    fn changes_one_byte() {
        for (place, expected) in [
            ("0", &b"cbbb"[..]),
            ("2", b"bbcb"),
            ("4", b"bbbb"),
            ("last", b"bbbc"),
            ("more", b"bbbb+"),
        ] {
            let place = Place::parse(place).unwrap();
            let (mut at_once, mut single) = (Vec::new(), Vec::new());
            wrong(place, &b"bbbb"[..], &mut at_once).unwrap();
            wrong(place, Single(b"bbbb"), &mut single).unwrap();
            assert_eq!(at_once, expected, "{place:?}");
            assert_eq!(single, expected, "{place:?}");
        }
        assert!(Place::parse("first").is_err());
    }
}
