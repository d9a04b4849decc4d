//! Reading from an input that may end anywhere.

use std::io::{ErrorKind, Read};

/// Fills the buffer as far as the input goes and answers how many bytes came.
/// A read error counts as the end of the input.
pub fn fill(input: &mut impl Read, buffer: &mut [u8]) -> usize {
    let mut filled = 0;
    while filled < buffer.len() {
        match input.read(&mut buffer[filled..]) {
            Ok(0) => break,
            Ok(size) => filled += size,
            Err(error) if error.kind() == ErrorKind::Interrupted => {}
            Err(_) => break,
        }
    }
    filled
}

#[cfg(test)]
pub(crate) mod tests {
    use super::*;
    use std::io;

    /// Gives one byte at a time, each after an interruption, and fails where
    /// a plain input would end.
    pub(crate) struct Failing<'a> {
        bytes: &'a [u8],
        interrupt: bool,
    }

    impl Failing<'_> {
        pub(crate) fn after(bytes: &[u8]) -> Failing<'_> {
            let interrupt = true;
            Failing { bytes, interrupt }
        }
    }

    impl Read for Failing<'_> {
        fn read(&mut self, buffer: &mut [u8]) -> io::Result<usize> {
            self.interrupt = !self.interrupt;
            if !self.interrupt {
                return Err(ErrorKind::Interrupted.into());
            }
            match self.bytes {
                [first, rest @ ..] => {
                    buffer[0] = *first;
                    self.bytes = rest;
                    Ok(1)
                }
                [] => Err(ErrorKind::ConnectionReset.into()),
            }
        }
    }

    #[test]
    fn fills_up_to_the_end() {
        let mut buffer = [0; 3];
        assert_eq!(fill(&mut &[1, 2, 3, 4][..], &mut buffer), 3);
        assert_eq!(buffer, [1, 2, 3]);
        assert_eq!(fill(&mut &[7, 8][..], &mut buffer), 2);
        assert_eq!(buffer, [7, 8, 3]);
        assert_eq!(fill(&mut &[][..], &mut buffer), 0);
    }

    #[test]
    fn an_error_counts_as_the_end() {
        let mut buffer = [0; 3];
        assert_eq!(fill(&mut Failing::after(&[5, 6]), &mut buffer), 2);
        assert_eq!(buffer, [5, 6, 0]);
        assert_eq!(fill(&mut Failing::after(&[5, 6, 7, 8]), &mut buffer), 3);
    }
}
