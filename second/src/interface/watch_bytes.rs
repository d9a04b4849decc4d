//! A watch as bytes: the last times of bus A and bus B, each low byte first,
//! and the number of this layout.

use crate::watch::Watch;

/// The bytes of a watch.
pub const WATCH_SIZE: usize = 9;

/// The number of their layout.
pub const WATCH_LAYOUT: u8 = 1;

/// The bytes of a watch.
pub fn watch_bytes(watch: &Watch) -> [u8; WATCH_SIZE] {
    let [[a0, a1, a2, a3], [b0, b1, b2, b3]] = watch.last.map(u32::to_le_bytes);
    [a0, a1, a2, a3, b0, b1, b2, b3, WATCH_LAYOUT]
}

/// The watch of bytes; none where no watch has them. Any two times are sound.
pub fn watch_of(bytes: &[u8]) -> Option<Watch> {
    match *bytes {
        [a0, a1, a2, a3, b0, b1, b2, b3, WATCH_LAYOUT] => Some(Watch {
            last: [[a0, a1, a2, a3], [b0, b1, b2, b3]].map(u32::from_le_bytes),
        }),
        _ => None,
    }
}

#[cfg(test)]
mod tests {
    use super::*;

    #[test]
    fn times_then_the_layout() {
        let watch = Watch {
            last: [0x0403_0201, 0x0807_0605],
        };
        assert_eq!(watch_bytes(&watch), [1, 2, 3, 4, 5, 6, 7, 8, 1]);
        assert_eq!(watch_of(&watch_bytes(&watch)), Some(watch));
    }

    #[test]
    fn bytes_that_no_watch_has() {
        for layout in [0, 2, 255] {
            assert_eq!(watch_of(&[0, 0, 0, 0, 0, 0, 0, 0, layout]), None);
        }
        assert_eq!(watch_of(&[1; 8]), None);
        assert_eq!(watch_of(&[1; 10]), None);
    }
}
