//! Acceptance filters, in extended format.

use crate::numbers;
use crate::raw::slices;

/// What filters look at: ID.28 to ID.13, which are bytes 1 and 2 of an extended image. None if the image is shorter.
#[must_use]
pub fn id_of(image: &[u8]) -> Option<u16> {
    Some(u16::from_be_bytes([*image.get(1)?, *image.get(2)?]))
}

/// A filter of 16 code bits and 16 mask bits.
///
/// ```
/// use siljuvatt::{id_of, Filter};
///
/// // Any high byte; of the low byte one bit is asked for, which groups 1 and 3 have (source A.2).
/// let filter = Filter { code: 0x00C0, mask: 0xFFBF };
/// let id = id_of(b"\x81\x45\x40\xC0\x10\x07").unwrap(); // group 1
/// assert_eq!(id, 0x4540);
/// assert!(filter.accepts(id));
/// assert!(!filter.accepts(0x4580)); // group 2
/// ```
#[derive(Clone, Copy, Debug, PartialEq, Eq, Hash)]
pub struct Filter {
    /// The bits that are asked for.
    pub code: u16,
    /// 1 where any bit will do.
    pub mask: u16,
}

impl Filter {
    /// Whether each bit is the code's or has mask bit 1.
    #[must_use]
    pub fn accepts(self, id: u16) -> bool {
        slices::filter_accepts(self.code, self.mask, id)
    }
}

/// A row of Table A.1: code 0, mask 0, code 1, mask 1, code 2, mask 2, code 3, mask 3. The first four bytes are one
/// filter, the last four another: the row accepts when either does.
///
/// ```
/// use siljuvatt::Row;
///
/// let row = Row([0x45, 0x00, 0x00, 0x00, 0x46, 0x00, 0x00, 0x00]);
/// assert!(row.accepts(0x4500) && row.accepts(0x4600));
/// assert!(!row.accepts(0x4700));
/// ```
#[derive(Clone, Copy, Debug, PartialEq, Eq, Hash)]
pub struct Row(pub [u8; Row::SIZE]);

impl Row {
    /// The bytes of a row.
    pub const SIZE: usize = numbers::ROW_SIZE;

    /// Whether either filter of the pair accepts.
    #[must_use]
    pub fn accepts(self, id: u16) -> bool {
        slices::row_accepts(&self.0, id)
    }
}
