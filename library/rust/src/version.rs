//! The release.

use crate::raw::slices;
use core::fmt;

/// A release of the library or of this crate.
#[derive(Clone, Copy, Debug, PartialEq, Eq, PartialOrd, Ord, Hash)]
pub struct Version {
    /// The first number.
    pub major: u16,
    /// The second number.
    pub minor: u8,
    /// The third number.
    pub patch: u8,
}

/// The release of this crate.
pub const VERSION: Version = Version {
    major: decimal(env!("CARGO_PKG_VERSION_MAJOR"), u16::MAX),
    minor: decimal(env!("CARGO_PKG_VERSION_MINOR"), 255) as u8,
    patch: decimal(env!("CARGO_PKG_VERSION_PATCH"), 255) as u8,
};

// Runs while the crate is compiled, so its panic is the compiler's error.
const fn decimal(text: &str, most: u16) -> u16 {
    match u16::from_str_radix(text, 10) {
        Ok(number) if number <= most => number,
        _ => panic!("a part of the version is no number, or too large"),
    }
}

/// The release of the library that is linked. It should be [`VERSION`].
///
/// ```
/// use siljuvatt::{version, VERSION};
/// assert_eq!(version(), VERSION);
/// assert_eq!(version().to_string(), env!("CARGO_PKG_VERSION"));
/// ```
#[must_use]
pub fn version() -> Version {
    let number = slices::version();
    Version {
        major: (number >> 16) as u16,
        minor: (number >> 8) as u8,
        patch: number as u8,
    }
}

impl Version {
    /// As one number: 65,536 × major + 256 × minor + patch.
    #[must_use]
    pub const fn number(self) -> u32 {
        (self.major as u32) << 16 | (self.minor as u32) << 8 | self.patch as u32
    }
}

impl fmt::Display for Version {
    fn fmt(&self, f: &mut fmt::Formatter<'_>) -> fmt::Result {
        write!(f, "{}.{}.{}", self.major, self.minor, self.patch)
    }
}
