//! The two frame formats and their sizes.

/// The most data bytes a frame carries, in either format.
pub const MAX_COUNT: usize = 8;

/// The format of a frame or of a whole station.
#[derive(Clone, Copy, Debug, PartialEq, Eq)]
pub enum Format {
    Extended,
    Standard,
}

impl Format {
    /// Bytes of an image before its data.
    pub fn header_size(self) -> usize {
        match self {
            Format::Extended => 5,
            Format::Standard => 2,
        }
    }

    /// Packet bytes in a filled piece of a split packet. In standard the
    /// number takes the first of the eight data bytes.
    pub fn piece_size(self) -> usize {
        match self {
            Format::Extended => 8,
            Format::Standard => 7,
        }
    }

    /// The longest packet that can be sent: 256 pieces in either format.
    pub fn packet_limit(self) -> usize {
        match self {
            Format::Extended => 2048,
            Format::Standard => 1792,
        }
    }

    /// The most bytes a stream can hold while it still awaits a piece.
    pub fn collecting_limit(self) -> usize {
        match self {
            Format::Extended => 2048,
            Format::Standard => 1785,
        }
    }

    /// The number that piece `k` bears. In extended it has six bits only.
    pub fn piece_number(self, k: usize) -> usize {
        match self {
            Format::Extended => k % 64,
            Format::Standard => k,
        }
    }

    /// Whether an image of this many bytes can be judged at all.
    pub fn allows_image_of(self, length: usize) -> bool {
        (self.header_size()..=self.header_size() + MAX_COUNT).contains(&length)
    }
}

#[cfg(test)]
mod tests {
    use super::*;

    #[test]
    fn image_lengths() {
        assert!(!Format::Extended.allows_image_of(4));
        assert!(Format::Extended.allows_image_of(5));
        assert!(Format::Extended.allows_image_of(13));
        assert!(!Format::Extended.allows_image_of(14));
        assert!(!Format::Standard.allows_image_of(1));
        assert!(Format::Standard.allows_image_of(2));
        assert!(Format::Standard.allows_image_of(10));
        assert!(!Format::Standard.allows_image_of(11));
    }

    #[test]
    fn limits_are_256_pieces() {
        for format in [Format::Extended, Format::Standard] {
            assert_eq!(format.packet_limit(), 256 * format.piece_size());
        }
        assert_eq!(Format::Extended.packet_limit(), 2048);
        assert_eq!(Format::Standard.packet_limit(), 1792);
    }

    #[test]
    fn numbers_wrap_in_extended_only() {
        assert_eq!(Format::Extended.piece_number(63), 63);
        assert_eq!(Format::Extended.piece_number(64), 0);
        assert_eq!(Format::Extended.piece_number(255), 63);
        assert_eq!(Format::Standard.piece_number(64), 64);
        assert_eq!(Format::Standard.piece_number(255), 255);
    }
}
