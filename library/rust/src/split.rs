//! Splitting a packet into pieces, each the image of a frame.

use crate::answer::Answer;
use crate::raw::slices;
use crate::{Fields, Format, Refusal};
use core::fmt;
use core::iter::FusedIterator;
use core::ops::Deref;

/// How many pieces a packet of `size` bytes is: 1 to 256.
///
/// # Errors
///
/// [`Refusal::Size`] over the format's limit.
///
/// ```
/// use siljuvatt::{piece_count, Format, Refusal};
/// assert_eq!(piece_count(Format::Extended, 17), Ok(3));
/// assert_eq!(piece_count(Format::Standard, 1793), Err(Refusal::Size));
/// ```
pub fn piece_count(format: Format, size: usize) -> Result<usize, Refusal> {
    let answer = Answer(slices::piece_count(format.number(), size));
    Ok(answer.accepted()?.number())
}

/// Writes the image of piece `k` of a packet over the head of the output and answers its length. The rest of the output
/// stays. The count in the image is how many data bytes it has, at most 8.
///
/// # Errors
///
/// In this order: [`Refusal::Field`], [`Refusal::Size`], [`Refusal::Index`], [`Refusal::Room`]. Nothing is written
/// then.
///
/// ```
/// use siljuvatt::{write_piece, Fields};
///
/// let fields = Fields::Standard { priority: 2, address: 22, side: 1 };
/// let mut output = [0u8; 10];
/// let length = write_piece(fields, b"004127019", 1, &mut output)?;
/// assert_eq!(output[..length], [0x96, 0xC3, 0x01, b'1', b'9']);
/// # Ok::<(), siljuvatt::Refusal>(())
/// ```
pub fn write_piece(
    fields: Fields,
    packet: &[u8],
    k: usize,
    output: &mut [u8],
) -> Result<usize, Refusal> {
    let (bytes, count) = fields.bytes();
    let format = fields.format().number();
    let answer = slices::write_piece(format, &bytes[..count], packet, k, output);
    Ok(Answer(answer).accepted()?.number())
}

/// The images of a packet's pieces, in the order in which they are sent.
///
/// # Errors
///
/// [`Refusal::Field`], or else [`Refusal::Size`]. There are none later on: every packet within the limit has its
/// pieces.
///
/// ```
/// use siljuvatt::{pieces, Fields};
///
/// let fields = Fields::Extended { priority: 0, source: 6, group: 0, destination: 0, function: 2 };
/// let images: Vec<_> = pieces(fields, b"004127019")?.collect();
/// assert_eq!(images.len(), 2);
/// assert_eq!(images[0][..], *b"\x88\x06\x00\x40\x1000412701");
/// assert_eq!(images[1][..], *b"\x81\x06\x00\x81\x109");
/// # Ok::<(), siljuvatt::Refusal>(())
/// ```
pub fn pieces(fields: Fields, packet: &[u8]) -> Result<Pieces<'_>, Refusal> {
    let mut pieces = Pieces {
        fields,
        packet,
        k: 0,
        count: 0,
    };
    // Piece 0 is in every packet: it is refused only for the fields or the size.
    pieces.image(0)?;
    pieces.count = piece_count(fields.format(), packet.len())?;
    Ok(pieces)
}

/// The images of a packet's pieces: made by [`pieces`].
#[derive(Clone, Debug)]
#[must_use = "the pieces are made as they are asked for"]
pub struct Pieces<'p> {
    fields: Fields,
    packet: &'p [u8],
    k: usize,
    count: usize,
}

impl Pieces<'_> {
    fn image(&self, k: usize) -> Result<Image, Refusal> {
        let mut image = Image {
            bytes: [0; Format::Extended.image_size()],
            length: 0,
        };
        image.length = write_piece(self.fields, self.packet, k, &mut image.bytes)?;
        Ok(image)
    }
}

impl Iterator for Pieces<'_> {
    type Item = Image;

    fn next(&mut self) -> Option<Image> {
        // Fields, size and room were right for piece 0, so the one refusal left is INDEX: the end.
        let image = self.image(self.k).ok()?;
        self.k += 1;
        Some(image)
    }

    fn size_hint(&self) -> (usize, Option<usize>) {
        let left = self.count - self.k;
        (left, Some(left))
    }
}

impl ExactSizeIterator for Pieces<'_> {}
impl FusedIterator for Pieces<'_> {}

/// The image of a frame: 5 to 13 bytes in extended, 2 to 10 in standard. It is used as the slice of them.
#[derive(Clone, Copy)]
pub struct Image {
    bytes: [u8; Format::Extended.image_size()],
    length: usize,
}

impl Deref for Image {
    type Target = [u8];

    fn deref(&self) -> &[u8] {
        &self.bytes[..self.length]
    }
}

impl AsRef<[u8]> for Image {
    fn as_ref(&self) -> &[u8] {
        self
    }
}

impl PartialEq for Image {
    fn eq(&self, other: &Image) -> bool {
        self[..] == other[..]
    }
}

impl Eq for Image {}

impl fmt::Debug for Image {
    fn fmt(&self, f: &mut fmt::Formatter<'_>) -> fmt::Result {
        write!(f, "Image({:02X?})", &self[..])
    }
}
