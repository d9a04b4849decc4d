//! The refusals of documents 01 and 02.

use core::error::Error;
use core::fmt;

macro_rules! refusals {
    ($($name:ident = $number:literal, $text:literal, $says:literal;)*) => {
        /// Why a call was refused: a number and a name of document 01 or 02. The numbers have gaps. Later releases add
        /// some, and these may take over a part of another's meaning, as `Surplus` did of `Count`'s: a match needs an
        /// arm for the others.
        ///
        /// ```
        /// use siljuvatt::Refusal;
        ///
        /// let refusal = Refusal::try_from(7).unwrap();
        /// assert_eq!(refusal, Refusal::Step);
        /// assert_eq!((refusal.number(), refusal.name()), (7, "STEP"));
        /// assert_eq!(refusal.to_string(), "7 STEP: another number than awaited; the stream is idle now");
        ///
        /// fn driver(refusal: Refusal) -> String {
        ///     match refusal {
        ///         Refusal::Count => "cut bytes off".into(),
        ///         Refusal::Surplus => "left old bytes behind".into(),
        ///         other => other.to_string(),
        ///     }
        /// }
        /// assert_eq!(driver(Refusal::Surplus), "left old bytes behind");
        /// assert_eq!(driver(Refusal::Remote), "3 REMOTE: RTR is 1");
        /// ```
        #[derive(Clone, Copy, Debug, PartialEq, Eq, PartialOrd, Ord, Hash)]
        #[non_exhaustive]
        pub enum Refusal {
            $(#[doc = $says] $name,)*
            /// An answer that this release does not know, as the library gave it in 32 bits: the library that is linked
            /// is of another release. From 2^31 on the call was refused, by a number that has no name here; below that
            /// it was done, and was answered by a kind that has none.
            Unknown(u32),
        }

        /// A match of all refusals that this release names does not reach those of later ones:
        ///
        /// ```
        /// #![deny(unreachable_patterns)]
        /// use siljuvatt::Refusal;
        #[doc = concat!("fn all(refusal: Refusal) { match refusal {", $("Refusal::", stringify!($name), " | ",)*)]
        /// Refusal::Unknown(_) => (), _ => () } }
        /// ```
        #[cfg(doctest)]
        struct NonExhaustive;

        impl Refusal {
            /// All that this release names, by their numbers.
            pub const ALL: &'static [Refusal] = &[$(Refusal::$name),*];

            /// The number in its document. Of [`Refusal::Unknown`] it is the low 16 bits of the answer.
            #[must_use]
            pub fn number(self) -> u16 {
                match self {
                    $(Refusal::$name => $number,)*
                    Refusal::Unknown(answer) => answer as u16,
                }
            }

            /// The name in its document, or `UNKNOWN`.
            #[must_use]
            pub fn name(self) -> &'static str {
                match self {
                    $(Refusal::$name => $text,)*
                    Refusal::Unknown(_) => "UNKNOWN",
                }
            }

            /// When it is given.
            #[must_use]
            pub fn says(self) -> &'static str {
                match self {
                    $(Refusal::$name => $says,)*
                    Refusal::Unknown(_) => "no refusal of this release",
                }
            }
        }
    };
}

refusals! {
    Length = 1, "LENGTH", "the image's length is outside its format's range";
    Form = 2, "FORM", "fixed bits of an extended image are wrong";
    Remote = 3, "REMOTE", "RTR is 1";
    Count = 4, "COUNT", "the image is shorter than its count says; a count of 9 to 15 says 8";
    Piece = 5, "PIECE", "a rule on flag, number and count is broken";
    Orphan = 6, "ORPHAN", "a middle or an end while its stream is not collecting";
    Step = 7, "STEP", "another number than awaited; the stream is idle now";
    Long = 8, "LONG", "the packet would pass 2,048 bytes; the stream is idle now";
    Field = 9, "FIELD", "a format, field, bus, kind or node is out of range, or the fields are of another format";
    Size = 10, "SIZE", "the packet is over the format's limit";
    Index = 11, "INDEX", "there is no piece k";
    Room = 12, "ROOM", "the output is shorter than the image";
    Store = 13, "STORE", "the store is not 32,768 bytes";
    Taken = 14, "TAKEN", "the key is open already";
    Full = 15, "FULL", "all sixteen slots are open";
    Closed = 16, "CLOSED", "the slot number is over 15, or the slot is closed";
    NoPacket = 17, "NOPACKET", "the slot has no whole packet";
    Busy = 18, "BUSY", "a start during an exchange";
    Idle = 19, "IDLE", "a reply or a timeout with no exchange";
    NotAwaited = 20, "NOTAWAITED", "the reply does not count";
    State = 21, "STATE", "the bytes are no sound station, master or watch of this release's layout";
    Surplus = 25, "SURPLUS", "the image is longer than its count says";
}

impl fmt::Display for Refusal {
    fn fmt(&self, f: &mut fmt::Formatter<'_>) -> fmt::Result {
        let (name, says) = (self.name(), self.says());
        match self {
            Refusal::Unknown(answer) => write!(f, "{name}: {says}, answer {answer:#010X}"),
            _ => write!(f, "{} {name}: {says}", self.number()),
        }
    }
}

impl Error for Refusal {}

/// A number that is no refusal's in this release.
#[derive(Clone, Copy, Debug, PartialEq, Eq)]
pub struct NoRefusal(pub u16);

impl fmt::Display for NoRefusal {
    fn fmt(&self, f: &mut fmt::Formatter<'_>) -> fmt::Result {
        write!(f, "{} is the number of no refusal of this release", self.0)
    }
}

impl Error for NoRefusal {}

impl TryFrom<u16> for Refusal {
    type Error = NoRefusal;

    fn try_from(number: u16) -> Result<Self, NoRefusal> {
        let mut all = Refusal::ALL.iter().copied();
        all.find(|refusal| refusal.number() == number)
            .ok_or(NoRefusal(number))
    }
}

#[cfg(test)]
mod tests {
    use super::*;

    /// The refusals are listed by their numbers, and a number in a gap, or beyond both ends, is none's.
    #[test]
    fn numbers_rise_with_gaps() {
        let mut free = 0;
        for &refusal in Refusal::ALL {
            let number = refusal.number();
            assert!(free <= number, "{refusal}");
            for gap in free..number {
                assert_eq!(Refusal::try_from(gap), Err(NoRefusal(gap)));
            }
            assert_eq!(Refusal::try_from(number), Ok(refusal));
            free = number + 1;
        }
        for beyond in free..=u16::MAX {
            assert_eq!(Refusal::try_from(beyond), Err(NoRefusal(beyond)));
        }
    }
}
