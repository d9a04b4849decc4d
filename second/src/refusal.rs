//! The refusal numbers.

/// Makes the list of refusals an enum that can be gone through.
macro_rules! refusals {
    ($($name:ident = $number:literal,)*) => {
        /// Why a call was refused; the discriminant is the number of documents 01 and 02.
        #[derive(Clone, Copy, Debug, PartialEq, Eq)]
        pub enum Refusal {
            $($name = $number,)*
        }

        impl Refusal {
            /// Every refusal, in the order of the numbers, some of which may not be given.
            pub const ALL: &'static [Refusal] = &[$(Refusal::$name,)*];
        }
    };
}

refusals! {
    Length = 1,
    Form = 2,
    Remote = 3,
    Count = 4,
    Piece = 5,
    Orphan = 6,
    Step = 7,
    Long = 8,
    Field = 9,
    Size = 10,
    Index = 11,
    Room = 12,
    Store = 13,
    Taken = 14,
    Full = 15,
    Closed = 16,
    NoPacket = 17,
    Busy = 18,
    Idle = 19,
    NotAwaited = 20,
    State = 21,
    Surplus = 25,
}

impl Refusal {
    /// The number under which documents 01 and 02 list the refusal.
    pub fn number(self) -> u8 {
        self as u8
    }

    /// The name under which they list it.
    pub fn name(self) -> String {
        format!("{self:?}").to_uppercase()
    }

    /// The refusal of a number, if there is one.
    pub fn of_number(number: u8) -> Option<Refusal> {
        let mut all = Refusal::ALL.iter();
        all.find(|refusal| refusal.number() == number).copied()
    }
}

#[cfg(test)]
mod tests {
    use super::*;

    #[test]
    fn numbers_go_up_and_are_told_apart() {
        assert!(Refusal::ALL
            .windows(2)
            .all(|pair| pair[0].number() < pair[1].number()));
        for &refusal in Refusal::ALL {
            assert_eq!(Refusal::of_number(refusal.number()), Some(refusal));
        }
        assert_eq!(Refusal::of_number(0), None);
        assert_eq!(Refusal::of_number(255), None);
    }

    #[test]
    fn names_are_those_of_documents_01_and_02() {
        assert_eq!(Refusal::Length.name(), "LENGTH");
        assert_eq!(Refusal::NotAwaited.name(), "NOTAWAITED");
        assert_eq!(Refusal::NoPacket.name(), "NOPACKET");
        assert_eq!(Refusal::Surplus.name(), "SURPLUS");
    }
}
