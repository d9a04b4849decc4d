//! Acceptance filters over ID.28 to ID.13 of an extended identifier.

/// A filter: 16 code bits and 16 mask bits (source A.2).
#[derive(Clone, Copy, Debug, PartialEq, Eq)]
pub struct Filter {
    pub code: u16,
    pub mask: u16,
}

impl Filter {
    /// Whether each bit equals the code's or has mask 1.
    pub fn accepts(self, id: u16) -> bool {
        (0..16).all(|i| bit(id, i) == bit(self.code, i) || bit(self.mask, i) == 1)
    }
}

/// A pair of filters, as a row of Table A.1 sets it.
#[derive(Clone, Copy, Debug, PartialEq, Eq)]
pub struct Pair(pub Filter, pub Filter);

impl Pair {
    /// The pair of a row, read as code 0, mask 0, code 1, mask 1 and so on.
    /// Bytes 0 and 2 of codes and masks stand over ID.28 to ID.21.
    pub fn of_row(row: [u8; 8]) -> Pair {
        let filter = |at: usize| Filter {
            code: u16::from_be_bytes([row[at], row[at + 2]]),
            mask: u16::from_be_bytes([row[at + 1], row[at + 3]]),
        };
        Pair(filter(0), filter(4))
    }

    /// Whether either filter accepts.
    pub fn accepts(self, id: u16) -> bool {
        self.0.accepts(id) || self.1.accepts(id)
    }
}

fn bit(bits: u16, i: u32) -> u16 {
    bits >> i & 1
}

#[cfg(test)]
mod tests {
    use super::*;

    #[test]
    fn every_bit_is_the_codes_or_masked() {
        for i in 0..16 {
            let other = 0xA5C3 ^ 1 << i;
            let code = 0xA5C3;
            assert!(Filter { code, mask: 0 }.accepts(0xA5C3));
            assert!(!Filter { code, mask: 0 }.accepts(other));
            assert!(Filter { code, mask: 1 << i }.accepts(other));
            let but_this = !(1 << i);
            assert!(!Filter {
                code,
                mask: but_this
            }
            .accepts(other));
        }
    }

    #[test]
    fn groups_1_and_3_of_source_a_2() {
        let filter = Filter {
            code: 0x00C0,
            mask: 0xFFBF,
        };
        for id in 0..=u16::MAX {
            let group = id >> 6 & 3;
            assert_eq!(filter.accepts(id), group == 1 || group == 3, "{id:04X}");
        }
    }

    /// Row 5 of Table A.1: what the master node sends to node 5 and to group 1,
    /// at any priority.
    const ROW_5: [u8; 8] = [0x00, 0xC0, 0x05, 0x00, 0x00, 0xC0, 0x40, 0x3F];

    #[test]
    fn a_row_is_two_filters_of_two_bytes_each() {
        let Pair(own, group) = Pair::of_row(ROW_5);
        assert_eq!((own.code, own.mask), (0x0005, 0xC000));
        assert_eq!((group.code, group.mask), (0x0040, 0xC03F));
    }

    #[test]
    fn a_pair_accepts_what_either_filter_does() {
        let pair = Pair::of_row(ROW_5);
        for (id, accepted) in [
            (0x0005, true),  // from the master node to node 5
            (0xC005, true),  // at another priority
            (0x0006, false), // to another node
            (0x0105, false), // from another node
            (0x007F, true),  // time data, multicast 1A
            (0x00CF, false), // a packet to group 3
        ] {
            assert_eq!(pair.accepts(id), accepted, "{id:04X}");
        }
    }
}
