//! A master as bytes: the chosen buses, then kind, node and send count of the
//! exchange, all 0 if there is none, and last the number of this layout.

use crate::master::{Exchange, Kind, Master, NODE_COUNT};

/// The bytes of a master.
pub const MASTER_SIZE: usize = NODE_COUNT + 4;

/// The number of their layout.
pub const MASTER_LAYOUT: u8 = 1;

/// The bytes of a master.
pub fn master_bytes(master: &Master) -> [u8; MASTER_SIZE] {
    let mut bytes = [0; MASTER_SIZE];
    bytes[..NODE_COUNT].copy_from_slice(&master.chosen);
    if let Some(exchange) = master.exchange {
        let tail = [exchange.kind as u8, exchange.node, exchange.sends];
        bytes[NODE_COUNT..MASTER_SIZE - 1].copy_from_slice(&tail);
    }
    bytes[MASTER_SIZE - 1] = MASTER_LAYOUT;
    bytes
}

/// The master of bytes; none where no master has them. It may be unsound.
pub fn master_of(bytes: &[u8]) -> Option<Master> {
    if bytes.len() != MASTER_SIZE {
        return None;
    }
    let (buses, tail) = bytes.split_at(NODE_COUNT);
    let exchange = match *tail {
        [0, 0, 0, MASTER_LAYOUT] => None,
        [kind, node, sends, MASTER_LAYOUT] => Some(Exchange {
            kind: Kind::of_number(kind)?,
            node,
            sends,
        }),
        _ => return None,
    };
    let chosen = buses.try_into().ok()?;
    Some(Master { chosen, exchange })
}

#[cfg(test)]
mod tests {
    use super::*;

    #[test]
    fn buses_then_the_exchange() {
        let mut master = Master::new();
        master.chosen[22] = 1;
        assert_eq!(master_bytes(&master)[22], 1);
        assert_eq!(master_bytes(&master)[64..], [0, 0, 0, 1]);
        assert_eq!(master_of(&master_bytes(&master)), Some(master));
        master.exchange = Some(Exchange {
            kind: Kind::Command,
            node: 22,
            sends: 2,
        });
        assert_eq!(master_bytes(&master)[64..], [3, 22, 2, 1]);
        assert_eq!(master_of(&master_bytes(&master)), Some(master));
    }

    #[test]
    fn bytes_that_no_master_has() {
        let sound = master_bytes(&Master::new());
        assert!(master_of(&sound).is_some());
        assert!(master_of(&sound[..67]).is_none());
        assert!(master_of(&[&sound[..], &[0]].concat()).is_none());
        for (at, byte) in [(64, 4), (64, 255), (65, 1), (66, 1), (67, 0), (67, 2)] {
            let mut bytes = sound;
            bytes[at] = byte;
            assert!(master_of(&bytes).is_none(), "{at} {byte}");
        }
    }
}
