//! A master's exchanges with its nodes over both buses.

use crate::answer::Answer;
use crate::numbers;
use crate::raw::slices;
use crate::{Bus, Refusal};
use core::fmt;

/// The kind of an exchange.
#[derive(Clone, Copy, Debug, PartialEq, Eq, Hash)]
#[non_exhaustive]
pub enum Kind {
    /// One send, with function 1; a reply has function 2.
    Poll,
    /// Two sends, with function 3; a reply has function 4.
    DataBlock,
    /// Two sends, then a third on the other bus, with function 3; a reply has function 4.
    Command,
}

impl Kind {
    fn number(self) -> u8 {
        match self {
            Kind::Poll => numbers::POLL,
            Kind::DataBlock => numbers::DATA_BLOCK,
            Kind::Command => numbers::COMMAND,
        }
    }
}

/// What the master is to do next.
#[derive(Clone, Copy, Debug, PartialEq, Eq)]
#[must_use]
#[non_exhaustive]
pub enum Step {
    /// Send on this bus, then await a reply or a timeout.
    Send(Bus),
    /// Nothing: the exchange is answered.
    Done,
    /// Nothing: the exchange has ended unanswered.
    GaveUp,
}

/// A master: the bus chosen for each of 64 nodes, and at most one exchange. It is 68 bytes and nothing else;
/// the last is the number of their layout.
///
/// ```
/// use siljuvatt::{Bus, Kind, Master, Refusal, Step};
///
/// let mut master = Master::new();
/// assert_eq!(master.start(Kind::Command, 22)?, Step::Send(Bus::A));
/// assert_eq!(master.timeout()?, Step::Send(Bus::A));
/// assert_eq!(master.timeout()?, Step::Send(Bus::B));
/// assert_eq!(master.reply(Bus::A, 22, 4), Err(Refusal::NotAwaited)); // late, on the first bus
/// assert_eq!(master.reply(Bus::B, 22, 4)?, Step::Done);
/// assert_eq!(master.start(Kind::Poll, 22)?, Step::Send(Bus::B)); // it stays on the bus that answered
/// # Ok::<(), Refusal>(())
/// ```
#[derive(Clone, PartialEq, Eq)]
pub struct Master {
    bytes: [u8; Master::SIZE],
}

impl Master {
    /// The bytes of a master.
    pub const SIZE: usize = numbers::MASTER_SIZE;

    /// The last of them: the number of their layout.
    pub const LAYOUT: u8 = numbers::MASTER_LAYOUT;

    /// A master with bus A chosen for every node, and no exchange.
    #[must_use]
    pub fn new() -> Master {
        let mut bytes = [0; Master::SIZE];
        // Only a library of another release refuses; zeros are no master, so every call on them is refused then.
        let _ = slices::master_new(&mut bytes);
        Master { bytes }
    }

    /// The master that these bytes are, as [`Master::as_bytes`] gave them.
    ///
    /// # Errors
    ///
    /// [`Refusal::State`] if they are no sound master of this release's layout.
    ///
    /// ```
    /// use siljuvatt::{Bus, Kind, Master, Refusal, Step};
    ///
    /// let mut master = Master::new();
    /// assert_eq!(master.start(Kind::Poll, 5)?, Step::Send(Bus::A));
    /// let mut again = Master::from_bytes(master.as_bytes())?;
    /// assert_eq!(again.reply(Bus::A, 5, 2)?, Step::Done);
    /// assert_eq!(Master::from_bytes(&[2; Master::SIZE]), Err(Refusal::State));
    /// # Ok::<(), Refusal>(())
    /// ```
    pub fn from_bytes(bytes: &[u8]) -> Result<Master, Refusal> {
        let mut bytes: [u8; Master::SIZE] = bytes.try_into().map_err(|_| Refusal::State)?;
        let answer = slices::master_reply(&mut bytes, Bus::NONE, 0, 0);
        Answer(answer).refused_as(Refusal::Field)?;
        Ok(Master { bytes })
    }

    /// The bytes that the master is.
    #[must_use]
    pub fn as_bytes(&self) -> &[u8; Master::SIZE] {
        &self.bytes
    }

    /// Starts an exchange with a node, 0 to 63: [`Step::Send`] on the bus chosen for it.
    ///
    /// # Errors
    ///
    /// In this order: [`Refusal::Field`], [`Refusal::Busy`].
    pub fn start(&mut self, kind: Kind, node: u8) -> Result<Step, Refusal> {
        let answer = slices::master_start(&mut self.bytes, kind.number(), node);
        step_of(Answer(answer))
    }

    /// A reply from a node has come in on a bus, with a function: [`Step::Done`] if it is the one awaited.
    ///
    /// # Errors
    ///
    /// In this order: [`Refusal::Field`], [`Refusal::Idle`], [`Refusal::NotAwaited`].
    pub fn reply(&mut self, bus: Bus, node: u8, function: u8) -> Result<Step, Refusal> {
        let answer = slices::master_reply(&mut self.bytes, bus.number(), node, function);
        step_of(Answer(answer))
    }

    /// No reply came in time: [`Step::Send`] again, or [`Step::GaveUp`].
    ///
    /// # Errors
    ///
    /// [`Refusal::Idle`].
    pub fn timeout(&mut self) -> Result<Step, Refusal> {
        step_of(Answer(slices::master_timeout(&mut self.bytes)))
    }
}

fn step_of(answer: Answer) -> Result<Step, Refusal> {
    let answer = answer.accepted()?;
    let step = match answer.kind() {
        numbers::SEND => bus_of(answer.number()).map(Step::Send),
        numbers::DONE => Some(Step::Done),
        numbers::GAVE_UP => Some(Step::GaveUp),
        _ => None,
    };
    step.ok_or(answer.unknown())
}

fn bus_of(number: usize) -> Option<Bus> {
    Bus::of_number(number.try_into().ok()?)
}

impl Default for Master {
    fn default() -> Master {
        Master::new()
    }
}

impl fmt::Debug for Master {
    fn fmt(&self, f: &mut fmt::Formatter<'_>) -> fmt::Result {
        write!(f, "Master({:02X?})", self.bytes)
    }
}

#[cfg(test)]
mod tests {
    use super::*;

    #[test]
    fn a_kind_or_a_bus_that_is_not_known_is_no_step() {
        for kind in 0..=255 {
            for number in 0..4 {
                let answer = kind << 16 | number;
                let expected = match (kind as u8, number) {
                    (numbers::SEND, 0) => Ok(Step::Send(Bus::A)),
                    (numbers::SEND, 1) => Ok(Step::Send(Bus::B)),
                    (numbers::DONE, _) => Ok(Step::Done),
                    (numbers::GAVE_UP, _) => Ok(Step::GaveUp),
                    _ => Err(Refusal::Unknown(answer)),
                };
                assert_eq!(step_of(Answer(answer)), expected);
            }
        }
        let send_on_bus_256 = u32::from(numbers::SEND) << 16 | 256;
        assert_eq!(
            step_of(Answer(send_on_bus_256)),
            Err(Refusal::Unknown(send_on_bus_256))
        );
    }
}
