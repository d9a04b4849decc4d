//! A master: one chosen bus for each node, and at most one exchange.
//!
//! Each call takes the master and hands back the next one; a refused call
//! hands back the master it was given.

use crate::key::is_bus;
use crate::refusal::Refusal;

/// The nodes a master can speak to.
pub const NODE_COUNT: usize = 64;

/// The kinds of exchange; the discriminant is the library's number.
#[derive(Clone, Copy, Debug, PartialEq, Eq)]
pub enum Kind {
    Poll = 1,
    DataBlock = 2,
    Command = 3,
}

impl Kind {
    /// The kind of a number, if it has one.
    pub fn of_number(number: u8) -> Option<Kind> {
        match number {
            1 => Some(Kind::Poll),
            2 => Some(Kind::DataBlock),
            3 => Some(Kind::Command),
            _ => None,
        }
    }

    /// The sends on the bus on which the exchange starts.
    fn first_sends(self) -> u8 {
        match self {
            Kind::Poll => 1,
            Kind::DataBlock | Kind::Command => 2,
        }
    }

    /// All sends; only a command has one on the other bus (source 9.3).
    pub fn total_sends(self) -> u8 {
        match self {
            Kind::Poll | Kind::DataBlock => self.first_sends(),
            Kind::Command => self.first_sends() + 1,
        }
    }

    /// The function that the reply has.
    fn awaits(self) -> u8 {
        match self {
            Kind::Poll => 2,
            Kind::DataBlock | Kind::Command => 4,
        }
    }
}

/// An exchange under way. The latest send was always on the bus now chosen for
/// the node: where the bus changes and a send follows, the send is on the new one.
#[derive(Clone, Copy, Debug, PartialEq, Eq)]
pub struct Exchange {
    pub kind: Kind,
    pub node: u8,
    /// How many times it was sent.
    pub sends: u8,
}

impl Exchange {
    fn is_sound(&self) -> bool {
        usize::from(self.node) < NODE_COUNT && (1..=self.kind.total_sends()).contains(&self.sends)
    }
}

/// What a master's call answers.
#[derive(Clone, Copy, Debug, PartialEq, Eq)]
pub enum Answer {
    /// Send on this bus.
    Send(u8),
    Done,
    GaveUp,
}

/// A master. Its parts are open to the caller, so each call tests them.
#[derive(Clone, Copy, Debug, PartialEq, Eq)]
pub struct Master {
    pub chosen: [u8; NODE_COUNT],
    pub exchange: Option<Exchange>,
}

impl Master {
    /// A new master: bus A for every node, and no exchange.
    pub fn new() -> Master {
        Master {
            chosen: [0; NODE_COUNT],
            exchange: None,
        }
    }

    /// Whether the chosen buses are buses and an exchange can have come about.
    pub fn is_sound(&self) -> bool {
        self.chosen.iter().all(|&bus| is_bus(bus))
            && self.exchange.iter().all(|exchange| exchange.is_sound())
    }

    /// Starts an exchange with a node by its first send.
    pub fn start(mut self, kind: Kind, node: u8) -> (Master, Result<Answer, Refusal>) {
        if !self.is_sound() {
            return (self, Err(Refusal::State));
        }
        if !is_node(node) {
            return (self, Err(Refusal::Field));
        }
        if self.exchange.is_some() {
            return (self, Err(Refusal::Busy));
        }
        let sends = 1;
        self.exchange = Some(Exchange { kind, node, sends });
        let bus = self.chosen[usize::from(node)];
        (self, Ok(Answer::Send(bus)))
    }

    /// Takes a reply, which ends the exchange if it counts.
    pub fn reply(mut self, bus: u8, node: u8, function: u8) -> (Master, Result<Answer, Refusal>) {
        let exchange = match self.under_way(is_bus(bus) && is_node(node) && function <= 31) {
            Ok(exchange) => exchange,
            Err(refusal) => return (self, Err(refusal)),
        };
        let sent_on = self.chosen[usize::from(exchange.node)];
        let counts = (bus, node, function) == (sent_on, exchange.node, exchange.kind.awaits());
        if !counts {
            return (self, Err(Refusal::NotAwaited));
        }
        self.exchange = None;
        (self, Ok(Answer::Done))
    }

    /// Says that no reply came in time: it is sent again, or given up. Where the
    /// sends on the first bus are used up, the node's bus becomes the other one.
    pub fn timeout(mut self) -> (Master, Result<Answer, Refusal>) {
        let mut exchange = match self.under_way(true) {
            Ok(exchange) => exchange,
            Err(refusal) => return (self, Err(refusal)),
        };
        let chosen = &mut self.chosen[usize::from(exchange.node)];
        if exchange.sends == exchange.kind.first_sends() {
            *chosen = 1 - *chosen;
        }
        if exchange.sends == exchange.kind.total_sends() {
            self.exchange = None;
            return (self, Ok(Answer::GaveUp));
        }
        let bus = *chosen;
        exchange.sends += 1;
        self.exchange = Some(exchange);
        (self, Ok(Answer::Send(bus)))
    }

    /// The exchange under way, if neither the master nor what is handed in with
    /// it is refused first.
    fn under_way(&self, in_range: bool) -> Result<Exchange, Refusal> {
        if !self.is_sound() {
            Err(Refusal::State)
        } else if !in_range {
            Err(Refusal::Field)
        } else {
            self.exchange.ok_or(Refusal::Idle)
        }
    }
}

impl Default for Master {
    fn default() -> Master {
        Master::new()
    }
}

fn is_node(node: u8) -> bool {
    usize::from(node) < NODE_COUNT
}

#[cfg(test)]
mod tests {
    use super::*;

    const KINDS: [Kind; 3] = [Kind::Poll, Kind::DataBlock, Kind::Command];
    const A: u8 = 0;
    const B: u8 = 1;

    /// A master for tests that follow a run.
    struct Run(Master);

    impl Run {
        fn new() -> Run {
            Run(Master::new())
        }

        fn start(&mut self, kind: Kind, node: u8) -> Result<Answer, Refusal> {
            let (master, answer) = self.0.start(kind, node);
            self.0 = master;
            answer
        }

        fn reply(&mut self, bus: u8, node: u8, function: u8) -> Result<Answer, Refusal> {
            let (master, answer) = self.0.reply(bus, node, function);
            self.0 = master;
            answer
        }

        fn timeout(&mut self) -> Result<Answer, Refusal> {
            let (master, answer) = self.0.timeout();
            self.0 = master;
            answer
        }

        fn chosen(&self, node: usize) -> u8 {
            self.0.chosen[node]
        }
    }

    #[test]
    fn the_command_of_document_01() {
        let mut run = Run::new();
        assert_eq!(run.start(Kind::Command, 22), Ok(Answer::Send(A)));
        assert_eq!(run.timeout(), Ok(Answer::Send(A)));
        assert_eq!(run.chosen(22), A);
        assert_eq!(run.timeout(), Ok(Answer::Send(B)));
        assert_eq!(run.chosen(22), B);
        assert_eq!(run.reply(A, 22, 4), Err(Refusal::NotAwaited));
        assert_eq!(run.reply(B, 22, 4), Ok(Answer::Done));
        assert_eq!(run.chosen(22), B);
        assert_eq!(run.0.exchange, None);
    }

    #[test]
    fn a_command_without_reply_leaves_the_other_bus_chosen() {
        let mut run = Run::new();
        for (first, second) in [(A, B), (B, A)] {
            assert_eq!(run.start(Kind::Command, 63), Ok(Answer::Send(first)));
            assert_eq!(run.timeout(), Ok(Answer::Send(first)));
            assert_eq!(run.timeout(), Ok(Answer::Send(second)));
            assert_eq!(run.timeout(), Ok(Answer::GaveUp));
            assert_eq!(run.chosen(63), second);
            assert_eq!(run.timeout(), Err(Refusal::Idle));
        }
    }

    #[test]
    fn polls_and_data_blocks_change_the_bus_as_they_give_up() {
        for (kind, sends) in [(Kind::Poll, 1), (Kind::DataBlock, 2)] {
            let mut run = Run::new();
            assert_eq!(run.start(kind, 5), Ok(Answer::Send(A)));
            for _ in 1..sends {
                assert_eq!(run.timeout(), Ok(Answer::Send(A)));
                assert_eq!(run.chosen(5), A);
            }
            assert_eq!(run.timeout(), Ok(Answer::GaveUp));
            assert_eq!(run.chosen(5), B);
            assert!(run
                .0
                .chosen
                .iter()
                .enumerate()
                .all(|(i, &c)| c == u8::from(i == 5)));
            assert_eq!(run.start(kind, 5), Ok(Answer::Send(B)));
        }
    }

    #[test]
    fn a_reply_counts_by_bus_node_and_function() {
        for (kind, function) in [(Kind::Poll, 2), (Kind::DataBlock, 4), (Kind::Command, 4)] {
            let mut run = Run::new();
            run.start(kind, 9).unwrap();
            let before = run.0;
            for bus in [A, B] {
                for node in 0..64 {
                    for other in 0..32 {
                        if (bus, node, other) != (A, 9, function) {
                            assert_eq!(run.reply(bus, node, other), Err(Refusal::NotAwaited));
                        }
                    }
                }
            }
            assert_eq!(run.0, before);
            assert_eq!(run.reply(A, 9, function), Ok(Answer::Done));
            assert_eq!(run.0, Master::new());
        }
    }

    #[test]
    fn refusals_come_in_order_and_change_nothing() {
        let mut run = Run::new();
        assert_eq!(run.start(Kind::Poll, 64), Err(Refusal::Field));
        assert_eq!(run.reply(2, 0, 0), Err(Refusal::Field));
        assert_eq!(run.reply(0, 64, 0), Err(Refusal::Field));
        assert_eq!(run.reply(0, 0, 32), Err(Refusal::Field));
        assert_eq!(run.reply(0, 0, 0), Err(Refusal::Idle));
        assert_eq!(run.timeout(), Err(Refusal::Idle));
        assert_eq!(run.0, Master::new());
        run.start(Kind::Poll, 0).unwrap();
        let before = run.0;
        assert_eq!(run.start(Kind::Command, 64), Err(Refusal::Field));
        assert_eq!(run.start(Kind::Command, 1), Err(Refusal::Busy));
        assert_eq!(run.reply(0, 0, 32), Err(Refusal::Field));
        assert_eq!(run.0, before);
    }

    #[test]
    fn every_call_refuses_an_unsound_master() {
        let sound = |kind: Kind, node, sends| Master {
            exchange: Some(Exchange { kind, node, sends }),
            ..Master::new()
        };
        let mut unsound: Vec<Master> = KINDS
            .iter()
            .flat_map(|&kind| {
                let over = kind.total_sends() + 1;
                [sound(kind, 64, 1), sound(kind, 0, 0), sound(kind, 0, over)]
            })
            .collect();
        let mut bus_2 = Master::new();
        bus_2.chosen[63] = 2;
        unsound.push(bus_2);
        for master in unsound {
            assert_eq!(master.start(Kind::Poll, 64), (master, Err(Refusal::State)));
            assert_eq!(master.reply(2, 0, 0), (master, Err(Refusal::State)));
            assert_eq!(master.timeout(), (master, Err(Refusal::State)));
        }
    }

    #[test]
    fn every_count_up_to_the_total_is_sound() {
        for (kind, total) in [(Kind::Poll, 1), (Kind::DataBlock, 2), (Kind::Command, 3)] {
            for sends in 0..5 {
                let master = Master {
                    exchange: Some(Exchange {
                        kind,
                        node: 63,
                        sends,
                    }),
                    ..Master::new()
                };
                assert_eq!(master.is_sound(), (1..=total).contains(&sends));
            }
        }
    }
}
