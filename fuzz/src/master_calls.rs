//! Calls on a master: starts, replies and timeouts.

use second::interface::{master_bytes, master_of};
use second::master::{Kind, Master};
use testkit::keys::NO_BUSES;
use testkit::Random;

use crate::call::{Call, Part, MASTER};
use crate::mutate::{mutate, sound_master, unsound_master, MASTER_WAYS};
use crate::sequence::{Step, Steps};
use crate::tally::{List, Note};

/// What a sequence does with its master.
pub struct MasterCalls {
    /// The nodes it mostly speaks to: a few, so that their buses change to and fro.
    nodes: [u8; 3],
}

impl MasterCalls {
    pub fn new(random: &mut Random) -> MasterCalls {
        let nodes = [0; 3].map(|_| {
            let any = random.below(64) as u8;
            random.pick(&[0, 63, any])
        });
        MasterCalls { nodes }
    }

    /// Puts the next steps in line.
    pub fn make_up(&self, master: &[u8], random: &mut Random, steps: &mut Steps) {
        if random.chance(60) {
            return self.put_in_place(master, random, steps);
        }
        let call = self.any_call(master, random);
        steps.push_back(Step::Call(call));
    }

    fn any_call(&self, master: &[u8], random: &mut Random) -> Call {
        match random.below(100) {
            0..=1 => new(),
            2..=31 => Call::master_start {
                master: MASTER,
                kind: match random.chance(40) {
                    true => random.pick(&[0, 4, 5, 129, 255]),
                    false => random.within(1, 3) as u8,
                },
                node: self.any_node(random),
            },
            32..=61 => self.reply(master, random),
            _ => Call::master_timeout { master: MASTER },
        }
    }

    fn any_node(&self, random: &mut Random) -> u8 {
        match random.below(100) {
            0..=79 => random.pick(&self.nodes),
            80..=95 => random.below(64) as u8,
            _ => random.pick(&[64, 65, 128, 192, 255]),
        }
    }

    /// A reply that counts, one that differs from it in one thing, or any.
    fn reply(&self, master: &[u8], random: &mut Random) -> Call {
        let (mut bus, mut node, mut function) = match awaited(master) {
            Some(reply) if random.chance(800) => reply,
            _ => {
                let bus = random.below(2) as u8;
                (bus, self.any_node(random), random.pick(&[2, 4]))
            }
        };
        match random.below(10) {
            0 => bus ^= 1,
            1 => node = self.any_node(random),
            2 => function = random.below(32) as u8,
            3 if random.chance(500) => bus = random.pick(&NO_BUSES),
            3 => function = random.pick(&[32, 34, 36, 66, 255]),
            _ => {}
        }
        Call::master_reply {
            master: MASTER,
            bus,
            node,
            function,
        }
    }

    /// Other bytes in the master's place for some calls: sound ones to go on with, or others.
    fn put_in_place(&self, master: &[u8], random: &mut Random, steps: &mut Steps) {
        if random.chance(300) {
            let bytes = master_bytes(&sound_master(random)).to_vec();
            return steps.push_back(Step::Set(
                Part::Master,
                bytes,
                Some(Note(List::SoundMaster, 0)),
            ));
        }
        let (bytes, note) = match random.chance(400) {
            true => {
                let way = random.below(MASTER_WAYS.len());
                (unsound_master(way, random), Note(List::UnsoundMaster, way))
            }
            false => {
                let mut bytes = master.to_vec();
                let way = mutate(&mut bytes, random);
                (bytes, Note(List::MutatedMaster, way))
            }
        };
        let sound = master_of(&bytes).is_some_and(|master| master.is_sound());
        steps.push_back(Step::Set(Part::Master, bytes.clone(), Some(note)));
        for _ in 0..random.within(1, 3) {
            let call = match random.chance(150) {
                true => new(),
                false => self.any_call(&bytes, random),
            };
            steps.push_back(Step::Call(call));
        }
        if !sound || random.chance(500) {
            steps.push_back(Step::Set(Part::Master, master.to_vec(), None));
        }
    }
}

pub fn new() -> Call {
    Call::master_new { master: MASTER }
}

/// The reply that the exchange under way awaits.
fn awaited(master: &[u8]) -> Option<(u8, u8, u8)> {
    let master = master_of(master).filter(Master::is_sound)?;
    let exchange = master.exchange?;
    let function = match exchange.kind {
        Kind::Poll => 2,
        Kind::DataBlock | Kind::Command => 4,
    };
    let bus = master.chosen[usize::from(exchange.node)];
    Some((bus, exchange.node, function))
}
