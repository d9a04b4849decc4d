//! The rules of one stream: what a frame of its key does to it.

use crate::format::Format;
use crate::frame::{Flag, Frame};
use crate::refusal::Refusal;

/// The bytes of store that each stream owns.
pub const AREA_SIZE: usize = 2048;

/// What receiving a frame answers.
#[derive(Clone, Copy, Debug, PartialEq, Eq)]
pub enum Answer {
    Packet { length: usize, broke: bool },
    Kept { broke: bool },
    Filtered,
    Refused(Refusal),
}

/// The state of an open stream; collecting and done come with the bytes held.
#[derive(Clone, Copy, Debug, PartialEq, Eq)]
pub enum State {
    Idle,
    Collecting(usize),
    Done(usize),
}

impl State {
    /// Whether a station of this format can have a stream in this state.
    pub fn is_sound(self, format: Format) -> bool {
        match self {
            State::Idle => true,
            State::Collecting(held) => {
                let size = format.piece_size();
                held % size == 0 && (size..=format.collecting_limit()).contains(&held)
            }
            State::Done(held) => held <= format.packet_limit(),
        }
    }
}

/// What a frame brings about.
#[derive(Clone, Copy, Debug, PartialEq, Eq)]
pub struct Step {
    pub answer: Answer,
    pub next: State,
    /// Where in the area the frame's packet bytes go, if they are taken.
    pub write_at: Option<usize>,
}

/// The step of a stream on a frame of its key.
pub fn step(state: State, frame: &Frame) -> Step {
    match (frame.flag, state) {
        (Flag::Single | Flag::Start, _) => begin(state, frame),
        (Flag::Middle | Flag::End, State::Collecting(held)) => follow(held, frame),
        (Flag::Middle | Flag::End, State::Idle | State::Done(_)) => Step {
            answer: Answer::Refused(Refusal::Orphan),
            next: state,
            write_at: None,
        },
    }
}

/// A single or start opens a new packet, whatever the stream held before.
fn begin(state: State, frame: &Frame) -> Step {
    let broke = matches!(state, State::Collecting(_));
    let length = frame.packet.len();
    let (answer, next) = match frame.flag {
        Flag::Single => (Answer::Packet { length, broke }, State::Done(length)),
        _ => (Answer::Kept { broke }, State::Collecting(length)),
    };
    Step {
        answer,
        next,
        write_at: Some(0),
    }
}

/// A middle or end goes behind the bytes held, if it is the piece awaited.
fn follow(held: usize, frame: &Frame) -> Step {
    let format = frame.fields.format();
    let awaited = format.piece_number(held / format.piece_size());
    if usize::from(frame.number) != awaited {
        return lost(Refusal::Step);
    }
    let length = held + frame.packet.len();
    if length > AREA_SIZE {
        return lost(Refusal::Long);
    }
    let broke = false;
    let (answer, next) = match frame.flag {
        Flag::End => (Answer::Packet { length, broke }, State::Done(length)),
        _ => (Answer::Kept { broke }, State::Collecting(length)),
    };
    Step {
        answer,
        next,
        write_at: Some(held),
    }
}

/// The packet under way is given up.
fn lost(refusal: Refusal) -> Step {
    Step {
        answer: Answer::Refused(refusal),
        next: State::Idle,
        write_at: None,
    }
}

#[cfg(test)]
mod tests {
    use super::*;
    use crate::key::Fields;

    const EXTENDED: Fields = Fields::Extended {
        priority: 0,
        source: 0,
        group: 0,
        destination: 0,
        function: 0,
    };
    const STANDARD: Fields = Fields::Standard {
        priority: 0,
        address: 0,
        side: 0,
    };
    const ALL_STATES: [State; 3] = [State::Idle, State::Collecting(8), State::Done(3)];

    fn step_on(fields: Fields, state: State, flag: Flag, number: u8, size: usize) -> Step {
        let frame = Frame {
            fields,
            flag,
            number,
            count: 0,
            packet: &[0x55; 8][..size],
        };
        step(state, &frame)
    }

    fn extended(state: State, flag: Flag, number: u8, size: usize) -> Step {
        step_on(EXTENDED, state, flag, number, size)
    }

    fn taken(answer: Answer, next: State, at: usize) -> Step {
        Step {
            answer,
            next,
            write_at: Some(at),
        }
    }

    fn refused(refusal: Refusal, next: State) -> Step {
        Step {
            answer: Answer::Refused(refusal),
            next,
            write_at: None,
        }
    }

    #[test]
    fn single_and_start_begin_anew_in_every_state() {
        for state in ALL_STATES {
            let broke = state == State::Collecting(8);
            assert_eq!(
                extended(state, Flag::Single, 0, 5),
                taken(Answer::Packet { length: 5, broke }, State::Done(5), 0)
            );
            assert_eq!(
                extended(state, Flag::Start, 0, 8),
                taken(Answer::Kept { broke }, State::Collecting(8), 0)
            );
        }
    }

    #[test]
    fn orphans_change_nothing() {
        for state in [State::Idle, State::Done(3)] {
            for flag in [Flag::Middle, Flag::End] {
                assert_eq!(extended(state, flag, 1, 8), refused(Refusal::Orphan, state));
            }
        }
    }

    #[test]
    fn the_awaited_piece_follows_those_held() {
        let kept = Answer::Kept { broke: false };
        assert_eq!(
            extended(State::Collecting(16), Flag::Middle, 2, 8),
            taken(kept, State::Collecting(24), 16)
        );
        let packet = Answer::Packet {
            length: 17,
            broke: false,
        };
        assert_eq!(
            extended(State::Collecting(16), Flag::End, 2, 1),
            taken(packet, State::Done(17), 16)
        );
    }

    #[test]
    fn another_number_is_a_step() {
        for number in [0, 1, 3, 63] {
            assert_eq!(
                extended(State::Collecting(16), Flag::Middle, number, 8),
                refused(Refusal::Step, State::Idle)
            );
        }
    }

    #[test]
    fn extended_numbers_wrap_at_64() {
        let at_64 = State::Collecting(64 * 8);
        assert_eq!(
            extended(at_64, Flag::Middle, 0, 8).next,
            State::Collecting(65 * 8)
        );
        assert_eq!(extended(at_64, Flag::End, 0, 1).next, State::Done(513));
        assert_eq!(
            extended(at_64, Flag::Middle, 1, 8),
            refused(Refusal::Step, State::Idle)
        );
    }

    #[test]
    fn long_after_the_whole_area_and_step_before_long() {
        let full = State::Collecting(2048);
        for (flag, size) in [(Flag::Middle, 8), (Flag::End, 1)] {
            assert_eq!(
                extended(full, flag, 0, size),
                refused(Refusal::Long, State::Idle)
            );
            assert_eq!(
                extended(full, flag, 1, size),
                refused(Refusal::Step, State::Idle)
            );
        }
        let last = extended(State::Collecting(2040), Flag::End, 63, 8);
        assert_eq!(last.next, State::Done(2048));
    }

    #[test]
    fn standard_numbers_do_not_wrap() {
        let at_64 = State::Collecting(64 * 7);
        let next = step_on(STANDARD, at_64, Flag::Middle, 64, 7);
        assert_eq!(next.next, State::Collecting(65 * 7));
        let last = step_on(STANDARD, State::Collecting(1785), Flag::End, 255, 7);
        assert_eq!(last.next, State::Done(1792));
        let middle = step_on(STANDARD, State::Collecting(1785), Flag::Middle, 254, 7);
        assert_eq!(middle, refused(Refusal::Step, State::Idle));
    }

    #[test]
    fn sound_states() {
        let collecting = |format, held| State::Collecting(held).is_sound(format);
        for held in [0, 1, 7, 9, 2047, 2056] {
            assert!(!collecting(Format::Extended, held), "{held}");
        }
        for held in [8, 16, 2040, 2048] {
            assert!(collecting(Format::Extended, held), "{held}");
        }
        for held in [0, 1, 8, 1784, 1786, 1792] {
            assert!(!collecting(Format::Standard, held), "{held}");
        }
        for held in [7, 14, 1785] {
            assert!(collecting(Format::Standard, held), "{held}");
        }
        for (format, limit) in [(Format::Extended, 2048), (Format::Standard, 1792)] {
            assert!(State::Idle.is_sound(format));
            assert!(State::Done(0).is_sound(format));
            assert!(State::Done(limit).is_sound(format));
            assert!(!State::Done(limit + 1).is_sound(format));
        }
    }
}
