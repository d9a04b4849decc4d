//! Answers as the numbers of 32 bits that the library gives.

use crate::master;
use crate::refusal::Refusal;
use crate::stream::Answer;

/// Set in a refusal, whose number stands in the low bits.
const REFUSED: u32 = 0x8000_0000;
/// Set where an older packet was dropped.
const BROKE: u32 = 1 << 24;

/// Set by a check of a watch for bus A and for bus B, if it is to be reset.
const RESET: [u32; 2] = [1 << 25, 1 << 26];

/// The kinds of answers, which all differ.
pub const PACKET: u32 = 4;
pub const KEPT: u32 = 5;
pub const FILTERED: u32 = 6;
pub const SEND: u32 = 7;
pub const DONE: u32 = 8;
pub const GAVE_UP: u32 = 9;

/// The answer of a refusal.
pub fn refused(refusal: Refusal) -> u32 {
    REFUSED | u32::from(refusal.number())
}

/// A kind stands above the sixteen bits of the number.
fn kind(kind: u32, number: usize) -> u32 {
    kind << 16 | number as u32
}

pub fn number_or_refusal(result: Result<usize, Refusal>) -> u32 {
    match result {
        Ok(number) => number as u32,
        Err(refusal) => refused(refusal),
    }
}

pub fn receive_answer(answer: Answer) -> u32 {
    let broken = |broke| if broke { BROKE } else { 0 };
    match answer {
        Answer::Packet { length, broke } => kind(PACKET, length) | broken(broke),
        Answer::Kept { broke } => kind(KEPT, 0) | broken(broke),
        Answer::Filtered => kind(FILTERED, 0),
        Answer::Refused(refusal) => refused(refusal),
    }
}

pub fn exchange_answer(answer: Result<master::Answer, Refusal>) -> u32 {
    match answer {
        Ok(master::Answer::Send(bus)) => kind(SEND, usize::from(bus)),
        Ok(master::Answer::Done) => kind(DONE, 0),
        Ok(master::Answer::GaveUp) => kind(GAVE_UP, 0),
        Err(refusal) => refused(refusal),
    }
}

pub fn reset_answer(reset: [bool; 2]) -> u32 {
    let bits = RESET.iter().zip(reset);
    bits.map(|(bit, reset)| if reset { *bit } else { 0 }).sum()
}

#[cfg(test)]
mod tests {
    use super::*;

    #[test]
    fn refusals_have_the_highest_bit_and_their_number() {
        assert_eq!(refused(Refusal::Length), 0x8000_0001);
        assert_eq!(refused(Refusal::State), 0x8000_0015);
        assert_eq!(number_or_refusal(Err(Refusal::Full)), 0x8000_000F);
        assert_eq!(number_or_refusal(Ok(256)), 256);
    }

    #[test]
    fn received_frames_have_kind_number_and_broke() {
        let packet = |length, broke| receive_answer(Answer::Packet { length, broke });
        assert_eq!(packet(2048, false), 0x0004_0800);
        assert_eq!(packet(0, true), 0x0104_0000);
        assert_eq!(receive_answer(Answer::Kept { broke: false }), 0x0005_0000);
        assert_eq!(receive_answer(Answer::Kept { broke: true }), 0x0105_0000);
        assert_eq!(receive_answer(Answer::Filtered), 0x0006_0000);
        assert_eq!(receive_answer(Answer::Refused(Refusal::Step)), 0x8000_0007);
    }

    #[test]
    fn exchanges_have_kind_and_bus() {
        assert_eq!(exchange_answer(Ok(master::Answer::Send(0))), 0x0007_0000);
        assert_eq!(exchange_answer(Ok(master::Answer::Send(1))), 0x0007_0001);
        assert_eq!(exchange_answer(Ok(master::Answer::Done)), 0x0008_0000);
        assert_eq!(exchange_answer(Ok(master::Answer::GaveUp)), 0x0009_0000);
        assert_eq!(exchange_answer(Err(Refusal::Idle)), 0x8000_0013);
    }
}
