//! Answers and bytes as the tables of the higher crates spell them.

use super::term;
use crate::api::JudgeAnswer;

/// Bytes in hex, four to a word as the rule book writes them, bracketed.
pub fn hex(bytes: &[u8]) -> String {
    if bytes.is_empty() {
        return String::from("[]");
    }
    let word = |four: &[u8]| four.iter().map(|byte| format!("{byte:02X}")).collect::<String>();
    format!("(hex \"{}\")", bytes.chunks(4).map(word).collect::<Vec<_>>().join(" "))
}

/// The shortest run of one byte at the end of a table that is told by its length.
const LONG_RUN: usize = 1_000;

/// Bytes in hex, a long run of one byte at their end told by its length, bracketed.
pub fn padded(bytes: &[u8]) -> String {
    let run = bytes.iter().rev().take_while(|byte| Some(*byte) == bytes.last()).count();
    match bytes.last() {
        Some(last) if run >= LONG_RUN => {
            let front = hex(&bytes[..bytes.len() - run]);
            format!("({front} ++ replicate {} {last})", term::number(run as u64))
        }
        _ => hex(bytes),
    }
}

/// A verdict of judging without a refusal.
pub fn verdict(answer: JudgeAnswer) -> String {
    match answer {
        JudgeAnswer::Valid => String::from("valid"),
        JudgeAnswer::Verdict { reason, record, place } => format!("(fails {reason} {record} {})", term::number(place)),
        JudgeAnswer::Refused { number, place } => panic!("refused: {number} at {place}"),
    }
}

/// An output before a job, bracketed.
pub fn filling(fill: u8, room: usize) -> String {
    if room == 0 {
        return String::from("[]");
    }
    format!("(filling {fill} {room})")
}

/// A text, quoted where all of its bytes are ASCII, else in hex.
pub fn text(bytes: &[u8]) -> String {
    if bytes.is_ascii() {
        term::bytes(bytes)
    } else {
        hex(bytes)
    }
}
