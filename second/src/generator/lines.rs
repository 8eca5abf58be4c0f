//! Cases and answers as lines of text, for stored expectations.
//!
//! One line a case: the kind, the inputs, `=`, the answer; fields are set apart by one space.
//! Bytes are written in hex, no bytes as `-`; numbers in decimal; byte order as `big` or `little`.
//! Before the job, byte i of an output of `room` bytes is (fill + 151 × i) mod 256.
//! On `done` the line ends with the table's bytes; every other output byte stays as it was.
//!
//! ```text
//! compile TEXT ORDER ROOM FILL = done LENGTH TABLE | refused NUMBER PLACE
//! check TABLE = passed | refused NUMBER PLACE
//! merge FIRST SECOND ORDER ROOM FILL = done LENGTH RECORD_SHIFT POOL_SHIFT TABLE | refused NUMBER PLACE WHICH
//! judge TABLE ROOT DATA = valid | refused NUMBER PLACE | verdict REASON RECORD PLACE
//! name TABLE RECORD = name START LENGTH BYTES | refused NUMBER PLACE
//! ```

use super::cases::{filling, CheckCase, CompileCase, JudgeCase, MergeCase, NameCase};
use super::law::Jobs;
use crate::api::{CheckAnswer, CompileAnswer, JudgeAnswer, MergeAnswer, NameAnswer};

/// Bytes in hex, `-` for none.
pub fn hex(bytes: &[u8]) -> String {
    if bytes.is_empty() {
        return String::from("-");
    }
    const DIGITS: &[u8; 16] = b"0123456789abcdef";
    let mut out = String::with_capacity(2 * bytes.len());
    for byte in bytes {
        out.push(char::from(DIGITS[usize::from(byte >> 4)]));
        out.push(char::from(DIGITS[usize::from(byte & 15)]));
    }
    out
}

fn order(little: bool) -> &'static str {
    if little {
        "little"
    } else {
        "big"
    }
}

pub fn compile_line(case: &CompileCase, jobs: &Jobs) -> String {
    let mut out = filling(case.fill, case.room);
    let answer = match (jobs.compile)(&case.text, case.little, &mut out) {
        CompileAnswer::Done { length } => format!("done {length} {}", hex(&out[..length as usize])),
        CompileAnswer::Refused { number, place } => format!("refused {number} {place}"),
    };
    format!("compile {} {} {} {} = {answer}", hex(&case.text), order(case.little), case.room, case.fill)
}

pub fn check_line(case: &CheckCase, jobs: &Jobs) -> String {
    let answer = match (jobs.check)(&case.table) {
        CheckAnswer::Passed => String::from("passed"),
        CheckAnswer::Refused { number, place } => format!("refused {number} {place}"),
    };
    format!("check {} = {answer}", hex(&case.table))
}

pub fn merge_line(case: &MergeCase, jobs: &Jobs) -> String {
    let mut out = filling(case.fill, case.room);
    let answer = match (jobs.merge)(&case.first, &case.second, case.little, &mut out) {
        MergeAnswer::Done { length, record_shift, pool_shift } => {
            format!("done {length} {record_shift} {pool_shift} {}", hex(&out[..length as usize]))
        }
        MergeAnswer::Refused { number, place, table } => format!("refused {number} {place} {table}"),
    };
    let (first, second) = (hex(&case.first), hex(&case.second));
    format!("merge {first} {second} {} {} {} = {answer}", order(case.little), case.room, case.fill)
}

pub fn judge_line(case: &JudgeCase, jobs: &Jobs) -> String {
    let answer = match (jobs.judge)(&case.table, case.root, &case.data) {
        JudgeAnswer::Valid => String::from("valid"),
        JudgeAnswer::Refused { number, place } => format!("refused {number} {place}"),
        JudgeAnswer::Verdict { reason, record, place } => format!("verdict {reason} {record} {place}"),
    };
    format!("judge {} {} {} = {answer}", hex(&case.table), case.root, hex(&case.data))
}

pub fn name_line(case: &NameCase, jobs: &Jobs) -> String {
    let answer = match (jobs.name)(&case.table, case.record) {
        NameAnswer::Name { start, length } => {
            let part = &case.table[start as usize..(start + length) as usize];
            format!("name {start} {length} {}", hex(part))
        }
        NameAnswer::Refused { number, place } => format!("refused {number} {place}"),
    };
    format!("name {} {} = {answer}", hex(&case.table), case.record)
}
