//! What the tests share. In a text given to a test the byte `^` marks the place meant; it is taken out
//! before the text is used.
#![allow(dead_code)]

use second::api::{CompileAnswer, JudgeAnswer, MeaningAnswer};
use second::{compile, data_faults, judge, meaning, text_faults};

/// A value that no answer leaves in a buffer by chance.
pub const FILL: u8 = 0x5A;

/// The text without its mark, and the mark's place.
pub fn marked(text: &str) -> (Vec<u8>, u64) {
    let place = text.find('^').expect("a mark");
    let mut bytes = text.as_bytes().to_vec();
    bytes.remove(place);
    (bytes, place as u64)
}

/// Compiles a text that is accepted, and tests that only the table's bytes were written.
pub fn table(text: &str, little: bool) -> Vec<u8> {
    let mut out = vec![FILL; 80_000];
    match compile(text.as_bytes(), little, &mut out) {
        CompileAnswer::Done { length } => {
            assert!(out[length as usize..].iter().all(|byte| *byte == FILL));
            out.truncate(length as usize);
            out
        }
        refused => panic!("{refused:?} for {text}"),
    }
}

/// The constraint text is accepted.
pub fn accepted(text: &str) {
    assert_eq!(text_faults(text.as_bytes()), vec![], "{text}");
    table(text, false);
}

/// Bytes as a constraint text are refused so, and the buffer stays.
pub fn refused_bytes(number: u32, place: u64, text: &[u8]) {
    let mut out = vec![FILL; 60_000];
    let shown = String::from_utf8_lossy(&text[..text.len().min(300)]);
    for little in [false, true] {
        assert_eq!(compile(text, little, &mut out), CompileAnswer::Refused { number, place }, "{shown}");
    }
    assert!(out.iter().all(|byte| *byte == FILL));
    assert_eq!(meaning(text, b"<>"), MeaningAnswer::ConstraintRefused { number, place }, "{shown}");
    let first = text_faults(text)[0];
    assert_eq!((first.number, first.place), (number, place), "{shown}");
}

/// The constraint text is refused with the number at the mark.
pub fn refused(number: u32, text: &str) {
    let (bytes, place) = marked(text);
    refused_bytes(number, place, &bytes);
}

/// The leaf is refused inside a plain object.
pub fn leaf_refused(number: u32, leaf: &str) {
    refused(number, &format!("A matches {{a matches {{{leaf}}}}}"));
}

/// The leaf is accepted inside a plain object.
pub fn leaf_accepted(leaf: &str) {
    accepted(&format!("A matches {{a matches {{{leaf}}}}}"));
}

/// Judges by the table of the text in both byte orders, and by the meaning; all three answers are equal.
pub fn answer(text: &str, data: &[u8]) -> JudgeAnswer {
    let big = judge(&table(text, false), 1, data);
    let little = judge(&table(text, true), 1, data);
    assert_eq!(big, little);
    assert_eq!(meaning(text.as_bytes(), data), MeaningAnswer::Answer(big));
    big
}

pub fn valid(text: &str, data: &str) {
    assert_eq!(answer(text, data.as_bytes()), JudgeAnswer::Valid, "{text} {data}");
}

/// The verdict of judging, its place at the mark in the data.
pub fn verdict(text: &str, reason: u32, record: u32, data: &str) {
    let (bytes, place) = marked(data);
    assert_eq!(answer(text, &bytes), JudgeAnswer::Verdict { reason, record, place }, "{text} {data}");
}

/// Bytes as a data text are refused so.
pub fn data_refused_bytes(number: u32, place: u64, data: &[u8]) {
    let shown = String::from_utf8_lossy(&data[..data.len().min(300)]);
    assert_eq!(answer("A matches {*}", data), JudgeAnswer::Refused { number, place }, "{shown}");
    let first = data_faults(data)[0];
    assert_eq!((first.number, first.place), (number, place), "{shown}");
}

/// The data text is refused with the number at the mark.
pub fn data_refused(number: u32, data: &str) {
    let (bytes, place) = marked(data);
    data_refused_bytes(number, place, &bytes);
}

/// The data text is accepted.
pub fn data_accepted(data: &str) {
    assert_eq!(data_faults(data.as_bytes()), vec![], "{data}");
    let answer = answer("A matches {*}", data.as_bytes());
    assert!(!matches!(answer, JudgeAnswer::Refused { .. }), "{data}");
}

/// A record's bytes.
pub fn record(little: bool, kind: u8, flag: u8, numbers: [u32; 5]) -> Vec<u8> {
    let mut bytes = if little { vec![0xAD, 0xC0] } else { vec![0xC0, 0xAD] };
    bytes.extend([kind, flag]);
    for number in numbers {
        bytes.extend(if little { number.to_le_bytes() } else { number.to_be_bytes() });
    }
    bytes
}

/// One record of a table made by hand: kind, flag and numbers.
pub type Line = (u8, u8, [u32; 5]);

/// A table of records in one byte order; the header is made for them.
pub fn made(little: bool, root: u32, lines: &[Line], pool: &str) -> Vec<u8> {
    let mut bytes = record(little, 0, 0, [lines.len() as u32 + 1, pool.len() as u32, root, 0, 0]);
    for (kind, flag, numbers) in lines {
        bytes.extend(record(little, *kind, *flag, *numbers));
    }
    bytes.extend(pool.as_bytes());
    bytes
}

/// The same table with every second record, the header first, in the other order.
pub fn made_mixed(first_little: bool, root: u32, lines: &[Line], pool: &str) -> Vec<u8> {
    let mut bytes = record(first_little, 0, 0, [lines.len() as u32 + 1, pool.len() as u32, root, 0, 0]);
    for (index, (kind, flag, numbers)) in lines.iter().enumerate() {
        let little = if index % 2 == 0 { !first_little } else { first_little };
        bytes.extend(record(little, *kind, *flag, *numbers));
    }
    bytes.extend(pool.as_bytes());
    bytes
}
