//! Any bytes at all: nothing panics, refusals leave the output, and the answers agree with each other.

mod common;
use common::*;
use second::api::*;
use second::{check, compile, data_faults, judge, meaning, merge, name, text_faults};

/// A small generator of numbers, so that every run is the same.
struct Numbers(u64);

impl Numbers {
    fn next(&mut self) -> u64 {
        self.0 ^= self.0 << 13;
        self.0 ^= self.0 >> 7;
        self.0 ^= self.0 << 17;
        self.0
    }

    fn below(&mut self, limit: usize) -> usize {
        (self.next() % limit as u64) as usize
    }
}

const TEXTS: [&str; 4] = [
    "A[at1.2] matches {a matches {5, |7..<9|, |>20|} b existence matches {0..1} matches {True, False}}",
    "A∈{a∈{B∈{c∈{\"x\",\"\"} d∈{*}}} e existence∈{0}∈{|2004-02-29..2005-01-01|} f∈{Thh:??:XX} g existence∈{0..1}∈{PwdThm}}",
    "A matches {a matches {|100+/-5|} b matches {yyyy-mm-??} c matches {|<=-3|}}",
    "A matches {a matches {A matches {a matches {A matches {*}} b matches {False}}}}",
];

const DATA: [&str; 4] = [
    "(A)<a = <8> b = <True>>",
    "<a = (B)<c = <\"x\"> d = <>> f = <08:30Z> g = <-P4w3DT5m>>",
    "<a = <103> b = <2004-05> c = <-4>>",
    "<a = <a = (A)<z = <5>> b = <False>>>",
];

const PIECES: [&str; 24] = [
    "{", "}", "|", "..", "<", ">", "<=", "+/-", ",", "*", "--", "\n", "\"", "a", "A", "5", "-", "=", "(", ")", "True",
    " matches {", "[at1]", "2004-02-29",
];

/// The bytes with a few changes.
fn changed(numbers: &mut Numbers, bytes: &[u8]) -> Vec<u8> {
    let mut bytes = bytes.to_vec();
    for _ in 0..numbers.below(4) {
        let place = numbers.below(bytes.len() + 1);
        match numbers.below(5) {
            0 if place < bytes.len() => bytes[place] = numbers.next() as u8,
            1 if place < bytes.len() => {
                bytes.remove(place);
            }
            2 => bytes.truncate(place),
            3 => {
                let from = numbers.below(place + 1);
                let copy = bytes[from..place].to_vec();
                bytes.splice(place..place, copy);
            }
            _ => {
                let piece = PIECES[numbers.below(PIECES.len())].bytes();
                bytes.splice(place..place, piece);
            }
        }
    }
    bytes
}

/// The table with some of its records in the other byte order.
fn reordered(numbers: &mut Numbers, table: &[u8], count: usize) -> Vec<u8> {
    let mut bytes = table.to_vec();
    for record in bytes[..24 * count].chunks_exact_mut(24) {
        if numbers.below(2) == 0 {
            record[..2].reverse();
            record[4..].chunks_exact_mut(4).for_each(|field| field.reverse());
        }
    }
    bytes
}

#[test]
fn table_and_meaning_agree() {
    let mut numbers = Numbers(0x1234_5678_9ABC_DEF1);
    let mut verdicts = 0;
    for round in 0..60_000 {
        let text = changed(&mut numbers, TEXTS[round % 4].as_bytes());
        let data = changed(&mut numbers, DATA[round / 4 % 4].as_bytes());
        let mut out = vec![FILL; 2_000];
        match compile(&text, round % 3 == 0, &mut out) {
            CompileAnswer::Done { length } => {
                assert_eq!(text_faults(&text), vec![]);
                let bytes = &out[..length as usize];
                assert!(out[length as usize..].iter().all(|byte| *byte == FILL));
                let answer = judge(bytes, 1, &data);
                assert_eq!(meaning(&text, &data), MeaningAnswer::Answer(answer));
                let count = (1..).find(|number| !is_record(bytes, *number)).unwrap();
                assert_eq!(judge(&reordered(&mut numbers, bytes, count), 1, &data), answer);
                verdicts += usize::from(matches!(answer, JudgeAnswer::Verdict { .. }));
            }
            CompileAnswer::Refused { number, place } => {
                assert!(out.iter().all(|byte| *byte == FILL));
                let first = text_faults(&text)[0];
                assert_eq!((first.number, first.place), (number, place));
                assert!(place <= text.len() as u64);
                assert_eq!(meaning(&text, &data), MeaningAnswer::ConstraintRefused { number, place });
            }
        }
        assert!(data_faults(&data).iter().all(|fault| fault.place <= data.len() as u64));
    }
    assert!(verdicts > 1_000);
}

/// Whether a record stands there; the pool of a compiled table holds no mark.
fn is_record(bytes: &[u8], number: usize) -> bool {
    bytes.get(24 * number..24 * number + 2).is_some_and(|mark| mark == [0xC0, 0xAD] || mark == [0xAD, 0xC0])
}

#[test]
fn broken_tables() {
    let mut numbers = Numbers(0xFEED_5678_9ABC_DEF1);
    let mut passed = 0;
    let tables: Vec<Vec<u8>> = (0..8).map(|index| table(TEXTS[index % 4], index < 4)).collect();
    for round in 0..40_000 {
        let good = tables[round % 8].clone();
        let mut bytes = good.clone();
        for _ in 0..1 + numbers.below(3) {
            let place = numbers.below(bytes.len());
            bytes[place] = if numbers.below(2) == 0 { numbers.below(4) as u8 } else { numbers.next() as u8 };
        }
        let answer = check(&bytes);
        let root = 1 + numbers.below(12) as u32;
        let judged = judge(&bytes, root, DATA[round % 4].as_bytes());
        let named = name(&bytes, root);
        let mut out = vec![FILL; good.len() + bytes.len()];
        let joined = merge(&good, &bytes, round % 2 == 0, &mut out);
        match answer {
            CheckAnswer::Passed => {
                passed += 1;
                let MergeAnswer::Done { length, record_shift, .. } = joined else { panic!() };
                let out = &out[..length as usize];
                assert_eq!(check(out), CheckAnswer::Passed);
                let moved = judge(out, root + record_shift, DATA[round % 4].as_bytes());
                assert_eq!(moved, shifted(judged, record_shift));
            }
            CheckAnswer::Refused { number, place } => {
                assert_eq!(judged, JudgeAnswer::Refused { number, place });
                assert_eq!(named, NameAnswer::Refused { number, place });
                assert_eq!(joined, MergeAnswer::Refused { number, place, table: 2 });
                assert!(out.iter().all(|byte| *byte == FILL));
            }
        }
    }
    assert!(passed > 1_000);
}

/// The answer with its record moved.
fn shifted(answer: JudgeAnswer, shift: u32) -> JudgeAnswer {
    match answer {
        JudgeAnswer::Verdict { reason, record, place } => {
            JudgeAnswer::Verdict { reason, record: record + shift, place }
        }
        JudgeAnswer::Refused { number: 14, place } => {
            JudgeAnswer::Refused { number: 14, place: place + u64::from(shift) }
        }
        other => other,
    }
}

#[test]
fn noise() {
    let mut numbers = Numbers(0xABCD_EF01_2345_6789);
    for _ in 0..20_000 {
        let length = numbers.below(120);
        let bytes: Vec<u8> = (0..length).map(|_| numbers.next() as u8).collect();
        assert!(!text_faults(&bytes).is_empty());
        assert!(!data_faults(&bytes).is_empty());
        assert_eq!(check(&bytes), CheckAnswer::Refused { number: 12, place: 0 });
    }
}

#[test]
fn long_texts_end_quickly() {
    for piece in PIECES {
        let text = piece.repeat(16_384 / piece.len());
        assert!(!text_faults(text.as_bytes()).is_empty());
        assert!(!data_faults(text.as_bytes()).is_empty());
        let text = format!("A∈{{a∈{{{text}").chars().take(16_000).collect::<String>();
        assert!(!text_faults(text.as_bytes()).is_empty());
        let data = format!("<a = <{text}").chars().take(16_000).collect::<String>();
        assert!(!data_faults(data.as_bytes()).is_empty());
    }
}
