//! Durations: patterns in constraint texts, words in data texts, what is admitted, and records of kind 9.

mod common;
use common::*;
use second::api::*;
use second::{check, data_faults, judge, meaning, merge, name, text_faults, Fault};
use std::collections::HashMap;

/// The letters of the slots, lowest bit of the flag first.
const SMALL: &[u8; 7] = b"ymwdhms";
const CAPITAL: &[u8; 7] = b"YMWDHMS";

fn slots(flag: u8) -> impl Iterator<Item = usize> {
    (0..7).filter(move |bit| flag >> bit & 1 == 1)
}

/// The pattern with a flag.
fn pattern(flag: u8) -> String {
    let letters = |from: usize, to: usize| -> String {
        slots(flag).filter(|bit| (from..to).contains(bit)).map(|bit| char::from(SMALL[bit])).collect()
    };
    let times = letters(4, 7);
    format!("P{}{}{times}", letters(0, 4), if times.is_empty() { "" } else { "T" })
}

/// A word that fills the slots of a flag.
fn word(sign: &str, flag: u8, letters: &[u8; 7], digits: &str) -> String {
    let filled = |from: usize, to: usize| -> String {
        slots(flag)
            .filter(|bit| (from..to).contains(bit))
            .map(|bit| format!("{digits}{}", char::from(letters[bit])))
            .collect()
    };
    let times = filled(4, 7);
    format!("{sign}P{}{}{times}", filled(0, 4), if times.is_empty() { "" } else { "T" })
}

fn leaf(leaf: &str) -> String {
    format!("A matches {{a matches {{{leaf}}}}}")
}

fn admits(constraint: &str, value: &str) {
    valid(&leaf(constraint), &format!("<a = <{value}>>"));
}

fn refuses(constraint: &str, reason: u32, value: &str) {
    verdict(&leaf(constraint), reason, 3, &format!("<a = ^<{value}>>"));
}

fn good_word(word: &str) {
    data_accepted(&format!("<a = <{word}>>"));
}

fn bad_word(word: &str) {
    data_refused(5, &format!("<a = <^{word}>>"));
}

/// Record 3 of a leaf's table, little-endian or not.
fn third(leaf: &str, little: bool) -> Vec<u8> {
    table(&self::leaf(leaf), little)[72..96].to_vec()
}

#[test]
fn flags_of_patterns() {
    for (pattern, flag) in
        [("Pm", 2), ("Pd", 8), ("Pwd", 12), ("PTm", 32), ("PThm", 48), ("PmTm", 34), ("PymwdThms", 127)]
    {
        for little in [false, true] {
            let mut expected = if little { vec![0xAD, 0xC0, 9, flag] } else { vec![0xC0, 0xAD, 9, flag] };
            expected.extend([0; 20]);
            assert_eq!(third(pattern, little), expected, "{pattern}");
        }
    }
    let table = table(&leaf("Pwd"), false);
    assert_eq!(table.len(), 98);
    assert_eq!(table[4..8], [0, 0, 0, 4]);
    assert_eq!(&table[96..], b"Aa");
}

#[test]
fn no_patterns() {
    for token in ["P", "PT", "PD", "PdT", "Pdm", "Pdd", "Pt", "P1d", "PdX", "Pd_", "PTM", "PwD", "Pdh", "PTd", "PP"] {
        leaf_refused(2, &format!("{token}^"));
    }
    leaf_refused(2, "^-Pd");
    leaf_refused(2, "^pd");
    leaf_refused(2, "|^Pd|");
    leaf_refused(2, "|^P1d..P2d|");
    leaf_refused(2, "^\"Pd");
    leaf_accepted("\"Pd\"");
}

#[test]
fn all_127_patterns_have_their_flags_and_no_other_string_is_one() {
    let patterns: HashMap<Vec<u8>, u8> = (1..=127).map(|flag| (pattern(flag).into_bytes(), flag)).collect();
    assert_eq!(patterns.len(), 127);
    for (pattern, flag) in &patterns {
        let pattern = String::from_utf8(pattern.clone()).expect("letters");
        assert_eq!(third(&pattern, false)[2..4], [9, *flag], "{pattern}");
    }
    // With P in front all strings up to the longest pattern's length, with another letter those up to length 6.
    // Without optimization the two greatest lengths would take minutes.
    let longest = if cfg!(debug_assertions) { 7 } else { 9 };
    let expected = patterns.keys().filter(|pattern| pattern.len() <= longest).count();
    assert_eq!(tested_strings(&patterns, b'P', longest), expected);
    for first in *b"Tymwdhs" {
        assert_eq!(tested_strings(&patterns, first, 6), 0);
    }
}

/// Tests all strings of P, T and y m w d h s with this first byte up to a length; answers how many are patterns.
fn tested_strings(patterns: &HashMap<Vec<u8>, u8>, first: u8, longest: usize) -> usize {
    let letters = b"PTymwdhs";
    let front = "A∈{a∈{".as_bytes();
    let mut found = 0;
    for length in 1..=longest {
        let mut text = [front, &vec![letters[0]; length][..], b"}}"].concat();
        text[front.len()] = first;
        let mut digits = vec![0; length - 1];
        loop {
            let string = &text[front.len()..front.len() + length];
            let faults = text_faults(&text);
            if patterns.contains_key(string) {
                found += 1;
                assert_eq!(faults, vec![], "{}", string.escape_ascii());
            } else {
                // The `}` behind a TYPE, or the NAME.
                let place = if first.is_ascii_uppercase() { front.len() + length } else { front.len() };
                assert_eq!(faults, vec![Fault { number: 2, place: place as u64 }], "{}", string.escape_ascii());
            }
            let Some(at) = digits.iter().position(|digit| *digit + 1 < letters.len()) else {
                break;
            };
            digits[..at].fill(0);
            digits[at] += 1;
            for (index, digit) in digits[..=at].iter().enumerate() {
                text[front.len() + 1 + index] = letters[*digit];
            }
        }
    }
    found
}

#[test]
fn a_pattern_is_one_exactly_when_a_brace_follows() {
    for leaf in ["Pd", "Pd --c\n", "PmTm", " \t\r\nPd", "--}\nPd--}\r--\n", "Pd ", "PymwdThms\n"] {
        leaf_accepted(leaf);
    }
    leaf_refused(2, "Pd^, Pw");
    leaf_refused(2, "Pd^;");
    leaf_refused(2, "Pd^]");
    leaf_refused(2, "Pd ^Pd");
    leaf_refused(2, "Pd[at1]^");
    leaf_refused(2, "Pd^|");
    leaf_refused(2, "Pd ^5");
    leaf_refused(2, "Pwd^/|P0w..P50w|");
    leaf_accepted("Pd matches {*}");
    leaf_accepted("Pd[at1] matches {*}");
    leaf_accepted("Pd∈{b∈{Pd}}");
    assert_eq!(table(&leaf("Pd matches {*}"), false).len(), 100);
    refused_bytes(2, 30, b"A matches {a matches {Pd --c}}");
    refused_bytes(2, 24, b"A matches {a matches {Pd");
    refused_bytes(2, 25, b"A matches {a matches {Pd}");
    refused_bytes(2, 26, b"A matches {a matches {Pd}}}");
    refused_bytes(2, 25, b"A matches {a matches {Pd}?");
    accepted("A matches {a existence matches {0} matches {Pd} b matches {PTs}}");
}

#[test]
fn other_places_are_no_leafs() {
    refused(2, "Pd^");
    refused(2, "Pd^}");
    accepted("Pd matches {*}");
    refused(2, "A matches {^Pd}");
    refused(2, "A matches {a matches {*} ^Pd}");
    refused(2, "A matches {a existence matches {^Pd} matches {*}}");
    refused(2, "A matches {a ^Pd matches {*}}");
    valid("Pd matches {*}", "(Pd)<>");
    verdict("Pd matches {*}", 21, 1, "(PTm)^<>");
    data_refused_bytes(2, 1, b"<Pd = <5>>");
    valid(&leaf("Pd matches {*}"), "<a = (Pd)<>>");
    verdict(&leaf("Pd matches {*}"), 20, 3, "<a = ^<P5d>>");
}

#[test]
fn a_pattern_is_no_level() {
    let x = "A matches {a matches {".repeat(16);
    let ends = "}".repeat(32);
    let text = format!("{x}Pd{ends}");
    accepted(&text);
    assert_eq!(table(&text, false).len(), 848);
    for behind in ["Pd", "Pd x", "P}", "Pd;", "Pd["] {
        refused(3, &format!("{x}^{behind}"));
    }
    refused(3, &format!("{x}^Pd matches {{*}}{ends}"));
    refused(3, &format!("{x}^PD{ends}"));
    refused(2, &format!("{x}Pd}}^"));
    refused(2, &format!("{x}Pd{ends}^}}"));
}

/// A text of 2,047 records, the header counted, that ends in an attribute's closing brace, and what is put behind.
fn nearly_full(behind: &str) -> String {
    let mut text = String::from("A matches {");
    for index in 0..120 {
        let name = [b'a' + index / 26, b'a' + index % 26].map(char::from);
        text.push_str(&format!("{}{} matches {{0,1,2,3,4,5,6,7,8,9,-1,-2,-3,-4,-5,-6}}\n", name[0], name[1]));
    }
    text + "z matches {1,2,3,4}" + behind
}

#[test]
fn a_pattern_counts_as_a_record_from_its_token() {
    accepted(&nearly_full("}"));
    accepted(&nearly_full(" y matches {*}}"));
    for behind in ["Pd}}", "Pd", "Pd x", "P}", "Pd matches {*}"] {
        let text = nearly_full(&format!(" y matches {{^{behind}"));
        assert_eq!(marked(&text).1, 6162);
        refused(8, &text);
    }
}

#[test]
fn words() {
    for word in [
        "P12w3d", "P12W3D", "-P5d", "P0d", "P0005d", "PT5M3S", "P1y2m3w4dT5h6m7s", "P1Y2m3W4dT5H6m7S", "-P0d",
        "P0000y", "PT0000s", "-PT1h",
    ] {
        good_word(word);
    }
    let longest = "-P9999y9999m9999w9999dT9999h9999m9999s";
    assert_eq!(longest.len(), 38);
    good_word(longest);
    good_word(&longest[1..]);
    for word in [
        "P", "PT", "-P", "-PT", "P5", "P5dT", "Pd", "P00005d", "P1d2w", "P1w1w", "P1w1W", "PT1s1h", "P1.5d", "+P5d",
        "Pt5m", "P5d_", "P5dt5m", "P1h", "P1s", "PT1d", "PT1w", "PT1y", "P5d5", "PT5", "P5dT5", "PTT5m", "PT5mT5s",
        "PP5d", "P-5d", "P5d-", "P5dZ", "P5x", "P:5d", "-p5d", "P12345y", "PT00000s", "P1y1y", "Q5d", "P5d+01",
    ] {
        bad_word(word);
    }
    data_refused_bytes(2, 9, b"<a = <p5d>>");
    data_refused_bytes(2, 13, b"<a = <--P5d>>");
    assert_eq!(data_faults(b"<a = <--P5d\nP5d>>"), vec![]);
}

#[test]
fn every_byte_in_a_duration() {
    for byte in 0..=255u8 {
        let data = [b"<a = <P5", &[byte][..], b"1d>>"].concat();
        let expected = match byte {
            // A longer slot, or a slot before the days.
            b'0'..=b'9' | b'y' | b'm' | b'w' | b'Y' | b'M' | b'W' => vec![],
            _ if byte.is_ascii_alphanumeric() || b"_+-.:".contains(&byte) => vec![Fault { number: 5, place: 6 }],
            b' ' | b'\t' | b'\r' | b'\n' => vec![Fault { number: 5, place: 6 }, Fault { number: 2, place: 9 }],
            // The leaf is closed, and no member is named by what stands there.
            b'>' => vec![Fault { number: 5, place: 6 }, Fault { number: 2, place: 9 }],
            _ => vec![Fault { number: 5, place: 6 }, Fault { number: 2, place: 8 }],
        };
        assert_eq!(data_faults(&data), expected, "{byte}");
        let data = [b"<a = <PT5", &[byte][..], b">>"].concat();
        let is_good = b"hmsHMS".contains(&byte);
        assert_eq!(data_faults(&data).is_empty(), is_good, "{byte}");
        let data = [b"<a = <P5", &[byte][..], b">>"].concat();
        assert_eq!(data_faults(&data).is_empty(), b"ymwdYMWD".contains(&byte), "{byte}");
    }
}

#[test]
fn slots_in_every_order_of_two() {
    let positions = ["1y", "1m", "1w", "1d"];
    for (one, first) in positions.iter().enumerate() {
        for (two, second) in positions.iter().enumerate() {
            let word = format!("P{first}{second}");
            assert_eq!(data_faults(format!("<a = <{word}>>").as_bytes()).is_empty(), one < two, "{word}");
        }
    }
    let positions = ["1h", "1m", "1s"];
    for (one, first) in positions.iter().enumerate() {
        for (two, second) in positions.iter().enumerate() {
            let word = format!("PT{first}{second}");
            assert_eq!(data_faults(format!("<a = <{word}>>").as_bytes()).is_empty(), one < two, "{word}");
        }
    }
}

#[test]
fn digits_of_a_slot() {
    for count in 0..=6 {
        for digit in ["0", "7", "9"] {
            let word = format!("P{}dT{}s", digit.repeat(count), digit.repeat(4));
            let data = format!("<a = <{word}>>");
            assert_eq!(data_faults(data.as_bytes()).is_empty(), (1..=4).contains(&count), "{word}");
        }
    }
}

#[test]
fn admission() {
    for word in ["P4w", "P12W3D", "-P3d", "P0w", "P9999w9999d"] {
        admits("Pwd", word);
    }
    for word in ["PT5m", "P1w2dT3h", "P1y4w", "P0m4w", "-PT0s"] {
        refuses("Pwd", 24, word);
    }
    for word in ["5", "2004", "\"P4w\"", "True", "08:30", "2004-05-20", "\"\"", "-5"] {
        refuses("Pwd", 20, word);
    }
    admits("PTm", "PT5m");
    refuses("PTm", 24, "P5m");
    admits("Pm", "P5M");
    refuses("Pm", 24, "PT5m");
    for constraint in ["|0..9|", "\"P4w\"", "yyyy-??-??", "Thh:??:??", "True, False", "|>=2004-01-01|"] {
        refuses(constraint, 20, "P4w");
    }
    admits("\"P4w\"", "\"P4w\"");
    admits("*", "P4w");
    verdict(&leaf("Pd"), 20, 3, "<a = ^<>>");
    verdict(&leaf("Pd"), 20, 3, "<a = (Pd)^<>>");
    verdict(&leaf("Pd"), 22, 2, "^<>");
    verdict("A matches {a existence matches {0} matches {Pd}}", 23, 2, "<a = ^<P5d>>");
    valid("A matches {a existence matches {0..1} matches {Pd}}", "<>");
}

#[test]
fn every_pattern_with_every_set_of_slots() {
    for flag in 1..=127u8 {
        let text = leaf(&pattern(flag));
        let tables = [table(&text, false), table(&text, true)];
        for filled in 1..=127u8 {
            let fits = slots(filled).all(|slot| slots(flag).any(|own| own == slot));
            let expected =
                if fits { JudgeAnswer::Valid } else { JudgeAnswer::Verdict { reason: 24, record: 3, place: 5 } };
            for (sign, letters, digits) in
                [("", SMALL, "1"), ("-", SMALL, "0"), ("", CAPITAL, "9999"), ("-", CAPITAL, "05")]
            {
                let word = word(sign, filled, letters, digits);
                let data = format!("<a = <{word}>>");
                let which = usize::from(sign.is_empty());
                assert_eq!(judge(&tables[which], 1, data.as_bytes()), expected, "{text} {data}");
                assert_eq!(meaning(text.as_bytes(), data.as_bytes()), MeaningAnswer::Answer(expected));
            }
        }
    }
}

/// An object with one attribute that leads to a record.
fn with_record(kind: u8, flag: u8, numbers: [u32; 5]) -> [Line; 3] {
    [(1, 0, [0, 1, 0, 0, 2]), (2, 2, [1, 1, 3, 0, 0]), (kind, flag, numbers)]
}

#[test]
fn records_of_kind_9() {
    for flag in 0..=255 {
        let good = (1..=127).contains(&flag);
        let expected = if good { CheckAnswer::Passed } else { CheckAnswer::Refused { number: 13, place: 3 } };
        for little in [false, true] {
            let bytes = made(little, 1, &with_record(9, flag, [0; 5]), "Aa");
            assert_eq!(check(&bytes), expected, "{flag}");
        }
        let bytes = made_mixed(true, 1, &with_record(9, flag, [0; 5]), "Aa");
        assert_eq!(check(&bytes), expected, "{flag}");
    }
    for field in 0..5 {
        for value in [1, 3, 0x0100_0000, u32::MAX] {
            let mut numbers = [0; 5];
            numbers[field] = value;
            let bytes = made(false, 1, &with_record(9, 8, numbers), "Aa");
            assert_eq!(check(&bytes), CheckAnswer::Refused { number: 13, place: 3 });
        }
    }
    // No other link leads there, and kind 10 is none.
    let object = [(1, 0, [0, 1, 0, 0, 2]), (9, 8, [0; 5])];
    assert_eq!(check(&made(false, 1, &object, "A")), CheckAnswer::Refused { number: 13, place: 1 });
    let next = [(1, 0, [0, 1, 0, 0, 2]), (2, 2, [0, 1, 0, 3, 0]), (9, 8, [0; 5])];
    assert_eq!(check(&made(false, 1, &next, "A")), CheckAnswer::Refused { number: 13, place: 2 });
    let item = [(1, 0, [0, 1, 0, 0, 0]), (4, 0, [5, 5, 0, 0, 3]), (9, 8, [0; 5])];
    assert_eq!(check(&made(false, 1, &item, "A")), CheckAnswer::Refused { number: 13, place: 2 });
    let root = [(9, 8, [0; 5]), (1, 0, [0, 1, 0, 0, 0])];
    assert_eq!(check(&made(false, 1, &root, "A")), CheckAnswer::Refused { number: 12, place: 0 });
    let ten = made(false, 1, &with_record(10, 8, [0; 5]), "Aa");
    assert_eq!(check(&ten), CheckAnswer::Refused { number: 13, place: 2 });
    let alone = [(1, 0, [0, 1, 0, 0, 0]), (9, 127, [0; 5])];
    assert_eq!(check(&made(true, 1, &alone, "A")), CheckAnswer::Passed);
}

#[test]
fn kind_9_holds_no_name_and_is_no_root() {
    let bytes = made(true, 1, &with_record(9, 12, [0; 5]), "Aa");
    assert_eq!(name(&bytes, 3), NameAnswer::Refused { number: 14, place: 3 });
    assert_eq!(judge(&bytes, 3, b"<a = <P4w>>"), JudgeAnswer::Refused { number: 14, place: 3 });
}

#[test]
fn a_merge_moves_nothing_in_it() {
    for little in [false, true] {
        let (first, second) = (table(&leaf("Pd"), little), table(&leaf("PTm"), !little));
        let mut out = vec![FILL; 180];
        let answer = merge(&first, &second, little, &mut out);
        assert_eq!(answer, MergeAnswer::Done { length: 172, record_shift: 3, pool_shift: 2 });
        let lines = [
            (1, 0, [0, 1, 0, 0, 2]),
            (2, 2, [1, 1, 3, 0, 0]),
            (9, 8, [0; 5]),
            (1, 0, [2, 1, 0, 0, 5]),
            (2, 2, [3, 1, 6, 0, 0]),
            (9, 32, [0; 5]),
        ];
        assert_eq!(out[..172], made(little, 1, &lines, "AaAa"));
        assert!(out[172..].iter().all(|byte| *byte == FILL));
        assert_eq!(judge(&out[..172], 4, b"<a = <PT5m>>"), JudgeAnswer::Valid);
        let verdict = JudgeAnswer::Verdict { reason: 24, record: 6, place: 3 };
        assert_eq!(judge(&out[..172], 4, b"<a=<P5d>>"), verdict);
        assert_eq!(judge(&out[..172], 1, b"<a=<P5d>>"), JudgeAnswer::Valid);
    }
}

#[test]
fn faults_are_collected_around_patterns() {
    assert_eq!(
        text_faults(b"A matches {a matches {Pd} a matches {Pd matches {*}} b matches {Pd x"),
        vec![Fault { number: 9, place: 26 }, Fault { number: 2, place: 67 }]
    );
}
