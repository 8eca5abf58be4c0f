//! The words for a refusal, chosen from what stands at its place.

use crate::limits;
use crate::records::{raw, record_bytes};
use crate::shown;
use crate::tokens;

/// The range of integers, in words.
const RANGE: &str = "-2,147,483,648..2,147,483,647";

/// The words for a refusal of a constraint text.
pub fn of_constraint(number: u32, text: &[u8], place: usize) -> String {
    match number {
        2 => syntax(text, place, tokens::constraint_token(text, place)).to_string(),
        3 => "17th level of objects".to_string(),
        5 => literal(text, place),
        9 => repeat(text, place).to_string(),
        _ => of_text(number, text, place),
    }
}

/// The words for a refusal of a data text.
pub fn of_data(number: u32, text: &[u8], place: usize) -> String {
    match number {
        2 => syntax(text, place, tokens::data_token(text, place)).to_string(),
        3 => "17th level of blocks".to_string(),
        5 => "no Boolean, integer, date, time or duration".to_string(),
        9 => "member named twice".to_string(),
        _ => of_text(number, text, place),
    }
}

/// The words that are the same for both texts.
fn of_text(number: u32, text: &[u8], place: usize) -> String {
    match number {
        1 => "text over 16,384 bytes".to_string(),
        4 => too_long(text, place).to_string(),
        6 => "empty interval".to_string(),
        7 => "17th item".to_string(),
        8 => "record 2,048 needed, which no table has".to_string(),
        11 => "output too short".to_string(),
        _ => "refused".to_string(),
    }
}

/// The three ways to be number 2.
fn syntax(text: &[u8], place: usize, readable: bool) -> &'static str {
    if place >= text.len() {
        "text ends here too early"
    } else if readable {
        "cannot follow here"
    } else {
        "unreadable"
    }
}

/// What is too long, by its first byte.
fn too_long(text: &[u8], place: usize) -> &'static str {
    match text.get(place) {
        Some(b'[') => "code over 31 bytes",
        Some(b'"') => "string over 255 bytes",
        Some(byte) if byte.is_ascii_lowercase() => "name over 63 bytes",
        _ => "type over 63 bytes",
    }
}

/// What is repeated in a constraint text, by its first byte.
fn repeat(text: &[u8], place: usize) -> &'static str {
    match text.get(place) {
        Some(byte) if byte.is_ascii_lowercase() => "attribute named twice",
        Some(b'"' | b'T' | b'F') => "item given twice",
        _ => "item overlaps an earlier one",
    }
}

/// Why a literal of a constraint text is impossible.
fn literal(text: &[u8], place: usize) -> String {
    let rest = text.get(place..).unwrap_or(&[]);
    if is_date(rest) {
        return "no such date".to_string();
    }
    let sign = usize::from(rest.first() == Some(&b'-'));
    let digits: &[u8] = &rest[sign..];
    let digits = &digits[..digits.iter().position(|byte| !byte.is_ascii_digit()).unwrap_or(digits.len())];
    let spelled = String::from_utf8_lossy(&rest[..sign + digits.len()]).into_owned();
    if digits.first() == Some(&b'0') && (sign == 1 || digits.len() > 1) {
        "number with a needless zero or sign".to_string()
    } else if spelled.parse::<i32>().is_err() {
        format!("number outside {RANGE}")
    } else {
        format!("+/- leads outside {RANGE}")
    }
}

/// Whether a date's ten bytes stand first.
fn is_date(rest: &[u8]) -> bool {
    rest.len() >= 10
        && rest[..10].iter().enumerate().all(|(index, byte)| match index {
            4 | 7 => *byte == b'-',
            _ => byte.is_ascii_digit(),
        })
}

/// The words for a refusal of a table, and a note on the bytes that are at fault.
pub fn of_table(number: u32, bytes: &[u8], record: u64) -> (String, Option<String>) {
    match number {
        12 => (format!("not a table: {}", header_fault(bytes)), None),
        13 => (format!("record {record} breaks a rule"), raw_record(bytes, record)),
        _ => ("refused".to_string(), None),
    }
}

/// What a file lacks that is no table: document 01's 12.
fn header_fault(bytes: &[u8]) -> String {
    if bytes.is_empty() {
        return "no bytes".to_string();
    }
    if bytes.len() > limits::TABLE {
        return format!("over {} bytes", shown::thousands(limits::TABLE as u64));
    }
    if bytes.len() < limits::RECORD {
        return "shorter than a header".to_string();
    }
    let Some(header) = raw(bytes, 0) else { return "the header's mark is neither C0AD nor ADC0".to_string() };
    let [count, pool, root, d, e] = header.numbers;
    if header.kind != 0 || header.flag != 0 || d != 0 || e != 0 {
        return "the header's kind, flag, d or e is not 0".to_string();
    }
    if !(2..=limits::RECORDS).contains(&count) {
        return format!("the header's count is {count}, not 2 to 2,048");
    }
    if pool > limits::POOL {
        return format!("the header's pool is {pool} bytes, over 16,384");
    }
    let length = limits::RECORD as u64 * u64::from(count) + u64::from(pool);
    if bytes.len() as u64 != length {
        return format!("{} bytes, and the header asks for {length}", bytes.len());
    }
    format!("root {root} is no object")
}

/// A record as it lies in the table, for a person to see what is wrong.
fn raw_record(bytes: &[u8], record: u64) -> Option<String> {
    let record = u32::try_from(record).ok()?;
    let lies = record_bytes(bytes, record)?;
    let Some(found) = raw(bytes, record) else {
        return Some(format!("record {record}: mark {:02X}{:02X} is neither C0AD nor ADC0", lies[0], lies[1]));
    };
    let [a, b, c, d, e] = found.numbers;
    let order = found.order.word();
    let (kind, flag) = (found.kind, found.flag);
    Some(format!("record {record}: {order}-endian, kind {kind}, flag {flag}, a {a}, b {b}, c {c}, d {d}, e {e}"))
}

#[cfg(test)]
mod tests {
    use super::*;
    use crate::records::tests::{big, table};

    #[test]
    fn words_for_a_constraint_text() {
        let said = |number, text: &str| of_constraint(number, text.as_bytes(), 0);
        assert_eq!(said(2, ""), "text ends here too early");
        assert_eq!(said(2, "x"), "cannot follow here");
        assert_eq!(said(2, "?"), "unreadable");
        assert_eq!(said(4, "A"), "type over 63 bytes");
        assert_eq!(said(4, "a"), "name over 63 bytes");
        assert_eq!(said(4, "[at1]"), "code over 31 bytes");
        assert_eq!(said(4, "\"a\""), "string over 255 bytes");
        assert_eq!(said(5, "1900-02-29|"), "no such date");
        assert_eq!(said(5, "007}"), "number with a needless zero or sign");
        assert_eq!(said(5, "-0"), "number with a needless zero or sign");
        assert_eq!(said(5, "2147483648"), "number outside -2,147,483,648..2,147,483,647");
        assert_eq!(said(5, "-99999999999999999999"), "number outside -2,147,483,648..2,147,483,647");
        assert_eq!(said(5, "1|"), "+/- leads outside -2,147,483,648..2,147,483,647");
        assert_eq!(said(9, "pulse"), "attribute named twice");
        assert_eq!(said(9, "5"), "item overlaps an earlier one");
        assert_eq!(said(9, "|5..9|"), "item overlaps an earlier one");
        assert_eq!(said(9, "-5"), "item overlaps an earlier one");
        assert_eq!(said(9, "\"a\""), "item given twice");
        assert_eq!(said(9, "True"), "item given twice");
    }

    #[test]
    fn words_for_a_data_text() {
        let said = |number, text: &str| of_data(number, text.as_bytes(), 0);
        assert_eq!(said(1, ""), "text over 16,384 bytes");
        assert_eq!(said(2, ""), "text ends here too early");
        assert_eq!(said(2, "5"), "cannot follow here");
        assert_eq!(said(2, "a-b"), "unreadable");
        assert_eq!(said(3, "<"), "17th level of blocks");
        assert_eq!(said(5, "24:00"), "no Boolean, integer, date, time or duration");
        assert_eq!(said(9, "pulse"), "member named twice");
    }

    #[test]
    fn the_three_ways_to_be_number_2() {
        let constraint = |text: &str, place| of_constraint(2, text.as_bytes(), place);
        assert_eq!(constraint("A ? matches {*}", 2), "unreadable");
        assert_eq!(constraint("A A matches {*}", 2), "cannot follow here");
        assert_eq!(constraint("A matches {*", 12), "text ends here too early");
        assert_eq!(constraint("A matches {a matches {\"x", 22), "unreadable");
        assert_eq!(constraint("A matches {yyyy-mm-d matches {*}}", 15), "unreadable");
        assert_eq!(constraint("A matches {a matches {yyyy-mm-d}}", 22), "cannot follow here");
        assert_eq!(constraint("A matches {a matches {5.5}}", 23), "unreadable");
        assert_eq!(constraint("A matches {a matches {|5..<=9|}}", 26), "cannot follow here");
        assert_eq!(constraint("A matches {a matches {2004-05-20}}", 22), "cannot follow here");
        let data = |text: &str, place| of_data(2, text.as_bytes(), place);
        assert_eq!(data("<matches = <5>>", 1), "unreadable");
        assert_eq!(data("(t)<>", 1), "unreadable");
        assert_eq!(data("<a = <b>>", 7), "cannot follow here");
        assert_eq!(data("<5x>", 1), "cannot follow here");
        assert_eq!(data("<a = <?>>", 6), "unreadable");
        assert_eq!(data("<a = <5>", 8), "text ends here too early");
    }

    #[test]
    fn what_a_file_lacks_to_be_a_table() {
        let said = |bytes: &[u8]| of_table(12, bytes, 0).0;
        let good = table(&[big(1, 0, [0, 1, 0, 0, 0])], b"A");
        let with = |place: usize, byte: u8| {
            let mut bytes = good.clone();
            bytes[place] = byte;
            bytes
        };
        assert_eq!(said(b""), "not a table: no bytes");
        assert_eq!(said(b"x"), "not a table: shorter than a header");
        assert_eq!(said(&[0; 65_537]), "not a table: over 65,536 bytes");
        assert_eq!(said(&[0; 65_536]), "not a table: the header's mark is neither C0AD nor ADC0");
        assert_eq!(said(&with(3, 1)), "not a table: the header's kind, flag, d or e is not 0");
        assert_eq!(said(&with(7, 1)), "not a table: the header's count is 1, not 2 to 2,048");
        assert_eq!(said(&with(9, 1)), "not a table: the header's pool is 65537 bytes, over 16,384");
        assert_eq!(said(&good[..48]), "not a table: 48 bytes, and the header asks for 49");
        assert_eq!(said(&with(15, 2)), "not a table: root 2 is no object");
    }

    #[test]
    fn a_broken_record_is_shown() {
        let bytes = table(&[big(1, 7, [0, 1, 2, 3, 4])], b"A");
        let (words, note) = of_table(13, &bytes, 1);
        assert_eq!(words, "record 1 breaks a rule");
        assert_eq!(note.as_deref(), Some("record 1: big-endian, kind 1, flag 7, a 0, b 1, c 2, d 3, e 4"));
        let mut bytes = bytes;
        bytes[24] = 0;
        assert_eq!(of_table(13, &bytes, 1).1.as_deref(), Some("record 1: mark 00AD is neither C0AD nor ADC0"));
    }

    /// Bytes by chance, most of them ones that texts have, from a seed.
    fn chance(seed: u32, length: usize) -> Vec<u8> {
        const COMMON: &[u8] = b"<>=(){}|,*\"[]-.:+/ \t\r\n09azATF_?\xE2\x88\x88\x00\xFF";
        let mut state = seed;
        let mut byte = || {
            state = state.wrapping_mul(1_664_525).wrapping_add(1_013_904_223);
            COMMON[(state >> 16) as usize % COMMON.len()]
        };
        (0..length).map(|_| byte()).collect()
    }

    #[test]
    fn there_are_words_and_an_excerpt_for_any_bytes_at_any_place() {
        for seed in 0..300 {
            let text = chance(seed, seed as usize % 150);
            for place in 0..=text.len() {
                for number in 0..25 {
                    assert!(!of_constraint(number, &text, place).is_empty());
                    assert!(!of_data(number, &text, place).is_empty());
                    assert!(!of_table(number, &text, place as u64).0.is_empty());
                }
                let shown = crate::places::excerpt(&text, &crate::places::spot(&text, place));
                assert!(shown.caret.ends_with('^') && shown.caret.len() <= shown.line.chars().count() + 1);
            }
        }
    }
}
