//! Small domains gone through whole: bytes, two-digit fields, calendar days, zones, integers near the ends.

mod common;
use common::*;
use second::{data_faults, text_faults, Fault};

fn only(number: u32, place: u64) -> Vec<Fault> {
    vec![Fault { number, place }]
}

fn is_letter_digit_or_underscore(byte: u8) -> bool {
    matches!(byte, b'a'..=b'z' | b'A'..=b'Z' | b'0'..=b'9' | b'_')
}

fn is_blank(byte: u8) -> bool {
    [0x20, 0x09, 0x0D, 0x0A].contains(&byte)
}

#[test]
fn every_byte_behind_a_type() {
    for byte in 0..=255u8 {
        let text = [b"A", &[byte][..], b"matches {*}"].concat();
        let expected = if is_blank(byte) {
            vec![]
        } else if is_letter_digit_or_underscore(byte) {
            // A longer TYPE; the `{` can't follow it.
            only(2, 10)
        } else {
            only(2, 1)
        };
        assert_eq!(text_faults(&text), expected, "{byte}");
    }
}

#[test]
fn every_byte_at_the_front() {
    for byte in 0..=255u8 {
        let text = [&[byte][..], b"A matches {*}"].concat();
        let accepted = is_blank(byte) || byte.is_ascii_uppercase();
        assert_eq!(text_faults(&text), if accepted { vec![] } else { only(2, 0) }, "{byte}");
        let text = [b"A matches {", &[byte][..], b" matches {*}}"].concat();
        let expected = match byte {
            b'a'..=b'z' => vec![],
            // Blank: the keyword isn't a NAME. `*`: only `}` can follow.
            b' ' | b'\t' | b'\r' | b'\n' | b'*' => only(2, 13),
            _ => only(2, 11),
        };
        assert_eq!(text_faults(&text), expected, "{byte}");
    }
}

#[test]
fn every_byte_in_strings_and_comments() {
    for byte in 0..=255u8 {
        let good = (0x20..=0x7E).contains(&byte) && byte != b'"' && byte != b'\\';
        let text = [b"A matches {a matches {\"", &[byte][..], b"\"}}"].concat();
        // A quote closes the string, and the next one opens one that isn't closed.
        let expected = if good { vec![] } else { only(2, if byte == b'"' { 24 } else { 22 }) };
        assert_eq!(text_faults(&text), expected, "{byte}");
        let data = [b"<a = <\"", &[byte][..], b"\">>"].concat();
        let expected = if good { vec![] } else { only(2, if byte == b'"' { 8 } else { 6 }) };
        assert_eq!(data_faults(&data), expected, "{byte}");
        let ends = byte == b'\r' || byte == b'\n';
        let text = [b"A matches {*} --", &[byte][..], b"}"].concat();
        assert_eq!(text_faults(&text), if ends { only(2, 17) } else { vec![] }, "{byte}");
        let data = [b"<> --", &[byte][..], b">"].concat();
        assert_eq!(data_faults(&data), if ends { only(2, 6) } else { vec![] }, "{byte}");
    }
}

#[test]
fn every_byte_behind_a_member_name() {
    for byte in 0..=255u8 {
        let data = [b"<a", &[byte][..], b" = <5>>"].concat();
        let expected = match byte {
            _ if is_blank(byte) || is_letter_digit_or_underscore(byte) => vec![],
            b'+' | b'-' | b'.' | b':' => only(2, 1),
            b'=' => only(2, 4),
            _ => only(2, 2),
        };
        assert_eq!(data_faults(&data), expected, "{byte}");
    }
}

#[test]
fn every_byte_in_a_word() {
    for byte in 0..=255u8 {
        let data = [b"<a = <5", &[byte][..], b">>"].concat();
        let expected = match byte {
            _ if is_blank(byte) || byte.is_ascii_digit() => vec![],
            // The leaf is closed early, then its block, then one `>` is left.
            b'>' => only(2, 9),
            _ if is_letter_digit_or_underscore(byte) || b"+-.:".contains(&byte) => only(5, 6),
            _ => only(2, 7),
        };
        assert_eq!(data_faults(&data), expected, "{byte}");
    }
}

/// Whether the word alone is good in a leaf; a bad one is 5 at its place.
fn word(word: &str, good: bool) {
    let data = format!("<a = <{word}>>");
    assert_eq!(data_faults(data.as_bytes()), if good { vec![] } else { only(5, 6) }, "{word}");
}

#[test]
fn two_digit_fields() {
    for value in 0..100 {
        // 00 to 23 are hours, 10 to 99 integers.
        word(&format!("{value:02}"), true);
        word(&format!("{value:02}:00"), value <= 23);
        word(&format!("{value:02}Z"), value <= 23);
        word(&format!("08:{value:02}"), value <= 59);
        word(&format!("08:30:{value:02}"), value <= 59);
        word(&format!("08+{value:02}"), value <= 13);
        word(&format!("08-{value:02}"), (1..=12).contains(&value));
        for minute in 0..100 {
            word(&format!("08:30+{value:02}:{minute:02}"), value <= 13 && minute <= 59);
            word(&format!("08:30:15-{value:02}:{minute:02}"), value <= 12 && minute <= 59 && value + minute > 0);
        }
        word(&format!("2004-{value:02}"), (1..=12).contains(&value));
    }
}

#[test]
fn every_day_of_some_years() {
    let plain = [31, 28, 31, 30, 31, 30, 31, 31, 30, 31, 30, 31];
    for (year, leap) in [
        ("0000", true),
        ("1900", false),
        ("2000", true),
        ("2003", false),
        ("2004", true),
        ("2100", false),
        ("9999", false),
    ] {
        for month in 0..100usize {
            for day in 0..100 {
                let last = match month {
                    2 if leap => 29,
                    1..=12 => plain[month - 1],
                    _ => 0,
                };
                let good = day >= 1 && day <= last;
                let date = format!("{year}-{month:02}-{day:02}");
                word(&date, good);
                let text = format!("A∈{{a∈{{|{date}|}}}}");
                assert_eq!(text_faults(text.as_bytes()), if good { vec![] } else { only(5, 11) }, "{date}");
            }
        }
    }
}

#[test]
fn leap_years() {
    for year in 0..10_000 {
        let leap = year % 4 == 0 && (year % 100 != 0 || year % 400 == 0);
        word(&format!("{year:04}-02-29"), leap);
        word(&format!("{year:04}-02-30"), false);
        word(&format!("{year:04}-12-31"), true);
    }
}

#[test]
fn open_ends_over_every_day_of_four_years() {
    // The days in order; an open end moves to the neighbour in this list.
    let mut days = Vec::new();
    for (year, february) in [(1999, 28), (2000, 29), (2001, 28), (2004, 29)] {
        for (month, last) in [31, february, 31, 30, 31, 30, 31, 31, 30, 31, 30, 31].iter().enumerate() {
            for day in 1..=*last {
                days.push((year, month + 1, day));
            }
        }
        if year == 2001 {
            // The days from 2002 to 2003 are left out; neighbours are compared within a stretch.
            days.push((0, 0, 0));
        }
    }
    for pair in days.windows(2) {
        let ((y1, m1, d1), (y2, m2, d2)) = (pair[0], pair[1]);
        if y1 == 0 || y2 == 0 {
            continue;
        }
        let (early, late) = (format!("{y1}-{m1:02}-{d1:02}"), format!("{y2}-{m2:02}-{d2:02}"));
        let packed_early = (y1 * 10_000 + m1 as u32 * 100 + d1).to_be_bytes();
        let packed_late = (y2 * 10_000 + m2 as u32 * 100 + d2).to_be_bytes();
        let after = table(&format!("A∈{{a∈{{|>{early}|}}}}"), false);
        assert_eq!(after[76..80], packed_late, "{early}");
        let before = table(&format!("A∈{{a∈{{|<{late}|}}}}"), false);
        assert_eq!(before[80..84], packed_early, "{late}");
    }
}

#[test]
fn integers_near_the_ends() {
    for offset in 0..20i64 {
        let high = 2_147_483_637 + offset;
        let low = -2_147_483_638 - offset;
        word(&high.to_string(), high <= 2_147_483_647);
        word(&low.to_string(), low >= -2_147_483_648);
        let text = format!("A∈{{a∈{{{high}}}}}");
        assert_eq!(text_faults(text.as_bytes()), if high <= 2_147_483_647 { vec![] } else { only(5, 10) });
    }
}
