//! What a leaf of a table admits, in words.

use crate::records::{Record, Table};

/// The first and the last day there is.
const FIRST_DAY: u32 = 101;
const LAST_DAY: u32 = 99_991_231;

/// The most items that are told one by one.
const TOLD: usize = 16;

/// The kind of value that a record asks for, with its article. An object asks for a block.
pub fn kind(record: &Record) -> &'static str {
    match record {
        Record::Header { .. } | Record::Attribute { .. } => "a value",
        Record::Object { .. } => "a block",
        Record::Boolean { .. } => "a Boolean",
        Record::Integer { .. } => "an integer",
        Record::Text { .. } => "a string",
        Record::DatePattern { .. } | Record::Dates { .. } => "a date",
        Record::TimePattern { .. } => "a time",
        Record::DurationPattern { .. } => "a duration",
    }
}

/// What the items from a record on admit.
pub fn admitted(table: &Table, first: u32) -> Vec<u8> {
    let mut items = Vec::new();
    let mut number = first;
    while let Some(record) = table.record(number) {
        if items.len() == TOLD {
            items.push(b"...".to_vec());
            break;
        }
        items.push(item(&record));
        let next = next_item(&record);
        if next <= number {
            break;
        }
        number = next;
    }
    items.join(&b", "[..])
}

/// The item behind an item, 0 where there is none.
fn next_item(record: &Record) -> u32 {
    match record {
        Record::Integer { next, .. } | Record::Text { next, .. } | Record::Dates { next, .. } => *next,
        _ => 0,
    }
}

/// One item, or a Boolean list or pattern as a whole.
pub fn item(record: &Record) -> Vec<u8> {
    match record {
        Record::Boolean { flag } => booleans(*flag).into(),
        Record::Integer { low, high, .. } => integers(*low, *high).into(),
        Record::Text { text, .. } => quoted(text),
        Record::DatePattern { flag } => date_pattern(*flag).into(),
        Record::Dates { low, high, .. } => dates(*low, *high).into(),
        Record::TimePattern { flag } => time_pattern(*flag).into(),
        Record::DurationPattern { flag } => duration_pattern(*flag).into(),
        _ => Vec::new(),
    }
}

/// The Booleans of a flag.
fn booleans(flag: u8) -> &'static str {
    match flag {
        1 => "True",
        2 => "False",
        _ => "True, False",
    }
}

/// A closed pair of integers.
fn integers(low: i32, high: i32) -> String {
    match (low, high) {
        (i32::MIN, i32::MAX) => "any integer".to_string(),
        (i32::MIN, _) => format!("<={high}"),
        (_, i32::MAX) => format!(">={low}"),
        _ if low == high => low.to_string(),
        _ => format!("{low}..{high}"),
    }
}

/// A closed pair of dates.
fn dates(low: u32, high: u32) -> String {
    match (low, high) {
        (FIRST_DAY, LAST_DAY) => "any full date".to_string(),
        (FIRST_DAY, _) => format!("<={}", date(high)),
        (_, LAST_DAY) => format!(">={}", date(low)),
        _ if low == high => date(low),
        _ => format!("{}..{}", date(low), date(high)),
    }
}

/// A date from its packed number.
pub fn date(packed: u32) -> String {
    format!("{:04}-{:02}-{:02}", packed / 10_000, packed / 100 % 100, packed % 100)
}

/// A string in quotes, with a quote or backslash inside escaped.
pub fn quoted(text: &[u8]) -> Vec<u8> {
    let mut out = vec![b'"'];
    for byte in text {
        if matches!(byte, b'"' | b'\\') {
            out.push(b'\\');
        }
        out.push(*byte);
    }
    out.push(b'"');
    out
}

/// A date pattern by its flag.
pub fn date_pattern(flag: u8) -> &'static str {
    match flag {
        1 => "yyyy-mm-dd",
        2 => "yyyy-mm-??",
        3 => "yyyy-??-??",
        4 => "yyyy-mm-XX",
        _ => "yyyy-??-XX",
    }
}

/// A time pattern by its flag.
pub fn time_pattern(flag: u8) -> &'static str {
    match flag {
        1 => "Thh:mm:ss",
        2 => "Thh:mm:XX",
        3 => "Thh:??:XX",
        _ => "Thh:??:??",
    }
}

/// A Duration pattern by its flag: bits 0 to 6 are y m w d h m s.
pub fn duration_pattern(flag: u8) -> String {
    let letters = |letters: &str, bits: u8| -> String {
        letters.chars().enumerate().filter(|(bit, _)| bits >> bit & 1 == 1).map(|(_, letter)| letter).collect()
    };
    let times = letters("hms", flag >> 4);
    let behind = if times.is_empty() { String::new() } else { format!("T{times}") };
    format!("P{}{behind}", letters("ymwd", flag & 15))
}

#[cfg(test)]
mod tests {
    use super::*;

    #[test]
    fn duration_patterns_are_spelled_by_their_bits() {
        let spelled: Vec<String> =
            [1, 2, 8, 12, 16, 32, 34, 48, 64, 112, 127].into_iter().map(duration_pattern).collect();
        let patterns = ["Py", "Pm", "Pd", "Pwd", "PTh", "PTm", "PmTm", "PThm", "PTs", "PThms", "PymwdThms"];
        assert_eq!(spelled, patterns);
    }
}
