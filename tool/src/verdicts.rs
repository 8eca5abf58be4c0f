//! A verdict, 20 to 24, in words: the reason, and what the constraint wants.

use crate::leaves;
use crate::records::{Record, Table};
use crate::tokens::{opened, Opened};

/// A verdict in words: its reason, and notes on what is wanted, each with its key.
#[derive(Debug, PartialEq, Eq)]
pub struct Verdict {
    pub reason: String,
    pub notes: Vec<(&'static str, Vec<u8>)>,
}

/// Puts a verdict into words, from its record and the `<` at its place.
pub fn verdict(table: &Table, number: u32, record: u32, data: &[u8], place: usize) -> Verdict {
    match number {
        20 => Verdict { reason: unfit(table, record, data, place), notes: wanted(table, record) },
        21 => Verdict { reason: "type differs".to_string(), notes: wanted(table, record) },
        22 => Verdict { reason: "member missing".to_string(), notes: missing(table, record) },
        23 => Verdict { reason: "member present under 0..0".to_string(), notes: forbidden(table, record) },
        _ => Verdict { reason: "value not admitted".to_string(), notes: wanted(table, record) },
    }
}

/// The ways to be number 20: a block for a leaf, a leaf for a block, or a leaf of another kind.
fn unfit(table: &Table, record: u32, data: &[u8], place: usize) -> String {
    let Some(wanted) = table.record(record) else { return "of another kind".to_string() };
    let kind = leaves::kind(&wanted);
    match (opened(data, place), wanted) {
        (Opened::Block, _) => format!("block where {kind} is wanted"),
        (_, Record::Object { .. }) => format!("leaf where {kind} is wanted"),
        (Opened::Text, _) => format!("string where {kind} is wanted"),
        (Opened::Word, Record::Text { .. }) => format!("word where {kind} is wanted"),
        (Opened::Word, _) => format!("cannot be read as {kind}"),
    }
}

/// What an object or a leaf wants.
fn wanted(table: &Table, record: u32) -> Vec<(&'static str, Vec<u8>)> {
    match table.record(record) {
        Some(Record::Object { type_name, .. }) => vec![("wanted", [&b"a block of type "[..], type_name].concat())],
        Some(Record::DatePattern { flag }) => vec![("admitted", pattern("a date", leaves::date_pattern(flag)))],
        Some(Record::TimePattern { flag }) => vec![("admitted", pattern("a time", leaves::time_pattern(flag)))],
        Some(Record::DurationPattern { flag }) => vec![("admitted", duration(flag))],
        Some(Record::Header { .. } | Record::Attribute { .. }) | None => vec![],
        Some(_) => vec![("admitted", leaves::admitted(table, record))],
    }
}

/// A pattern, and how it is meant.
fn pattern(kind: &str, pattern: &str) -> Vec<u8> {
    let optional = if pattern.contains("??") { ", ?? may be left out" } else { "" };
    let absent = if pattern.contains("XX") { ", XX must be left out" } else { "" };
    format!("{kind} {pattern}{optional}{absent}").into_bytes()
}

/// A Duration pattern, and how it is meant.
fn duration(flag: u8) -> Vec<u8> {
    format!("a duration {}, slots may be left out", leaves::duration_pattern(flag)).into_bytes()
}

/// The member that is missing, and what it would hold.
fn missing(table: &Table, record: u32) -> Vec<(&'static str, Vec<u8>)> {
    let Some(Record::Attribute { name, value, .. }) = table.record(record) else { return vec![] };
    let mut notes = vec![("missing", name.to_vec())];
    if value != 0 {
        notes.extend(wanted(table, value));
    }
    notes
}

/// The member that must not be there.
fn forbidden(table: &Table, record: u32) -> Vec<(&'static str, Vec<u8>)> {
    match table.record(record) {
        Some(Record::Attribute { name, .. }) => vec![("forbidden", name.to_vec())],
        _ => vec![],
    }
}

#[cfg(test)]
mod tests {
    use super::*;
    use crate::records::tests::{big, table};

    /// One record of each kind that a verdict can name, the leaves with two items where they can.
    fn sample() -> Vec<u8> {
        let records = [
            big(1, 0, [0, 4, 0, 0, 2]),
            big(2, 2, [4, 4, 3, 0, 0]),
            big(4, 0, [100, 160, 0, 0, 4]),
            big(4, 0, [7, 7, 0, 0, 0]),
            big(5, 0, [4, 4, 0, 0, 6]),
            big(5, 0, [0, 0, 0, 0, 0]),
            big(3, 3, [0; 5]),
            big(6, 2, [0; 5]),
            big(6, 5, [0; 5]),
            big(7, 0, [101, 20_000_101, 0, 0, 11]),
            big(7, 0, [20_240_229, 20_241_231, 0, 0, 12]),
            big(7, 0, [20_260_101, 99_991_231, 0, 0, 0]),
            big(8, 1, [0; 5]),
            big(4, 0, [0x8000_0000, 0xFFFF_FFFF, 0, 0, 15]),
            big(4, 0, [5, 0x7FFF_FFFF, 0, 0, 0]),
            big(2, 0, [4, 4, 0, 0, 0]),
            big(9, 12, [0; 5]),
        ];
        table(&records, b"FORMrate")
    }

    fn said(number: u32, record: u32, data: &str) -> (String, String) {
        let bytes = sample();
        let verdict = verdict(&Table::new(&bytes).unwrap(), number, record, data.as_bytes(), 0);
        let notes: Vec<String> = verdict
            .notes
            .into_iter()
            .map(|(key, text)| format!("{key}: {}", String::from_utf8(text).unwrap()))
            .collect();
        (verdict.reason, notes.join("; "))
    }

    #[test]
    fn values_not_admitted_tell_what_is() {
        let admitted = |record| said(24, record, "<5>").1;
        assert_eq!(said(24, 3, "<5>").0, "value not admitted");
        assert_eq!(admitted(3), "admitted: 100..160, 7");
        assert_eq!(admitted(4), "admitted: 7");
        assert_eq!(admitted(5), "admitted: \"rate\", \"\"");
        assert_eq!(admitted(7), "admitted: True, False");
        assert_eq!(admitted(8), "admitted: a date yyyy-mm-??, ?? may be left out");
        assert_eq!(admitted(9), "admitted: a date yyyy-??-XX, ?? may be left out, XX must be left out");
        assert_eq!(admitted(10), "admitted: <=2000-01-01, 2024-02-29..2024-12-31, >=2026-01-01");
        assert_eq!(admitted(13), "admitted: a time Thh:mm:ss");
        assert_eq!(admitted(14), "admitted: <=-1, >=5");
        assert_eq!(admitted(17), "admitted: a duration Pwd, slots may be left out");
    }

    #[test]
    fn number_20_is_told_by_what_stands_there() {
        let reason = |record, data| said(20, record, data).0;
        assert_eq!(reason(3, "<>"), "block where an integer is wanted");
        assert_eq!(reason(3, "<a = <5>>"), "block where an integer is wanted");
        assert_eq!(reason(3, "<\"5\">"), "string where an integer is wanted");
        assert_eq!(reason(3, "<08>"), "cannot be read as an integer");
        assert_eq!(reason(5, "<5>"), "word where a string is wanted");
        assert_eq!(reason(17, "<5>"), "cannot be read as a duration");
        assert_eq!(reason(17, "<\"P4w\">"), "string where a duration is wanted");
        assert_eq!(reason(1, "<5>"), "leaf where a block is wanted");
        assert_eq!(reason(1, "<\"x\">"), "leaf where a block is wanted");
        assert_eq!(said(20, 1, "<5>").1, "wanted: a block of type FORM");
        assert_eq!(said(20, 3, "<08>").1, "admitted: 100..160, 7");
    }

    #[test]
    fn types_and_members() {
        assert_eq!(said(21, 1, "<>"), ("type differs".into(), "wanted: a block of type FORM".into()));
        assert_eq!(said(22, 2, "<>"), ("member missing".into(), "missing: rate; admitted: 100..160, 7".into()));
        assert_eq!(said(22, 16, "<>"), ("member missing".into(), "missing: rate".into()));
        assert_eq!(said(23, 16, "<5>"), ("member present under 0..0".into(), "forbidden: rate".into()));
    }
}
