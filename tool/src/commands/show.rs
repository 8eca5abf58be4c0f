//! `show`: a table's records, one a line.

use std::ffi::OsStr;

use super::check;
use crate::arguments::Command;
use crate::json::Object;
use crate::leaves;
use crate::output::{outcome, Output, Report, Status};
use crate::records::{Order, Record, Table};
use crate::shown;

/// Shows all records of a table.
pub fn run(name: &OsStr, output: &mut Output) -> Status {
    let Some(bytes) = super::table(name) else { return Status::Trouble };
    let table = match check::checked(Command::Show, name, &bytes) {
        Ok(table) => table,
        Err(refused) => {
            output.tell(refused);
            return Status::Refused;
        }
    };
    for number in 0..table.count {
        if let Some((order, record)) = table.order(number).zip(table.record(number)) {
            output.tell(line(name, &table, number, order, &record));
        }
    }
    Status::Fine
}

/// One record.
fn line(name: &OsStr, table: &Table, number: u32, order: Order, record: &Record) -> Report {
    let json = outcome(Command::Show, "shown", name)
        .number("record", number)
        .text("order", order.word())
        .text("kind", kind(record));
    let text = format!("{number:>4} {:<6} {:<13} {}", order.word(), kind(record), words(table, number, record));
    Report { plain: format!("{}\n", text.trim_end()), json: members(json, record) }
}

/// The kind of a record, in document 01's word.
fn kind(record: &Record) -> &'static str {
    match record {
        Record::Header { .. } => "header",
        Record::Object { .. } => "object",
        Record::Attribute { .. } => "attribute",
        Record::Boolean { .. } => "Boolean",
        Record::Integer { .. } => "integer",
        Record::Text { .. } => "string",
        Record::DatePattern { .. } => "date pattern",
        Record::Dates { .. } => "date interval",
        Record::TimePattern { .. } => "time pattern",
        Record::DurationPattern { .. } => "duration",
    }
}

/// What a record says, for a person.
fn words(table: &Table, number: u32, record: &Record) -> String {
    match record {
        Record::Header { count, pool, root } => {
            let (records, names) =
                (shown::counted(u64::from(*count), "record"), shown::counted(u64::from(*pool), "byte"));
            format!("{records}, {names} of names, root {root}")
        }
        Record::Object { type_name, code, first } => {
            let code = if code.is_empty() { String::new() } else { format!("[{}]", shown::bytes(code)) };
            let inside = if *first == 0 { "any members".to_string() } else { format!("attributes from {first}") };
            let root = if number == table.root { " (root)" } else { "" };
            format!("{}{code}: {inside}{root}", shown::bytes(type_name))
        }
        Record::Attribute { existence, name, value, next } => {
            let inside = if *value == 0 { "any value".to_string() } else { format!("value {value}") };
            format!("{} {}: {inside}{}", shown::bytes(name), existence.word(), then(*next))
        }
        Record::Integer { low, high, next } => format!("{low}..{high}{}", then(*next)),
        Record::Dates { low, high, next } => format!("{}..{}{}", leaves::date(*low), leaves::date(*high), then(*next)),
        Record::Text { next, .. } => format!("{}{}", shown::bytes(&leaves::item(record)), then(*next)),
        _ => shown::bytes(&leaves::item(record)),
    }
}

/// The link to the next attribute or item, if there is one.
fn then(next: u32) -> String {
    if next == 0 {
        String::new()
    } else {
        format!(", next {next}")
    }
}

/// What a record says, as members of an object.
fn members(json: Object, record: &Record) -> Object {
    match record {
        Record::Header { count, pool, root } => {
            json.number("records", *count).number("names", *pool).number("root", *root)
        }
        Record::Object { type_name, code, first } => {
            json.bytes("type", type_name).bytes("code", code).number("first", *first)
        }
        Record::Attribute { existence, name, value, next } => {
            json.bytes("name", name).text("existence", existence.word()).number("value", *value).number("next", *next)
        }
        Record::Integer { low, high, next } => json.number("low", *low).number("high", *high).number("next", *next),
        Record::Text { text, next } => json.bytes("text", text).number("next", *next),
        Record::Dates { low, high, next } => {
            json.text("low", &leaves::date(*low)).text("high", &leaves::date(*high)).number("next", *next)
        }
        Record::Boolean { .. }
        | Record::DatePattern { .. }
        | Record::TimePattern { .. }
        | Record::DurationPattern { .. } => json.bytes("admitted", &leaves::item(record)),
    }
}
