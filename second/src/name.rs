//! Handing out a record's name.

use crate::api::NameAnswer;
use crate::table::{table_length, Part, Record, RecordNumber, Table};

/// "Name: table, 14." An object's type, an attribute's name or a string item.
pub fn name(table: &[u8], record: u32) -> NameAnswer {
    let table = match Table::read(table) {
        Ok(table) => table,
        Err(fault) => return NameAnswer::Refused { number: fault.number, place: fault.place },
    };
    match table.record(RecordNumber(record)) {
        Some(Record::Object { type_name, .. }) => found(&table, type_name),
        Some(Record::Attribute { name, .. }) => found(&table, name),
        Some(Record::Text { part, .. }) => found(&table, part),
        _ => NameAnswer::Refused { number: 14, place: u64::from(record) },
    }
}

/// Where the part stands in the table's own bytes: the pool begins behind the records.
fn found(table: &Table, part: Part) -> NameAnswer {
    let start = table_length(table.records.len(), part.place.0 as usize);
    NameAnswer::Name { start: start as u64, length: u64::from(part.length) }
}
