//! Merging: both tables are decoded, the second's records moved, and all written anew.

use crate::api::MergeAnswer;
use crate::limits;
use crate::table::{table_length, write, Part, PoolPlace, Record, RecordNumber, Table};

/// "Merge: first table, second, 8, 10, 11, naming the table for 12 and 13."
pub fn merge(first: &[u8], second: &[u8], little: bool, out: &mut [u8]) -> MergeAnswer {
    let first = match Table::read(first) {
        Ok(table) => table,
        Err(fault) => return refused(fault.number, fault.place, 1),
    };
    let second = match Table::read(second) {
        Ok(table) => table,
        Err(fault) => return refused(fault.number, fault.place, 2),
    };
    let count = first.records.len() + second.records.len() - 1;
    let pool = first.pool.len() + second.pool.len();
    let length = table_length(count, pool);
    if count > limits::RECORDS {
        return refused(8, 0, 0);
    }
    if pool > limits::POOL {
        return refused(10, 0, 0);
    }
    if length > out.len() {
        return refused(11, length as u64, 0);
    }
    let shifts = Shifts { record: first.records.len() as u32 - 1, pool: first.pool.len() as u32 };
    write(&merged_records(&first, &second, shifts), &[first.pool, second.pool], little, out);
    MergeAnswer::Done { length: length as u64, record_shift: shifts.record, pool_shift: shifts.pool }
}

fn refused(number: u32, place: u64, table: u32) -> MergeAnswer {
    MergeAnswer::Refused { number, place, table }
}

/// "Header: counts summed less one, pools summed, first root."
fn merged_records(first: &Table, second: &Table, shifts: Shifts) -> Vec<Record> {
    let count = (first.records.len() + second.records.len() - 1) as u32;
    let pool = (first.pool.len() + second.pool.len()) as u32;
    let mut records = Vec::with_capacity(count as usize);
    records.push(Record::Header { count, pool, root: first.root });
    records.extend(&first.records[1..]);
    records.extend(second.records[1..].iter().map(|record| shifts.moved(*record)));
    records
}

/// How far the second table's record numbers and pool places move.
#[derive(Clone, Copy)]
struct Shifts {
    record: u32,
    pool: u32,
}

impl Shifts {
    /// "links other than 0 move so"
    fn link(self, link: RecordNumber) -> RecordNumber {
        RecordNumber(if link.0 == 0 { 0 } else { link.0 + self.record })
    }

    /// "pool places of length above 0 gain the first pool's bytes"
    fn part(self, part: Part) -> Part {
        let place = if part.length == 0 { part.place.0 } else { part.place.0 + self.pool };
        Part { place: PoolPlace(place), length: part.length }
    }

    fn moved(self, record: Record) -> Record {
        match record {
            Record::Object { type_name, code, first } => {
                Record::Object { type_name: self.part(type_name), code: self.part(code), first: self.link(first) }
            }
            Record::Attribute { existence, name, value, next } => {
                Record::Attribute { existence, name: self.part(name), value: self.link(value), next: self.link(next) }
            }
            Record::Integer { low, high, next } => Record::Integer { low, high, next: self.link(next) },
            Record::Text { part, next } => Record::Text { part: self.part(part), next: self.link(next) },
            Record::DateInterval { low, high, next } => Record::DateInterval { low, high, next: self.link(next) },
            Record::Header { .. }
            | Record::Boolean { .. }
            | Record::DatePattern { .. }
            | Record::TimePattern { .. }
            | Record::DurationPattern { .. } => record,
        }
    }
}
