//! Tables as the page writes them, and the little that is read of a table that a job wrote.

use super::cursor::number_of;
use crate::generator::{Record, Table};

/// The bytes of a record.
pub const RECORD: usize = 24;

/// The table B: the constraint `A matches {*}`, written out.
pub const B: [u8; 49] =
    *b"\xC0\xAD\0\0\0\0\0\x02\0\0\0\x01\0\0\0\x01\0\0\0\0\0\0\0\0\xC0\xAD\x01\0\0\0\0\0\0\0\0\x01\0\0\0\0\0\0\0\0\0\0\0\0A";

/// The table of `pool | record | record ..`, big-endian, with a header that fits it and root 1.
pub fn made(written: &str) -> Result<Vec<u8>, String> {
    let mut parts = written.split(" | ");
    let pool = parts.next().unwrap_or_default().as_bytes().to_vec();
    let mut records = vec![Record::new(0, 0, [0; 5])];
    for part in parts {
        records.push(record(part).ok_or_else(|| format!("`{part}` is no record: kind.flag a b c d e"))?);
    }
    if records.len() == 1 {
        return Err(format!("`{written}` has no record"));
    }
    let mut table = Table { records, pool };
    table.set_header(1);
    Ok(table.bytes())
}

/// A record of `kind.flag a b c d e`.
fn record(written: &str) -> Option<Record> {
    let mut words = written.split(' ');
    let (kind, flag) = words.next()?.split_once('.')?;
    let numbers: Vec<u32> = words.map(number_of).collect::<Option<_>>()?;
    Some(Record::new(number_of(kind)?, number_of(flag)?, numbers.try_into().ok()?))
}

/// How many records a table has, as its header says.
pub fn count(table: &[u8]) -> usize {
    header(table).map_or(0, |header| header.numbers[0] as usize)
}

/// The root that a table's header names.
pub fn root(table: &[u8]) -> Option<u32> {
    header(table).map(|header| header.numbers[2])
}

fn header(table: &[u8]) -> Option<Record> {
    table.get(..RECORD).map(Record::read)
}

/// The bytes of a record, if the table has one of that number.
pub fn record_of(table: &[u8], number: usize) -> Option<&[u8]> {
    table.chunks_exact(RECORD).take(count(table)).nth(number)
}

/// What stands behind a table's records.
pub fn pool(table: &[u8]) -> Option<&[u8]> {
    table.get(RECORD * count(table)..)
}

/// A table's first `records` records in the other byte order: the marks and numbers are turned round, whatever they hold.
pub fn turned(table: &[u8], records: usize) -> Vec<u8> {
    let mut turned = table.to_vec();
    for record in turned.chunks_exact_mut(RECORD).take(records) {
        record[..2].reverse();
        record[4..].chunks_exact_mut(4).for_each(<[u8]>::reverse);
    }
    turned
}
