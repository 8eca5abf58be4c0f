//! Tables put together record by record.

use crate::api::CompileAnswer;
use crate::compile;
use crate::generator::{Record, Table};
use crate::limits;

pub const BIG: [u8; 2] = [0xC0, 0xAD];
pub const LITTLE: [u8; 2] = [0xAD, 0xC0];

/// A record in big-endian order.
pub fn record(kind: u8, flag: u8, numbers: [u32; 5]) -> Record {
    Record::new(kind, flag, numbers)
}

/// A table with these records from number 1 on, all big-endian, and the header that they need.
pub fn table(root: u32, records: &[Record], pool: &[u8]) -> Table {
    let mut table = Table { records: vec![Record::new(0, 0, [0; 5])], pool: pool.to_vec() };
    table.records.extend_from_slice(records);
    table.set_header(root);
    table
}

/// The table with each record's order by its number: little-endian where the pattern, taken again and again, has a `l`.
pub fn ordered(table: &Table, pattern: &str) -> Table {
    let mut table = table.clone();
    for (record, order) in table.records.iter_mut().zip(pattern.bytes().cycle()) {
        record.set_order(order == b'l');
    }
    table
}

/// The table with one record changed.
pub fn changed(table: &Table, number: usize, change: impl Fn(&mut Record)) -> Table {
    let mut table = table.clone();
    change(&mut table.records[number]);
    table
}

/// The table of a text, big-endian.
pub fn compiled(text: &str) -> Table {
    let mut out = vec![0; limits::RECORD * limits::RECORDS + limits::POOL];
    match compile(text.as_bytes(), false, &mut out) {
        CompileAnswer::Done { length } => Table::read(&out[..length as usize]),
        CompileAnswer::Refused { number, place } => panic!("{text}: {number} at {place}"),
    }
}

/// A table with a record of every kind, each reached from the root: its kinds are 1 to 9 in turn, and 2 again before each leaf.
pub fn every_kind() -> Table {
    compiled("Ab[at1] matches {a existence matches {0} matches {C matches {*}} bc existence matches {0..1} matches {True} d matches {-1, |5..9|} e matches {\"x\", \"\", \"yz\"} f matches {yyyy-??-XX} g matches {|2004-02-29..2005-01-01|, |9999-12-31|} h matches {Thh:mm:XX} j existence matches {0..1} matches {PwdTm} i matches {*}}")
}

/// Two attributes share one object, two others one list, whose second item a fifth takes for its first; the last two have one name.
pub fn shared() -> Table {
    table(
        1,
        &[
            record(1, 0, [0, 1, 0, 0, 2]),
            record(2, 2, [1, 1, 8, 3, 0]),
            record(2, 1, [2, 1, 8, 4, 0]),
            record(2, 1, [3, 1, 10, 5, 0]),
            record(2, 1, [4, 1, 10, 6, 0]),
            record(2, 1, [5, 1, 11, 7, 0]),
            record(2, 1, [5, 1, 10, 0, 0]),
            record(1, 0, [6, 1, 0, 1, 9]),
            record(2, 2, [1, 1, 11, 0, 0]),
            record(4, 0, [1, 3, 0, 0, 11]),
            record(4, 0, [5, 9, 0, 0, 0]),
        ],
        b"AbcdefB",
    )
}

/// Records that no link leads to, of every kind, before and behind the root.
pub fn unreached() -> Table {
    table(
        3,
        &[
            record(5, 0, [0, 2, 0, 0, 0]),
            record(2, 0, [1, 1, 0, 0, 0]),
            record(1, 0, [0, 1, 1, 1, 4]),
            record(2, 2, [1, 1, 5, 0, 0]),
            record(8, 3, [0; 5]),
            record(1, 0, [0, 2, 0, 0, 0]),
            record(7, 0, [20_040_229, 20_040_301, 0, 0, 0]),
            record(3, 2, [0; 5]),
            record(9, 40, [0; 5]),
        ],
        b"Aa",
    )
}
