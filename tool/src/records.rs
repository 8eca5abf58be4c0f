//! The records of a table, read from its bytes.

use crate::limits;
use crate::shown::counted;

/// The byte order of a record.
#[derive(Clone, Copy, Debug, PartialEq, Eq)]
pub enum Order {
    Big,
    Little,
}

impl Order {
    /// The order as `--order` has it.
    pub fn word(self) -> &'static str {
        match self {
            Order::Big => "big",
            Order::Little => "little",
        }
    }
}

/// The 24 bytes of a record, read by its mark: kind, flag, and the numbers a b c d e.
#[derive(Clone, Copy, Debug, PartialEq, Eq)]
pub struct Raw {
    pub order: Order,
    pub kind: u8,
    pub flag: u8,
    pub numbers: [u32; 5],
}

/// A record by its kind. A link of 0 leads nowhere.
#[derive(Clone, Copy, Debug, PartialEq, Eq)]
pub enum Record<'b> {
    Header { count: u32, pool: u32, root: u32 },
    Object { type_name: &'b [u8], code: &'b [u8], first: u32 },
    Attribute { existence: Existence, name: &'b [u8], value: u32, next: u32 },
    Boolean { flag: u8 },
    Integer { low: i32, high: i32, next: u32 },
    Text { text: &'b [u8], next: u32 },
    DatePattern { flag: u8 },
    Dates { low: u32, high: u32, next: u32 },
    TimePattern { flag: u8 },
    DurationPattern { flag: u8 },
}

/// How often an attribute's member may be there.
#[derive(Clone, Copy, Debug, PartialEq, Eq)]
pub enum Existence {
    Never,
    Optional,
    Always,
}

impl Existence {
    /// The existence as a constraint text has it.
    pub fn word(self) -> &'static str {
        match self {
            Existence::Never => "0..0",
            Existence::Optional => "0..1",
            Existence::Always => "1..1",
        }
    }
}

/// The 24 bytes of a record.
pub fn record_bytes(bytes: &[u8], number: u32) -> Option<&[u8]> {
    let start = limits::RECORD.checked_mul(usize::try_from(number).ok()?)?;
    bytes.get(start..)?.get(..limits::RECORD)
}

/// Reads a record by its mark.
pub fn raw(bytes: &[u8], number: u32) -> Option<Raw> {
    let record = record_bytes(bytes, number)?;
    let order = match record.get(..2)? {
        [0xC0, 0xAD] => Order::Big,
        [0xAD, 0xC0] => Order::Little,
        _ => return None,
    };
    let mut numbers = [0; 5];
    for (number, field) in numbers.iter_mut().zip(record.get(4..)?.chunks_exact(4)) {
        let field: [u8; 4] = field.try_into().ok()?;
        *number = match order {
            Order::Big => u32::from_be_bytes(field),
            Order::Little => u32::from_le_bytes(field),
        };
    }
    Some(Raw { order, kind: *record.get(2)?, flag: *record.get(3)?, numbers })
}

/// A table that passed the check.
#[derive(Clone, Copy)]
pub struct Table<'b> {
    bytes: &'b [u8],
    pool: &'b [u8],
    pub count: u32,
    pub root: u32,
}

impl<'b> Table<'b> {
    /// Takes bytes that passed the check.
    pub fn new(bytes: &'b [u8]) -> Option<Table<'b>> {
        let [count, _, root, _, _] = raw(bytes, 0)?.numbers;
        let pool = bytes.get(limits::RECORD.checked_mul(usize::try_from(count).ok()?)?..)?;
        Some(Table { bytes, pool, count, root })
    }

    /// How many bytes of names there are.
    pub fn names(&self) -> usize {
        self.pool.len()
    }

    /// How many bytes there are in all.
    pub fn length(&self) -> usize {
        self.bytes.len()
    }

    /// The byte order of a record.
    pub fn order(&self, number: u32) -> Option<Order> {
        Some(raw(self.bytes, number)?.order)
    }

    /// The record with a number.
    pub fn record(&self, number: u32) -> Option<Record<'b>> {
        let Raw { kind, flag, numbers: [a, b, c, d, e], .. } = raw(self.bytes, number)?;
        Some(match kind {
            0 => Record::Header { count: a, pool: b, root: c },
            1 => Record::Object { type_name: self.part(a, b)?, code: self.part(c, d)?, first: e },
            2 => Record::Attribute { existence: existence(flag)?, name: self.part(a, b)?, value: c, next: d },
            3 => Record::Boolean { flag },
            4 => Record::Integer { low: a as i32, high: b as i32, next: e },
            5 => Record::Text { text: self.part(a, b)?, next: e },
            6 => Record::DatePattern { flag },
            7 => Record::Dates { low: a, high: b, next: e },
            8 => Record::TimePattern { flag },
            9 => Record::DurationPattern { flag },
            _ => return None,
        })
    }

    /// A part of the pool.
    fn part(&self, place: u32, length: u32) -> Option<&'b [u8]> {
        self.pool.get(usize::try_from(place).ok()?..)?.get(..usize::try_from(length).ok()?)
    }
}

/// An attribute's flag.
fn existence(flag: u8) -> Option<Existence> {
    match flag {
        0 => Some(Existence::Never),
        1 => Some(Existence::Optional),
        2 => Some(Existence::Always),
        _ => None,
    }
}

/// A table in a few words: records, names, bytes and byte order.
pub fn summary(table: &Table) -> String {
    let records = counted(table.count.into(), "record");
    let names = counted(table.names() as u64, "byte");
    let bytes = counted(table.length() as u64, "byte");
    format!("{records}, {names} of names, {bytes}, {}", orders(table))
}

/// The byte order of a whole table, in words.
pub fn orders(table: &Table) -> &'static str {
    let little = (0..table.count).filter(|number| table.order(*number) == Some(Order::Little)).count();
    match u32::try_from(little) {
        Ok(0) => "big-endian",
        Ok(all) if all == table.count => "little-endian",
        _ => "of both byte orders",
    }
}

#[cfg(test)]
pub mod tests {
    use super::*;

    /// A record of a table, big-endian.
    pub fn big(kind: u8, flag: u8, numbers: [u32; 5]) -> Vec<u8> {
        let mut bytes = vec![0xC0, 0xAD, kind, flag];
        numbers.iter().for_each(|number| bytes.extend(number.to_be_bytes()));
        bytes
    }

    /// A table of these records behind its header, big-endian, with root 1.
    pub fn table(records: &[Vec<u8>], pool: &[u8]) -> Vec<u8> {
        let count = u32::try_from(records.len() + 1).unwrap();
        let header = big(0, 0, [count, u32::try_from(pool.len()).unwrap(), 1, 0, 0]);
        [header, records.concat(), pool.to_vec()].concat()
    }

    #[test]
    fn both_byte_orders_are_read() {
        let record = [0xC0, 0xAD, 4, 0, 0xFF, 0xFF, 0xFF, 0xFE, 0, 0, 1, 0, 0, 0, 0, 0, 0, 0, 0, 0, 0, 0, 0, 9];
        let found = Raw { order: Order::Big, kind: 4, flag: 0, numbers: [0xFFFF_FFFE, 256, 0, 0, 9] };
        assert_eq!(raw(&record, 0), Some(found));
        let record = [0xAD, 0xC0, 4, 0, 0xFE, 0xFF, 0xFF, 0xFF, 0, 1, 0, 0, 0, 0, 0, 0, 0, 0, 0, 0, 9, 0, 0, 0];
        assert_eq!(raw(&record, 0), Some(Raw { order: Order::Little, ..found }));
        assert_eq!(raw(&record[..23], 0), None);
        assert_eq!(raw(&record, 1), None);
        assert_eq!(raw(&record, u32::MAX), None);
        assert_eq!(raw(&[0; 24], 0), None);
    }

    #[test]
    fn records_are_told_by_kind() {
        let records = [big(1, 0, [0, 1, 0, 0, 2]), big(2, 1, [1, 2, 3, 0, 0]), big(4, 0, [u32::MAX, 7, 0, 0, 0])];
        let bytes = table(&records, b"Aab");
        let table = Table::new(&bytes).unwrap();
        assert_eq!((table.count, table.root, table.names()), (4, 1, 3));
        assert_eq!(table.record(1), Some(Record::Object { type_name: b"A", code: b"", first: 2 }));
        let attribute = Record::Attribute { existence: Existence::Optional, name: b"ab", value: 3, next: 0 };
        assert_eq!(table.record(2), Some(attribute));
        assert_eq!(table.record(3), Some(Record::Integer { low: -1, high: 7, next: 0 }));
        assert_eq!(table.record(4), None);
        assert_eq!(summary(&table), "4 records, 3 bytes of names, 99 bytes, big-endian");
    }
}
