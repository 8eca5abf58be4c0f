//! The table: its records decoded, checked and written.

use crate::calendar::Date;
use crate::faults::Fault;
use crate::limits;

/// The number of a record. 0 in a link means that there is none.
#[derive(Clone, Copy, Debug, PartialEq, Eq)]
pub struct RecordNumber(pub u32);

/// A place in the pool; not to be mixed with record numbers.
#[derive(Clone, Copy, Debug, PartialEq, Eq)]
pub struct PoolPlace(pub u32);

/// A part of the pool: place and length.
#[derive(Clone, Copy, Debug, PartialEq, Eq)]
pub struct Part {
    pub place: PoolPlace,
    pub length: u32,
}

/// A record by its kind.
#[derive(Clone, Copy, Debug, PartialEq, Eq)]
pub enum Record {
    Header { count: u32, pool: u32, root: RecordNumber },
    Object { type_name: Part, code: Part, first: RecordNumber },
    Attribute { existence: u8, name: Part, value: RecordNumber, next: RecordNumber },
    Boolean { flag: u8 },
    Integer { low: i32, high: i32, next: RecordNumber },
    Text { part: Part, next: RecordNumber },
    DatePattern { flag: u8 },
    DateInterval { low: Date, high: Date, next: RecordNumber },
    TimePattern { flag: u8 },
    DurationPattern { flag: u8 },
}

/// A record as it lies in the table: mark read, kind, flag and five numbers.
#[derive(Clone, Copy, Debug, PartialEq, Eq)]
struct Raw {
    kind: u8,
    flag: u8,
    numbers: [u32; 5],
}

/// A table that passed the check.
pub struct Table<'b> {
    pub records: Vec<Record>,
    pub pool: &'b [u8],
    pub root: RecordNumber,
}

impl<'b> Table<'b> {
    /// Checks the table and decodes it. "In a table 12 comes before 13."
    pub fn read(bytes: &'b [u8]) -> Result<Table<'b>, Fault> {
        let header = read_header(bytes).ok_or(Fault { number: 12, place: 0 })?;
        let Record::Header { count, pool, root } = header else {
            return Err(Fault { number: 12, place: 0 });
        };
        let mut records = Vec::with_capacity(count as usize);
        records.push(header);
        for number in 1..count {
            let record = read_record(bytes, RecordNumber(number), count, pool);
            records.push(record.ok_or(Fault { number: 13, place: u64::from(number) })?);
        }
        Ok(Table { records, pool: &bytes[limits::RECORD * count as usize..], root })
    }

    /// The record with this number, if the table has it.
    pub fn record(&self, number: RecordNumber) -> Option<Record> {
        self.records.get(number.0 as usize).copied()
    }

    /// The bytes of the pool that a part names.
    pub fn part(&self, part: Part) -> &'b [u8] {
        let place = part.place.0 as usize;
        &self.pool[place..place + part.length as usize]
    }
}

/// "12: not a table: length, header, root": the header, if none of the three is broken.
fn read_header(bytes: &[u8]) -> Option<Record> {
    let raw = read_raw(bytes, RecordNumber(0))?;
    let [count, pool, root, d, e] = raw.numbers;
    let plain = raw.kind == 0 && raw.flag == 0 && d == 0 && e == 0;
    let sized = (2..=limits::RECORDS as u32).contains(&count) && pool <= limits::POOL as u32;
    let whole = bytes.len() as u64 == u64::from(count) * limits::RECORD as u64 + u64::from(pool);
    if plain && sized && whole && root < count && kind_byte(bytes, RecordNumber(root)) == Some(1) {
        Some(Record::Header { count, pool, root: RecordNumber(root) })
    } else {
        None
    }
}

/// The 24 bytes of a record.
fn record_bytes(bytes: &[u8], number: RecordNumber) -> Option<&[u8]> {
    let start = (number.0 as usize).checked_mul(limits::RECORD)?;
    bytes.get(start..start.checked_add(limits::RECORD)?)
}

fn kind_byte(bytes: &[u8], number: RecordNumber) -> Option<u8> {
    record_bytes(bytes, number).map(|record| record[2])
}

/// "a two-byte mark (C0 AD: numbers big-endian; AD C0: little-endian, per record), kind, flag, five
/// 32-bit numbers a b c d e"
fn read_raw(bytes: &[u8], number: RecordNumber) -> Option<Raw> {
    let record = record_bytes(bytes, number)?;
    let read: fn([u8; 4]) -> u32 = match record[..2] {
        [0xC0, 0xAD] => u32::from_be_bytes,
        [0xAD, 0xC0] => u32::from_le_bytes,
        _ => return None,
    };
    let mut numbers = [0; 5];
    for (number, field) in numbers.iter_mut().zip(record[4..].chunks_exact(4)) {
        *number = read([field[0], field[1], field[2], field[3]]);
    }
    Some(Raw { kind: record[2], flag: record[3], numbers })
}

/// Record `number`, if it breaks no rule.
fn read_record(bytes: &[u8], number: RecordNumber, count: u32, pool: u32) -> Option<Record> {
    let raw = read_raw(bytes, number)?;
    let rules = Rules { bytes, number, count, pool };
    let [a, b, c, d, e] = raw.numbers;
    let record = match raw.kind {
        1 => Record::Object {
            type_name: rules.part(a, b, 1, limits::NAME)?,
            code: rules.part(c, d, 0, limits::CODE)?,
            first: rules.link(e, |kind| kind == 2)?,
        },
        2 => Record::Attribute {
            existence: rules.flag(raw.flag, 0, 2)?,
            name: rules.part(a, b, 1, limits::NAME)?,
            value: rules.link(c, |kind| matches!(kind, 1 | 3..=9))?,
            next: rules.link(d, |kind| kind == 2)?,
        },
        3 => Record::Boolean { flag: rules.flag(raw.flag, 1, 3)? },
        4 => Record::Integer { low: a as i32, high: b as i32, next: rules.link(e, |kind| kind == 4)? },
        5 => Record::Text { part: rules.part(a, b, 0, limits::STRING)?, next: rules.link(e, |kind| kind == 5)? },
        6 => Record::DatePattern { flag: rules.flag(raw.flag, 1, 5)? },
        7 => Record::DateInterval {
            low: Date::from_packed(a)?,
            high: Date::from_packed(b)?,
            next: rules.link(e, |kind| kind == 7)?,
        },
        8 => Record::TimePattern { flag: rules.flag(raw.flag, 1, 4)? },
        9 => Record::DurationPattern { flag: rules.flag(raw.flag, 1, 127)? },
        _ => return None,
    };
    // "A field not named is 0": then the record written anew is the one read.
    if record.raw() == raw && record.is_ordered() {
        Some(record)
    } else {
        None
    }
}

/// What the rules of one record are tested against.
struct Rules<'b> {
    bytes: &'b [u8],
    number: RecordNumber,
    count: u32,
    pool: u32,
}

impl Rules<'_> {
    fn flag(&self, flag: u8, least: u8, most: u8) -> Option<u8> {
        Some(flag).filter(|flag| (least..=most).contains(flag))
    }

    /// "Every link is 0 or above its own record's number and below the count, and of the kind it needs"
    fn link(&self, link: u32, needed: fn(u8) -> bool) -> Option<RecordNumber> {
        let target = RecordNumber(link);
        let inside = link > self.number.0 && link < self.count;
        if link == 0 || (inside && kind_byte(self.bytes, target).is_some_and(needed)) {
            Some(target)
        } else {
            None
        }
    }

    /// "Pool pairs lie in the pool; length 0 has place 0", and the length's limits.
    fn part(&self, place: u32, length: u32, least: u32, most: usize) -> Option<Part> {
        let limited = length >= least && length <= most as u32;
        let inside = u64::from(place) + u64::from(length) <= u64::from(self.pool);
        if limited && inside && (length > 0 || place == 0) {
            Some(Part { place: PoolPlace(place), length })
        } else {
            None
        }
    }
}

impl Record {
    /// "Low ≤ high"
    fn is_ordered(&self) -> bool {
        match self {
            Record::Integer { low, high, .. } => low <= high,
            Record::DateInterval { low, high, .. } => low <= high,
            _ => true,
        }
    }

    /// The record's kind, flag and numbers; "A field not named is 0".
    fn raw(&self) -> Raw {
        let (kind, flag, numbers) = match *self {
            Record::Header { count, pool, root } => (0, 0, [count, pool, root.0, 0, 0]),
            Record::Object { type_name, code, first } => {
                (1, 0, [type_name.place.0, type_name.length, code.place.0, code.length, first.0])
            }
            Record::Attribute { existence, name, value, next } => {
                (2, existence, [name.place.0, name.length, value.0, next.0, 0])
            }
            Record::Boolean { flag } => (3, flag, [0; 5]),
            Record::Integer { low, high, next } => (4, 0, [low as u32, high as u32, 0, 0, next.0]),
            Record::Text { part, next } => (5, 0, [part.place.0, part.length, 0, 0, next.0]),
            Record::DatePattern { flag } => (6, flag, [0; 5]),
            Record::DateInterval { low, high, next } => (7, 0, [low.packed(), high.packed(), 0, 0, next.0]),
            Record::TimePattern { flag } => (8, flag, [0; 5]),
            Record::DurationPattern { flag } => (9, flag, [0; 5]),
        };
        Raw { kind, flag, numbers }
    }

    /// The record's 24 bytes in the order asked.
    fn to_bytes(self, little: bool) -> [u8; limits::RECORD] {
        let raw = self.raw();
        let mut bytes = [0; limits::RECORD];
        bytes[..2].copy_from_slice(if little { &[0xAD, 0xC0] } else { &[0xC0, 0xAD] });
        bytes[2] = raw.kind;
        bytes[3] = raw.flag;
        for (field, number) in bytes[4..].chunks_exact_mut(4).zip(raw.numbers) {
            field.copy_from_slice(&if little { number.to_le_bytes() } else { number.to_be_bytes() });
        }
        bytes
    }
}

/// The length of a table: "exactly 24 × count + pool".
pub fn table_length(count: usize, pool: usize) -> usize {
    limits::RECORD * count + pool
}

/// Writes records, then the parts of the pool, to the front of a buffer that is long enough.
/// Bytes past the table's end stay.
pub fn write(records: &[Record], pool: &[&[u8]], little: bool, out: &mut [u8]) {
    let (front, mut rest) = out.split_at_mut(limits::RECORD * records.len());
    for (place, record) in front.chunks_exact_mut(limits::RECORD).zip(records) {
        place.copy_from_slice(&record.to_bytes(little));
    }
    for part in pool {
        let (place, behind) = rest.split_at_mut(part.len());
        place.copy_from_slice(part);
        rest = behind;
    }
}
