//! Tables: their records, how they are written and read, and the table of a constraint's shape.

use super::calendar::{packed, unpacked};
use super::random::Random;
use super::shape::{Attribute, Object, Value};

pub const RECORD: usize = 24;
pub const MOST_RECORDS: usize = 2_048;
pub const MOST_POOL: usize = 16_384;

const BIG_MARK: [u8; 2] = [0xC0, 0xAD];
const LITTLE_MARK: [u8; 2] = [0xAD, 0xC0];

/// One record, with the byte order it is written in.
#[derive(Clone, Copy, Debug, PartialEq, Eq)]
pub struct Record {
    pub mark: [u8; 2],
    pub kind: u8,
    pub flag: u8,
    pub numbers: [u32; 5],
}

/// A table in parts. Record 0 is the header, written as it stands.
#[derive(Clone, Debug, PartialEq, Eq)]
pub struct Table {
    pub records: Vec<Record>,
    pub pool: Vec<u8>,
}

/// The order a table's records are written in.
#[derive(Clone, Copy, Debug, PartialEq, Eq)]
pub enum Order {
    Big,
    Little,
    Mixed,
}

impl Record {
    pub fn new(kind: u8, flag: u8, numbers: [u32; 5]) -> Record {
        Record { mark: BIG_MARK, kind, flag, numbers }
    }

    /// Little-endian is written only under its own mark; any other mark reads as big-endian.
    pub fn is_little(&self) -> bool {
        self.mark == LITTLE_MARK
    }

    pub fn has_mark(&self) -> bool {
        self.mark == LITTLE_MARK || self.mark == BIG_MARK
    }

    pub fn set_order(&mut self, little: bool) {
        self.mark = if little { LITTLE_MARK } else { BIG_MARK };
    }

    /// Reads 24 bytes.
    pub fn read(bytes: &[u8]) -> Record {
        let mark = [bytes[0], bytes[1]];
        let mut numbers = [0; 5];
        for (index, number) in numbers.iter_mut().enumerate() {
            let at = 4 + 4 * index;
            let four = [bytes[at], bytes[at + 1], bytes[at + 2], bytes[at + 3]];
            *number = if mark == LITTLE_MARK { u32::from_le_bytes(four) } else { u32::from_be_bytes(four) };
        }
        Record { mark, kind: bytes[2], flag: bytes[3], numbers }
    }

    /// Writes 24 bytes.
    pub fn write(&self, out: &mut Vec<u8>) {
        out.extend_from_slice(&[self.mark[0], self.mark[1], self.kind, self.flag]);
        for number in self.numbers {
            let four = if self.is_little() { number.to_le_bytes() } else { number.to_be_bytes() };
            out.extend_from_slice(&four);
        }
    }
}

impl Table {
    /// The bytes as they stand.
    pub fn bytes(&self) -> Vec<u8> {
        let mut out = Vec::with_capacity(RECORD * self.records.len() + self.pool.len());
        for record in &self.records {
            record.write(&mut out);
        }
        out.extend_from_slice(&self.pool);
        out
    }

    /// Takes bytes apart: as many records as the header says, as far as they are there.
    pub fn read(bytes: &[u8]) -> Table {
        let whole = bytes.len() / RECORD;
        if whole == 0 {
            return Table { records: Vec::new(), pool: bytes.to_vec() };
        }
        let said = Record::read(&bytes[..RECORD]).numbers[0] as usize;
        let count = said.clamp(1, whole);
        let records = bytes.chunks_exact(RECORD).take(count).map(Record::read).collect();
        Table { records, pool: bytes[RECORD * count..].to_vec() }
    }

    /// Sets the header for the records and the pool as they are now.
    pub fn set_header(&mut self, root: u32) {
        self.records[0] = Record::new(0, 0, [self.records.len() as u32, self.pool.len() as u32, root, 0, 0]);
    }

    pub fn set_order(&mut self, random: &mut Random, order: Order) {
        for record in &mut self.records {
            record.set_order(match order {
                Order::Big => false,
                Order::Little => true,
                Order::Mixed => random.coin(),
            });
        }
    }
}

/// Any of the three orders.
pub fn any_order(random: &mut Random) -> Order {
    random.one_of(&[Order::Big, Order::Little, Order::Mixed])
}

/// The same table with each record's byte order chosen anew.
pub fn mixed(random: &mut Random, bytes: &[u8]) -> Vec<u8> {
    let mut table = Table::read(bytes);
    for record in &mut table.records {
        if record.has_mark() {
            record.set_order(random.coin());
        }
    }
    table.bytes()
}

/// The table of a shape, big-endian: records and pool in text order, root 1.
pub fn table_of(object: &Object) -> Table {
    let mut table = Table { records: vec![Record::new(0, 0, [0; 5])], pool: Vec::new() };
    add_object(&mut table, object);
    table.set_header(1);
    table
}

/// Adds bytes to the pool; place and length, place 0 for no bytes.
fn add_bytes(table: &mut Table, bytes: &[u8]) -> (u32, u32) {
    if bytes.is_empty() {
        return (0, 0);
    }
    let place = table.pool.len() as u32;
    table.pool.extend_from_slice(bytes);
    (place, bytes.len() as u32)
}

fn add_object(table: &mut Table, object: &Object) {
    let number = table.records.len();
    let (a, b) = add_bytes(table, &object.type_name);
    let (c, d) = add_bytes(table, object.code.as_deref().unwrap_or(b""));
    let first = if object.attributes.is_empty() { 0 } else { number as u32 + 1 };
    table.records.push(Record::new(1, 0, [a, b, c, d, first]));
    for (index, attribute) in object.attributes.iter().enumerate() {
        let own = table.records.len();
        add_attribute(table, attribute);
        if index + 1 < object.attributes.len() {
            table.records[own].numbers[3] = table.records.len() as u32;
        }
    }
}

fn add_attribute(table: &mut Table, attribute: &Attribute) {
    let own = table.records.len();
    let (a, b) = add_bytes(table, &attribute.name);
    let below = if attribute.value == Value::Any { 0 } else { own as u32 + 1 };
    table.records.push(Record::new(2, attribute.existence, [a, b, below, 0, 0]));
    match &attribute.value {
        Value::Any => {}
        Value::Object(object) => add_object(table, object),
        Value::Booleans(list) => {
            let flag = u8::from(list.contains(&true)) + 2 * u8::from(list.contains(&false));
            table.records.push(Record::new(3, flag, [0; 5]));
        }
        Value::Integers(list) => {
            for (index, &(low, high)) in list.iter().enumerate() {
                add_item(table, 4, low as i32 as u32, high as i32 as u32, index + 1 < list.len());
            }
        }
        Value::Strings(list) => {
            for (index, string) in list.iter().enumerate() {
                let (a, b) = add_bytes(table, string);
                add_item(table, 5, a, b, index + 1 < list.len());
            }
        }
        Value::DatePattern(flag) => table.records.push(Record::new(6, *flag, [0; 5])),
        Value::Dates(list) => {
            for (index, &(low, high)) in list.iter().enumerate() {
                add_item(table, 7, packed(low), packed(high), index + 1 < list.len());
            }
        }
        Value::TimePattern(flag) => table.records.push(Record::new(8, *flag, [0; 5])),
        Value::DurationPattern(flag) => table.records.push(Record::new(9, *flag, [0; 5])),
    }
}

fn add_item(table: &mut Table, kind: u8, a: u32, b: u32, more: bool) {
    let next = if more { table.records.len() as u32 + 1 } else { 0 };
    table.records.push(Record::new(kind, 0, [a, b, 0, 0, next]));
}

/// A shape close to what a table says at a root, for making data; the table need not be sound.
/// Parts that no text could spell are left out.
pub fn shape_of(table: &Table, root: usize) -> Object {
    let mut left = 40;
    object_at(table, root, 1, &mut left)
}

fn part(table: &Table, place: u32, length: u32) -> Vec<u8> {
    let start = place as usize;
    let end = start.saturating_add(length as usize);
    table.pool.get(start..end).unwrap_or(b"").to_vec()
}

fn is_name(bytes: &[u8]) -> bool {
    bytes.first().is_some_and(u8::is_ascii_lowercase)
        && bytes.iter().all(|byte| byte.is_ascii_alphanumeric() || *byte == b'_')
}

fn is_type(bytes: &[u8]) -> bool {
    bytes.first().is_some_and(u8::is_ascii_uppercase)
        && bytes.iter().all(|byte| byte.is_ascii_alphanumeric() || *byte == b'_')
}

fn object_at(table: &Table, number: usize, level: usize, left: &mut usize) -> Object {
    let mut object = Object { type_name: b"Other".to_vec(), code: None, attributes: Vec::new() };
    let Some(record) = table.records.get(number) else {
        return object;
    };
    let name = part(table, record.numbers[0], record.numbers[1]);
    if is_type(&name) {
        object.type_name = name;
    }
    let mut next = record.numbers[4] as usize;
    while next != 0 && next < table.records.len() && *left > 0 {
        *left -= 1;
        let attribute = &table.records[next];
        let name = part(table, attribute.numbers[0], attribute.numbers[1]);
        if is_name(&name) {
            let value = value_at(table, attribute.numbers[2] as usize, level, left);
            object.attributes.push(Attribute { name, existence: attribute.flag.min(2), value });
        }
        next = attribute.numbers[3] as usize;
    }
    object
}

fn value_at(table: &Table, number: usize, level: usize, left: &mut usize) -> Value {
    let Some(record) = table.records.get(number) else {
        return Value::Any;
    };
    match record.kind {
        1 if level < 16 => Value::Object(object_at(table, number, level + 1, left)),
        3 => Value::Booleans([true, false].into_iter().filter(|t| record.flag & (2 - u8::from(*t)) != 0).collect()),
        4 => Value::Integers(chain(table, number, |r| {
            Some((i64::from(r.numbers[0] as i32), i64::from(r.numbers[1] as i32)))
        })),
        5 => Value::Strings(chain(table, number, |r| {
            let string = part(table, r.numbers[0], r.numbers[1]);
            let plain = string.iter().all(|b| matches!(b, 0x20..=0x7E) && *b != b'"' && *b != b'\\');
            plain.then_some(string)
        })),
        6 => Value::DatePattern(record.flag.clamp(1, 5)),
        7 => Value::Dates(chain(table, number, |r| Some((unpacked(r.numbers[0])?, unpacked(r.numbers[1])?)))),
        8 => Value::TimePattern(record.flag.clamp(1, 4)),
        9 => Value::DurationPattern(record.flag.clamp(1, 127)),
        _ => Value::Any,
    }
    .or_any()
}

impl Value {
    /// `*` where a list has nothing in it.
    fn or_any(self) -> Value {
        let empty = match &self {
            Value::Booleans(list) => list.is_empty(),
            Value::Integers(list) | Value::Dates(list) => list.is_empty(),
            Value::Strings(list) => list.is_empty(),
            _ => false,
        };
        if empty {
            Value::Any
        } else {
            self
        }
    }
}

/// What can be read of an item list, at most 20 items.
fn chain<T>(table: &Table, first: usize, read: impl Fn(&Record) -> Option<T>) -> Vec<T> {
    let mut list = Vec::new();
    let mut next = first;
    for _ in 0..20 {
        let Some(record) = table.records.get(next).filter(|_| next != 0) else {
            break;
        };
        list.extend(read(record));
        next = record.numbers[4] as usize;
    }
    list
}
