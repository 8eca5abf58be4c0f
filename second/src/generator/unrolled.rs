//! A table's object written out as a shape that a text could say, with the record that each of
//! the text's records stands for. Shared records are written out once for each use.

use super::calendar::unpacked;
use super::shape::{Attribute, Object, Value};
use super::tables::{Record, Table};

/// A shape and, for its records in text order, their numbers in the table.
#[derive(Clone, Debug, PartialEq, Eq)]
pub struct Unrolled {
    pub shape: Object,
    pub numbers: Vec<u32>,
}

/// More records than this are not written out.
const MOST: usize = 200;

/// Writes out the object of a sound table at a root; nothing when no text could say it: names
/// repeated or unspellable, items that overlap, too many items, levels or records.
pub fn unrolled(table: &Table, root: usize) -> Option<Unrolled> {
    let mut numbers = Vec::new();
    let shape = object(table, root, 1, &mut numbers)?;
    Some(Unrolled { shape, numbers })
}

fn add(numbers: &mut Vec<u32>, number: usize) -> Option<()> {
    numbers.push(number as u32);
    (numbers.len() <= MOST).then_some(())
}

fn part<'a>(table: &'a Table, record: &Record) -> &'a [u8] {
    let start = record.numbers[0] as usize;
    &table.pool[start..start + record.numbers[1] as usize]
}

fn is_run(bytes: &[u8]) -> bool {
    bytes.iter().all(|byte| byte.is_ascii_alphanumeric() || *byte == b'_')
}

/// A type that data can write; any other type can only be left out by data, so `Other` stands for it.
fn type_name(bytes: &[u8]) -> Vec<u8> {
    let spelled = is_run(bytes) && bytes[0].is_ascii_uppercase() && bytes != b"True" && bytes != b"False";
    if spelled {
        bytes.to_vec()
    } else {
        b"NoDataWritesThis".to_vec()
    }
}

fn object(table: &Table, number: usize, level: usize, numbers: &mut Vec<u32>) -> Option<Object> {
    if level > 16 {
        return None;
    }
    add(numbers, number)?;
    let record = &table.records[number];
    let mut object = Object { type_name: type_name(part(table, record)), code: None, attributes: Vec::new() };
    let mut next = record.numbers[4] as usize;
    while next != 0 {
        let attribute = attribute(table, next, level, numbers)?;
        if object.attributes.iter().any(|other| other.name == attribute.name) {
            return None;
        }
        object.attributes.push(attribute);
        next = table.records[next].numbers[3] as usize;
    }
    Some(object)
}

fn attribute(table: &Table, number: usize, level: usize, numbers: &mut Vec<u32>) -> Option<Attribute> {
    add(numbers, number)?;
    let record = &table.records[number];
    let name = part(table, record);
    let spelled = is_run(name) && name[0].is_ascii_lowercase() && name != b"matches" && name != b"existence";
    if !spelled {
        return None;
    }
    let value = match record.numbers[2] as usize {
        0 => Value::Any,
        below => value(table, below, level, numbers)?,
    };
    Some(Attribute { name: name.to_vec(), existence: record.flag, value })
}

fn value(table: &Table, number: usize, level: usize, numbers: &mut Vec<u32>) -> Option<Value> {
    let record = &table.records[number];
    if record.kind == 1 {
        return Some(Value::Object(object(table, number, level + 1, numbers)?));
    }
    let items = items(table, number);
    for item in &items {
        add(numbers, *item)?;
    }
    let records = items.iter().map(|item| &table.records[*item]);
    Some(match record.kind {
        3 => Value::Booleans(
            [(1, true), (2, false)].into_iter().filter(|t| record.flag & t.0 != 0).map(|t| t.1).collect(),
        ),
        4 => Value::Integers(apart(records.map(|r| Some((number_of(r, 0), number_of(r, 1)))).collect())?),
        5 => Value::Strings(distinct(records.map(|r| part(table, r).to_vec()).collect())?),
        6 => Value::DatePattern(record.flag),
        7 => Value::Dates(apart(records.map(|r| Some((unpacked(r.numbers[0])?, unpacked(r.numbers[1])?))).collect())?),
        8 => Value::TimePattern(record.flag),
        _ => Value::DurationPattern(record.flag),
    })
}

fn number_of(record: &Record, field: usize) -> i64 {
    i64::from(record.numbers[field] as i32)
}

/// The numbers of an item list (or of the one record of a leaf without a list).
fn items(table: &Table, first: usize) -> Vec<usize> {
    let mut list = vec![first];
    let mut next = table.records[first].numbers[4] as usize;
    while next != 0 {
        list.push(next);
        next = table.records[next].numbers[4] as usize;
    }
    list
}

/// The pairs when there are at most 16 and none overlaps another.
fn apart(pairs: Option<Vec<(i64, i64)>>) -> Option<Vec<(i64, i64)>> {
    let pairs = pairs?;
    let overlap =
        pairs.iter().enumerate().any(|(at, one)| pairs[..at].iter().any(|two| one.0 <= two.1 && two.0 <= one.1));
    (pairs.len() <= 16 && !overlap).then_some(pairs)
}

/// The strings when there are at most 16, all can be spelled and none equals another.
fn distinct(list: Vec<Vec<u8>>) -> Option<Vec<Vec<u8>>> {
    let plain = list.iter().flatten().all(|byte| matches!(byte, 0x20..=0x7E) && *byte != b'"' && *byte != b'\\');
    let equal = list.iter().enumerate().any(|(at, one)| list[..at].contains(one));
    (list.len() <= 16 && plain && !equal).then_some(list)
}
