//! Damage to tables: each rule of the check broken, field by field, and bytes changed at random.

use super::random::Random;
use super::tables::{Record, Table, MOST_POOL, MOST_RECORDS, RECORD};

/// Breaks a table in one way (in rare cases the table stays sound).
pub fn broken(random: &mut Random, bytes: &[u8]) -> Vec<u8> {
    let mut table = Table::read(bytes);
    if table.records.len() < 2 {
        return other_length(random, bytes.to_vec());
    }
    match random.below(12) {
        0 => return other_length(random, bytes.to_vec()),
        1 | 2 => break_header(random, &mut table),
        3 => return over_limit(random, table),
        4 => return random_bytes(random, bytes.to_vec()),
        5 => swap_mark(random, &mut table),
        6 => random_number(random, &mut table),
        _ => break_record(random, &mut table),
    }
    table.bytes()
}

/// A few bytes more, or some fewer.
fn other_length(random: &mut Random, mut bytes: Vec<u8>) -> Vec<u8> {
    match random.below(5) {
        0 => bytes.push(random.byte()),
        1 => bytes.extend(vec![0; RECORD]),
        2 => bytes.truncate(bytes.len().saturating_sub(1)),
        3 => bytes.truncate(bytes.len().saturating_sub(RECORD)),
        _ => bytes.truncate(random.below(bytes.len() + 1)),
    }
    bytes
}

fn random_bytes(random: &mut Random, mut bytes: Vec<u8>) -> Vec<u8> {
    for _ in 0..=random.below(3) {
        let at = random.below(bytes.len());
        bytes[at] = if random.coin() { random.byte() } else { bytes[at] ^ (1 << random.below(8)) };
    }
    bytes
}

/// A header that goes one step beyond a limit, with the length that fits it.
fn over_limit(random: &mut Random, mut table: Table) -> Vec<u8> {
    let root = table.records[0].numbers[2];
    match random.below(4) {
        0 => table.records.truncate(1),
        1 => table.records.resize(MOST_RECORDS + 1, Record::new(3, 1, [0; 5])),
        2 => table.pool.resize(MOST_POOL + 1, b'a'),
        _ => {
            table.records.resize(MOST_RECORDS, Record::new(3, 1, [0; 5]));
            table.pool.resize(MOST_POOL, b'a');
        }
    }
    table.set_header(root);
    table.bytes()
}

fn break_header(random: &mut Random, table: &mut Table) {
    let count = table.records.len() as u32;
    let pool = table.pool.len() as u32;
    let not_object = (1..table.records.len()).find(|&n| table.records[n].kind != 1).unwrap_or(0) as u32;
    let object = (1..table.records.len()).rev().find(|&n| table.records[n].kind == 1).unwrap_or(0) as u32;
    let header = &mut table.records[0];
    match random.below(11) {
        0 => break_mark(random, header),
        1 => header.kind = 1 + random.below(255) as u8,
        2 => header.flag = 1 + random.below(255) as u8,
        3 => header.numbers[0] = random.one_of(&[count - 1, count + 1, 0, 1, 2049, u32::MAX]),
        4 => header.numbers[1] = random.one_of(&[pool.wrapping_sub(1), pool + 1, 0, 16_385, u32::MAX]),
        5 => header.numbers[2] = random.one_of(&[0, count, count + 1, u32::MAX]),
        6 => header.numbers[2] = not_object,
        7 => header.numbers[2] = object,
        8 => header.numbers[3] = 1,
        9 => header.numbers[4] = 0x0100_0000,
        _ => header.numbers = header.numbers.map(u32::swap_bytes),
    }
}

fn break_mark(random: &mut Random, record: &mut Record) {
    record.mark = match random.below(5) {
        0 => [0xC0, 0xC0],
        1 => [0xAD, 0xAD],
        2 => [0, 0],
        3 => [record.mark[0], record.mark[1] ^ (1 << random.below(8))],
        _ => [record.mark[0] ^ (1 << random.below(8)), record.mark[1]],
    };
}

/// The other mark with the bytes left as they were: every number reads in the wrong order.
fn swap_mark(random: &mut Random, table: &mut Table) {
    let at = random.below(table.records.len());
    let record = &mut table.records[at];
    record.set_order(!record.is_little());
    record.numbers = record.numbers.map(u32::swap_bytes);
}

/// A number of interest in any field of any record.
fn random_number(random: &mut Random, table: &mut Table) {
    let count = table.records.len() as u32;
    let pool = table.pool.len() as u32;
    let at = random.below(table.records.len());
    let own = at as u32;
    let numbers = [
        0,
        1,
        own,
        own + 1,
        own.wrapping_sub(1),
        count - 1,
        count,
        count + 1,
        pool,
        pool + 1,
        31,
        32,
        63,
        64,
        255,
        256,
        0x7FFF_FFFF,
        0x8000_0000,
        u32::MAX,
        20_000_229,
        19_000_229,
        99_991_231,
        100_000_101,
        101,
        1_301,
    ];
    table.records[at].numbers[random.below(5)] = random.one_of(&numbers);
}

/// Breaks one rule of one record's kind.
fn break_record(random: &mut Random, table: &mut Table) {
    let count = table.records.len();
    let pool = table.pool.len() as u32;
    let at = 1 + random.below(count - 1);
    let wrong_link = wrong_link(random, table, at);
    let record = &mut table.records[at];
    match random.below(8) {
        0 => break_mark(random, record),
        1 => record.kind = random.one_of(&[0, 10, 255, 1, 2, 3, 4, 5, 6, 7, 8, 9, 9]),
        2 => record.flag = random.one_of(&[0, 1, 2, 3, 4, 5, 6, 127, 128, 255]),
        3 => unnamed_field(random, record),
        _ => match record.kind {
            1 | 2 | 5 if random.coin() => break_pair(random, record, pool),
            4 => break_range(random, record, wrong_link, [0x8000_0000, 0x7FFF_FFFF, 5, 4]),
            7 => {
                let numbers = random.one_of(&DATE_RANGES);
                break_range(random, record, wrong_link, numbers);
            }
            1 => record.numbers[4] = wrong_link,
            2 => record.numbers[if random.coin() { 2 } else { 3 }] = wrong_link,
            5 => record.numbers[4] = wrong_link,
            9 => record.flag = random.one_of(&[0, 128, 129, 255]),
            _ => record.flag = random.one_of(&[0, 4, 5, 6, 255]),
        },
    }
}

/// Good and bad dates in pairs, two to a row.
const DATE_RANGES: [[u32; 4]; 6] = [
    [20_000_229, 20_000_229, 19_000_229, 20_000_229],
    [20_000_229, 20_000_230, 20_010_101, 20_001_231],
    [0, 20_000_101, 101, 101],
    [20_000_101, 99_991_231, 20_000_101, 99_991_232],
    [20_000_101, 100_000_101, 20_001_301, 20_001_301],
    [20_000_431, 20_000_501, 20_000_400, 20_000_501],
];

fn break_range(random: &mut Random, record: &mut Record, wrong_link: u32, numbers: [u32; 4]) {
    match random.below(4) {
        0 => record.numbers.swap(0, 1),
        1 => record.numbers[4] = wrong_link,
        2 => (record.numbers[0], record.numbers[1]) = (numbers[0], numbers[1]),
        _ => (record.numbers[0], record.numbers[1]) = (numbers[2], numbers[3]),
    }
}

/// A field that the kind does not name gets a number.
fn unnamed_field(random: &mut Random, record: &mut Record) {
    let fields: &[usize] = match record.kind {
        1 => &[4],
        2 => &[4],
        3 | 6 | 8 | 9 => &[0, 1, 2, 3, 4],
        _ => &[2, 3],
    };
    let field = random.one_of(fields);
    record.numbers[field] = random.one_of(&[1, 0x8000_0000, u32::MAX]);
}

/// A pool pair that leaves the pool, is too long or empty where it must not, or has a place for nothing.
fn break_pair(random: &mut Random, record: &mut Record, pool: u32) {
    let at = if record.kind == 1 && random.coin() { 2 } else { 0 };
    let (place, length) = random.one_of(&[
        (pool, 1),
        (pool - pool.min(1), 2),
        (0, pool + 1),
        (1, 0),
        (pool, 0),
        (0, 0),
        (0, 31),
        (0, 32),
        (0, 63),
        (0, 64),
        (0, 255),
        (0, 256),
        (u32::MAX, 1),
        (1, u32::MAX),
        (u32::MAX, u32::MAX),
    ]);
    record.numbers[at] = place;
    record.numbers[at + 1] = length;
}

/// A link that no rule lets stand, in most cases.
fn wrong_link(random: &mut Random, table: &Table, at: usize) -> u32 {
    let count = table.records.len();
    match random.below(7) {
        0 => at as u32,
        1 => random.below(at) as u32,
        2 => count as u32,
        3 => count as u32 + 1,
        4 => u32::MAX,
        5 => count as u32 - 1,
        _ => (at + 1 + random.below(count - at)) as u32,
    }
}
