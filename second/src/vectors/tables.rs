//! Cases of check, name and merge: worked examples, the limits, and tables from the generator.

use super::stream::{digest, Head, Stream};
use crate::api::{CheckAnswer, MergeAnswer, NameAnswer};
use crate::examples::handmade::{changed, compiled, every_kind, ordered, record, shared, table, unreached};
use crate::generator::{filling, Maker, MergeCase, Record, Table};
use crate::{check, limits, merge, name};

/// The seed of the generated cases, and how many there are of each job.
const SEED: u64 = 1;
const CHECKS: usize = 1_000;
const NAMES: usize = 300;
const MERGES: usize = 300;

/// The longest table that is taken from the generator; the limits are among the worked examples.
const LONGEST: usize = 1_200;

/// What an output is filled from.
const FILL: u8 = 7;

pub fn cases() -> Stream {
    let mut stream = Stream::default();
    worked_checks(&mut stream);
    worked_names(&mut stream);
    worked_merges(&mut stream);
    limit_checks(&mut stream);
    limit_merges(&mut stream);
    pool_merges(&mut stream);
    generated(&mut stream);
    stream
}

fn add_check(stream: &mut Stream, title: &str, bytes: &[u8]) {
    let answer = match check(bytes) {
        CheckAnswer::Passed => String::from(" passed"),
        CheckAnswer::Refused { number, place } => format!(" refused {number} at {place}"),
    };
    stream.add(&Head { kind: b'c', little: false, number: 0 }, title, &[bytes], &answer);
}

fn add_name(stream: &mut Stream, title: &str, bytes: &[u8], number: u32) {
    let (answer, part) = match name(bytes, number) {
        NameAnswer::Name { start, length } => {
            (format!(" start {start}, length {length}"), &bytes[start as usize..(start + length) as usize])
        }
        NameAnswer::Refused { number, place } => (format!(" refused {number} at {place}"), &bytes[..0]),
    };
    let answer = format!("{answer}, bytes {}", digest(part));
    stream.add(&Head { kind: b'n', little: false, number }, title, &[bytes], &answer);
}

fn add_merge(stream: &mut Stream, title: &str, first: &[u8], second: &[u8], little: bool, out: &[u8]) {
    let mut after = out.to_vec();
    let answer = match merge(first, second, little, &mut after) {
        MergeAnswer::Done { length, record_shift, pool_shift } => {
            format!(" length {length}, shifts {record_shift} and {pool_shift}")
        }
        MergeAnswer::Refused { number, place, table } => format!(" refused {number} at {place}, table {table}"),
    };
    let answer = format!("{answer}, bytes {}", digest(&after));
    stream.add(&Head { kind: b'm', little, number: 0 }, title, &[first, second, out], &answer);
}

fn smallest() -> Table {
    compiled("A matches {*}")
}

/// Tables by name, each in several orders.
fn named() -> Vec<(&'static str, Table)> {
    vec![
        ("smallest", smallest()),
        ("every kind", every_kind()),
        ("shared records", shared()),
        ("unreached records", unreached()),
        ("empty string", compiled("A matches {a matches {\"\"}}")),
        ("durations", compiled("A matches {a matches {Pwd} b matches {PTm}}")),
        ("nested", compiled("A matches {a matches {B[at1.2] matches {b matches {C matches {c matches {\"\", \"x\"}}}}} d matches {1, 2}}")),
    ]
}

const ORDERS: [(&str, &str); 4] = [("big", "b"), ("little", "l"), ("mixed", "bl"), ("mixed otherwise", "lbb")];

fn worked_checks(stream: &mut Stream) {
    for (title, each) in named() {
        for (order, pattern) in ORDERS {
            add_check(stream, &format!("check, {title}, {order}"), &ordered(&each, pattern).bytes());
        }
    }
    let whole = smallest().bytes();
    for length in [0, 1, 2, 23, 24, 25, 47, 48] {
        add_check(stream, &format!("check, smallest cut to {length}"), &whole[..length]);
    }
    add_check(stream, "check, smallest and a byte more", &[&whole[..], b"A"].concat());
    for (at, byte) in
        [(0, 0x00), (2, 1), (3, 1), (19, 1), (23, 1), (7, 1), (11, 2), (15, 0), (15, 2), (26, 2), (24, 0), (27, 1)]
    {
        let mut bytes = whole.clone();
        bytes[at] = byte;
        add_check(stream, &format!("check, smallest with byte {at} = {byte:02X}"), &bytes);
    }
    for (title, each) in record_cases() {
        add_check(stream, &format!("check, {title}"), &each.bytes());
    }
    // a title that fills the program's buffer for titles
    add_check(stream, &format!("{:.<256}", "check, smallest, with a title of 256 bytes"), &whole);
}

/// An object, an attribute and the records behind it.
fn under(records: &[Record], pool: &[u8]) -> Table {
    let mut all = vec![record(1, 0, [0, 1, 0, 0, 2]), record(2, 2, [1, 1, 3, 0, 0])];
    all.extend_from_slice(records);
    table(1, &all, pool)
}

/// A rule of a record at its edge, kept and broken.
fn record_cases() -> Vec<(String, Table)> {
    let mut all = Vec::new();
    let mut add = |title: String, each: Table| all.push((title, each));
    for (kind, flags) in [(3, [0, 1, 3, 4]), (6, [0, 1, 5, 6]), (8, [0, 1, 4, 5]), (9, [0, 1, 127, 128])] {
        for flag in flags {
            add(format!("kind {kind} with flag {flag}"), under(&[record(kind, flag, [0; 5])], b"Aa"));
        }
    }
    for (low, high) in [(u32::MAX, 0), (0, u32::MAX), (0x8000_0000, 0x7FFF_FFFF), (5, 5), (6, 5)] {
        add(format!("integers {low} to {high}"), under(&[record(4, 0, [low, high, 0, 0, 0])], b"Aa"));
    }
    for (low, high) in [
        (101, 99_991_231),
        (100, 101),
        (20_000_229, 20_000_229),
        (19_000_229, 19_000_301),
        (20_040_430, 20_040_431),
        (99_991_231, 99_991_232),
        (20_050_101, 20_041_231),
    ] {
        add(format!("dates {low} to {high}"), under(&[record(7, 0, [low, high, 0, 0, 0])], b"Aa"));
    }
    for (place, length) in
        [(0, 0), (1, 0), (2, 0), (0, 2), (1, 1), (1, 2), (2, 1), (u32::MAX, 1), (u32::MAX, 2), (0, 255), (0, 256)]
    {
        add(format!("string at {place} of {length}"), under(&[record(5, 0, [place, length, 0, 0, 0])], b"Aa"));
    }
    for link in [0, 1, 2, 3, 4, 5, u32::MAX] {
        add(
            format!("item linked to {link}"),
            under(&[record(4, 0, [1, 2, 0, 0, link]), record(4, 0, [3, 4, 0, 0, 0])], b"Aa"),
        );
    }
    for (field, letter) in ["a", "b", "c", "d", "e"].into_iter().enumerate() {
        for kind in [3, 6, 8, 9] {
            let each = changed(&under(&[record(kind, 1, [0; 5])], b"Aa"), 3, |record| record.numbers[field] = 1);
            add(format!("kind {kind} with {letter} = 1"), each);
        }
    }
    for flag in [2, 12, 64, 129, 255] {
        add(format!("kind 9 with flag {flag}"), under(&[record(9, flag, [0; 5])], b"Aa"));
    }
    for kind in [0, 2, 9, 10, 255] {
        add(format!("a value of kind {kind}"), under(&[record(kind, 0, [0; 5])], b"Aa"));
    }
    all
}

fn worked_names(stream: &mut Stream) {
    for (title, each) in named() {
        for (order, pattern) in ORDERS {
            for number in 0..=each.records.len() as u32 {
                add_name(
                    stream,
                    &format!("name of {number}, {title}, {order}"),
                    &ordered(&each, pattern).bytes(),
                    number,
                );
            }
        }
    }
    let whole = smallest().bytes();
    for number in [0, 1, 2, u32::MAX] {
        add_name(stream, &format!("name of {number}, no bytes"), &[], number);
        add_name(stream, &format!("name of {number}, a broken record"), &[&whole[..24], &[0; 25]].concat(), number);
        add_name(stream, &format!("name of {number}, smallest"), &whole, number);
    }
}

/// An output of so many bytes.
fn room(bytes: usize) -> Vec<u8> {
    filling(FILL, bytes)
}

/// The length of two tables merged.
fn needed(first: &Table, second: &Table) -> usize {
    first.bytes().len() + second.bytes().len() - limits::RECORD
}

fn worked_merges(stream: &mut Stream) {
    for (first, x) in named() {
        for (second, y) in named() {
            for (little, order) in [(false, "big"), (true, "little")] {
                let (x, y) = (ordered(&x, "lb"), ordered(&y, "bbl"));
                let title = format!("merge, {first} and {second}, into {order}");
                add_merge(stream, &title, &x.bytes(), &y.bytes(), little, &room(needed(&x, &y) + 5));
            }
        }
    }
    for (title, each) in named() {
        let (bytes, all) = (each.bytes(), needed(&each, &each));
        for (what, out) in [("exactly", all), ("one byte short", all - 1), ("none", 0), ("one record", 24)] {
            add_merge(stream, &format!("merge, {title} with itself, room {what}"), &bytes, &bytes, true, &room(out));
        }
    }
    let small = smallest().bytes();
    let broken = [&small[..24], &[0; 25]].concat();
    let rooted = table(2, &[record(1, 0, [0, 1, 0, 0, 0]), record(1, 0, [1, 1, 0, 0, 0])], b"AB").bytes();
    let pairs: [(&str, &[u8], &[u8]); 9] = [
        ("no bytes and no bytes", &[], &[]),
        ("no bytes and smallest", &[], &small),
        ("smallest and no bytes", &small, &[]),
        ("broken and smallest", &broken, &small),
        ("smallest and broken", &small, &broken),
        ("broken and no bytes", &broken, &[]),
        ("root 2 and smallest", &rooted, &small),
        ("smallest and root 2", &small, &rooted),
        ("root 2 with itself", &rooted, &rooted),
    ];
    for (title, first, second) in pairs {
        add_merge(stream, &format!("merge, {title}"), first, second, false, &room(200));
        add_merge(stream, &format!("merge, {title}, no room"), first, second, true, &[]);
    }
}

/// A table of objects without attributes, so many records and bytes of the pool.
fn plain(count: usize, pool: usize) -> Table {
    table(1, &vec![record(1, 0, [0, 1, 0, 0, 0]); count - 1], &vec![b'A'; pool])
}

fn limit_checks(stream: &mut Stream) {
    for count in [limits::RECORDS - 1, limits::RECORDS, limits::RECORDS + 1] {
        add_check(stream, &format!("check, {count} records"), &plain(count, 1).bytes());
        add_check(stream, &format!("check, {count} records, little"), &ordered(&plain(count, 1), "l").bytes());
    }
    for pool in [limits::POOL - 1, limits::POOL, limits::POOL + 1] {
        add_check(stream, &format!("check, pool of {pool}"), &plain(2, pool).bytes());
    }
    let most = plain(limits::RECORDS, limits::POOL);
    add_check(stream, "check, the largest table", &most.bytes());
    let last = limits::RECORDS - 1;
    add_check(
        stream,
        "check, the largest table, its last record broken",
        &changed(&most, last, |record| record.flag = 1).bytes(),
    );
    add_name(stream, "name of the last record of the largest table", &most.bytes(), last as u32);
}

fn limit_merges(stream: &mut Stream) {
    let half = limits::RECORDS / 2;
    let sizes = [
        ("2,047 records", (half, 1), (half, 1)),
        ("2,048 records", (half, 1), (half + 1, 1)),
        ("2,049 records", (half + 1, 1), (half + 1, 1)),
        ("pool of 16,384", (2, limits::POOL / 2), (2, limits::POOL / 2)),
        ("pool of 16,385", (2, limits::POOL / 2), (2, limits::POOL / 2 + 1)),
        ("2,049 records and a pool of 16,385", (half + 1, limits::POOL), (half + 1, 1)),
        ("2,048 records and a pool of 16,384", (limits::RECORDS - 1, limits::POOL - 1), (2, 1)),
    ];
    for (title, x, y) in sizes {
        let (first, second) = (plain(x.0, x.1), plain(y.0, y.1));
        let all = needed(&first, &second).min(65_536);
        for little in [false, true] {
            let order = if little { "little" } else { "big" };
            add_merge(
                stream,
                &format!("merge to {title}, {order}"),
                &first.bytes(),
                &second.bytes(),
                little,
                &room(all),
            );
            add_merge(
                stream,
                &format!("merge to {title}, {order}, one byte short"),
                &first.bytes(),
                &second.bytes(),
                little,
                &room(all - 1),
            );
        }
    }
}

/// The smallest table and one whose pool, with the smallest's byte, fills a pool or is a byte above it.
fn pool_merges(stream: &mut Stream) {
    let small = smallest();
    for pool in [limits::POOL - 1, limits::POOL] {
        for (own, pattern) in [("big", "b"), ("little", "l")] {
            let long = ordered(&plain(2, pool), pattern);
            let title = format!("a pool of {pool} in {own}");
            add_rooms(stream, &format!("smallest and {title}"), &small, &long);
            add_rooms(stream, &format!("{title} and smallest"), &long, &small);
        }
    }
}

/// A merge in both orders, with an output that fits exactly and with one that is a byte too short.
fn add_rooms(stream: &mut Stream, title: &str, first: &Table, second: &Table) {
    let all = needed(first, second);
    for (little, order) in [(false, "big"), (true, "little")] {
        for (what, out) in [("exactly", all), ("one byte short", all - 1)] {
            let title = format!("merge, {title}, into {order}, room {what}");
            add_merge(stream, &title, &first.bytes(), &second.bytes(), little, &room(out));
        }
    }
}

fn generated(stream: &mut Stream) {
    let maker = Maker::new(SEED);
    let checks = (0..).map(|number| (number, maker.check(number))).filter(|(_, case)| case.table.len() <= LONGEST);
    for (number, case) in checks.take(CHECKS) {
        add_check(stream, &format!("check {number}"), &case.table);
    }
    let names = (0..).map(|number| (number, maker.name(number))).filter(|(_, case)| case.table.len() <= LONGEST);
    for (number, case) in names.take(NAMES) {
        add_name(stream, &format!("name {number}"), &case.table, case.record);
    }
    let short = |case: &MergeCase| case.first.len().max(case.second.len()) <= LONGEST && case.room <= 2 * LONGEST;
    let merges = (0..).map(|number| (number, maker.merge(number))).filter(|(_, case)| short(case));
    for (number, case) in merges.take(MERGES) {
        add_merge(
            stream,
            &format!("merge {number}"),
            &case.first,
            &case.second,
            case.little,
            &filling(case.fill, case.room),
        );
    }
}
