//! The check of a table: each rule broken once, 12 before 13, and the lowest record named.

mod common;
use common::*;
use second::api::*;
use second::{check, judge, merge, name};

/// A table with every kind of record. Pool: `A` `at1` `a` `xy`.
const LINES: [Line; 13] = [
    (1, 0, [0, 1, 1, 3, 2]),
    (2, 2, [4, 1, 3, 4, 0]),
    (3, 3, [0, 0, 0, 0, 0]),
    (2, 1, [4, 1, 5, 7, 0]),
    (4, 0, [0xFFFF_FFFB, 5, 0, 0, 6]),
    (4, 0, [7, 7, 0, 0, 0]),
    (2, 0, [4, 1, 8, 10, 0]),
    (5, 0, [5, 2, 0, 0, 9]),
    (5, 0, [0, 0, 0, 0, 0]),
    (2, 2, [4, 1, 11, 0, 0]),
    (7, 0, [101, 99_991_231, 0, 0, 0]),
    (6, 5, [0, 0, 0, 0, 0]),
    (8, 4, [0, 0, 0, 0, 0]),
];
const POOL: &str = "Aat1axy";

fn refusal(number: u32, place: u64) -> CheckAnswer {
    CheckAnswer::Refused { number, place }
}

/// All jobs that take a table answer alike.
fn checks(bytes: &[u8], answer: CheckAnswer) {
    assert_eq!(check(bytes), answer);
    if let CheckAnswer::Refused { number, place } = answer {
        assert_eq!(judge(bytes, 77, b"?"), JudgeAnswer::Refused { number, place });
        assert_eq!(name(bytes, 77), NameAnswer::Refused { number, place });
        let good = made(false, 1, &[(1, 0, [0, 1, 0, 0, 0])], "A");
        assert_eq!(merge(bytes, b"", true, &mut []), MergeAnswer::Refused { number, place, table: 1 });
        assert_eq!(merge(&good, bytes, true, &mut []), MergeAnswer::Refused { number, place, table: 2 });
    }
}

/// The answer for the table with one record exchanged.
fn with(number: usize, line: Line, answer: CheckAnswer) {
    let mut lines = LINES;
    lines[number - 1] = line;
    for bytes in [made(false, 1, &lines, POOL), made(true, 1, &lines, POOL), made_mixed(false, 1, &lines, POOL)] {
        checks(&bytes, answer);
    }
}

/// The record breaks a rule.
fn breaks(number: usize, line: Line) {
    with(number, line, refusal(13, number as u64));
}

/// The record breaks none.
fn keeps(number: usize, line: Line) {
    with(number, line, CheckAnswer::Passed);
}

#[test]
fn the_whole_table_passes() {
    for number in 1..=13 {
        keeps(number, LINES[number - 1]);
    }
    checks(&made_mixed(true, 1, &LINES, POOL), CheckAnswer::Passed);
}

#[test]
fn length() {
    let bytes = made(false, 1, &LINES, POOL);
    for length in 0..bytes.len() {
        checks(&bytes[..length], refusal(12, 0));
    }
    let mut longer = bytes.clone();
    longer.push(0);
    checks(&longer, refusal(12, 0));
    checks(&[0xFF; 100], refusal(12, 0));
}

/// The answer for a header with these fields before one object.
fn header(mark: [u8; 2], kind: u8, flag: u8, numbers: [u32; 5], answer: CheckAnswer) {
    let mut bytes = record(mark == [0xAD, 0xC0], kind, flag, numbers);
    bytes[..2].copy_from_slice(&mark);
    bytes.extend(record(false, 1, 0, [0, 1, 0, 0, 0]));
    bytes.push(b'A');
    checks(&bytes, answer);
}

#[test]
fn header_fields() {
    let big = [0xC0, 0xAD];
    header(big, 0, 0, [2, 1, 1, 0, 0], CheckAnswer::Passed);
    header([0xAD, 0xC0], 0, 0, [2, 1, 1, 0, 0], CheckAnswer::Passed);
    header([0xC0, 0xC0], 0, 0, [2, 1, 1, 0, 0], refusal(12, 0));
    header([0xAD, 0xAD], 0, 0, [2, 1, 1, 0, 0], refusal(12, 0));
    header(big, 1, 0, [2, 1, 1, 0, 0], refusal(12, 0));
    header(big, 9, 0, [2, 1, 1, 0, 0], refusal(12, 0));
    header(big, 0, 1, [2, 1, 1, 0, 0], refusal(12, 0));
    header(big, 0, 0, [1, 1, 1, 0, 0], refusal(12, 0));
    header(big, 0, 0, [1, 25, 0, 0, 0], refusal(12, 0));
    header(big, 0, 0, [0, 49, 1, 0, 0], refusal(12, 0));
    header(big, 0, 0, [3, 1, 1, 0, 0], refusal(12, 0));
    header(big, 0, 0, [2, 0, 1, 0, 0], refusal(12, 0));
    header(big, 0, 0, [2, 2, 1, 0, 0], refusal(12, 0));
    header(big, 0, 0, [2, 1, 0, 0, 0], refusal(12, 0));
    header(big, 0, 0, [2, 1, 2, 0, 0], refusal(12, 0));
    header(big, 0, 0, [2, 1, u32::MAX, 0, 0], refusal(12, 0));
    header(big, 0, 0, [2, 1, 1, 1, 0], refusal(12, 0));
    header(big, 0, 0, [2, 1, 1, 0, 1], refusal(12, 0));
    header(big, 0, 0, [u32::MAX, u32::MAX, 1, 0, 0], refusal(12, 0));
}

#[test]
fn a_header_of_one_record_and_no_root() {
    let mut bytes = record(false, 0, 0, [1, 0, 0, 0, 0]);
    checks(&bytes, refusal(12, 0));
    bytes[16] = 1;
    checks(&bytes, refusal(12, 0));
}

#[test]
fn root_kind() {
    for (root, answer) in [(1, CheckAnswer::Passed), (2, refusal(12, 0)), (13, refusal(12, 0)), (14, refusal(12, 0))] {
        checks(&made(false, root, &LINES, POOL), answer);
    }
    // Only the root's kind byte belongs to the header; its mark is the record's own.
    let mut bytes = made(false, 1, &LINES, POOL);
    bytes[24] = 0;
    checks(&bytes, refusal(13, 1));
    bytes[26] = 2;
    checks(&bytes, refusal(12, 0));
}

#[test]
fn count_and_pool_limits() {
    let wide = |count: usize| {
        let lines: Vec<Line> = vec![(1, 0, [0, 1, 0, 0, 0]); count - 1];
        made(true, 1, &lines, "A")
    };
    checks(&wide(2_048), CheckAnswer::Passed);
    checks(&wide(2_049), refusal(12, 0));
    let deep = |pool: usize| made(true, 1, &[(1, 0, [0, 1, 0, 0, 0])], &"A".repeat(pool));
    checks(&deep(16_384), CheckAnswer::Passed);
    checks(&deep(16_385), refusal(12, 0));
}

#[test]
fn marks() {
    for number in 1..=13 {
        for mark in [[0, 0], [0xC0, 0xC0], [0xAD, 0xAD], [0xC0, 0xAE]] {
            let mut bytes = made(true, 1, &LINES, POOL);
            bytes[24 * number..24 * number + 2].copy_from_slice(&mark);
            checks(&bytes, refusal(13, number as u64));
        }
    }
    // The other order's mark makes other numbers of the same bytes.
    let mut bytes = made(true, 1, &LINES, POOL);
    bytes[24..26].copy_from_slice(&[0xC0, 0xAD]);
    checks(&bytes, refusal(13, 1));
    // A record whose numbers are all 0 is the same in both.
    let mut bytes = made(true, 1, &LINES, POOL);
    bytes[72..74].copy_from_slice(&[0xC0, 0xAD]);
    checks(&bytes, CheckAnswer::Passed);
}

#[test]
fn kinds() {
    for kind in [0, 10, 11, 128, 255] {
        breaks(13, (kind, 0, [0; 5]));
        breaks(12, (kind, 1, [0; 5]));
    }
    breaks(13, (9, 0, [0; 5]));
    keeps(12, (9, 1, [0; 5]));
}

#[test]
fn flags() {
    breaks(1, (1, 1, LINES[0].2));
    for flag in 0..=2 {
        keeps(2, (2, flag, LINES[1].2));
    }
    breaks(2, (2, 3, LINES[1].2));
    for flag in 1..=3 {
        keeps(3, (3, flag, [0; 5]));
    }
    breaks(3, (3, 0, [0; 5]));
    breaks(3, (3, 4, [0; 5]));
    breaks(5, (4, 1, LINES[4].2));
    breaks(8, (5, 1, LINES[7].2));
    for flag in 1..=5 {
        keeps(12, (6, flag, [0; 5]));
    }
    breaks(12, (6, 0, [0; 5]));
    breaks(12, (6, 6, [0; 5]));
    breaks(11, (7, 1, LINES[10].2));
    for flag in 1..=4 {
        keeps(13, (8, flag, [0; 5]));
    }
    breaks(13, (8, 0, [0; 5]));
    breaks(13, (8, 5, [0; 5]));
    for flag in [1, 5, 64, 127] {
        keeps(13, (9, flag, [0; 5]));
    }
    for flag in [0, 128, 129, 255] {
        breaks(13, (9, flag, [0; 5]));
    }
}

#[test]
fn fields_not_named_are_0() {
    for (number, fields) in [
        (2, [4].as_slice()),
        (3, &[0, 1, 2, 3, 4]),
        (5, &[2, 3]),
        (8, &[2, 3]),
        (11, &[2, 3]),
        (12, &[0, 1, 2, 3, 4]),
        (13, &[0, 1, 2, 3, 4]),
    ] {
        for field in fields {
            let (kind, flag, mut numbers) = LINES[number - 1];
            numbers[*field] = 1;
            breaks(number, (kind, flag, numbers));
        }
    }
}

#[test]
fn object_links() {
    keeps(1, (1, 0, [0, 1, 1, 3, 0]));
    keeps(1, (1, 0, [0, 1, 1, 3, 10]));
    // To itself, below, past the end, to another kind.
    for link in [1, 3, 5, 8, 11, 12, 13, 14, 2_048, u32::MAX] {
        breaks(1, (1, 0, [0, 1, 1, 3, link]));
    }
    let mut lines = LINES.to_vec();
    lines.push((1, 0, [0, 1, 0, 0, 2]));
    checks(&made(false, 1, &lines, POOL), refusal(13, 14));
}

#[test]
fn attribute_links() {
    for value in [0, 3, 5, 6, 8, 9, 11, 12, 13] {
        keeps(2, (2, 2, [4, 1, value, 4, 0]));
    }
    for value in [1, 2, 4, 7, 10, 14, u32::MAX] {
        breaks(2, (2, 2, [4, 1, value, 4, 0]));
    }
    for next in [0, 4, 7, 10] {
        keeps(2, (2, 2, [4, 1, 3, next, 0]));
    }
    for next in [1, 2, 3, 5, 8, 11, 12, 13, 14, u32::MAX] {
        breaks(2, (2, 2, [4, 1, 3, next, 0]));
    }
    for (link, good) in [(2, false), (3, false), (4, false), (7, true)] {
        let line = (2, 1, [4, 1, 5, link, 0]);
        if good {
            keeps(4, line);
        } else {
            breaks(4, line);
        }
    }
    // An object below the attribute.
    let mut lines = LINES.to_vec();
    lines.push((1, 0, [0, 1, 0, 0, 0]));
    lines[1].2[2] = 14;
    checks(&made(false, 1, &lines, POOL), CheckAnswer::Passed);
    lines[1].2[3] = 14;
    checks(&made(false, 1, &lines, POOL), refusal(13, 2));
}

#[test]
fn item_links_are_of_the_same_kind() {
    for next in [0, 6] {
        keeps(5, (4, 0, [1, 2, 0, 0, next]));
    }
    for next in [1, 3, 5, 8, 11, 12, 14] {
        breaks(5, (4, 0, [1, 2, 0, 0, next]));
    }
    breaks(6, (4, 0, [7, 7, 0, 0, 5]));
    breaks(6, (4, 0, [7, 7, 0, 0, 6]));
    for next in [5, 6, 8, 10, 11, 14] {
        breaks(8, (5, 0, [5, 2, 0, 0, next]));
    }
    for next in [5, 8, 11, 12, 13, 14] {
        breaks(11, (7, 0, [101, 101, 0, 0, next]));
    }
}

#[test]
fn pool_pairs() {
    keeps(1, (1, 0, [6, 1, 0, 0, 2]));
    keeps(1, (1, 0, [0, 7, 0, 7, 2]));
    breaks(1, (1, 0, [7, 1, 0, 0, 2]));
    breaks(1, (1, 0, [6, 2, 0, 0, 2]));
    breaks(1, (1, 0, [0, 8, 0, 0, 2]));
    breaks(1, (1, 0, [u32::MAX, 1, 0, 0, 2]));
    breaks(1, (1, 0, [0, u32::MAX, 0, 0, 2]));
    // A type isn't empty; a code may be, at place 0.
    breaks(1, (1, 0, [0, 0, 0, 0, 2]));
    breaks(1, (1, 0, [0, 1, 1, 0, 2]));
    breaks(1, (1, 0, [0, 1, 7, 0, 2]));
    breaks(1, (1, 0, [0, 1, 7, 1, 2]));
    breaks(1, (1, 0, [0, 1, u32::MAX, u32::MAX, 2]));
    breaks(2, (2, 2, [0, 0, 3, 4, 0]));
    breaks(2, (2, 2, [7, 1, 3, 4, 0]));
    keeps(8, (5, 0, [0, 0, 0, 0, 9]));
    breaks(8, (5, 0, [1, 0, 0, 0, 9]));
    breaks(8, (5, 0, [7, 0, 0, 0, 9]));
    breaks(8, (5, 0, [5, 3, 0, 0, 9]));
    keeps(8, (5, 0, [0, 7, 0, 0, 9]));
}

#[test]
fn pool_lengths() {
    let pool = "A".repeat(300);
    let answer = |line: Line| check(&made(true, 1, &[(1, 0, [0, 1, 0, 0, 0]), line], &pool));
    for (line, good) in [
        ((1, 0, [0, 63, 0, 0, 0]), true),
        ((1, 0, [0, 64, 0, 0, 0]), false),
        ((1, 0, [0, 1, 0, 31, 0]), true),
        ((1, 0, [0, 1, 0, 32, 0]), false),
        ((2, 0, [0, 63, 0, 0, 0]), true),
        ((2, 0, [0, 64, 0, 0, 0]), false),
        ((5, 0, [0, 255, 0, 0, 0]), true),
        ((5, 0, [45, 255, 0, 0, 0]), true),
        ((5, 0, [46, 255, 0, 0, 0]), false),
        ((5, 0, [0, 256, 0, 0, 0]), false),
    ] {
        let expected = if good { CheckAnswer::Passed } else { refusal(13, 2) };
        assert_eq!(answer(line), expected, "{line:?}");
    }
}

#[test]
fn low_and_high() {
    keeps(5, (4, 0, [0x8000_0000, 0x7FFF_FFFF, 0, 0, 6]));
    keeps(5, (4, 0, [0xFFFF_FFFF, 0, 0, 0, 6]));
    keeps(5, (4, 0, [5, 5, 0, 0, 6]));
    breaks(5, (4, 0, [6, 5, 0, 0, 6]));
    breaks(5, (4, 0, [0, 0xFFFF_FFFF, 0, 0, 6]));
    breaks(5, (4, 0, [0x7FFF_FFFF, 0x8000_0000, 0, 0, 6]));
    keeps(11, (7, 0, [20_040_229, 20_040_229, 0, 0, 0]));
    breaks(11, (7, 0, [20_040_301, 20_040_229, 0, 0, 0]));
}

#[test]
fn dates() {
    for bad in [
        0,
        1,
        100,
        20_040_000,
        20_040_100,
        20_040_132,
        20_040_230,
        19_000_229,
        20_010_229,
        20_041_301,
        20_040_431,
        99_991_232,
        100_000_101,
        u32::MAX,
    ] {
        breaks(11, (7, 0, [101, bad, 0, 0, 0]));
        breaks(11, (7, 0, [bad, 99_991_231, 0, 0, 0]));
    }
    for good in [101, 229, 20_000_229, 20_040_430, 99_991_231] {
        keeps(11, (7, 0, [good, good, 0, 0, 0]));
    }
}

#[test]
fn lowest_record_is_named() {
    let mut lines = LINES;
    lines[12].1 = 0;
    lines[7].1 = 1;
    lines[10].2[0] = 0;
    checks(&made(false, 1, &lines, POOL), refusal(13, 8));
    // A kind byte changed breaks the rule of the record that links to it, if that is lower.
    let mut lines = LINES;
    lines[5].0 = 0;
    checks(&made(false, 1, &lines, POOL), refusal(13, 5));
    // 12 comes before 13.
    let mut bytes = made(false, 1, &lines, POOL);
    bytes.push(0);
    checks(&bytes, refusal(12, 0));
}

#[test]
fn names() {
    let bytes = made_mixed(false, 1, &LINES, POOL);
    // 14 records of 24 bytes, then the pool.
    assert_eq!(name(&bytes, 1), NameAnswer::Name { start: 336, length: 1 });
    assert_eq!(name(&bytes, 2), NameAnswer::Name { start: 340, length: 1 });
    assert_eq!(name(&bytes, 8), NameAnswer::Name { start: 341, length: 2 });
    assert_eq!(&bytes[341..343], b"xy");
    // An empty string is a name, the empty part at the pool's begin.
    assert_eq!(name(&bytes, 9), NameAnswer::Name { start: 336, length: 0 });
    for number in [0, 3, 5, 6, 11, 12, 13, 14, 15, u32::MAX] {
        assert_eq!(name(&bytes, number), NameAnswer::Refused { number: 14, place: u64::from(number) });
    }
}
