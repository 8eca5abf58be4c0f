//! Tables in which a rule of one record is kept at its edge, or broken.

use super::handmade::{changed, ordered, record, table};
use super::images::{check_group, expect, smallest};
use super::table::Group;
use crate::generator::{Record, Table};
use crate::limits;

/// A table whose record 2 is the one at hand: an object before it, a record of each kind of `others` behind it.
fn at_hand(record: Record, others: &[u8], pool: &[u8]) -> Table {
    let mut records = vec![self::record(1, 0, [0, 1, 0, 0, 0]), record];
    records.extend(others.iter().map(|kind| sample(*kind)));
    table(1, &records, pool)
}

/// A sound record of the kind, without links.
fn sample(kind: u8) -> Record {
    match kind {
        1 | 2 => record(kind, 0, [0, 1, 0, 0, 0]),
        3 | 6 | 8 | 9 => record(kind, 1, [0; 5]),
        7 => record(7, 0, [101, 101, 0, 0, 0]),
        _ => record(kind, 0, [0; 5]),
    }
}

const POOL: &[u8] = b"Aa";

/// The rules of a flag: every flag from 0 on and two far ones.
fn flags(about: &'static str, kind: u8, most: u8) -> Group {
    let of = |flag| at_hand(Record { flag, ..sample(kind) }, &[], POOL);
    check_group(about, (0..=most + 1).chain([128, 255]).map(of).collect())
}

/// Fields that are not named, each in turn.
fn unnamed(about: &'static str, kind: u8, fields: &[usize]) -> Group {
    let of = |field: &usize, number: u32| {
        let mut each = sample(kind);
        each.numbers[*field] = number;
        at_hand(each, &[kind], POOL)
    };
    let numbers = [1, 3, 0x0100_0000];
    expect(
        check_group(about, fields.iter().flat_map(|field| numbers.map(|number| of(field, number))).collect()),
        "refuses",
    )
}

/// A link in the field, to each kind and to numbers where there is none.
fn links(about: &'static str, kind: u8, field: usize) -> Group {
    let of = |number: u32, others: &[u8]| {
        let mut each = sample(kind);
        each.numbers[field] = number;
        at_hand(each, others, POOL)
    };
    let kinds = [1, 2, 3, 4, 5, 6, 7, 8, 9];
    let mut all: Vec<Table> = (3..12).map(|number| of(number, &kinds)).collect();
    all.extend([0, 1, 2].map(|number| of(number, &[kind])));
    all.extend([4, 5, 65_539, u32::MAX].map(|number| of(number, &[kind])));
    // the kind that it needs stands before it
    let mut low = of(1, &[]);
    low.records[1] = sample(if field == 2 {
        3
    } else if kind == 1 || kind == 2 {
        2
    } else {
        kind
    });
    low.records.push(sample(1));
    low.set_header(3);
    all.push(low);
    check_group(about, all)
}

/// A place and a length in two fields, over a pool of so many bytes.
fn parts(about: &'static str, kind: u8, field: usize, pairs: &[(u32, u32, usize)]) -> Group {
    let of = |(place, length, pool): &(u32, u32, usize)| {
        let mut each = sample(kind);
        each.numbers[field] = *place;
        each.numbers[field + 1] = *length;
        at_hand(each, &[], &b"Ab".repeat(*pool)[..*pool])
    };
    check_group(about, pairs.iter().map(of).collect())
}

/// Pairs of numbers in the first two fields.
fn pairs(about: &'static str, kind: u8, all: &[(u32, u32)]) -> Group {
    let of = |(low, high): &(u32, u32)| {
        let mut each = sample(kind);
        (each.numbers[0], each.numbers[1]) = (*low, *high);
        at_hand(each, &[], POOL)
    };
    check_group(about, all.iter().map(of).collect())
}

/// Each rule of a record, kept at its edge and broken.
pub fn groups() -> Vec<Group> {
    let name = [
        (0, 1, 2),
        (1, 1, 2),
        (0, 2, 2),
        (2, 1, 2),
        (1, 2, 2),
        (0, 3, 2),
        (3, 1, 2),
        (0, 0, 2),
        (1, 0, 2),
        (2, 0, 2),
        (u32::MAX, 1, 2),
        (u32::MAX, 2, 2),
        (1, u32::MAX, 2),
        (2, u32::MAX - 1, 2),
        (0, 63, 63),
        (0, 64, 64),
        (1, 63, 64),
        (1, 64, 70),
        (16_777_216, 1, 2),
    ];
    let code = [
        (0, 0, 2),
        (1, 0, 2),
        (2, 0, 2),
        (3, 0, 2),
        (u32::MAX, 0, 2),
        (0, 1, 2),
        (1, 1, 2),
        (2, 1, 2),
        (1, 2, 2),
        (u32::MAX, 1, 2),
        (u32::MAX, 2, 2),
        (0, 31, 32),
        (0, 32, 32),
        (1, 31, 32),
        (2, 31, 32),
    ];
    let string = [
        (0, 0, 2),
        (1, 0, 2),
        (u32::MAX, 0, 2),
        (0, 2, 2),
        (1, 1, 2),
        (2, 1, 2),
        (1, 2, 2),
        (0, 3, 2),
        (u32::MAX, 1, 2),
        (u32::MAX, 2, 2),
        (2, u32::MAX, 2),
        (0, 255, 256),
        (0, 256, 256),
        (1, 255, 256),
        (2, 255, 256),
    ];
    let integers = [
        (0, 0),
        (1, 0),
        (0, 1),
        (5, 5),
        (u32::MAX, 0),
        (0, u32::MAX),
        (u32::MAX, u32::MAX - 1),
        (u32::MAX - 1, u32::MAX),
        (0x8000_0000, 0x7FFF_FFFF),
        (0x7FFF_FFFF, 0x8000_0000),
        (0x8000_0000, 0x8000_0000),
        (0x7FFF_FFFF, 0x7FFF_FFFF),
        (0x7FFF_FFFF, 0x7FFF_FFFE),
        (0x8000_0001, 0x8000_0000),
    ];
    let first = 101;
    let last = 99_991_231;
    let dates = [
        (first, first),
        (first, last),
        (last, last),
        (last, first),
        (20_040_229, 20_040_229),
        (20_040_229, 20_040_301),
        (20_040_301, 20_040_229),
        (20_031_231, 20_040_101),
        (20_040_101, 20_031_231),
        (0, first),
        (first, 0),
        (100, last),
        (1, last),
        (first, 131),
        (first, 132),
        (first, 1_231),
        (first, 1_301),
        (first, 99_991_232),
        (first, 99_991_301),
        (first, 100_000_101),
        (first, 100_000_000),
        (100_000_101, 100_000_101),
        (100_000_101, 100_000_102),
        (first, u32::MAX),
        (u32::MAX, u32::MAX),
        (first, 20_040_230),
        (first, 20_030_229),
        (first, 20_030_228),
        (first, 19_000_229),
        (first, 20_000_229),
        (first, 229),
        (first, 20_040_431),
        (first, 20_040_430),
        (first, 20_040_400),
        (first, 20_040_031),
        (20_040_230, last),
        (20_041_301, last),
        (20_040_132, last),
        (19_000_229, last),
    ];
    let mut all = vec![
        check_group(
            "kinds",
            [0, 1, 2, 3, 4, 5, 6, 7, 8, 9, 10, 128, 255]
                .into_iter()
                .map(|kind| at_hand(record(kind, 0, [0; 5]), &[], POOL))
                .collect(),
        ),
        check_group(
            "kinds with the fields that one of them needs",
            [0, 1, 2, 3, 6, 8, 9, 10, 16].into_iter().map(|kind| at_hand(record(kind, 1, [0; 5]), &[], POOL)).collect(),
        ),
        check_group(
            "an object's type in another kind",
            [0, 1, 2, 4, 5, 7, 9, 10]
                .into_iter()
                .map(|kind| at_hand(record(kind, 0, [0, 1, 0, 0, 0]), &[], POOL))
                .collect(),
        ),
        expect(
            check_group(
                "marks",
                (1..3)
                    .flat_map(|number| {
                        [
                            [0, 0],
                            [0xC0, 0xC0],
                            [0xAD, 0xAD],
                            [0xC0, 0xAC],
                            [0xC2, 0xAD],
                            [0xAD, 0xC1],
                            [0xAF, 0xC0],
                            [0xFF, 0xFF],
                        ]
                        .map(|mark| changed(&at_hand(sample(3), &[], POOL), number, |each| each.mark = mark))
                    })
                    .collect(),
            ),
            "refuses",
        ),
        expect(
            check_group(
                "the other order's mark before the same bytes",
                vec![
                    Table::read(&swapped(&smallest().bytes(), 1)),
                    Table::read(&swapped(&at_hand(record(4, 0, [1, 2, 0, 0, 3]), &[4], POOL).bytes(), 2)),
                    Table::read(&swapped(&at_hand(record(2, 0, [1, 1, 3, 0, 0]), &[3], POOL).bytes(), 2)),
                ],
            ),
            "refuses",
        ),
        flags("flags of an object", 1, 0),
        flags("flags of an attribute", 2, 2),
        flags("flags of Booleans", 3, 3),
        flags("flags of an integer", 4, 0),
        flags("flags of a string", 5, 0),
        flags("flags of a date pattern", 6, 5),
        flags("flags of a date interval", 7, 0),
        flags("flags of a time pattern", 8, 4),
        check_group(
            "flags of a duration pattern: 1 to 127",
            [0, 1, 2, 7, 8, 12, 15, 16, 32, 48, 64, 112, 126, 127, 128, 129, 136, 254, 255]
                .into_iter()
                .map(|flag| at_hand(Record { flag, ..sample(9) }, &[], POOL))
                .collect(),
        ),
        unnamed("fields that an attribute doesn't name", 2, &[4]),
        unnamed("fields that Booleans don't name", 3, &[0, 1, 2, 3, 4]),
        unnamed("fields that an integer doesn't name", 4, &[2, 3]),
        unnamed("fields that a string doesn't name", 5, &[2, 3]),
        unnamed("fields that a date pattern doesn't name", 6, &[0, 1, 2, 3, 4]),
        unnamed("fields that a date interval doesn't name", 7, &[2, 3]),
        unnamed("fields that a time pattern doesn't name", 8, &[0, 1, 2, 3, 4]),
        unnamed("fields that a duration pattern doesn't name", 9, &[0, 1, 2, 3, 4]),
        parts("an object's type in the pool", 1, 0, &name),
        parts("an object's code in the pool", 1, 2, &code),
        parts("an attribute's name in the pool", 2, 0, &name),
        parts("a string in the pool", 5, 0, &string),
        pairs("integers: the low end at most the high one, with signs", 4, &integers),
        pairs("dates: real, none after 9999-12-31, the low end at most the high one", 7, &dates),
        links("an object's first attribute", 1, 4),
        links("an attribute's value", 2, 2),
        links("an attribute's next", 2, 3),
        links("an integer's next", 4, 4),
        links("a string's next", 5, 4),
        links("a date interval's next", 7, 4),
    ];
    all.push(check_group(
        "the same rules in little-endian records",
        vec![
            ordered(&at_hand(record(4, 0, [u32::MAX, 0, 0, 0, 3]), &[4], POOL), "l"),
            ordered(&at_hand(record(4, 0, [0, u32::MAX, 0, 0, 3]), &[4], POOL), "bl"),
            ordered(&at_hand(record(4, 0, [0, 0, 0, 0, 2]), &[4], POOL), "bbl"),
            ordered(&at_hand(record(7, 0, [101, 99_991_231, 0, 0, 0]), &[], POOL), "bbl"),
            ordered(&at_hand(record(7, 0, [99_991_231, 101, 0, 0, 0]), &[], POOL), "bbl"),
            ordered(&at_hand(record(5, 0, [1, 1, 0, 0, 0]), &[], POOL), "lbl"),
            ordered(&at_hand(record(5, 0, [1, 2, 0, 0, 0]), &[], POOL), "lbl"),
            ordered(&at_hand(record(3, 4, [0; 5]), &[], POOL), "lbl"),
            ordered(&at_hand(record(3, 3, [0, 0, 0, 0, 1]), &[], POOL), "lbl"),
            ordered(&at_hand(record(9, 127, [0; 5]), &[], POOL), "lbl"),
            ordered(&at_hand(record(9, 128, [0; 5]), &[], POOL), "lbl"),
            ordered(&at_hand(record(9, 8, [0, 0, 0, 0, 1]), &[], POOL), "bbl"),
        ],
    ));
    all
}

/// The bytes with the two bytes of one record's mark turned round.
fn swapped(bytes: &[u8], number: usize) -> Vec<u8> {
    let mut bytes = bytes.to_vec();
    bytes.swap(limits::RECORD * number, limits::RECORD * number + 1);
    bytes
}
