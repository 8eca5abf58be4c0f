//! Tables: numbers and records as bytes, the check, names and trees.

use super::handmade::{changed, compiled, every_kind, ordered, record, shared, table, unreached, BIG, LITTLE};
use super::spelled::{hex, padded};
use super::table::Group;
use super::{broken, table as layout, term};
use crate::api::{CheckAnswer, NameAnswer};
use crate::generator::{Maker, Record, Table};
use crate::table as rules;
use crate::table::RecordNumber;
use crate::{check, limits, name};

const PATH: &str = "mathlib.Core.Path.{◌≡◌, refl}";
const BOOL: &str = "mathlib.Core.Bool.{true, false}";
const LIST: &str = "mathlib.Core.List.{List, [], ◌∷◌}";
const TEXT: &str = "Rattle.lexis.specs.Text.{bytes}";
const WRONG: &str = "Rattle.lexis.proofs.Tables.{wrong}";
const COMPUTE: &str = "Rattle.table.proofs.Computes.{table_computes}";
const HEX: &str = "Rattle.table.proofs.Hex.{hex}";
const CHECKS: &[&str] = &[
    PATH,
    BOOL,
    "mathlib.Core.List.{List, [], ◌∷◌, ◌++◌}",
    "lib.ListN.{replicate}",
    WRONG,
    COMPUTE,
    HEX,
    "Rattle.table.proofs.Examples.{CheckCase, passes, refuses, rewrites, check_right}",
];
const NAMES: &[&str] =
    &[PATH, LIST, TEXT, WRONG, COMPUTE, HEX, "Rattle.table.proofs.Examples.{NameCase, names, no_name, name_right}"];
const TREES: &[&str] = &[
    PATH,
    LIST,
    TEXT,
    WRONG,
    COMPUTE,
    HEX,
    "Rattle.meaning.specs.Constraints.{no_more, any, nested, leaf, single, ranges, texts, booleans, integers, date_pattern, dates, time_pattern, duration_pattern}",
    "Rattle.meaning.proofs.Trees.{range, item, object_with, attribute_with, object_list}",
    "Rattle.table.proofs.Examples.{TreeCase, tree, no_tree, tree_right}",
];

pub fn tables() -> Vec<layout::Table> {
    let part = |module, about, uses, case, right, unfolding, groups| layout::Table {
        holder: "table",
        module,
        about,
        uses,
        case,
        right,
        unfolding,
        groups,
    };
    let checks =
        |module, about, groups| part(module, about, CHECKS, "CheckCase", "check_right", "table_computes", groups);
    vec![
        part(
            "OrderTable",
            "Numbers of four bytes in both orders.",
            &[
                PATH,
                BOOL,
                LIST,
                WRONG,
                COMPUTE,
                HEX,
                "Rattle.table.proofs.Examples.{NumberCase, spelled, number_right}",
            ],
            "NumberCase",
            "number_right",
            "table_computes",
            vec![numbers()],
        ),
        part(
            "RecordTable",
            "Records of every kind in both orders, and marks.",
            &[
                PATH,
                BOOL,
                LIST,
                WRONG,
                COMPUTE,
                HEX,
                "Rattle.table.proofs.Examples.{RecordCase, holds, marked, record_right}",
            ],
            "RecordCase",
            "record_right",
            "table_computes",
            vec![records(), marks()],
        ),
        checks(
            "CheckTable",
            "Tables that pass the check, and bytes that are no table.",
            vec![passing(), rewritten(), lengths(), headers(), limit_headers(), roots(), before()],
        ),
        checks("FaultTable", "Each rule of a record kept at its edge and broken.", broken::groups()),
        part("NameTable", "Names by record number.", NAMES, "NameCase", "name_right", "table_computes", name_groups()),
        part(
            "TreeTable",
            "Tables with the trees of their objects.",
            TREES,
            "TreeCase",
            "tree_right",
            "object_list table_computes",
            tree_groups(),
        ),
        checks("MadeTable", "Short tables from a generator with a fixed seed, sound and broken.", vec![made()]),
    ]
}

fn check_case(bytes: &[u8]) -> String {
    match check(bytes) {
        CheckAnswer::Passed => format!("passes {}", padded(bytes)),
        CheckAnswer::Refused { number, place } => format!("refuses {} {number} {place}", padded(bytes)),
    }
}

pub fn check_group(about: &'static str, all: Vec<Table>) -> Group {
    Group { about, cases: all.iter().map(|each| check_case(&each.bytes())).collect() }
}

/// Checks that must come out as the group says.
pub fn expect(group: Group, word: &str) -> Group {
    assert!(group.cases.iter().all(|case| case.starts_with(word)), "{}", group.about);
    group
}

fn numbers() -> Group {
    let all = [
        0,
        1,
        24,
        255,
        256,
        257,
        65_535,
        65_536,
        16_777_216,
        0x0102_0304,
        0x8000_0000,
        0x7FFF_FFFF,
        20_040_229,
        0xC0AD_0000,
        u32::MAX,
    ];
    let case = |number: u32| {
        [
            format!("spelled false {} {}", term::number(u64::from(number)), hex(&number.to_be_bytes())),
            format!("spelled true {} {}", term::number(u64::from(number)), hex(&number.to_le_bytes())),
        ]
    };
    Group { about: "the lowest byte last, and first", cases: all.into_iter().flat_map(case).collect() }
}

fn records() -> Group {
    let all = [
        record(0, 0, [2, 1, 1, 0, 0]),
        record(1, 0, [0, 1, 1, 3, 2]),
        record(2, 1, [4, 63, 2_047, 300, 0]),
        record(3, 3, [0; 5]),
        record(4, 0, [u32::MAX, 0x7FFF_FFFF, 0, 0, 9]),
        record(5, 0, [16_000, 255, 0, 0, 70_000]),
        record(6, 5, [0; 5]),
        record(7, 0, [101, 99_991_231, 0, 0, 1_024]),
        record(8, 4, [0; 5]),
        record(9, 12, [0; 5]),
        record(9, 127, [0; 5]),
        record(255, 254, [0x0102_0304, 0x0506_0708, 0x090A_0B0C, 0x0D0E_0F10, 0x1112_1314]),
    ];
    let case = |each: &Record| {
        [false, true].map(|little| {
            let mut each = *each;
            each.set_order(little);
            let mut bytes = Vec::new();
            each.write(&mut bytes);
            let fields = each.numbers.map(|number| term::number(u64::from(number)));
            format!("holds {} {} {} {} {}", hex(&bytes), term::truth(little), each.kind, each.flag, term::list(&fields))
        })
    };
    Group { about: "a record's own mark tells its order", cases: all.iter().flat_map(case).collect() }
}

fn marks() -> Group {
    let all = [
        BIG,
        LITTLE,
        [0xC0, 0xC0],
        [0xAD, 0xAD],
        [0, 0],
        [0xC0, 0xAE],
        [0xC1, 0xAD],
        [0xAD, 0xC1],
        [0xAC, 0xC0],
        [0xFF, 0xFF],
    ];
    let case = |mark: [u8; 2]| {
        let mut each = record(1, 0, [0, 1, 0, 0, 0]);
        each.mark = mark;
        let mut bytes = Vec::new();
        each.write(&mut bytes);
        format!("marked {} {}", hex(&bytes), term::truth(each.has_mark()))
    };
    Group { about: "the two marks and no other", cases: all.into_iter().map(case).collect() }
}

/// The smallest table: `A matches {*}`.
pub fn smallest() -> Table {
    compiled("A matches {*}")
}

/// Tables that pass.
fn sound() -> Vec<Table> {
    let mut all = vec![smallest(), ordered(&smallest(), "l"), ordered(&smallest(), "bl"), ordered(&smallest(), "lb")];
    for each in [every_kind(), shared(), unreached()] {
        all.extend(["b", "l", "bl", "lbb", "lbbl"].map(|pattern| ordered(&each, pattern)));
    }
    all.push(compiled("A matches {a matches {B[at1.2.3] matches {b matches {C matches {c matches {\"\", \"x\"}}}}} d matches {1, 2, 3}}"));
    // repeated names, and attributes that share their next
    all.push(table(
        1,
        &[
            record(1, 0, [0, 1, 0, 0, 2]),
            record(2, 0, [1, 1, 0, 3, 0]),
            record(2, 2, [1, 1, 0, 4, 0]),
            record(2, 1, [1, 1, 0, 0, 0]),
        ],
        b"Aa",
    ));
    all.push(table(
        1,
        &[
            record(1, 0, [0, 1, 0, 0, 4]),
            record(1, 0, [0, 1, 0, 0, 4]),
            record(1, 0, [0, 2, 0, 1, 4]),
            record(2, 2, [1, 1, 0, 0, 0]),
        ],
        b"Aa",
    ));
    // duration patterns of one slot and of all, the second shared
    all.push(table(
        1,
        &[
            record(1, 0, [0, 1, 0, 0, 2]),
            record(2, 0, [1, 1, 5, 3, 0]),
            record(2, 2, [2, 1, 6, 4, 0]),
            record(2, 1, [3, 1, 6, 0, 0]),
            record(9, 1, [0; 5]),
            record(9, 127, [0; 5]),
        ],
        b"Aabc",
    ));
    all.push(ordered(&compiled("A matches {a matches {Pwd} b matches {PTm}}"), "bl"));
    // a root that isn't the first record, and parts that overlap
    all.push(table(2, &[record(3, 1, [0; 5]), record(1, 0, [0, 3, 1, 2, 0])], b"ABC"));
    all.push(table(2, &[record(1, 0, [0, 1, 0, 0, 0]), record(1, 0, [2, 1, 0, 0, 0])], b"A\xFF\x00"));
    all
}

fn passing() -> Group {
    expect(check_group("tables of texts, mixed orders, shared and unreached records, repeated names, a link into the middle of a list", sound()), "passes")
}

fn rewritten() -> Group {
    let mut cases = Vec::new();
    for each in [smallest(), shared(), unreached(), every_kind()] {
        let own = hex(&ordered(&each, "bll").bytes());
        for little in [false, true] {
            let out = hex(&ordered(&each, if little { "l" } else { "b" }).bytes());
            cases.push(format!("rewrites {own} {} {out}", term::truth(little)));
        }
    }
    Group { about: "a table in mixed orders written in one", cases }
}

fn lengths() -> Group {
    let whole = smallest().bytes();
    let none = table(1, &[record(1, 0, [0, 1, 0, 0, 0])], b"").bytes();
    let mut all: Vec<Vec<u8>> = [0, 1, 2, 23, 24, 25, 47, 48].iter().map(|length| whole[..*length].to_vec()).collect();
    all.push([&whole[..], b"A"].concat());
    all.push([&whole[..], &whole[..]].concat());
    all.push([&whole[..], &whole[24..48]].concat());
    all.push([&none[..], b"A"].concat());
    all.push(whole[..24].to_vec());
    let cases = all.iter().map(|each| check_case(each)).collect();
    expect(Group { about: "bytes too few or too many", cases }, "refuses")
}

fn headers() -> Group {
    let base = ordered(&shared(), "bl");
    let mut all = Vec::new();
    for mark in [[0, 0], [0xC0, 0xC0], [0xAD, 0xAD], [0xC0, 0xAC], [0xC1, 0xAD], [0x40, 0xAD]] {
        all.push(changed(&base, 0, |header| header.mark = mark));
    }
    for kind in 1..=10 {
        all.push(changed(&base, 0, |header| header.kind = kind));
    }
    for flag in [1, 2, 255] {
        all.push(changed(&base, 0, |header| header.flag = flag));
    }
    for field in [3, 4] {
        for number in [1, 256, u32::MAX] {
            all.push(changed(&base, 0, |header| header.numbers[field] = number));
        }
    }
    let count = base.records.len() as u32;
    for number in [0, 1, 2, count - 1, count + 1, 2_048, 2_049] {
        all.push(changed(&base, 0, |header| header.numbers[0] = number));
    }
    let pool = base.pool.len() as u32;
    for number in [0, pool - 1, pool + 1, 16_384, 16_385, u32::MAX] {
        all.push(changed(&base, 0, |header| header.numbers[1] = number));
    }
    // a count of 1 with the length that fits it, and one that takes a record for the pool
    all.push(changed(&table(1, &[], b"A"), 0, |_| ()));
    all.push(changed(&table(0, &[], b""), 0, |_| ()));
    all.push(changed(&smallest(), 0, |header| header.numbers = [1, 25, 0, 0, 0]));
    all.push(changed(&smallest(), 0, |header| header.numbers = [1, 25, 1, 0, 0]));
    all.push(changed(&smallest(), 0, |header| header.numbers = [0, 49, 1, 0, 0]));
    all.push(ordered(&changed(&smallest(), 0, |header| header.flag = 1), "l"));
    all.push(ordered(&changed(&smallest(), 0, |header| header.numbers[4] = 1), "l"));
    expect(check_group("headers", all), "refuses")
}

/// Headers at the limits and above them, with the length that fits them. The records behind the first are of kind 0, so that a table
/// whose header is good is refused at record 2.
fn limit_headers() -> Group {
    let none = record(0, 0, [0; 5]);
    let of = |count: usize, pool: usize| {
        let mut records = vec![record(1, 0, [0, 1, 0, 0, 0])];
        records.resize(count - 1, Record { mark: [0, 0], ..none });
        table(1, &records, &vec![0; pool])
    };
    let sizes = [
        (2, limits::POOL),
        (2, limits::POOL + 1),
        (3, limits::POOL),
        (3, limits::POOL + 1),
        (limits::RECORDS, 0),
        (limits::RECORDS + 1, 0),
        (limits::RECORDS, 1),
        (limits::RECORDS + 1, 1),
    ];
    check_group(
        "counts and pools at their limits and above, with the length that fits",
        sizes.map(|(count, pool)| of(count, pool)).to_vec(),
    )
}

fn roots() -> Group {
    let base = every_kind();
    let count = base.records.len() as u32;
    let mut all = Vec::new();
    for (number, each) in base.records.iter().enumerate() {
        if each.kind != 1 {
            all.push(changed(&base, 0, |header| header.numbers[2] = number as u32));
        }
    }
    for root in [count, count + 1, 2_047, 65_536, u32::MAX] {
        all.push(changed(&base, 0, |header| header.numbers[2] = root));
    }
    for kind in [0, 2, 9, 255] {
        all.push(changed(&smallest(), 1, |record| record.kind = kind));
    }
    all.push(changed(&ordered(&smallest(), "lb"), 0, |header| header.numbers[2] = 2));
    expect(check_group("roots: 0, none, and of another kind", all), "refuses")
}

/// Two faults in one table.
fn before() -> Group {
    let base = ordered(&unreached(), "lb");
    let broken = changed(&base, 2, |record| record.flag = 3);
    let root_mark = changed(&base, 3, |record| record.mark = [0, 0]);
    let all = vec![
        broken.clone(),
        changed(&broken, 1, |record| record.kind = 9),
        changed(&broken, 3, |record| record.numbers[4] = 3),
        changed(&broken, 4, |record| record.numbers[4] = 1),
        changed(&broken, 8, |record| record.flag = 0),
        changed(&base, 8, |record| record.flag = 0),
        changed(&changed(&base, 8, |record| record.flag = 0), 7, |record| record.numbers[0] = 0),
        root_mark.clone(),
        changed(&root_mark, 1, |record| record.mark = [0, 0]),
        changed(&root_mark, 0, |header| header.numbers[2] = 0),
        changed(&broken, 0, |header| header.flag = 1),
        changed(&broken, 0, |header| header.numbers[1] = 3),
        changed(&broken, 0, |header| header.numbers[2] = 1),
        changed(&broken, 0, |header| header.numbers[3] = 1),
        // a link to a record whose own fault is its mark or its flag leads to the kind it needs
        changed(&base, 5, |record| record.mark = [0, 0]),
        changed(&base, 5, |record| record.flag = 5),
        changed(&base, 5, |record| record.kind = 2),
        changed(&base, 9, |record| record.flag = 0),
        changed(&base, 9, |record| record.flag = 128),
        changed(&changed(&base, 9, |record| record.flag = 128), 8, |record| record.flag = 0),
        changed(&changed(&base, 5, |record| *record = Record { kind: 9, flag: 255, ..*record }), 9, |record| {
            record.flag = 0
        }),
        changed(&base, 5, |record| record.kind = 10),
    ];
    expect(check_group("the lowest broken record is told, and 12 before 13", all), "refuses")
}

fn name_case(bytes: &[u8], number: u32) -> String {
    match name(bytes, number) {
        NameAnswer::Name { start, length } => {
            let part = &bytes[start as usize..(start + length) as usize];
            format!("names {} {} {start} {length} {}", hex(bytes), term::number(u64::from(number)), term::bytes(part))
        }
        NameAnswer::Refused { number: cause, place } => {
            format!("no_name {} {} {cause} {}", hex(bytes), term::number(u64::from(number)), term::number(place))
        }
    }
}

/// Every record's name, and numbers that no record has.
fn all_names(about: &'static str, table: &Table) -> Group {
    let bytes = table.bytes();
    let count = table.records.len() as u32;
    let cases = (0..=count + 1).chain([2_047, 65_536, u32::MAX]).map(|number| name_case(&bytes, number)).collect();
    Group { about, cases }
}

fn name_groups() -> Vec<Group> {
    let small = table(
        2,
        &[
            record(5, 0, [0, 0, 0, 0, 0]),
            record(1, 0, [2, 2, 0, 1, 4]),
            record(5, 0, [1, 3, 0, 0, 0]),
            record(2, 0, [1, 1, 0, 0, 0]),
        ],
        b"xaBc",
    );
    let broken = changed(&small, 4, |record| record.flag = 3);
    let faults = [
        (changed(&small, 0, |header| header.flag = 1), 2),
        (changed(&small, 0, |header| header.numbers[2] = 1), 2),
        (broken.clone(), 1),
        (broken.clone(), 4),
        (broken.clone(), 0),
        (broken, 99),
        (changed(&small, 0, |header| header.numbers[1] = 5), 99),
    ];
    vec![
        all_names(
            "a table with every kind of record: objects, attributes and strings have a name",
            &ordered(&every_kind(), "blbbl"),
        ),
        all_names("an empty string, and parts that overlap", &ordered(&small, "lb")),
        all_names("shared records", &shared()),
        all_names("duration patterns hold no name", &compiled("A matches {a matches {Pd} b matches {PThm}}")),
        Group {
            about: "a table that is refused, before 14",
            cases: faults.iter().map(|(each, number)| name_case(&each.bytes(), *number)).collect(),
        },
        Group { about: "no bytes at all", cases: [0, 1].map(|number| name_case(b"", number)).to_vec() },
    ]
}

/// Trees as the records of a table that passed the check say them.
struct Trees<'b>(rules::Table<'b>);

impl Trees<'_> {
    fn object(&self, number: RecordNumber) -> Option<String> {
        let rules::Record::Object { type_name, code, first } = self.0.record(number)? else {
            return None;
        };
        let (type_name, code) = (term::bytes(self.0.part(type_name)), term::bytes(self.0.part(code)));
        Some(format!("(object_with {} {type_name} {code} {})", number.0, self.attributes(first)))
    }

    fn attributes(&self, number: RecordNumber) -> String {
        match self.0.record(number) {
            Some(rules::Record::Attribute { existence, name, value, next }) => {
                let (name, value) = (term::bytes(self.0.part(name)), self.value(value));
                format!("(attribute_with {} {existence} {name} {value} {})", number.0, self.attributes(next))
            }
            _ => String::from("no_more"),
        }
    }

    fn value(&self, number: RecordNumber) -> String {
        let n = number.0;
        let leaf = match self.0.record(number) {
            Some(rules::Record::Object { .. }) => {
                return format!("(nested {})", self.object(number).unwrap_or_default())
            }
            Some(rules::Record::Boolean { flag }) => format!("(single booleans {n} {flag})"),
            Some(rules::Record::DatePattern { flag }) => format!("(single date_pattern {n} {flag})"),
            Some(rules::Record::TimePattern { flag }) => format!("(single time_pattern {n} {flag})"),
            Some(rules::Record::DurationPattern { flag }) => format!("(single duration_pattern {n} {flag})"),
            Some(rules::Record::Integer { .. }) => format!("(ranges integers {})", self.items(number)),
            Some(rules::Record::Text { .. }) => format!("(texts {})", self.items(number)),
            Some(rules::Record::DateInterval { .. }) => format!("(ranges dates {})", self.items(number)),
            _ => return String::from("any"),
        };
        format!("(leaf {leaf})")
    }

    fn items(&self, first: RecordNumber) -> String {
        let mut terms = Vec::new();
        let mut number = first;
        while number.0 != 0 {
            let n = number.0;
            let (item, next) = match self.0.record(number) {
                Some(rules::Record::Integer { low, high, next }) => {
                    (format!("range {n} {} {}", term::distance(low), term::distance(high)), next)
                }
                Some(rules::Record::Text { part, next }) => {
                    (format!("item {n} {}", term::bytes(self.0.part(part))), next)
                }
                Some(rules::Record::DateInterval { low, high, next }) => {
                    let day = |date: crate::calendar::Date| term::number(u64::from(date.packed()));
                    (format!("range {n} {} {}", day(low), day(high)), next)
                }
                _ => panic!("no item"),
            };
            terms.push(item);
            number = next;
        }
        term::list(&terms)
    }
}

fn tree_case(bytes: &[u8], number: u32) -> String {
    let Ok(table) = rules::Table::read(bytes) else {
        panic!("no table");
    };
    match Trees(table).object(RecordNumber(number)) {
        Some(object) => format!("tree {} {number} {object}", hex(bytes)),
        None => format!("no_tree {} {}", hex(bytes), term::number(u64::from(number))),
    }
}

/// The tree of every object, and none of other records.
fn all_trees(about: &'static str, table: &Table) -> Group {
    let bytes = table.bytes();
    let count = table.records.len() as u32;
    let cases = (0..=count).chain([u32::MAX]).map(|number| tree_case(&bytes, number)).collect();
    Group { about, cases }
}

fn tree_groups() -> Vec<Group> {
    let nested = compiled("A[at1] matches {a matches {B[at2.3] matches {b matches {C matches {c matches {\"x\", \"y\"}}} d existence matches {0} matches {*}}} e existence matches {0..1} matches {7, -8}}");
    // the last record's links lead nowhere, and each record before it leads to the next of its kind
    let twice = table(
        2,
        &[
            record(2, 2, [1, 1, 2, 4, 0]),
            record(1, 0, [0, 1, 0, 2, 3]),
            record(2, 1, [1, 1, 5, 4, 0]),
            record(2, 0, [0, 2, 5, 0, 0]),
            record(1, 0, [1, 1, 0, 0, 6]),
            record(2, 2, [1, 1, 7, 0, 0]),
            record(7, 0, [101, 20_040_229, 0, 0, 8]),
            record(7, 0, [20_040_301, 99_991_231, 0, 0, 0]),
        ],
        b"Ab",
    );
    vec![
        all_trees("the smallest table", &smallest()),
        all_trees("a table with every kind of record, in mixed orders", &ordered(&every_kind(), "lbb")),
        all_trees(
            "duration patterns, one of them shared, and a TYPE of a pattern's spelling",
            &ordered(
                &table(
                    1,
                    &[
                        record(1, 0, [0, 2, 0, 0, 2]),
                        record(2, 2, [2, 1, 5, 3, 0]),
                        record(2, 1, [3, 1, 6, 4, 0]),
                        record(2, 0, [4, 1, 6, 0, 0]),
                        record(9, 8, [0; 5]),
                        record(9, 127, [0; 5]),
                    ],
                    b"Pdabc",
                ),
                "blb",
            ),
        ),
        all_trees("objects inside each other", &nested),
        all_trees("the same in mixed orders", &ordered(&nested, "bl")),
        all_trees("shared records, a link into the middle of a list, one name twice", &ordered(&shared(), "bbl")),
        all_trees("records that no link leads to, and a root that isn't the first record", &ordered(&unreached(), "l")),
        all_trees("objects and attributes shared on several levels", &ordered(&twice, "bllb")),
    ]
}

const SEED: u64 = 1;

/// How many tables are taken from the generator, how many of them are sound at most, and how long they may be.
const MADE: usize = 100;
const MOST_SOUND: usize = MADE / 3;
const LONGEST: usize = 400;

/// The most records that a header may claim, so that few are decoded.
const MOST_CLAIMED: u32 = 64;

fn made() -> Group {
    let maker = Maker::new(SEED);
    let mut cases: Vec<String> = Vec::new();
    let mut sound = 0;
    for number in 0.. {
        if cases.len() == MADE {
            break;
        }
        let bytes = maker.check(number).table;
        if !(limits::RECORD..=LONGEST).contains(&bytes.len()) || Record::read(&bytes).numbers[0] > MOST_CLAIMED {
            continue;
        }
        let passes = check(&bytes) == CheckAnswer::Passed;
        let case = check_case(&bytes);
        if (passes && sound == MOST_SOUND) || cases.contains(&case) {
            continue;
        }
        sound += usize::from(passes);
        cases.push(case);
    }
    Group { about: "tables as the generator gives them, a third of them at most sound", cases }
}
