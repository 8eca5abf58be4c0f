//! Merges of two tables, and lists of merges.

use super::handmade::{changed, compiled, every_kind, ordered, record, shared, table, unreached};
use super::spelled::{filling, hex};
use super::table::Group;
use super::{table as layout, term};
use crate::api::MergeAnswer;
use crate::generator::{self, Maker, Table};
use crate::merge;

const PATH: &str = "mathlib.Core.Path.{◌≡◌, refl}";
const BOOL: &str = "mathlib.Core.Bool.{true, false}";
const LIST: &str = "mathlib.Core.List.{List, [], ◌∷◌}";
const WRONG: &str = "Rattle.lexis.proofs.Tables.{wrong}";
const COMPUTE: &str = "Rattle.table_merge.proofs.Computes.{merge_computes}";
const HEX: &str = "Rattle.table.proofs.Hex.{hex, filling}";
const MERGES: &[&str] =
    &[PATH, BOOL, LIST, WRONG, HEX, COMPUTE, "Rattle.table_merge.proofs.Examples.{Case, merges, refuses, right}"];
const STEPS: &[&str] = &[
    PATH,
    BOOL,
    LIST,
    WRONG,
    HEX,
    COMPUTE,
    "Rattle.table_merge.proofs.Examples.{StepCase, carries, step, steps_right}",
];
const LIMITS: &[&str] =
    &[PATH, BOOL, LIST, WRONG, COMPUTE, "Rattle.table_merge.proofs.Examples.{JoinCase, join_refuses, join_right}"];

pub fn tables() -> Vec<layout::Table> {
    let part = |module, about, uses, case, right, groups| layout::Table {
        holder: "table_merge",
        module,
        about,
        uses,
        case,
        right,
        unfolding: "merge_computes",
        groups,
    };
    vec![
        part(
            "JoinTable",
            "Two tables merged, byte for byte, and the output behind the table.",
            MERGES,
            "Case",
            "right",
            merge_groups(),
        ),
        part("RefusalTable", "Merges that are refused.", MERGES, "Case", "right", refusal_groups()),
        part(
            "MadeTable",
            "Merges of short tables from a generator with a fixed seed.",
            MERGES,
            "Case",
            "right",
            vec![made()],
        ),
        part(
            "LimitTable",
            "Tables joined up to the limits of a table and above them.",
            LIMITS,
            "JoinCase",
            "join_right",
            vec![limits()],
        ),
        part(
            "StepTable",
            "Lists of merges, with the table carried and the sum of the shifts.",
            STEPS,
            "StepCase",
            "steps_right",
            vec![steps()],
        ),
    ]
}

/// How an output of these bytes is filled before a job.
const FILL: u8 = 7;

fn case(first: &[u8], second: &[u8], little: bool, fill: u8, room: usize) -> String {
    let before = generator::filling(fill, room);
    let mut out = before.clone();
    let inputs = format!("{} {} {} {}", hex(first), hex(second), term::truth(little), filling(fill, room));
    match merge(first, second, little, &mut out) {
        MergeAnswer::Done { length, record_shift, pool_shift } => {
            format!("merges {inputs} {length} {record_shift} {pool_shift} {}", hex(&out))
        }
        MergeAnswer::Refused { number, place, table } => {
            assert!(out == before);
            format!("refuses {inputs} {table} {number} {place}")
        }
    }
}

/// The length of two tables merged.
fn needed(first: &Table, second: &Table) -> usize {
    first.bytes().len() + second.bytes().len() - crate::limits::RECORD
}

/// Two tables merged into either order, with so many bytes of output behind the table.
fn both(first: &Table, second: &Table, more: usize) -> [String; 2] {
    [false, true].map(|little| case(&first.bytes(), &second.bytes(), little, FILL, needed(first, second) + more))
}

fn smallest() -> Table {
    compiled("A matches {*}")
}

/// An object with a code, an attribute and a list of strings, one of them empty.
fn strings() -> Table {
    compiled("Bc[at12] matches {d matches {\"x\", \"\", \"yz\"} e existence matches {0..1} matches {*}}")
}

/// An object without a code whose second attribute holds another.
fn inside() -> Table {
    compiled("C matches {f matches {-5, |7..9|} g matches {D matches {h matches {|2004-01-01|, |2005-01-01|}}}}")
}

/// An object whose attribute holds a duration pattern.
fn duration(pattern: &str) -> Table {
    compiled(&format!("A matches {{a matches {{{pattern}}}}}"))
}

fn merge_groups() -> Vec<Group> {
    let small = smallest();
    let every = every_kind();
    // a root that isn't the first record, an empty pool but for one byte, and records without names
    let bare = table(
        3,
        &[
            record(3, 2, [0; 5]),
            record(4, 0, [u32::MAX, 5, 0, 0, 0]),
            record(1, 0, [0, 1, 0, 0, 0]),
            record(6, 2, [0; 5]),
            record(9, 12, [0; 5]),
        ],
        b"Z",
    );
    let empty = table(
        2,
        &[record(5, 0, [0; 5]), record(1, 0, [0, 1, 0, 0, 0]), record(5, 0, [0, 0, 0, 0, 4]), record(5, 0, [0; 5])],
        b"Y",
    );
    let pairs = |all: &[(&Table, &Table, usize)]| {
        all.iter().flat_map(|(first, second, more)| both(first, second, *more)).collect()
    };
    vec![
        Group { about: "the smallest table with itself: 74 bytes", cases: pairs(&[(&small, &small, 0), (&small, &small, 3)]) },
        Group {
            about: "every kind of record, as first and as second: links and places of the second move, links that are 0 and the places of empty strings stay",
            cases: pairs(&[(&small, &strings(), 0), (&strings(), &small, 0), (&strings(), &inside(), 2), (&inside(), &strings(), 0), (&every, &small, 0), (&small, &every, 1)]),
        },
        Group {
            about: "the first's root is the root, wherever it stands",
            cases: pairs(&[(&bare, &small, 0), (&small, &bare, 0), (&bare, &unreached(), 0), (&unreached(), &bare, 5), (&empty, &bare, 0), (&bare, &empty, 0)]),
        },
        Group {
            about: "mixed orders, each record by its own mark",
            cases: pairs(&[
                (&ordered(&small, "bl"), &ordered(&small, "lb"), 0),
                (&ordered(&strings(), "lbb"), &ordered(&inside(), "bl"), 0),
                (&ordered(&inside(), "llb"), &ordered(&strings(), "bbl"), 4),
                (&ordered(&empty, "bl"), &ordered(&empty, "l"), 0),
            ]),
        },
        Group { about: "shared records, one name twice, a link into the middle of a list", cases: pairs(&[(&shared(), &small, 0), (&small, &ordered(&shared(), "lb"), 0)]) },
        Group {
            about: "duration patterns: nothing in them moves",
            cases: pairs(&[(&duration("Pd"), &duration("PTm"), 0), (&ordered(&duration("Pwd"), "lb"), &small, 2), (&strings(), &duration("PymwdThms"), 0)]),
        },
        Group { about: "a table with itself", cases: pairs(&[(&strings(), &strings(), 1), (&shared(), &shared(), 0), (&empty, &empty, 0)]) },
        Group { about: "the output kept behind the table", cases: pairs(&[(&small, &small, 1), (&small, &bare, 30), (&strings(), &small, 9)]) },
    ]
}

fn refusal_groups() -> Vec<Group> {
    let (small, mixed) = (smallest(), ordered(&strings(), "lb"));
    let no_root = changed(&mixed, 0, |header| header.numbers[2] = 2);
    let broken = changed(&mixed, 3, |record| record.numbers[2] = 1);
    let lower = changed(&broken, 2, |record| record.flag = 3);
    let no_slot = changed(&duration("Pd"), 3, |record| record.flag = 0);
    let tables = [&small, &mixed, &no_root, &broken, &lower];
    let mut tested = Vec::new();
    for first in tables {
        for second in tables {
            if check(first).is_err() || check(second).is_err() {
                tested.push(case(&first.bytes(), &second.bytes(), false, FILL, needed(first, second)));
            }
        }
    }
    let whole = small.bytes();
    let mut cut = Vec::new();
    for bytes in [&whole[..0], &whole[..24], &whole[..48], &[&whole[..], b"A"].concat()] {
        cut.push(case(bytes, &whole, false, FILL, 120));
        cut.push(case(&whole, bytes, true, FILL, 120));
        cut.push(case(bytes, bytes, false, FILL, 0));
    }
    let mut short = Vec::new();
    for (first, second) in [(&small, &small), (&mixed, &small), (&small, &mixed), (&mixed, &mixed)] {
        let needed = needed(first, second);
        for room in [0, 1, 24, needed / 2, needed - 1, needed] {
            short.push(case(&first.bytes(), &second.bytes(), room % 2 == 0, FILL, room));
        }
    }
    let mut order = Vec::new();
    for (first, second) in [
        (&small, &broken),
        (&broken, &small),
        (&no_root, &small),
        (&small, &no_root),
        (&small, &no_slot),
        (&no_slot, &broken),
    ] {
        order.push(case(&first.bytes(), &second.bytes(), true, FILL, 10));
    }
    vec![
        Group { about: "the first table's faults before the second's, each naming its table", cases: tested },
        Group { about: "bytes too few or too many", cases: cut },
        Group { about: "an output too short, at the length needed; and long enough", cases: short },
        Group { about: "a table's fault before an output too short", cases: order },
    ]
}

/// A table of so many objects, its header not counted, and so many bytes.
fn objects(count: usize, pool: usize) -> Table {
    table(1, &vec![record(1, 0, [0, 1, 0, 0, 0]); count], &b"A".repeat(pool))
}

/// Two tables of so many objects and bytes each, an output of so many bytes.
fn limit_case(sizes: [usize; 4], little: bool, room: usize) -> String {
    let [records, pool, more_records, more_pool] = sizes;
    let mut out = generator::filling(FILL, room);
    match merge(&objects(records, pool).bytes(), &objects(more_records, more_pool).bytes(), little, &mut out) {
        MergeAnswer::Refused { number, place, table: 0 } => {
            let sizes = sizes.map(|size| term::number(size as u64)).join(" ");
            format!("join_refuses {sizes} {} {room} {number} {}", term::truth(little), term::number(place))
        }
        answer => panic!("{answer:?}"),
    }
}

fn limits() -> Group {
    let sizes = [
        [1_024, 1, 1_024, 1],
        [1_024, 1, 1_023, 1],
        [1_023, 1, 1_024, 1],
        [2_047, 1, 1, 1],
        [2_046, 1, 1, 1],
        [1, 1, 2_047, 1],
        [1, 1, 2_046, 1],
        [1, 16_384, 1, 1],
        [1, 16_383, 1, 1],
        [1, 1, 1, 16_384],
        [1, 1, 1, 16_383],
        [1, 8_193, 2, 8_192],
        [2, 8_192, 1, 8_192],
        [2_047, 16_384, 1, 1],
        [2_046, 16_384, 1, 1],
        [1, 1, 1, 1],
    ];
    let cases = sizes.iter().enumerate().map(|(turn, sizes)| limit_case(*sizes, turn % 2 == 1, 10)).collect();
    Group { about: "8 before 10 before 11, each at its edge; an output of ten bytes is kept", cases }
}

fn check(table: &Table) -> Result<(), ()> {
    match crate::check(&table.bytes()) {
        crate::api::CheckAnswer::Passed => Ok(()),
        crate::api::CheckAnswer::Refused { .. } => Err(()),
    }
}

const SEED: u64 = 1;

/// How many merges are taken from the generator, and how long their tables and outputs may be.
const MADE: usize = 60;
const LONGEST: usize = 250;
const MOST_ROOM: usize = 500;

/// The most records that a header may claim, so that few are decoded.
const MOST_CLAIMED: u32 = 64;

fn made() -> Group {
    let maker = Maker::new(SEED);
    let small = |bytes: &[u8]| {
        (crate::limits::RECORD..=LONGEST).contains(&bytes.len())
            && generator::Record::read(bytes).numbers[0] <= MOST_CLAIMED
    };
    let mut cases: Vec<String> = Vec::new();
    let mut refused = 0;
    for number in 0.. {
        if cases.len() == MADE {
            break;
        }
        let each = maker.merge(number);
        if !small(&each.first) || !small(&each.second) || each.room > MOST_ROOM {
            continue;
        }
        let line = case(&each.first, &each.second, each.little, each.fill, each.room);
        if line.starts_with("refuses") {
            if refused == MADE / 2 {
                continue;
            }
            refused += 1;
        }
        cases.push(line);
    }
    Group { about: "merges as the generator gives them, half of them at most refused", cases }
}

/// One merge of a list.
pub struct Step {
    /// The other table; nothing stands for the carried table's own bytes.
    pub other: Option<Vec<u8>>,
    pub carried_first: bool,
    pub little: bool,
    pub room: usize,
}

/// What is carried through a list.
pub struct Carried {
    pub table: Vec<u8>,
    pub sum: u32,
}

/// The table and the sum behind the steps, and the steps as terms.
pub fn run(start: &[u8], steps: &[Step]) -> (Carried, Vec<String>) {
    let mut carried = Carried { table: start.to_vec(), sum: 0 };
    let mut terms = Vec::new();
    for each in steps {
        let other = each.other.clone().unwrap_or_else(|| carried.table.clone());
        let (little, first) = (term::truth(each.little), term::truth(each.carried_first));
        terms.push(format!("step {} {first} {little} {}", hex(&other), filling(FILL, each.room)));
        let mut out = generator::filling(FILL, each.room);
        let answer = match each.carried_first {
            true => merge(&carried.table, &other, each.little, &mut out),
            false => merge(&other, &carried.table, each.little, &mut out),
        };
        if let MergeAnswer::Done { length, record_shift, .. } = answer {
            carried.table = out[..length as usize].to_vec();
            carried.sum += if each.carried_first { 0 } else { record_shift };
        }
    }
    (carried, terms)
}

pub fn step(other: &Table, carried_first: bool, little: bool, room: usize) -> Step {
    Step { other: Some(other.bytes()), carried_first, little, room }
}

pub fn with_itself(carried_first: bool, little: bool, room: usize) -> Step {
    Step { other: None, carried_first, little, room }
}

/// A list of merges of each sort, refused ones in between.
pub fn lists() -> Vec<Vec<Step>> {
    let (small, mixed) = (smallest(), ordered(&strings(), "lb"));
    let no_root = changed(&small, 0, |header| header.numbers[2] = 0);
    let broken = changed(&mixed, 3, |record| record.numbers[2] = 1);
    let nothing = Step { other: Some(Vec::new()), carried_first: false, little: true, room: 500 };
    vec![
        vec![],
        vec![step(&small, true, false, 300)],
        vec![step(&small, false, true, 300)],
        vec![step(&mixed, false, false, 400), step(&small, true, true, 400), step(&inside(), false, true, 700)],
        vec![
            step(&broken, false, false, 500),
            step(&small, false, false, 10),
            step(&no_root, true, true, 500),
            nothing,
        ],
        vec![
            step(&small, false, true, 20),
            step(&small, false, true, 500),
            step(&broken, true, false, 500),
            step(&mixed, false, false, 500),
            step(&no_root, false, true, 500),
            step(&small, true, false, 600),
        ],
        vec![with_itself(false, true, 700), with_itself(true, false, 900)],
        vec![
            step(&ordered(&shared(), "bl"), false, false, 600),
            with_itself(false, false, 100),
            step(&unreached(), false, true, 900),
        ],
        vec![
            step(&duration("Pd"), false, true, 500),
            step(&changed(&duration("Pd"), 3, |record| record.flag = 128), false, false, 500),
            step(&duration("PTm"), true, false, 700),
        ],
    ]
}

fn steps() -> Group {
    let starts = [smallest(), strings(), ordered(&smallest(), "lb")];
    let mut cases = Vec::new();
    for start in starts {
        let start = start.bytes();
        for list in lists() {
            let (end, terms) = run(&start, &list);
            cases.push(format!("carries {} {} {} {}", hex(&start), term::list(&terms), hex(&end.table), end.sum));
        }
    }
    Group {
        about:
            "the carried table as first and as second, with itself, and refused merges in between, which change nothing",
        cases,
    }
}
