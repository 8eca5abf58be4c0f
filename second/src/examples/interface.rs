//! What the C interface returns and sets, for each outcome of each job.

use super::handmade::{changed, compiled, every_kind, ordered};
use super::spelled::{filling, hex, text as spelled};
use super::table::Group;
use super::{table as layout, term};
use crate::api::{CheckAnswer, CompileAnswer, JudgeAnswer, MergeAnswer, NameAnswer};
use crate::{check, compile, judge, merge, name};

const USES: &[&str] = &[
    "mathlib.Core.Path.{◌≡◌, refl}",
    "mathlib.Core.Bool.{true, false}",
    "mathlib.Core.List.{List, [], ◌∷◌}",
    "Rattle.lexis.specs.Text.{bytes}",
    "Rattle.lexis.proofs.Tables.{wrong}",
    "Rattle.table.proofs.Hex.{hex, filling}",
    "Rattle.table_merge.proofs.Computes.{merge_computes}",
    "Rattle.compile.proofs.Computes.{compile_computes}",
    "Rattle.judge.proofs.Computes.{judge_computes}",
    "Rattle.gateway.proofs.Examples.{Case, compiles, checks, merges, judges, names, right}",
];

/// How an output is filled before a job.
const FILL: u8 = 7;

pub fn tables() -> Vec<layout::Table> {
    vec![layout::Table {
        holder: "gateway",
        module: "InterfaceTable",
        about: "What each function of the C interface returns and sets.",
        uses: USES,
        case: "Case",
        right: "right",
        unfolding: "merge_computes compile_computes judge_computes",
        groups: vec![
            Group { about: "a text, an order, an output: what is returned, and the place", cases: compile_cases() },
            Group { about: "a table: what is returned, and the place", cases: check_cases() },
            Group {
                about: "two tables, an order, an output: what is returned, the place, both shifts, and which table is named",
                cases: merge_cases(),
            },
            Group {
                about: "a table, a root, a data text: what is returned, the place, and the record",
                cases: judge_cases(),
            },
            Group { about: "a table, a record: what is returned, the start, and the length", cases: name_cases() },
        ],
    }]
}

/// Numbers behind a case's inputs.
fn numbers(all: &[u64]) -> String {
    all.iter().map(|each| term::number(*each)).collect::<Vec<_>>().join(" ")
}

fn compile_cases() -> Vec<String> {
    let case = |text: &str, little: bool, room: usize| {
        let told = match compile(text.as_bytes(), little, &mut vec![0; room]) {
            CompileAnswer::Done { length } => [0, length],
            CompileAnswer::Refused { number, place } => [u64::from(number), place],
        };
        let inputs = format!("{} {} {}", term::bytes(text.as_bytes()), term::truth(little), filling(FILL, room));
        format!("compiles {inputs} {}", numbers(&told))
    };
    vec![
        case("A matches {*}", false, 49),
        case("A matches {*}", true, 60),
        case("A matches {*}", false, 48),
        case("A matches {a matches {5, 5}}", false, 0),
        case("A matches {a matches {|5..4|}}", true, 9),
        case("A matches", false, 60),
        case("A matches {a matches {Pwd}}", true, 98),
        case("A matches {a matches {Pwd;}}", false, 98),
        case("A matches {a matches {PD}}", false, 98),
    ]
}

fn check_cases() -> Vec<String> {
    let case = |table: &[u8]| {
        let told = match check(table) {
            CheckAnswer::Passed => [0, 0],
            CheckAnswer::Refused { number, place } => [u64::from(number), place],
        };
        format!("checks {} {}", hex(table), numbers(&told))
    };
    let small = compiled("A matches {*}").bytes();
    let every = every_kind();
    vec![
        case(&small),
        case(&small[1..]),
        case(&changed(&every, 5, |record| record.kind = 10).bytes()),
        case(&changed(&every, 5, |record| record.kind = 9).bytes()),
        case(&changed(&every, 5, |record| (record.kind, record.flag) = (9, 128)).bytes()),
        case(&ordered(&every, "bl").bytes()),
    ]
}

fn merge_cases() -> Vec<String> {
    let case = |first: &[u8], second: &[u8], little: bool, room: usize| {
        let told = match merge(first, second, little, &mut vec![0; room]) {
            MergeAnswer::Done { length, record_shift, pool_shift } => {
                [0, length, u64::from(record_shift), u64::from(pool_shift), 0]
            }
            MergeAnswer::Refused { number, place, table } => [u64::from(number), place, 0, 0, u64::from(table)],
        };
        let inputs = format!("{} {} {} {}", hex(first), hex(second), term::truth(little), filling(FILL, room));
        format!("merges {inputs} {}", numbers(&told))
    };
    let small = compiled("A matches {*}").bytes();
    let other = compiled("Abc[at1] matches {de matches {\"x\"}}");
    let broken = changed(&other, 2, |record| record.flag = 3).bytes();
    let durations = |pattern: &str| compiled(&format!("A matches {{a matches {{{pattern}}}}}")).bytes();
    vec![
        case(&small, &small, false, 74),
        case(&other.bytes(), &small, true, 200),
        case(&small, &other.bytes(), false, 200),
        case(&small, &small, true, 73),
        case(&small[..48], &broken, false, 200),
        case(&small, &small[..48], false, 200),
        case(&broken, &small[..48], false, 200),
        case(&small, &broken, true, 200),
        case(&durations("Pd"), &durations("PTm"), false, 172),
    ]
}

fn judge_cases() -> Vec<String> {
    let table = compiled("A matches {a matches {B matches {b matches {5}}} c existence matches {0} matches {*}}");
    let case = |table: &[u8], root: u32, data: &str| {
        let told = match judge(table, root, data.as_bytes()) {
            JudgeAnswer::Valid => [0, 0, 0],
            JudgeAnswer::Refused { number, place } => [u64::from(number), place, 0],
            JudgeAnswer::Verdict { reason, record, place } => [u64::from(reason), place, u64::from(record)],
        };
        let inputs = format!("{} {} {}", hex(table), term::number(u64::from(root)), spelled(data.as_bytes()));
        format!("judges {inputs} {}", numbers(&told))
    };
    let whole = table.bytes();
    let durations = compiled("A matches {a matches {Pwd}}").bytes();
    vec![
        case(&whole, 1, "<a=<b=<5>>>"),
        case(&whole, 3, "<b=<5>>"),
        case(&whole, 1, "<a=<5>>"),
        case(&whole, 1, "(B)<>"),
        case(&whole, 1, " <>"),
        case(&whole, 1, "<a=<b=<5>>c=<>>"),
        case(&whole, 1, "<a=<b=<6>>>"),
        case(&whole, 1, "<a=<b=<6>>"),
        case(&whole, 1, "<a=<>a=<>>"),
        case(&whole, 2, "<>"),
        case(&whole, 9, "<>"),
        case(&whole[1..], 1, "<>"),
        case(&changed(&table, 4, |record| record.kind = 8).bytes(), 1, "<"),
        case(&durations, 1, "<a=<P4w>>"),
        case(&durations, 1, "<a=<PT5m>>"),
        case(&durations, 1, "<a=<5>>"),
        case(&durations, 1, "<a=<P4>>"),
        case(&durations, 3, "<a=<P4w>>"),
    ]
}

fn name_cases() -> Vec<String> {
    let table = compiled("Abc[at1] matches {de matches {\"x\", \"\"} f matches {5}}");
    let case = |table: &[u8], record: u32| {
        let told = match name(table, record) {
            NameAnswer::Name { start, length } => [0, start, length],
            NameAnswer::Refused { number, place } => [u64::from(number), place, 0],
        };
        format!("names {} {} {}", hex(table), term::number(u64::from(record)), numbers(&told))
    };
    let whole = table.bytes();
    let mut all: Vec<String> = (0..8).map(|record| case(&whole, record)).collect();
    all.push(case(&whole[1..], 1));
    all.push(case(&compiled("A matches {a matches {Pwd}}").bytes(), 3));
    all.push(case(&changed(&table, 2, |record| record.flag = 3).bytes(), 1));
    all
}
