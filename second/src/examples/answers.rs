//! Data texts judged by tables at a root, and lists of merges with the meaning of two texts.

use super::handmade::{changed, compiled, every_kind, ordered, record, shared, table, unreached};
use super::merges::{lists, run};
use super::spelled::{filling, hex, text as spelled, verdict};
use super::table::Group;
use super::{table as layout, term};
use crate::api::{CompileAnswer, JudgeAnswer, MeaningAnswer, MergeAnswer};
use crate::generator::{self, Maker, Table};
use crate::{compile, judge, meaning, merge};

const PATH: &str = "mathlib.Core.Path.{◌≡◌, refl}";
const BOOL: &str = "mathlib.Core.Bool.{true, false}";
const LIST: &str = "mathlib.Core.List.{List, [], ◌∷◌}";
const TEXT: &str = "Rattle.lexis.specs.Text.{bytes}";
const WRONG: &str = "Rattle.lexis.proofs.Tables.{wrong}";
const VERDICTS: &str = "Rattle.meaning.specs.Verdicts.{valid, fails}";

const JUDGES: &[&str] = &[
    PATH,
    LIST,
    TEXT,
    WRONG,
    VERDICTS,
    "Rattle.table.proofs.Hex.{hex}",
    "Rattle.judge.proofs.Computes.{judge_computes}",
    "Rattle.judge.proofs.Examples.{Case, judges, refuses, right}",
];

const DEMANDS: &[&str] = &[
    PATH,
    BOOL,
    LIST,
    TEXT,
    WRONG,
    VERDICTS,
    "Rattle.table.proofs.Hex.{hex, filling}",
    "Rattle.table_merge.proofs.Computes.{merge_computes}",
    "Rattle.table_merge.proofs.Examples.{step}",
    "Rattle.compile.proofs.Computes.{compile_computes}",
    "Rattle.judge.proofs.Computes.{judge_computes}",
    "Rattle.demands.specs.Demands.{meaning_of}",
    "Rattle.demands.proofs.Examples.{Case, judges, refuses, right}",
];

pub fn tables() -> Vec<layout::Table> {
    let part = |module, about, groups| layout::Table {
        holder: "judge",
        module,
        about,
        uses: JUDGES,
        case: "Case",
        right: "right",
        unfolding: "judge_computes",
        groups,
    };
    vec![
        part("JudgeTable", "Data by tables: compiled, in mixed orders, with shared records, and merged.", judge_groups()),
        part("RefusalTable", "Tables, roots and data texts that are refused.", refusal_groups()),
        part("MadeTable", "Short tables and data texts from a generator with a fixed seed.", vec![made()]),
        layout::Table {
            holder: "demands",
            module: "ListTable",
            about: "Lists of merges: what the carried table answers at 1 + the sum is what the two texts mean, with the record moved by the sum.",
            uses: DEMANDS,
            case: "Case",
            right: "right",
            unfolding: "meaning_of merge_computes compile_computes judge_computes",
            groups: vec![list_group()],
        },
    ]
}

fn case(table: &[u8], root: u32, data: &[u8]) -> String {
    let inputs = format!("{} {} {}", hex(table), term::number(u64::from(root)), spelled(data));
    match judge(table, root, data) {
        JudgeAnswer::Refused { number, place } => format!("refuses {inputs} {number} {}", term::number(place)),
        answer => format!("judges {inputs} {}", verdict(answer)),
    }
}

/// Data by one table, at a root.
fn at(table: &Table, root: u32, data: &[&str]) -> Vec<String> {
    data.iter().map(|each| case(&table.bytes(), root, each.as_bytes())).collect()
}

/// Two tables merged.
fn merged(first: &Table, second: &Table) -> Table {
    let mut out = vec![0; first.bytes().len() + second.bytes().len()];
    match merge(&first.bytes(), &second.bytes(), false, &mut out) {
        MergeAnswer::Done { length, .. } => Table::read(&out[..length as usize]),
        MergeAnswer::Refused { number, place, .. } => panic!("{number} at {place}"),
    }
}

fn judge_groups() -> Vec<Group> {
    let small = compiled("A matches {*}");
    let nested = compiled("A matches {a matches {B matches {b matches {5, |7..9|}}} c existence matches {0} matches {*} d existence matches {0..1} matches {\"x\", \"\"}}");
    let dates = compiled("A matches {a matches {|2003-12-31..2004-02-29|, |2005-01-01|} b existence matches {0..1} matches {yyyy-??-XX} c existence matches {0..1} matches {Thh:mm:ss} d existence matches {0..1} matches {False}}");
    let nested_data = [
        "<a=<b=<5>>>", "<a=<b=<8>>d=<\"x\">>", "<a=<b=<6>>>", "<a=<b=<08>>>", "<a=<b=<\"5\">>>", "<a=<b=<>>>",
        "<a=<5>>", "<a=(C)<b=<5>>>", "<a=(B)<>>", "<>", "(B)<>", "(A)<a=<b=<5>>c=<>>", "<c=<5>>",
        "<a=<b=<5>>d=<\"y\">>", "<a=<b=<5>>d=<>>", "<d=<\"\">a=<b=<9>>>", "<d=<x=<5>>c=<1>a=<b=<9>>>",
    ];
    let date_data = [
        "<a=<2004-02-29>>",
        "<a=<2004-03-01>>",
        "<a=<2004>>",
        "<a=<20040229>>",
        "<a=<2005-01-01>b=<2004>c=<10:30:00+05>d=<False>>",
        "<a=<2005-01-01>b=<2004-05-20>>",
        "<a=<2005-01-01>c=<10:30>>",
        "<a=<2005-01-01>d=<True>>",
        "<a=<2005-01-01>b=<5>>",
    ];
    let every = ordered(&every_kind(), "blb");
    let every_data = [
        "<d=<5>e=<\"\">f=<2004>g=<2004-12-31>h=<10:30>i=<>>",
        "<d=<-1>e=<\"yz\">f=<2004-05>g=<9999-12-31>h=<10:30Z>i=<5>bc=<True>>",
        "<a=<>>",
        "<bc=<False>>",
        "<d=<0>>",
        "<d=<9>e=<\"xy\">>",
        "<d=<9>e=<\"x\">f=<2004-05-20>>",
        "<d=<9>e=<\"x\">f=<2004>g=<2005-01-02>>",
        "<d=<9>e=<\"x\">f=<2004>g=<2005-01-01>h=<08>>",
        "(Ab)<d=<9>e=<\"x\">f=<2004>g=<2005-01-01>h=<08:00>>",
        "(A)<>",
        "<d=<5>e=<\"\">f=<2004>g=<2004-12-31>h=<10:30>j=<P12w3dT5m>i=<>>",
        "<d=<5>e=<\"\">f=<2004>g=<2004-12-31>h=<10:30>j=<P1m>i=<>>",
        "<d=<5>e=<\"\">f=<2004>g=<2004-12-31>h=<10:30>j=<2004>i=<>>",
        "<d=<5>e=<\"\">f=<2004>g=<2004-12-31>h=<10:30>j=<-PT5M>>",
    ];
    let duration_data = [
        "<a=<P4w>>", "<a=<P12W3D>>", "<a=<-P3d>b=<PT5m>>", "<a=<P4w>b=<P5m>>", "<a=<PT5m>>", "<a=<P1w2dT3h>>",
        "<a=<5>>", "<a=<2004>>", "<a=<\"P4w\">>", "<a=<>>", "<>",
    ];
    let durations = compiled("A matches {a matches {Pwd} b existence matches {0..1} matches {PTm}}");
    let pair = merged(&compiled("A matches {a matches {Pd}}"), &compiled("A matches {a matches {PTm}}"));
    let shared_data = [
        "<b=<b=<5>>>", "<b=<b=<1>>>", "<b=<b=<9>>c=<b=<9>>d=<1>e=<3>f=<5>>", "<b=<b=<9>>c=<b=<4>>>", "<b=<b=<9>>c=<>>",
        "<b=<b=<9>>d=<4>>", "<b=<b=<9>>d=<3>e=<True>>", "<b=<b=<9>>f=<3>>", "<b=<b=<9>>f=<9>>", "<b=(A)<b=<9>>>",
        "<b=(B)<b=<9>>c=(B)<b=<5>>>", "<b=<b=<9>>f=<\"x\">>",
    ];
    // attributes of one name, each judged in turn: at most 9, at least 5, none
    let repeated = table(
        1,
        &[
            record(1, 0, [0, 1, 0, 0, 2]),
            record(2, 1, [1, 1, 5, 3, 0]),
            record(2, 2, [1, 1, 6, 4, 0]),
            record(2, 0, [2, 1, 0, 0, 0]),
            record(4, 0, [0, 9, 0, 0, 0]),
            record(4, 0, [5, 100, 0, 0, 0]),
        ],
        b"Aab",
    );
    let one_name = ["<a=<7>>", "<a=<4>>", "<a=<10>>", "<>", "<a=<7>b=<>>", "<a=<200>>"];
    let image = merged(&ordered(&nested, "lb"), &shared());
    let shift = nested.records.len() as u32 - 1;
    let twice = merged(&small, &merged(&dates, &small));
    let group = |about, cases: Vec<Vec<String>>| Group { about, cases: cases.concat() };
    vec![
        group(
            "the smallest table",
            vec![
                at(&small, 1, &["<>", "(A)<>", "(B)<>", "<a=<5>>", " (AB) <>"]),
                at(&ordered(&small, "l"), 1, &["(A)<a=<>>", "(B)<>"]),
            ],
        ),
        group(
            "tables of texts, at the root and at an object inside",
            vec![
                at(&nested, 1, &nested_data),
                at(&ordered(&nested, "lbb"), 1, &nested_data),
                at(&nested, 3, &["<b=<5>>", "<b=<6>>", "(A)<>", "<>"]),
            ],
        ),
        group("dates and times", vec![at(&dates, 1, &date_data), at(&ordered(&dates, "bl"), 1, &date_data)]),
        group("every kind of record", vec![at(&every, 1, &every_data), at(&every, 3, &["<>", "(C)<>", "(Ab)<x=<5>>"])]),
        group(
            "shared records, and a link into the middle of a list",
            vec![
                at(&shared(), 1, &shared_data),
                at(&ordered(&shared(), "bl"), 8, &["<b=<5>>", "<b=<1>>", "<>", "(A)<>"]),
            ],
        ),
        group(
            "duration patterns, and two tables of them merged",
            vec![
                at(&durations, 1, &duration_data),
                at(&ordered(&durations, "lb"), 1, &duration_data[2..6]),
                at(&pair, 4, &["<a = <PT5m>>", "<a=<P5d>>", "<a=<-PT0M>>"]),
                at(&pair, 1, &["<a=<P5d>>", "<a=<PT5m>>"]),
            ],
        ),
        group("attributes of one name, each judged in link order", vec![at(&repeated, 1, &one_name)]),
        group(
            "a root that isn't the first record, and objects that no link leads to",
            vec![
                at(&unreached(), 3, &["<a=<08:30>>", "<a=<08:30:00>>", "<a=<5>>", "(A)<a=<08>>", "(Aa)<>"]),
                at(&unreached(), 6, &["<>", "(Aa)<a=<5>>", "(A)<>"]),
            ],
        ),
        group(
            "merged tables, at the first's root and at the second's moved",
            vec![
                at(&image, 1, &nested_data[..8]),
                at(&image, 1 + shift, &shared_data),
                at(&twice, 1, &["(A)<>", "(B)<>"]),
                at(&twice, 2, &date_data),
                at(&twice, 1 + dates.records.len() as u32, &["(A)<a=<2004>>", "(B)<>"]),
            ],
        ),
    ]
}

fn refusal_groups() -> Vec<Group> {
    let small = compiled("A matches {*}");
    let every = ordered(&every_kind(), "bl");
    let count = every.records.len() as u32;
    let mut roots: Vec<String> = (0..=count + 1).map(|root| case(&every.bytes(), root, b"(Z)<>")).collect();
    roots.extend([2_047, 65_536, u32::MAX].map(|root| case(&every.bytes(), root, b"<>")));
    let mut before: Vec<String> = Vec::new();
    for data in ["", "<", "<a=<5x>>", "<a=<5>a=<6>>", "(t)<>"] {
        before.extend([0, 2, u32::MAX].map(|root| case(&small.bytes(), root, data.as_bytes())));
        before.push(case(&small.bytes(), 1, data.as_bytes()));
    }
    let broken = changed(&ordered(&unreached(), "lb"), 4, |record| record.flag = 3);
    let no_table = changed(&broken, 0, |header| header.flag = 1);
    let mut tables = Vec::new();
    for (root, data) in [(3, "<a=<08>>"), (3, "<"), (0, "<>"), (99, "")] {
        tables.push(case(&broken.bytes(), root, data.as_bytes()));
        tables.push(case(&no_table.bytes(), root, data.as_bytes()));
    }
    tables.extend(
        [&b""[..], &small.bytes()[..48], &[&small.bytes()[..], b"A"].concat()].map(|bytes| case(bytes, 1, b"<>")),
    );
    let faults = [
        "", " ", "<", "<>>", "<a", "<a=<5>", "<a=<5>>x", "()<>", "(t)<>", "(True)<>", "<a=5>", "<a=<5 6>>", "<5>",
        "<a=(T)<5>>", "<matches=<5>>", "<a-b=<5>>", "<a=<\"x>>", "<\x00>", "<a=<5x>>", "<a=<24:00:00>>",
        "<a=<1900-02-29>>", "<a=<007>>", "<a=<12+14:00>>", "<a=<5>a=<6>>", "<a=<b=<>c=<>b=<>>>", "<a=<5x>a=<6>>",
        "<a=<5>a=<6x>>", "(B)<a=<5x>>", "<a=<P>>", "<a=<P5dT>>", "<a=<P1d2w>>", "<a=<P00005d>>", "<a=<+P5d>>",
        "<a=<p5d>>", "<a=<--P5d>>", "<Pd = <5>>",
    ];
    let deep = format!("{}{}", "<a=".repeat(16) + "<", ">".repeat(17));
    let long = format!("<{}=<5>>", "a".repeat(64));
    let long_type = format!("({})<>", "A".repeat(64));
    let long_string = format!("<a=<\"{}\">>", "x".repeat(256));
    let edge = format!("<a=<\"{}\">>", "x".repeat(255));
    vec![
        Group { about: "a root that isn't an object of the table", cases: roots },
        Group { about: "14 before the data text's faults", cases: before },
        Group { about: "the table's faults before all", cases: tables },
        Group {
            about: "the data text's faults before the verdict",
            cases: faults.iter().map(|data| case(&small.bytes(), 1, data.as_bytes())).collect(),
        },
        Group {
            about: "levels and lengths",
            cases: [deep, long, long_type, long_string, edge]
                .iter()
                .map(|data| case(&small.bytes(), 1, data.as_bytes()))
                .collect(),
        },
    ]
}

const SEED: u64 = 1;

/// How many cases are taken from the generator, and how long their tables and data may be.
const MADE: usize = 100;
const LONGEST: usize = 300;
const LONGEST_DATA: usize = 150;

/// The most records that a header may claim, so that few are decoded.
const MOST_CLAIMED: u32 = 64;

fn made() -> Group {
    let maker = Maker::new(SEED);
    let mut cases: Vec<String> = Vec::new();
    let (mut refused, mut valid) = (0, 0);
    for number in 0.. {
        if cases.len() == MADE {
            break;
        }
        let each = maker.judge(number);
        let small = (crate::limits::RECORD..=LONGEST).contains(&each.table.len()) && each.data.len() <= LONGEST_DATA;
        if !small || generator::Record::read(&each.table).numbers[0] > MOST_CLAIMED {
            continue;
        }
        let sort = match judge(&each.table, each.root, &each.data) {
            JudgeAnswer::Refused { .. } => &mut refused,
            JudgeAnswer::Valid => &mut valid,
            JudgeAnswer::Verdict { .. } => &mut 0,
        };
        if *sort == MADE / 4 {
            continue;
        }
        *sort += 1;
        cases.push(case(&each.table, each.root, &each.data));
    }
    Group { about: "cases as the generator gives them, a quarter of them at most refused and a quarter valid", cases }
}

/// The output that a text of a list is compiled into.
const FILL: u8 = 3;
const ROOM: usize = 300;

/// A text with data for it.
const TEXTS: [(&str, &[&str]); 4] = [
    ("A matches {*}", &["(B)<>"]),
    ("A matches {a matches {B matches {b matches {5, 7} c existence matches {0} matches {*}}} d existence matches {0..1} matches {\"x\", \"\"}}", &["<a=<b=<7>>d=<\"\">>", "<a=<b=<6>>>", "<a=<b=<5>c=<>>>", "<a=<5>>"]),
    ("A[at1] matches {a matches {|2004-01-01|} b matches {*}}", &["<a=<2004-01-01>>", "<a=<5x>>", "(B)<>"]),
    ("Pd matches {a matches {Pwd} b existence matches {0..1} matches {PTm}}", &["(Pd)<a=<P4w>b=<-PT5M>>", "<a=<P4w>b=<P5m>>", "<a=<5>>"]),
];

fn list_group() -> Group {
    let mut cases = Vec::new();
    for (turn, (text, data)) in TEXTS.iter().enumerate() {
        let little = turn % 2 == 1;
        let mut out = generator::filling(FILL, ROOM);
        let CompileAnswer::Done { length } = compile(text.as_bytes(), little, &mut out) else {
            panic!("refused");
        };
        for list in lists() {
            let (end, steps) = run(&out[..length as usize], &list);
            let inputs = format!(
                "{} {} {} {} {}",
                term::bytes(text.as_bytes()),
                term::truth(little),
                filling(FILL, ROOM),
                term::list(&steps),
                end.sum
            );
            for form in *data {
                let answer = judge(&end.table, 1 + end.sum, form.as_bytes());
                assert!(
                    MeaningAnswer::Answer(moved_back(answer, end.sum)) == meaning(text.as_bytes(), form.as_bytes())
                );
                let inputs = format!("{inputs} {}", term::bytes(form.as_bytes()));
                cases.push(match answer {
                    JudgeAnswer::Refused { number, place } => format!("refuses {inputs} {number} {place}"),
                    answer => format!("judges {inputs} {}", verdict(answer)),
                });
            }
        }
    }
    Group { about: "merges with the carried table first and second, with itself, and refused", cases }
}

/// The answer with its record's number as the text counts it.
fn moved_back(answer: JudgeAnswer, sum: u32) -> JudgeAnswer {
    match answer {
        JudgeAnswer::Verdict { reason, record, place } => JudgeAnswer::Verdict { reason, record: record - sum, place },
        other => other,
    }
}
