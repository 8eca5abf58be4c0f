//! Texts compiled into outputs.

use super::spelled::{self, filling, hex};
use super::table::{Group, Table};
use super::term;
use crate::api::CompileAnswer;
use crate::compile;
use crate::generator::{self, Maker};

const USES: &[&str] = &[
    "mathlib.Core.Path.{◌≡◌, refl}",
    "mathlib.Core.Bool.{true, false}",
    "mathlib.Core.List.{List, [], ◌∷◌}",
    "Rattle.lexis.specs.Text.{bytes}",
    "Rattle.lexis.proofs.Tables.{wrong}",
    "Rattle.table.proofs.Hex.{hex, filling}",
    "Rattle.compile.proofs.Computes.{compile_computes}",
    "Rattle.compile.proofs.Examples.{Case, compiles, refuses, right}",
];

pub fn tables() -> Vec<Table> {
    let part = |module, about, groups| Table {
        holder: "compile",
        module,
        about,
        uses: USES,
        case: "Case",
        right: "right",
        unfolding: "compile_computes",
        groups,
    };
    vec![
        part(
            "CompileTable",
            "Texts with their tables, byte for byte, and the output behind the table.",
            compile_groups(),
        ),
        part("RefusalTable", "Texts that are refused, and outputs too short.", refusal_groups()),
        part("MadeTable", "Short texts from a generator with a fixed seed.", vec![made()]),
    ]
}

const FILL: u8 = 7;

fn case(text: &[u8], little: bool, fill: u8, room: usize) -> String {
    let before = generator::filling(fill, room);
    let mut out = before.clone();
    let inputs = format!("{} {} {}", spelled::text(text), term::truth(little), filling(fill, room));
    match compile(text, little, &mut out) {
        CompileAnswer::Done { length } => format!("compiles {inputs} {length} {}", hex(&out)),
        CompileAnswer::Refused { number, place } => {
            assert!(out == before);
            format!("refuses {inputs} {number} {place}")
        }
    }
}

/// The length of the text's table.
fn needed(text: &str) -> usize {
    let mut out = vec![0; generator::LONGEST_TABLE];
    match compile(text.as_bytes(), false, &mut out) {
        CompileAnswer::Done { length } => length as usize,
        CompileAnswer::Refused { number, place } => panic!("{text}: {number} at {place}"),
    }
}

/// Each text in both orders, with so many bytes of output behind its table.
fn both(about: &'static str, texts: &[&str], more: usize) -> Group {
    let of = |text: &&str| [false, true].map(|little| case(text.as_bytes(), little, FILL, needed(text) + more));
    Group { about, cases: texts.iter().flat_map(of).collect() }
}

/// A text whose one attribute holds the leaf.
fn holding(leaf: &str) -> String {
    format!("A matches {{a matches {{{leaf}}}}}")
}

/// Leaves in the smallest text.
fn leaves(about: &'static str, all: &[&str]) -> Group {
    let of =
        |(index, leaf): (usize, &&str)| case(holding(leaf).as_bytes(), index % 2 == 1, FILL, needed(&holding(leaf)));
    Group { about, cases: all.iter().enumerate().map(of).collect() }
}

const SMALLEST: &str = "A matches {*}";

fn compile_groups() -> Vec<Group> {
    vec![
        both("`A matches {*}`: 49 bytes", &[SMALLEST, "Abc matches {*}", "A[at1] matches {*}", "A[at12.3.45]matches{*}"], 0),
        both("the output behind the table is kept", &[SMALLEST, "A matches {a matches {\"\"}}"], 5),
        both(
            "attributes with each existence, and what they hold",
            &[
                "A matches {a matches {*}}",
                "A matches {a existence matches {0} matches {*} b existence matches {0..1} matches {*} c existence matches {1} matches {*}}",
                "A matches {a existence matches {0..0} matches {True} b existence matches {1..1} matches {5}}",
                "A matches {a matches {B matches {*}}}",
                "A matches {a matches {B[at1] matches {b matches {*}}} c matches {C matches {*}}}",
            ],
            0,
        ),
        both(
            "records and pool in text order",
            &[
                "A[at1] matches {ab matches {B[at2.3] matches {cd matches {\"x\", \"\", \"yz\"} e matches {1, 2}}} f existence matches {0..1} matches {C matches {g matches {Thh:??:??}}} h matches {*}}",
                "A matches {a matches {A matches {a matches {A matches {a matches {\"a\"}}}}}}",
                "-- c\nA\t[at1]\r\nmatches { a matches { \" \" } }",
            ],
            1,
        ),
        leaves("Booleans", &["True", "False", "True, False", "False, True", "False", "True"]),
        leaves(
            "integers in two's complement",
            &["5", "0", "-1", "-2147483648", "2147483647", "|5..9|", "|-5..-3|", "|>=0|", "|<0|", "|>2147483646|", "|<=-2147483648|", "|0..<1000|", "|>0..<3|", "|100+/-5|", "1, |5..9|, -7", "|<0|, 0, |>0|"],
        ),
        leaves("strings: no quotes, and an empty one has place 0", &["\"\"", "\"a\"", "\"a b\"", "\"x\", \"\"", "\"\", \"x\"", "\"ab\", \"\", \"c\", \"def\""]),
        leaves("date patterns", &["yyyy-mm-dd", "yyyy-mm-??", "yyyy-??-??", "yyyy-mm-XX", "yyyy-??-XX"]),
        leaves(
            "date intervals, packed; an open end is a day off",
            &["|2004-02-29|", "|2004-01-01..2004-12-31|", "|>2003-12-31|", "|<2004-03-01|", "|<2005-01-01|", "|<=2004-02-28|", "|>=0000-01-01|", "|>2004-02-28..<2004-03-01|", "|2004-01-01|, |>=2006-01-01|, |2005-05-05|"],
        ),
        leaves("time patterns", &["Thh:mm:ss", "Thh:mm:XX", "Thh:??:XX", "Thh:??:??"]),
        leaves("duration patterns", &["Pd", "Pwd", "PTm", "PTm", "Pm", "PThm", "PmTm", "PymwdThms", "Pd --c\n", "Pd matches {*}"]),
        leaves("`*`", &["*", "*"]),
        both("every kind of record", &["Ab[at1] matches {a existence matches {0} matches {C matches {*}} bc existence matches {0..1} matches {True} d matches {-1, |5..9|} e matches {\"x\", \"\", \"yz\"} f matches {yyyy-??-XX} g matches {|2004-02-29..2005-01-01|, |9999-12-31|} h matches {Thh:mm:XX} j existence matches {0..1} matches {PwdTm} i matches {*}}"], 2),
    ]
}

fn refusal_groups() -> Vec<Group> {
    let mut short = Vec::new();
    for text in [SMALLEST, "A matches {*} -- end\n", "A[at1] matches {a matches {\"x\", \"\"} b matches {1}}"] {
        let needed = needed(text);
        for room in [0, 1, 24, 48, needed - 1, needed, needed + 1] {
            short.push(case(text.as_bytes(), room % 2 == 1, FILL, room));
        }
    }
    let faults: [&str; 26] = [
        "",
        "A",
        "A matches",
        "A matches {*",
        "A matches {*}}",
        "A matches {}",
        "a matches {*}",
        "A matches {a matches {5, \"a\"}}",
        "A matches {a matches {007}}",
        "A matches {a matches {2147483648}}",
        "A matches {a matches {|2004-02-30|}}",
        "A matches {a matches {|>0..<1|}}",
        "A matches {a matches {|>2147483647|}}",
        "A matches {a matches {5, |5..9|}}",
        "A matches {a matches {*} a matches {*}}",
        "A matches {a matches {1, 2, 3, 4, 5, 6, 7, 8, 9, 10, 11, 12, 13, 14, 15, 16, 17}}",
        "A matches {a existence matches {2} matches {*}}",
        "A matches {a matches {\"a}}",
        "A[at] matches {*}",
        "A matches {a matches {5.0}}",
        "A matches {a matches {Pd;}}",
        "A matches {a matches {PdT}}",
        "A matches {a matches {Pd, Pw}}",
        "A matches {a matches {-Pd}}",
        "A matches {a matches {|P1d..P2d|}}",
        "Pd}",
    ];
    let mut kept = Vec::new();
    for (index, text) in faults.iter().enumerate() {
        kept.push(case(text.as_bytes(), index % 2 == 0, FILL, 60));
    }
    let rooms = faults[10..16].iter().map(|text| case(text.as_bytes(), false, FILL, 3)).collect();
    let deep = format!("{}*{}", "A matches {a matches {".repeat(16) + "A matches {", "}".repeat(33));
    let long = format!("{} matches {{*}}", "A".repeat(64));
    let long_string = format!("A matches {{a matches {{\"{}\"}}}}", "x".repeat(256));
    let x = "A matches {a matches {".repeat(16);
    let pattern = format!("{x}Pd");
    let closed = format!("{x}Pd}}");
    let capital = format!("{x}PD{}", "}".repeat(32));
    let limits = [deep, long, long_string, pattern, closed, capital]
        .iter()
        .map(|text| case(text.as_bytes(), false, FILL, 60))
        .collect();
    vec![
        Group { about: "an output too short, at the text's end; and long enough", cases: short },
        Group { about: "faults of the text: the output is kept", cases: kept },
        Group { about: "a fault of the text before an output too short", cases: rooms },
        Group { about: "levels and lengths", cases: limits },
    ]
}

const SEED: u64 = 2;

/// How many texts are taken from the generator, how long they may be, and how long their outputs.
const MADE: usize = 100;
const LONGEST: usize = 150;
const MOST_ROOM: usize = 400;

fn made() -> Group {
    let maker = Maker::new(SEED);
    let mut cases: Vec<String> = Vec::new();
    let mut refused = 0;
    for number in 0.. {
        if cases.len() == MADE {
            break;
        }
        let each = maker.compile(number);
        if each.text.len() > LONGEST || each.room > MOST_ROOM {
            continue;
        }
        let line = case(&each.text, each.little, each.fill, each.room);
        if line.starts_with("refuses") {
            if refused == MADE / 2 {
                continue;
            }
            refused += 1;
        }
        cases.push(line);
    }
    Group { about: "texts as the generator gives them, half of them at most refused", cases }
}
