//! Constraint trees and datum trees with the verdict of each pair.

use super::spelled::verdict;
use super::table::{Group, Table};
use super::term;
use crate::api::{JudgeAnswer, MeaningAnswer};
use crate::constraint::{self, Value};
use crate::data::{self, Datum, LeafValue};
use crate::generator::{data_text, Maker, Random};
use crate::meaning;

const USES: &[&str] = &[
    "mathlib.Core.Path.{◌≡◌, refl}",
    "Rattle.std.specs.Prelude.{None, Some}",
    "mathlib.Core.List.{List, [], ◌∷◌}",
    "Rattle.lexis.specs.Text.{bytes}",
    "Rattle.lexis.proofs.Tables.{wrong}",
    "Rattle.meaning.specs.Constraints.{no_more, any, nested, leaf, single, ranges, texts, booleans, integers, date_pattern, dates, time_pattern, duration_pattern}",
    "Rattle.meaning.specs.Data.{datum, member, string, word, block}",
    "Rattle.meaning.specs.Data",
    "Rattle.meaning.specs.Verdicts.{valid, fails}",
    "Rattle.meaning.proofs.Computes.{meaning_computes}",
    "Rattle.meaning.proofs.Trees.{range, item, object_with, attribute_with}",
    "Rattle.meaning.proofs.Examples.{Case, judges, under, right}",
];

fn table(module: &'static str, about: &'static str, groups: Vec<Group>) -> Table {
    Table {
        holder: "meaning",
        module,
        about,
        uses: USES,
        case: "Case",
        right: "right",
        unfolding: "meaning_computes",
        groups,
    }
}

pub fn tables() -> Vec<Table> {
    vec![
        table("LeafTable", "Words and strings by leaves of every kind.", leaf_groups()),
        table(
            "JudgeTable",
            "Data by objects: types, existence, members, levels, and the first failure in the walk.",
            object_groups(),
        ),
        table("MadeTable", "Short texts from a generator with a fixed seed, and data for each.", vec![made()]),
    ]
}

fn answer(text: &[u8], data: &[u8]) -> JudgeAnswer {
    match meaning(text, data) {
        MeaningAnswer::Answer(answer) => answer,
        MeaningAnswer::ConstraintRefused { number, place } => {
            panic!("{}: {number} at {place}", String::from_utf8_lossy(text))
        }
    }
}

/// One text by another, both without faults.
fn judges(text: &[u8], data: &[u8]) -> String {
    let answer = verdict(answer(text, data));
    let (Ok(tree), Ok(datum)) = (constraint::read(text), data::read(data)) else {
        panic!("refused");
    };
    // Both trees end in a constructor of this name; the second's is told by its module.
    let datum = term::datum(&datum, 0).replace(" no_more)", " Data.no_more)");
    format!("judges {} {datum} {answer}", term::object(&tree, 0, term::bytes))
}

/// A word or a string by a leaf, in the smallest texts that hold them.
fn under(leaf: &str, value: &str) -> String {
    let text = format!("A matches {{a matches {{{leaf}}}}}");
    let given = format!("<a=<{value}>>");
    let answer = verdict(answer(text.as_bytes(), given.as_bytes()));
    let (Ok(tree), Ok(data)) = (constraint::read(text.as_bytes()), data::read(given.as_bytes())) else {
        panic!("refused");
    };
    let (Value::Leaf(leaf), Datum::Leaf(datum)) =
        (&tree.objects[0].attributes[0].value, &data.blocks[0].members[0].value)
    else {
        panic!("no leaf");
    };
    let content = match datum.value {
        LeafValue::Text(text) => format!("(string {} {})", datum.place, term::bytes(text)),
        LeafValue::Word(word) => format!("(word {} {})", datum.place, term::bytes(word)),
    };
    format!("under {} {content} {answer}", term::leaf(leaf, leaf.number, term::bytes))
}

/// Leaves, and values each of which is tried under each of them.
fn crossed(about: &'static str, leaves: &[&str], values: &[&str]) -> Group {
    let cases = leaves.iter().flat_map(|leaf| values.iter().map(|value| under(leaf, value))).collect();
    Group { about, cases }
}

/// Constraint texts, each with data.
fn pairs(about: &'static str, all: &[(&str, &[&str])]) -> Group {
    let case = |text: &str, data: &str| judges(text.as_bytes(), data.as_bytes());
    let cases = all.iter().flat_map(|(text, data)| data.iter().map(|each| case(text, each))).collect();
    Group { about, cases }
}

/// Values of every sort that data has.
const SORTS: &[&str] =
    &["True", "5", "2004", "2004-05", "2004-05-20", "08", "10:30", "08:30:00Z", "P4w", "\"a\"", "\"\""];

fn leaf_groups() -> Vec<Group> {
    vec![
        crossed(
            "a value of every sort under a leaf of every kind",
            &["True", "5", "\"a\"", "yyyy-??-??", "|2004-05-20|", "Thh:??:??", "PwdTm"],
            SORTS,
        ),
        crossed(
            "Booleans",
            &["True", "False", "True, False", "False, True"],
            &["True", "False", "1", "\"True\"", "\"False\""],
        ),
        crossed(
            "an integer at the edges of an interval",
            &["|-5..9|", "|>-6..<10|", "|2+/-7|"],
            &["-6", "-5", "0", "9", "10", "2147483647", "-2147483648"],
        ),
        crossed(
            "an open interval",
            &["|>=0|", "|>-1|", "|<=-1|", "|<0|"],
            &["-2147483648", "-1", "0", "1", "2147483647"],
        ),
        crossed("one value", &["5", "|5|", "-5", "0"], &["-5", "0", "4", "5", "6", "\"5\"", "05", "05:00"]),
        crossed(
            "a list of integers: a value in some item",
            &["1, |5..9|, 20", "20, |5..9|, 1"],
            &["0", "1", "2", "4", "5", "9", "10", "19", "20", "21", "True"],
        ),
        crossed(
            "a list of integers whose items touch",
            &["|1..4|, |5..9|", "|-2147483648..-1|, 0, |1..2147483647|"],
            &["0", "1", "4", "5", "9", "10", "-2147483648", "2147483647"],
        ),
        crossed(
            "strings: all of its bytes",
            &["\"a\"", "\"ab\"", "\"\"", "\"A\"", "\" a\""],
            &["\"a\"", "\"ab\"", "\"b\"", "\"\"", "\"A\"", "\" a\"", "\"a \"", "5"],
        ),
        crossed(
            "a list of strings",
            &["\"a\", \"\", \"bc\"", "\"bc\", \"b\""],
            &["\"a\"", "\"\"", "\"b\"", "\"bc\"", "\"bcd\"", "\"c\"", "True"],
        ),
        crossed(
            "date patterns: lettered parts must be there, `??` may, `XX` may not",
            &["yyyy-mm-dd", "yyyy-mm-??", "yyyy-??-??", "yyyy-mm-XX", "yyyy-??-XX"],
            &["2004", "2004-05", "2004-05-20", "0000", "9999-12-31", "20040520", "\"2004\""],
        ),
        crossed(
            "time patterns, with every zone",
            &["Thh:mm:ss", "Thh:mm:XX", "Thh:??:XX", "Thh:??:??"],
            &["08", "08:30", "08:30:59", "23Z", "08:30+05", "08:30:59-12:59", "24", "2004", "\"08:30\""],
        ),
        crossed(
            "duration patterns: each slot that is filled must be there, the sign is free",
            &["Pwd", "PTm", "Pm"],
            &["P4w", "P12W3D", "-P3d", "PT5m", "P1w2dT3h", "P5M", "P0y4w", "\"P4w\"", "2004"],
        ),
        crossed(
            "a duration pattern of all slots",
            &["PymwdThms"],
            &["P1y2m3w4dT5h6m7s", "-P9999Y9999M9999W9999DT9999H9999M9999S", "P0d", "PT1s", "5"],
        ),
        crossed("durations under other leaves", &["|0..9|", "\"P4w\"", "True"], &["P4w", "-PT5M", "\"P4w\""]),
        crossed(
            "a date at the edges of an interval; a part of a date isn't in any",
            &["|2003-12-31..2004-02-29|", "|>2003-12-30..<2004-03-01|", "|2004-01-01|"],
            &[
                "2003-12-30", "2003-12-31", "2004-01-01", "2004-02-29", "2004-03-01", "2004", "2004-01", "2004-02",
                "20040101", "5",
            ],
        ),
        crossed(
            "an open interval of dates, and the ends of the calendar",
            &["|>=2004-12-31|", "|>2004-12-31|", "|<=2004-12-31|", "|<2005-01-01|"],
            &["0000-01-01", "2004-12-31", "2005-01-01", "9999-12-31", "9999"],
        ),
        crossed(
            "a list of intervals of dates",
            &["|2004-01-01..2004-01-31|, |2005-01-01|, |>=2006-01-01|"],
            &["2003-12-31", "2004-01-31", "2004-02-01", "2005-01-01", "2005-01-02", "2006-01-01", "2005", "2006-01"],
        ),
    ]
}

const LEVELS: usize = 16;

/// So many objects inside each other, the innermost with what stands in it.
fn nested_text(levels: usize, inner: &str) -> String {
    let (open, close) = ("A matches {a matches {".repeat(levels - 1), "}}".repeat(levels - 1));
    format!("{open}A matches {{{inner}}}{close}")
}

/// So many blocks inside each other, the innermost with what stands in it.
fn nested_data(levels: usize, inner: &str) -> String {
    let (open, close) = ("<a=".repeat(levels - 1), ">".repeat(levels - 1));
    format!("{open}<{inner}>{close}")
}

/// Texts and data nested to the same level or not.
fn levels() -> Group {
    let inner = "b matches {5}";
    let all = [
        (nested_text(2, inner), nested_data(2, "b=<5>")),
        (nested_text(3, inner), nested_data(3, "b=<6>")),
        (nested_text(4, inner), nested_data(4, "")),
        (nested_text(4, inner), nested_data(3, "")),
        (nested_text(4, inner), nested_data(3, "a=<5>")),
        (nested_text(3, "*"), nested_data(5, "a=<5>")),
        (nested_text(LEVELS, inner), nested_data(LEVELS, "b=<5>")),
        (nested_text(LEVELS, inner), nested_data(LEVELS, "b=<6>")),
        (nested_text(LEVELS, inner), nested_data(LEVELS, "b=<\"5\">")),
        (nested_text(LEVELS, inner), nested_data(LEVELS - 1, "a=(B)<b=<5>>")),
        (nested_text(LEVELS, "b matches {Pd}"), nested_data(LEVELS, "b=<P5d>")),
        (nested_text(LEVELS, "b matches {Pd}"), nested_data(LEVELS, "b=<P5w>")),
        (nested_text(LEVELS, "b matches {Pd}"), nested_data(LEVELS, "b=<5>")),
    ];
    let cases = all.iter().map(|(text, data)| judges(text.as_bytes(), data.as_bytes())).collect();
    Group { about: "objects and blocks inside each other", cases }
}

fn object_groups() -> Vec<Group> {
    vec![
        pairs(
            "`*` admits any members, its type still counts",
            &[
                ("A matches {*}", &["<>", "(A)<>", "(B)<>", "(AB)<>", "<a=<5>>", "<a=<b=<\"x\">>c=(D)<>>", "(A)<a=<5>>", " (B) <a=<5>>"]),
                ("AB matches {*}", &["(A)<>", "(AB)<>", "(ABC)<>", "(Ab)<>", "<>"]),
                ("A[at1] matches {*}", &["(A)<>", "(B)<a=<5>>"]),
                ("A matches {a matches {*}}", &["<a=<5>>", "<a=<\"x\">>", "<a=<>>", "<a=(B)<b=<5>>>", "<>", "<b=<5>>"]),
                ("A matches {a matches {B matches {*}}}", &["<a=<>>", "<a=(B)<>>", "<a=(A)<>>", "<a=<x=<5>>>", "<a=<5>>", "<a=<\"x\">>"]),
            ],
        ),
        pairs(
            "existence in its three forms, with members and without",
            &[
                ("A matches {a existence matches {0} matches {*}}", &["<>", "<a=<5>>", "<a=<>>", "<a=(B)<>>", "<b=<5>>", "(A)<b=<5>a=<\"x\">>"]),
                ("A matches {a existence matches {0} matches {5}}", &["<>", "<a=<5>>", "<a=<6>>", "<a=<True>>", "<a=<b=<5>>>"]),
                ("A matches {a existence matches {0..0} matches {B matches {*}}}", &["<>", "<a=<>>", "<a=(B)<>>", "<a=(C)<>>", "<a=<5>>"]),
                ("A matches {a existence matches {0..1} matches {5}}", &["<>", "<a=<5>>", "<a=<6>>", "<a=<\"5\">>", "<a=<>>"]),
                ("A matches {a existence matches {0..1} matches {B matches {b matches {*}}}}", &["<>", "<a=<b=<5>>>", "<a=<>>", "<a=(C)<>>", "<a=<5>>"]),
                ("A matches {a existence matches {0..1} matches {*}}", &["<>", "<a=<5>>"]),
                ("A matches {a existence matches {1} matches {5}}", &["<>", "<a=<5>>", "<a=<6>>", "<ab=<5>>"]),
                ("A matches {a existence matches {1..1} matches {B matches {*}}}", &["<>", "<a=<>>", " (A) <c=<>>"]),
                ("A matches {a matches {5} b existence matches {0} matches {*} c existence matches {0..1} matches {7}}", &["<a=<5>>", "<a=<5>c=<7>>", "<a=<5>c=<8>>", "<a=<5>b=<5>>", "<c=<7>b=<5>>"]),
            ],
        ),
        pairs(
            "a block for a leaf and a leaf for a block",
            &[
                ("A matches {a matches {5}}", &["<a=<>>", "<a=<b=<5>>>", "<a=(B)<>>", "<a= (B) <b=<5>>>"]),
                ("A matches {a matches {1, 5, 9}}", &["<a=<>>", "<a=<4>>", "<a=<True>>", "<a=<\"5\">>"]),
                ("A matches {a matches {\"x\", \"y\"}}", &["<a=<>>", "<a=<\"z\">>", "<a=<5>>"]),
                ("A matches {a matches {|2004-01-01|, |2005-01-01|}}", &["<a=<>>", "<a=<2006-01-01>>", "<a=<10:30>>"]),
                ("A matches {a matches {True, False}}", &["<a=<>>", "<a=<1>>"]),
                ("A matches {a matches {yyyy-mm-dd}}", &["<a=(B)<>>", "<a=<2004>>", "<a=<5>>"]),
                ("A matches {a matches {Thh:mm:ss}}", &["<a=<b=<>>>", "<a=<08>>", "<a=<5>>"]),
                ("A matches {a matches {Pwd}}", &["<a=<>>", "<a=(Pwd)<>>", "<a=<P4w>>", "<a=<PT5m>>", "<a=<5>>", "<a=<\"P4w\">>"]),
                ("Pd matches {*}", &["(Pd)<>", "(Pw)<>", "<a=<P5d>>"]),
                ("A matches {a matches {Pd matches {*}}}", &["<a=(Pd)<>>", "<a=<P5d>>", "<a=<x=<P5d>>>"]),
                ("A matches {b matches {*} a matches {B matches {b matches {*}}}}", &["<b=<>a=<5>>", "<b=<>a=<\"\">>", "<b=<5> a = <5> >"]),
            ],
        ),
        pairs(
            "members that no attribute names, and names with the same beginning",
            &[
                ("A matches {a matches {5}}", &["<b=<6>a=<5>c=<>>", "<ab=<6>a=<5>>", "<a=<5>ab=<6>>", "<ab=<5>>", "<a1=<5>a_=<5>aa=<5>>", "<aB=<5>a=<6>>"]),
                ("A matches {ab matches {5}}", &["<a=<5>>", "<abc=<5>>", "<a=<6>ab=<5>abc=<6>>", "<abc=<5>ab=<6>a=<5>>", "<b=<5>aB=<5>>"]),
                ("A matches {a matches {1} ab matches {2} abc matches {3}}", &["<abc=<3>ab=<2>a=<1>>", "<ab=<2>abc=<3>a=<1>>", "<abc=<2>ab=<2>a=<1>>", "<abc=<3>a=<1>>"]),
                ("A matches {a matches {B matches {b matches {5}}}}", &["<b=<6>a=<b=<5>>>", "<a=<a=<>b=<5>>>", "<a=<a=<b=<5>>>b=<5>>"]),
            ],
        ),
        pairs(
            "the first failure: the type first, attributes in table order and not in the data's, each finished before the next",
            &[
                (
                    "A matches {a matches {1} b matches {2} c matches {3}}",
                    &["<a=<1>b=<2>c=<3>>", "<c=<3>b=<2>a=<1>>", "<c=<9>b=<9>a=<9>>", "<c=<9>b=<9>a=<1>>", "<c=<9>b=<2>a=<1>>", "<c=<9>b=<>>", "<c=<\"x\">a=<1>>", "(B)<c=<9>>", "(B)<>", "<>", "<b=<9>>", "<a=<1>b=<9>>"],
                ),
                (
                    "A matches {a matches {B matches {b matches {1} c matches {2}}} d matches {3}}",
                    &["<d=<9>a=<c=<9>b=<9>>>", "<d=<9>a=<c=<9>b=<1>>>", "<d=<9>a=<c=<2>b=<1>>>", "<d=<9>a=(C)<b=<9>>>", "<d=<9>>", "<d=<9>a=<5>>", "<a=<b=<1>>>", "<a=<b=<1>c=<2>>>", "<a=<b=<1>c=<2>>d=<3>>"],
                ),
                (
                    "A matches {b existence matches {0} matches {*} a matches {*} c existence matches {0..1} matches {B matches {a matches {*}}}}",
                    &["<a=<>b=<>>", "<c=<>>", "<a=<>c=<>>", "<c=<a=<>>a=<>>", "<c=(A)<>a=<>>", "<c=<5>a=<>>", "<c=<5>b=<5>a=<5>>"],
                ),
            ],
        ),
        pairs(
            "several objects, their records numbered in text order",
            &[
                (
                    "A[at1] matches {a matches {B[at2] matches {b matches {1, 2} c matches {\"x\", \"y\"}}} d matches {C matches {e matches {True} f matches {|2004-01-01|}}} g matches {Thh:mm:ss}}",
                    &[
                        "<a=<b=<1>c=<\"x\">>d=<e=<True>f=<2004-01-01>>g=<10:30:00>>",
                        "<a=<b=<3>c=<\"x\">>d=<e=<True>f=<2004-01-01>>g=<10:30:00>>",
                        "<a=<b=<2>c=<\"z\">>d=<e=<True>f=<2004-01-01>>g=<10:30:00>>",
                        "<a=<b=<2>c=<\"y\">>d=<e=<False>f=<2004-01-01>>g=<10:30:00>>",
                        "<a=<b=<2>c=<\"y\">>d=<e=<True>f=<2004>>g=<10:30:00>>",
                        "<a=<b=<2>c=<\"y\">>d=<e=<True>f=<2004-01-01>>g=<10:30>>",
                        "<a=<b=<2>c=<\"y\">>d=<e=<True>f=<2004-01-01>>g=<5>>",
                        "<a=<b=<2>c=<\"y\">>d=(B)<e=<True>f=<2004-01-01>>>",
                        "<a=<b=<2>c=<\"y\">>d=<e=<True>>>",
                        "(A)<a=(B)<b=<2>c=<\"y\">>d=(C)<f=<2004-01-01>e=<True>>>",
                    ],
                ),
                ("A matches {a matches {A matches {*}} b matches {A matches {*}}}", &["<a=(A)<>b=(A)<>>", "<b=(A)<>a=(B)<>>", "<a=(A)<>b=(B)<>>"]),
            ],
        ),
        levels(),
    ]
}

const SEED: u64 = 1;

/// How many pairs are taken from the generator, and how long their texts may be.
const MADE: usize = 100;
const LONGEST: usize = 150;

/// At most a third of the pairs are valid.
const MOST_VALID: usize = MADE / 3;

/// A kind of random numbers that no other part of the generator takes.
const DATA: u64 = 100;

fn made() -> Group {
    let maker = Maker::new(SEED);
    let mut cases = Vec::new();
    let mut valid = 0;
    for number in 0.. {
        if cases.len() == MADE {
            break;
        }
        let text = maker.text(number);
        let data = data_text(&mut Random::new(SEED, DATA, number), &text.shape);
        if text.text.len() > LONGEST || data.len() > LONGEST {
            continue;
        }
        let MeaningAnswer::Answer(answer) = meaning(&text.text, &data) else {
            continue;
        };
        if matches!(answer, JudgeAnswer::Refused { .. }) {
            continue;
        }
        if answer == JudgeAnswer::Valid {
            if valid == MOST_VALID {
                continue;
            }
            valid += 1;
        }
        cases.push(judges(&text.text, &data));
    }
    Group { about: "pairs as the generator gives them, a third of them at most valid", cases }
}
