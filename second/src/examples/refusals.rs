//! The numbers of refusal, the limits, and one token after another.

use super::table::{Group, Table};
use super::{lexis, term};
use crate::limits;
use crate::tokens::{token_at, Kind};

const USES: &[&str] = &[
    "mathlib.Core.Path.{◌≡◌, refl}",
    "mathlib.Core.List.{List, [], ◌∷◌}",
    "Rattle.lexis.specs.Text.{bytes}",
    "Rattle.lexis.specs.Spelling.{matches, open_brace, star}",
    "Rattle.lexis.specs.Tokens.{text_end, type_name, name, integer}",
    "Rattle.lexis.proofs.Tables.{wrong}",
    "Rattle.lexis.proofs.Computes.{lexis_computes}",
    "Rattle.refusals.specs.declared.Cause.TheVariants.{TextTooLong, Unreadable, CannotFollow, EndsEarly, TooDeep, TooLong, Impossible, OutOfRange, BadWord, EmptyInterval, TooManyItems, TooManyRecords, Overlap, RepeatedName, PoolTooLarge, OutputTooShort, NotATable, BrokenRecord, NotAnObject, NoName}",
    "Rattle.refusals.specs.Limits.{text_limit, level_limit, item_limit, record_limit, pool_limit, name_limit, code_limit, string_limit}",
    "Rattle.refusals.specs.Refusals.{number_of}",
    "Rattle.refusals.specs.Expecting.{expect}",
    "Rattle.refusals.proofs.Examples.{Case, numbered, limit_is, takes, faults, right, which}",
];

pub fn tables() -> Vec<Table> {
    vec![Table {
        holder: "refusals",
        module: "RefusalTable",
        about: "The number of each cause, the limits, and the token that is asked for or the fault of another.",
        uses: USES,
        case: "Case",
        right: "right",
        unfolding: "which number_of expect lexis_computes",
        groups: vec![
            Group {
                about: "document 01's number of each cause",
                cases: CAUSES.iter().map(|(cause, number)| format!("numbered {cause} {number}")).collect(),
            },
            Group { about: "the limits", cases: limit_cases() },
            Group {
                about: "a token of the sort asked for, another, one that is unreadable, and the text's end",
                cases: step_cases(),
            },
        ],
    }]
}

/// Document 01's table of numbers, by what happened.
const CAUSES: [(&str, u32); 20] = [
    ("TextTooLong", 1),
    ("Unreadable", 2),
    ("CannotFollow", 2),
    ("EndsEarly", 2),
    ("TooDeep", 3),
    ("TooLong", 4),
    ("Impossible", 5),
    ("OutOfRange", 5),
    ("BadWord", 5),
    ("EmptyInterval", 6),
    ("TooManyItems", 7),
    ("TooManyRecords", 8),
    ("Overlap", 9),
    ("RepeatedName", 9),
    ("PoolTooLarge", 10),
    ("OutputTooShort", 11),
    ("NotATable", 12),
    ("BrokenRecord", 13),
    ("NotAnObject", 14),
    ("NoName", 14),
];

fn limit_cases() -> Vec<String> {
    let all = [
        ("text_limit", limits::TEXT),
        ("level_limit", limits::LEVELS),
        ("item_limit", limits::ITEMS),
        ("record_limit", limits::RECORDS),
        ("pool_limit", limits::POOL),
        ("name_limit", limits::NAME),
        ("code_limit", limits::CODE),
        ("string_limit", limits::STRING),
    ];
    all.iter().map(|(name, limit)| format!("limit_is {name} {}", term::number(*limit as u64))).collect()
}

fn step_cases() -> Vec<String> {
    let texts: [&[u8]; 6] = [b"A matches {*}", b" --x\nA", b"a[at1 5", b"\"a 5", b"", b"5 -- x"];
    let sorts = [Kind::Type, Kind::Name, Kind::Matches, Kind::OpenBrace, Kind::Star, Kind::Integer, Kind::End];
    let mut all = Vec::new();
    for text in texts {
        for from in [0, 1, 2, text.len()].into_iter().filter(|from| *from <= text.len()) {
            all.extend(sorts.iter().map(|sort| step_case(text, *sort, from)));
        }
    }
    all
}

fn step_case(text: &[u8], sort: Kind, from: usize) -> String {
    let token = token_at(text, from);
    let asked = format!("{} {} {from}", term::bytes(text), lexis::token_sort(sort));
    if token.kind == sort {
        return format!("takes {asked} {} {}", token.start, token.end);
    }
    let cause = match token.kind {
        Kind::End => "EndsEarly",
        Kind::Unreadable => "Unreadable",
        _ => "CannotFollow",
    };
    format!("faults {asked} {cause} {}", token.start)
}
