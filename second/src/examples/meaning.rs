//! Constraint trees with their records and their pool, as the table of each has them.

use super::table::File;
use super::term;
use crate::api::CompileAnswer;
use crate::compile;
use crate::constraint;
use crate::limits;
use std::fmt::Write;

const TEXTS: [&[u8]; 7] = [
    b"A matches {*}",
    b"AB[at1.2] matches {a matches {*} bc matches {*}}",
    b"A matches {a matches {True} b matches {1, |5..9|, 20} c matches {\"x\", \"\", \"yz\"}}",
    b"A matches {a matches {yyyy-mm-dd} b matches {Thh:??:XX} c matches {|2004-01-01|, |>=2005-01-01|} d matches {False}}",
    b"A[at1] matches {a matches {B[at2] matches {b matches {C matches {c matches {\"x\", \"y\"}}} d existence matches {0} matches {*}}} e existence matches {0..1} matches {7}}",
    b"Pd[at1] matches {a matches {Pwd} b matches {PTm matches {c matches {PmTm}}} d matches {\"x\"}}",
    b"A matches {a matches {B matches {*}} b matches {C matches {a matches {1, 2} b matches {*}}} c matches {\"z\"}}",
];

/// Texts whose first attribute has each existence.
const FLAGGED: [&[u8]; 3] = [
    b"A matches {a existence matches {0} matches {*}}",
    b"A matches {a existence matches {0..1} matches {*}}",
    b"A matches {a matches {*}}",
];

/// One list of trees, and a statement for each thing that is counted.
pub fn file() -> File {
    let mut out = String::from(
        "-- Constraint trees with their records and their pool. The expectations are the second implementation's.\n",
    );
    out.push_str("-- This file is written by `example_tables write` of second/. Assumes nothing.\n");
    for line in [
        "mathlib.Core.Path.{◌≡◌, refl}",
        "mathlib.Core.List.{List, [], ◌∷◌}",
        "Rattle.meaning.specs.Constraints.{prohibited, optional, required, Object, no_more, any, nested, leaf, single, ranges, texts, booleans, integers, date_pattern, dates, time_pattern, duration_pattern}",
        "Rattle.meaning.specs.Counting.{object_records, object_pool, object_numbers}",
        "Rattle.meaning.proofs.Trees.{range, item, object_with, attribute_with, each}",
    ] {
        let _ = writeln!(out, "use {line}");
    }
    let (mut trees, mut records, mut pools, mut numbers) = (Vec::new(), Vec::new(), Vec::new(), Vec::new());
    for text in TEXTS {
        let (count, pool, _) = compiled(text);
        trees.push(tree_term(text));
        records.push(format!("{}", count - 1));
        pools.push(term::numbers(pool.iter().map(|byte| u32::from(*byte))));
        numbers.push(term::numbers(1..count));
    }
    let _ = write!(out, "\npub trees : List Object\ntrees =\n    {}\n    ∷ []\n", trees.join("\n    ∷ "));
    let parts = [
        ("-- how many records each has, its header left out", "records_counted", "object_records", records),
        ("-- the bytes of each pool", "pools_filled", "object_pool", pools),
        ("-- the numbers of the records, in text order", "numbers_in_order", "object_numbers", numbers),
    ];
    for (about, name, count, expected) in parts {
        let _ = write!(out, "\n{about}\npub {name} : each {count} trees ≡ {}\n", term::list(&expected));
        let _ = write!(out, "unfolding trees {count}\n{name} = refl\n");
    }
    let flags = term::numbers(FLAGGED.iter().map(|text| u32::from(compiled(text).2)));
    out.push_str("\n-- the flags of 0..0, 0..1 and 1..1\n");
    let _ = write!(
        out,
        "pub existence_flags : (prohibited ∷ optional ∷ required ∷ []) ≡ {flags}\nexistence_flags = refl\n"
    );
    File { path: String::from("crates/meaning/proofs/CountTable.antt"), text: out, cases: TEXTS.len() }
}

fn tree_term(text: &[u8]) -> String {
    match constraint::read(text) {
        Ok(tree) => term::object(&tree, 0, |bytes| term::numbers(bytes.iter().map(|byte| u32::from(*byte)))),
        Err(fault) => panic!("refused: {fault:?}"),
    }
}

/// The table's count of records, its header among them, its pool, and the flag of record 2.
fn compiled(text: &[u8]) -> (u32, Vec<u8>, u8) {
    let mut out = vec![0; limits::RECORD * limits::RECORDS + limits::POOL];
    let CompileAnswer::Done { length } = compile(text, false, &mut out) else {
        panic!("refused");
    };
    let count = u32::from_be_bytes([out[4], out[5], out[6], out[7]]);
    let records = limits::RECORD * count as usize;
    (count, out[records..length as usize].to_vec(), out[2 * limits::RECORD + 3])
}
