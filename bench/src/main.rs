//! Prints how fast the product is, as ratios against something named, measured side by side in one run.

mod measure;
mod xml;

use measure::{alone, compare};
use std::hint::black_box;
use xml::Schema;

const CONSTRAINT: &[u8] = include_bytes!("../forms/vital_signs.cadl");
const FORM: &[u8] = include_bytes!("../forms/vital_signs.dadl");
const DOCUMENT: &str = include_str!("../forms/vital_signs.xml");
const SCHEMA: &str = include_str!("../forms/vital_signs.rng");

/// More bytes than any table has.
const ROOM: usize = 24 * 2_048 + 16_384;

fn main() {
    println!(
        "judge, compile, check and merge of one form; each line is the median of 15 rounds, both measured in turn"
    );
    against_second();
    against_xml();
    against_copy();
    growth();
}

/// The table of a text.
fn table(text: &[u8]) -> Vec<u8> {
    let mut out = vec![0; ROOM];
    let answer = binding::compile(text, false, &mut out);
    assert_eq!(answer.number, 0, "refused at {}", answer.place);
    out.truncate(answer.place as usize);
    out
}

fn line(what: &str, one: &mut dyn FnMut(), other_name: &str, other: &mut dyn FnMut()) {
    let got = compare(one, other);
    println!(
        "{what:<34} {:>9.2} us   {other_name:<18} {:>9.2} us   {:>7.2} times as fast",
        got.one * 1e6,
        got.other * 1e6,
        got.ratio
    );
}

/// The five jobs against the second implementation.
fn against_second() {
    let small = table(CONSTRAINT);
    let (mut out, mut other_out) = (vec![0; ROOM], vec![0; ROOM]);
    assert_eq!(binding::judge(&small, 1, FORM).number, 0);
    line(
        "judge, vital signs",
        &mut || {
            black_box(binding::judge(black_box(&small), 1, black_box(FORM)));
        },
        "second",
        &mut || {
            black_box(second::judge(black_box(&small), 1, black_box(FORM)));
        },
    );
    line(
        "compile, vital signs",
        &mut || {
            black_box(binding::compile(black_box(CONSTRAINT), false, &mut out));
        },
        "second",
        &mut || {
            black_box(second::compile(black_box(CONSTRAINT), false, &mut other_out));
        },
    );
    let (first, last) = halves();
    let full = merged(&first, &last);
    line(
        "check, 2,048 records",
        &mut || {
            black_box(binding::check(black_box(&full)));
        },
        "second",
        &mut || {
            black_box(second::check(black_box(&full)));
        },
    );
    let (mut out, mut other_out) = (vec![0; ROOM], vec![0; ROOM]);
    line(
        "merge, 2,048 records",
        &mut || {
            black_box(binding::merge(black_box(&first), black_box(&last), true, &mut out));
        },
        "second",
        &mut || {
            black_box(second::merge(black_box(&first), black_box(&last), true, &mut other_out));
        },
    );
}

/// Judging against RELAX NG validation of the same form.
fn against_xml() {
    let small = table(CONSTRAINT);
    let schema = Schema::new(SCHEMA);
    assert!(schema.validates(DOCUMENT), "the document is not valid");
    assert!(!schema.validates(&DOCUMENT.replace("<rate>72", "<rate>720")), "the schema takes any rate");
    line(
        "judge, vital signs",
        &mut || {
            black_box(binding::judge(black_box(&small), 1, black_box(FORM)));
        },
        "libxml2 RELAX NG",
        &mut || {
            black_box(schema.validates(black_box(DOCUMENT)));
        },
    );
}

/// Check and merge of a full table against copying its bytes.
fn against_copy() {
    let (first, last) = halves();
    let full = merged(&first, &last);
    let (mut out, mut copy) = (vec![0; ROOM], vec![0; full.len()]);
    let got = compare(
        &mut || {
            copy.copy_from_slice(black_box(&full));
            black_box(&mut copy);
        },
        &mut || {
            black_box(binding::check(black_box(&full)));
        },
    );
    println!(
        "check of 2,048 records: {:.2} us, {:.2} times the time of copying its {} bytes ({:.2} us)",
        got.other * 1e6,
        got.ratio,
        full.len(),
        got.one * 1e6
    );
    let got = compare(
        &mut || {
            copy.copy_from_slice(black_box(&full));
            black_box(&mut copy);
        },
        &mut || {
            black_box(binding::merge(black_box(&first), black_box(&last), true, &mut out));
        },
    );
    println!(
        "merge to 2,048 records: {:.2} us, {:.2} times the time of copying the {} bytes written ({:.2} us)",
        got.other * 1e6,
        got.ratio,
        full.len(),
        got.one * 1e6
    );
}

/// How the time of judging grows with members and with records.
fn growth() {
    for members in [10, 100, 1_000] {
        grown("in blocks of ten", members, &blocks_text(members), &blocks_form(members));
    }
    for members in [10, 100, 1_000] {
        grown("in one block", members, &flat_text(members), &flat_form(members));
    }
    for most in [16, 256, 2_048] {
        let by = records_table(most);
        let time = alone(&mut || {
            black_box(binding::judge(black_box(&by), 1, black_box(b"(A)<aa=<5>>")));
        });
        println!(
            "judge by a table of {:>5} records: {:>9.2} us, {:>6.2} ns a record",
            records_of(&by),
            time * 1e6,
            time * 1e9 / records_of(&by) as f64
        );
    }
}

/// Prints the time of judging a form whose members are all named by the text.
fn grown(shape: &str, members: usize, text: &str, form: &str) {
    let by = table(text.as_bytes());
    assert_eq!(binding::judge(&by, 1, form.as_bytes()).number, 0);
    let both = by.len() + form.len();
    let time = alone(&mut || {
        black_box(binding::judge(black_box(&by), 1, black_box(form.as_bytes())));
    });
    println!(
        "judge over {members:>5} members {shape}: {:>9.2} us, {:>6.2} ns a byte of form and table ({both})",
        time * 1e6,
        time * 1e9 / both as f64
    );
}

/// A name of three letters for a number below 17,576.
fn name(number: usize) -> String {
    [number / 676 % 26, number / 26 % 26, number % 26].iter().map(|&digit| char::from(b'a' + digit as u8)).collect()
}

/// A text and a form of one object with so many members.
fn flat_text(count: usize) -> String {
    let attributes: Vec<String> = (0..count).map(|number| format!("{}\u{2208}{{*}}", name(number))).collect();
    format!("A\u{2208}{{{}}}", attributes.join("\n"))
}

fn flat_form(count: usize) -> String {
    let members: Vec<String> = (0..count).map(|number| format!("{}=<{}>", name(number), number % 100)).collect();
    format!("(A)<{}>", members.join("\n"))
}

/// A text and a form of objects with ten members each, so many in all.
fn blocks_text(count: usize) -> String {
    let block: Vec<String> = (0..10).map(|number| format!("{}\u{2208}{{*}}", name(number))).collect();
    let attributes: Vec<String> = (0..count / 10)
        .map(|number| format!("{}\u{2208}{{B\u{2208}{{{}}}}}", name(number), block.join("\n")))
        .collect();
    format!("A\u{2208}{{{}}}", attributes.join("\n"))
}

fn blocks_form(count: usize) -> String {
    let block: Vec<String> = (0..10).map(|number| format!("{}=<{}>", name(number), number * 7)).collect();
    let members: Vec<String> =
        (0..count / 10).map(|number| format!("{}=(B)<{}>", name(number), block.join("\n"))).collect();
    format!("(A)<{}>", members.join("\n"))
}

/// Two tables that make up one of 2,048 records and a long pool.
fn halves() -> (Vec<u8>, Vec<u8>) {
    let part = |more: &str| {
        let attributes: Vec<String> =
            (0..511).map(|number| format!("{}_padded matches {{|0..9|}}", name(number))).collect();
        table(format!("A matches {{{} {more}}}", attributes.join("\n")).replace(" matches ", "\u{2208}").as_bytes())
    };
    (part(""), part("more matches {*}"))
}

fn merged(first: &[u8], last: &[u8]) -> Vec<u8> {
    let mut out = vec![0; ROOM];
    let answer = binding::merge(first, last, true, &mut out);
    assert_eq!(answer.number, 0);
    out.truncate(answer.place as usize);
    out
}

/// How many records a table's header counts.
fn records_of(table: &[u8]) -> u32 {
    let count = [table[4], table[5], table[6], table[7]];
    if table[0] == 0xC0 {
        u32::from_be_bytes(count)
    } else {
        u32::from_le_bytes(count)
    }
}

/// A table of at most so many records, as many as merges of one of five give, whose root admits a small form.
fn records_table(most: u32) -> Vec<u8> {
    let mut whole = table(b"A matches {aa matches {|0..9|}}");
    let one = table(b"B matches {a matches {*} b matches {*} c matches {*} d matches {*}}");
    while records_of(&whole) + 5 <= most {
        whole = merged(&whole, &one);
    }
    whole
}
