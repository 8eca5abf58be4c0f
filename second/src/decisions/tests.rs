//! Tests of reading and running a page: what each form is, and what must not be taken for an example.

use super::answers::{Answer, Fact};
use super::inputs::{Given, Input, Source};
use super::names::Names;
use super::*;
use crate::api::{CompileAnswer, JudgeAnswer};

/// A page of one entry, R1, with these lines below its heading.
fn page(lines: &[&str]) -> String {
    let mut page =
        String::from("# Page\n\n#### R1. Title\n\n- **Open:** What.\n- **Why:** So,\n  and so.\n- **Example:**");
    for line in lines {
        page += "\n  - ";
        page += line;
    }
    page + "\n"
}

fn failures(page: &str, jobs: &Jobs) -> Vec<String> {
    report(page, jobs).failures.iter().map(ToString::to_string).collect()
}

/// The page is run without a failure.
fn fine(page: &str) {
    assert_eq!(failures(page, &Jobs::library()), Vec::<String>::new(), "{page}");
}

/// The page has one failure, at the line of this number, with these words in it.
fn failing(page: &str, number: usize, words: &str) {
    let failures = failures(page, &Jobs::library());
    assert_eq!(failures.len(), 1, "{failures:#?}\n{page}");
    assert!(failures[0].starts_with(&format!("docs/DECISIONS.md:{number}: ")), "{}", failures[0]);
    assert!(failures[0].contains(words), "{}", failures[0]);
}

/// A line that is read and run without a failure.
fn line_fine(line: &str) {
    fine(&page(&[line]));
}

/// A line that fails with these words; it is the page's ninth.
fn line_failing(line: &str, words: &str) {
    failing(&page(&[line]), 9, words);
}

fn inputs_of(line: &str) -> Vec<Input> {
    example(line, &Names::new()).expect("a line that can be read").inputs
}

fn answer_of(answer: &str) -> Answer {
    example(&format!("C `A`: {answer}"), &Names::new()).expect("an answer that can be read").answer
}

fn compile_of(text: &[u8]) -> Input {
    Input::Compile { text: text.to_vec(), room: None }
}

fn given(bytes: &[u8]) -> Given {
    Given { source: Source::Bytes(bytes.to_vec()), change: None }
}

#[test]
fn texts_are_read() {
    assert_eq!(inputs_of("C `A`: good"), [compile_of(b"A")]);
    assert_eq!(inputs_of("C `a␊: ,b` + hex 00 fFE2 + `c` × 3: good"), [compile_of(b"a\n: ,b\0\xFF\xE2ccc")]);
    assert_eq!(inputs_of("C hex 41 42 × 2: good"), [compile_of(b"ABAB")]);
    assert_eq!(inputs_of("C `x` × 1,000: good"), [compile_of(&[b'x'; 1_000])]);
    assert_eq!(inputs_of("C of no bytes: good"), [compile_of(b"")]);
    assert_eq!(inputs_of("L `5` + `6`: good"), [compile_of(b"A matches {a matches {56}}")]);
    assert_eq!(inputs_of("C `A`, `B` + `C`, hex 44: good"), [compile_of(b"A"), compile_of(b"BC"), compile_of(b"D")]);
    assert_eq!(inputs_of("W `5`, `6`: good"), [Input::Data(b"<a = <5>>".into()), Input::Data(b"<a = <6>>".into())]);
}

#[test]
fn questions_are_read() {
    let table_of = |text: &[u8]| Given { source: Source::TableOf(text.to_vec()), change: None };
    let judged = |table, root, data: &[u8]| Input::Judge { table, root, data: data.to_vec() };
    assert_eq!(inputs_of("C `A`, D `<>`: good"), [judged(table_of(b"A"), 1, b"<>")]);
    assert_eq!(
        inputs_of("judge B at 7, W `5`, `6`: good"),
        [judged(given(&tables::B), 7, b"<a = <5>>"), judged(given(&tables::B), 7, b"<a = <6>>")]
    );
    assert_eq!(inputs_of("check no bytes, B: good"), [Input::Check(given(b"")), Input::Check(given(&tables::B))]);
    let changed = Given { change: Some((15, 0xAB)), ..table_of(b"A1") };
    assert_eq!(inputs_of("check the table of C `A` + `1` with byte 15 = AB: good"), [Input::Check(changed)]);
    let (first, second) = (table_of(b"A"), given(&tables::B));
    let merge = |room| Input::Merge { first: first.clone(), second: second.clone(), room };
    assert_eq!(inputs_of("merge the table of C `A`, B: good"), [merge(None)]);
    assert_eq!(inputs_of("merge the table of C `A`, B, output of 0 bytes: good"), [merge(Some(0))]);
    assert_eq!(inputs_of("name of B, record 3: good"), [Input::Name { table: given(&tables::B), record: 3 }]);
    assert_eq!(
        inputs_of("compile C `A`, output of 16,384 bytes: good"),
        [Input::Compile { text: b"A".to_vec(), room: Some(16_384) }]
    );
}

#[test]
fn tables_are_made() {
    assert_eq!(tables::made("A | 1.0 0 1 0 0 0").as_deref(), Ok(&tables::B[..]));
    let made = tables::made("Aa | 1.0 0 1 0 0 2 | 2.3 1 1 4294967295 0 0").expect("a table");
    assert_eq!(made.len(), 74);
    assert_eq!(made[..16], *b"\xC0\xAD\0\0\0\0\0\x03\0\0\0\x02\0\0\0\x01");
    assert_eq!(made[48..64], *b"\xC0\xAD\x02\x03\0\0\0\x01\0\0\0\x01\xFF\xFF\xFF\xFF");
    assert_eq!(made[72..], *b"Aa");
    let turned = tables::turned(&made, 3);
    assert_eq!(turned[48..64], *b"\xAD\xC0\x02\x03\x01\0\0\0\x01\0\0\0\xFF\xFF\xFF\xFF");
    assert_eq!(tables::turned(&turned, 3), made);
}

#[test]
fn answers_are_read_and_printed_alike() {
    let record = "record 1 is C0 AD 01 00 00 00 00 00 00 00 00 01 00 00 00 00 00 00 00 00 00 00 00 00";
    for answer in [
        "accepted",
        "accepted, 49 bytes, 2 records, pool `A`",
        "accepted, record 3 has kind 3 and flag 3",
        &format!("accepted, {record}, 49 bytes"),
        "good",
        "valid",
        "passed",
        "2 at 22",
        "13 at 1, table 2",
        "24, record 3, at 5",
        "length 99, shifts 2 and 3, root 4",
        "start 96, length 0",
    ] {
        assert_eq!(answer_of(answer).to_string(), answer);
        assert_eq!(answer_of(&format!("{answer} (a remark, `with ) this` (and (that)))")), answer_of(answer));
    }
    assert_eq!(answer_of("1 at 16,384"), Answer::Refused { number: 1, place: 16_384 });
    assert_eq!(answer_of("accepted, 16,384 records"), Answer::Accepted(vec![Fact::Records(16_384)]));
    assert_eq!(
        answer_of(&format!("accepted, {}", record.replace(" 00", "00"))),
        answer_of(&format!("accepted, {record}"))
    );
}

/// What is wrong with the words behind `- **Example:**`.
fn wrong_names(words: &str) -> String {
    let before = BTreeMap::from([(String::from("R1"), Names::from([(String::from("S"), b"5".to_vec())]))]);
    names::read(words, &before).expect_err(words)
}

#[test]
fn names_are_read() {
    let lines = page(&["L S + `1`: accepted", "L Q: 2 at 23"]);
    fine(&lines.replace("Example:**", "Example:** with S for `1` × 9 and\n  Q for `5` + `.`"));
    let first = page(&["L S: accepted"]).replace("Example:**", "Example:** with S for `5`");
    let second = "\n#### R2. Title\n\n- **Example:** with S of R1\n  - L S: accepted\n";
    fine(&(first.clone() + second));
    let failures = failures(&(first + &second.replace("R1", "R3")), &Jobs::library());
    assert_eq!(failures.len(), 2, "{failures:#?}");
    assert!(failures[0].contains(":13: R2: no `S` of `R3` stands before this entry\n    - **Example:** with S of R3"));
    assert!(failures[1].contains(":14: R2: a text is expected here: S: accepted"));
}

#[test]
fn names_that_cannot_be_read_are_failures() {
    assert!(wrong_names("where S for `5`").contains("`with` is expected here: where S"));
    assert!(wrong_names("with S as `5`").contains("`for` is expected here: as `5`"));
    assert!(wrong_names("with S for `5` for").contains("is expected here: for"));
    assert!(wrong_names("with S for 5").contains("a text is expected here: 5"));
    assert!(wrong_names("with S for `5").contains("a backquote is not closed"));
    assert!(wrong_names("with S of R2").contains("no `S` of `R2`"));
    assert!(wrong_names("with Q of R1").contains("no `Q` of `R1`"));
    assert!(wrong_names("with S for `5` and S for `6`").contains("`S` can't be a name"));
    for name in ["B", "C", "D", "L", "T", "W", "SS", "s", "1"] {
        assert!(wrong_names(&format!("with {name} for `5`")).contains("can't be a name"));
    }
}

#[test]
fn a_row_of_names_is_spelled() {
    let good = "with F for `<`, then for each of the 28 names `ay`, `az` to `bz` the name and `=<5>`, then `>`";
    fine(&page(&["D F: good"]).replace("Example:**", &format!("Example:** {good}")));
    let names = names::read(good, &BTreeMap::new()).expect("a name");
    assert_eq!(names["F"].len(), 28 * 6 + 2);
    assert!(names["F"].starts_with(b"<ay=<5>az=<5>ba=<5>bb=<5>"));
    assert!(names["F"].ends_with(b"by=<5>bz=<5>>"));
    for (from, to) in [("28", "27"), ("28", "29"), ("28", "1"), ("`az`", "`ba`"), ("`bz`", "`by`"), ("`ay`", "`aY`")] {
        let wrong = wrong_names(&good.replace(from, to));
        assert!(wrong.contains("are not") && wrong.ends_with(" names"), "{wrong}");
    }
    let said = wrong_names(&good.replace("the name and", "the names and"));
    assert!(said.contains("`the name and` is expected here: the names and"), "{said}");
    assert!(wrong_names(&good.replace(", then `>`", "")).contains("`, then` is expected at the end"));
}

#[test]
fn inputs_that_cannot_be_read_are_failures() {
    line_failing("C `A matches {*}: accepted", "a backquote is not closed: `A matches");
    line_failing("C `A matches {*}`: accepted (as `A)", "a backquote is not closed: `A)");
    line_failing("C ``: 2 at 0", "nothing stands between two backquotes");
    line_failing("c `A`: accepted", "an input is expected here: c `A`");
    line_failing("`A`: accepted", "an input is expected");
    line_failing("", "an input is expected at the end");
    line_failing("C: accepted", "a text is expected here: : accepted");
    line_failing("C A: accepted", "a text is expected");
    line_failing("C S + `1`: accepted", "a text is expected here: S + `1`");
    line_failing("C `A` `B`: accepted", "`:` and the answer is expected here: `B`");
    line_failing("C `A` +: accepted", "a text is expected");
    line_failing("C `A` x 3: accepted", "`:` and the answer is expected here: x 3");
    line_failing("C `A` × 1,00: accepted", "a number is expected here: 1,00");
    line_failing("C `A` × 03: accepted", "a number is expected here: 03");
    line_failing("C `A` × 99999999: accepted", "more than a line needs");
    line_failing("C hex: accepted", "a byte in hex is expected");
    line_failing("C hex 41 4: accepted", "`:` and the answer is expected here: 4:");
    line_failing("C `A`, C `B`: accepted", "`:` and the answer is expected here: , C `B`");
    line_failing("C `A`, `B`, D `<>`: valid", "more than one constraint text");
    line_failing("D `<>`, C `A`: valid", "`:` and the answer is expected here: , C `A`");
    line_failing("judge B, D `<>`: valid", "`at` is expected here: , D");
    line_failing("judge B at 1, C `A`: valid", "D or W is expected");
    line_failing("judge X at 1, D `<>`: valid", "a table is expected");
    line_failing("check the table of D `<>`: passed", "C or L is expected");
    line_failing("check T `A`: passed", "`A` has no record");
    line_failing("check T `A | 1.0 0 1 0 0`: passed", "`1.0 0 1 0 0` is no record");
    line_failing("check T `A | 1.0 0 1 0 0 0 0`: passed", "is no record");
    line_failing("check T `A | 256.0 0 1 0 0 0`: passed", "is no record");
    line_failing("check T `A` × 2 + `B`: passed", "`AAB` has no record");
    line_failing("check T hex FF: passed", "T is no text");
    line_failing("check B with byte 0: passed", "`=` is expected");
    line_failing("check B with byte 0 = 0: passed", "a byte in hex is expected");
    line_failing("check B with byte 0 = 00 00: passed", "byte 0 is set to more than one byte");
    line_failing("check B with byte 49 = 00: passed", "the table has no byte 49");
    line_failing("merge B: passed", "`,` is expected");
    line_failing("merge B, B, output of 7: passed", "`bytes` is expected");
    line_failing("merge B, B, output of 99999999 bytes: passed", "more than a line needs");
    line_failing("name of B: 14 at 0", "`, record` is expected");
    line_failing("compile C `A`: accepted", "`, output of` is expected");
}

#[test]
fn answers_that_cannot_be_read_are_failures() {
    line_failing("C `A matches {*}`", "`:` and the answer is expected at the end");
    line_failing("C `A matches {*}`:", "an answer is expected at the end");
    line_failing("C `A matches {*}`: acepted", "an answer is expected here: acepted");
    line_failing(
        "C `A matches {*}`: accepted twice",
        "a remark in parentheses that ends the line, is expected here: twice",
    );
    line_failing("C `A matches {*}`: accepted (so) so", "is expected here: (so) so");
    line_failing("C `A matches {*}`: accepted (so", "is expected here: (so");
    line_failing("C `A matches {*}`: accepted (so) (so)", "is expected here: (so) (so)");
    line_failing("C `A matches {*}`: accepted, 2 recods", "`records` is expected here: recods");
    line_failing("C `A matches {*}`: accepted, large", "a number is expected here: large");
    line_failing("C `A matches {*}`: accepted, record 1 is C0AD", "record 1 has 24 bytes, and 2 are given");
    line_failing("C `A matches {*}`: accepted, record 1 has flag 0", "`has kind` is expected here: has flag 0");
    line_failing("C `A`: 2at 1", "a number is expected here: 2at 1");
    line_failing("C `A`: 2 in 1", "`at` is expected here: in 1");
    line_failing("C `A`: 2 at", "a number is expected at the end");
    line_failing("C `A`: 2 at 1, 2", "is expected here: , 2");
    line_failing("C `A`: 99999999999 at 1", "a number is expected");
    line_failing("L `5`, W `6`: 24, record 3", "`, at` is expected at the end");
    line_failing("merge B, B: length 74, shifts 1 and 1", "`, root` is expected at the end");
    line_failing("name of B, record 1: start 48", "`, length` is expected at the end");
}

#[test]
fn lines_that_are_no_examples_are_failures() {
    let good = page(&["C `A matches {*}`: accepted"]);
    fine(&good);
    failing(&(good.clone() + "   - C `A`: accepted\n"), 10, "this is no example");
    failing(&(good.clone() + "    and more\n"), 10, "this is no example");
    failing(&(good.clone() + "  * C `A`: accepted\n"), 10, "this is no example");
    failing(&(good.clone() + "\n  - C `A`: accepted\n"), 11, "under no `- **Example:**`");
    failing(&(good.clone() + "- C `A`: accepted\n"), 10, "under no `- **Example:**`");
    failing(&(good.clone() + "- **Example:**\n"), 10, "has examples already");
    failing(&(good.clone() + "- **Differ:** So.\n"), 10, "no other part of an entry");
    failing(&(good.clone() + "\n## Others\n\n- **Example:**\n"), 13, "no entry: examples that belong to no entry");
    failing(&("- **Example:**\n".to_owned() + &good), 1, "no entry: examples that belong to no entry");
    fine(&(good.clone() + "- **Differs:** So.\n\n## Others\n\n- one\n  - two\n"));
}

#[test]
fn entries_without_examples_are_failures() {
    let good = page(&["C `A matches {*}`: accepted"]);
    failing(&page(&[]), 3, "R1: the entry has no example");
    failing(&(good.clone() + "#### R2. Title\n\n- **Why:** So.\n"), 10, "R2: the entry has no example");
    failing(&(good.clone() + &good), 12, "R1: there is another entry of this number");
    for title in
        ["### R2. Title", "##### R2. Title", "####R2. Title", "#### R2 Title", "#### r2. Title", "#### Two. Title"]
    {
        failing(&(good.clone() + title + "\n"), 10, "no entry: an entry's title is");
    }
}

#[test]
fn a_misspelt_heading_loses_no_line() {
    for heading in ["- **Examples:**", "- **Example**:", " - **Example:**", "**Example:**"] {
        let page = page(&["C `A matches {*}`: accepted"]).replace("- **Example:**", heading);
        let failures = failures(&page, &Jobs::library());
        assert_eq!(failures.len(), 3, "{failures:#?}");
        assert!(failures[0].contains(":3: R1: the entry has no example"));
        assert!(failures[1].contains(&format!("\n    {heading}")));
        assert!(failures[2].contains(":9: R1: this is under no `- **Example:**`"));
    }
}

#[test]
fn examples_are_counted() {
    let two = page(&["C `A matches {*}`: accepted", "C `A matches {*}`: 2 at 0"]) + "\n## Others\n\n- one\n  - two\n";
    assert_eq!(report(&two, &Jobs::library()).examples, 2);
    assert_eq!(plain_count(&two), 2);
    assert_eq!(plain_count(&page(&[])), 0);
    assert_eq!(plain_count(&two.replace("**Example:**", "**Examples:**")), 0);
}

#[test]
fn good_lines_are_fine() {
    line_fine("C `A matches {*}`: accepted, 49 bytes, 2 records, pool `A`, record 1 has kind 1 and flag 0 (that is B)");
    line_fine("C `A matches {*}`: accepted, record 1 is C0AD0100 00000000 00000001 00000000 00000000 00000000");
    line_fine("C `A`, `B`: 2 at 1");
    line_fine("D `<>`, `(A)<>`, `(B)<>`: good");
    line_fine("W `?`: 2 at 6");
    line_fine("L `5`, W `5`: valid");
    line_fine("L `5`, W `6`, `7`: 24, record 3, at 5");
    line_fine("check B, the table of L `5`: passed");
    line_fine("merge B, the table of L `5`: length 123, shifts 1 and 1, root 1");
    line_fine("merge B, B, output of 73 bytes: 11 at 74, table 0");
    line_fine("name of B, record 1: start 48, length 1");
}

#[test]
fn other_answers_are_failures() {
    line_failing("C `A`: 2 at 2", "R1: the page says 2 at 2, the answer is 2 at 1\n    C `A`: 2 at 2");
    line_failing("C `A`: 3 at 1", "the page says 3 at 1, the answer is 2 at 1");
    line_failing("C `A`: accepted", "the page says accepted, the answer is 2 at 1");
    line_failing("C `A`, `AB`: 2 at 1", "input 2: the page says 2 at 1, the answer is 2 at 2");
    line_failing("C `A matches {*}`: valid", "the page says valid, the answer is accepted");
    line_failing("C `A matches {*}`: accepted, 50 bytes", "the page says 50 bytes, the table has 49 bytes");
    line_failing("C `A matches {*}`: accepted, 3 records", "the table has 2 records");
    line_failing("C `A matches {*}`: accepted, pool `B`", "the table has pool `A`");
    line_failing(
        "C `A matches {*}`: accepted, record 1 has kind 1 and flag 1",
        "the table has record 1 has kind 1 and flag 0",
    );
    line_failing("C `A matches {*}`: accepted, record 2 has kind 1 and flag 1", "the table has no record 2");
    line_failing(
        &format!("C `A matches {{*}}`: accepted, record 0 is {}", "00".repeat(24)),
        "the table has record 0 is C0 AD",
    );
    line_failing("D `<>`: valid", "the page says valid, the answer is good");
    line_failing("D `?`: good", "the page says good, the answer is 2 at 0");
    line_failing("L `5`, W `6`: valid", "the page says valid, the answer is 24, record 3, at 5");
    line_failing("L `x`, W `6`: valid", "the constraint text is refused, 2 at 22");
    line_failing("check B: 12 at 0", "the page says 12 at 0, the answer is passed");
    line_failing("merge B, B: length 74, shifts 1 and 1, root 2", "the answer is length 74, shifts 1 and 1, root 1");
    line_failing("merge no bytes, B: 12 at 0", "the page says 12 at 0, the answer is 12 at 0, table 1");
    line_failing("name of B, record 1: start 48, length 2", "the answer is start 48, length 1");
}

/// Compiles, and answers otherwise for little-endian.
fn compile_by_order(text: &[u8], little: bool, out: &mut [u8]) -> CompileAnswer {
    match crate::compile(text, little, out) {
        CompileAnswer::Refused { number, place } if little => CompileAnswer::Refused { number, place: place + 1 },
        answer => answer,
    }
}

/// Compiles big-endian, whatever is asked.
fn compile_big(text: &[u8], _little: bool, out: &mut [u8]) -> CompileAnswer {
    crate::compile(text, false, out)
}

/// Compiles, and changes the output's last byte.
fn compile_untidily(text: &[u8], little: bool, out: &mut [u8]) -> CompileAnswer {
    let answer = crate::compile(text, little, out);
    out.iter_mut().next_back().into_iter().for_each(|last| *last ^= 1);
    answer
}

/// Judges big-endian tables alone.
fn judge_big(table: &[u8], root: u32, data: &[u8]) -> JudgeAnswer {
    match table {
        [0xAD, ..] => JudgeAnswer::Refused { number: 12, place: 0 },
        _ => crate::judge(table, root, data),
    }
}

#[test]
fn both_orders_and_the_output_are_compared() {
    let refused = page(&["C `A`: 2 at 1"]);
    let accepted = page(&["C `A matches {*}`: accepted"]);
    let library = Jobs::library();
    let by_order = Jobs { compile: compile_by_order, ..library };
    assert!(failures(&refused, &by_order)[0].contains("compiled big-endian: 2 at 1; compiled little-endian: 2 at 2"));
    let big = Jobs { compile: compile_big, ..library };
    assert!(failures(&accepted, &big)[0].contains("differ in more than the byte order"));
    let untidy = Jobs { compile: compile_untidily, ..library };
    assert!(failures(&refused, &untidy)[0].contains("2 at 1: the output was changed behind its first 0 bytes"));
    assert!(failures(&accepted, &untidy)[0].contains("accepted: the output was changed behind its first 49 bytes"));
    let judging = Jobs { judge: judge_big, ..library };
    assert!(failures(&page(&["W `5`: good"]), &judging)[0].contains("the table little-endian: 12 at 0"));
    let panicking = Jobs { check: |_| panic!("this panic is part of a test"), ..library };
    assert!(failures(&page(&["check B: passed"]), &panicking)[0].contains("the page says passed, a job panicked"));
}
