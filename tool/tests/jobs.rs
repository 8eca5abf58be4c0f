//! Each command as a user gives it, with what it must answer.

mod common;

use common::{hex, record, table, widest, Folder, SMALLEST, SMALLEST_TABLE};

/// A form with one of each leaf, and a data text that it admits.
const FORM: &str = "\
FORM[at0001] matches {
  pulse matches {
    ELEMENT matches {rate matches {|100..160|, 7}}
  }
  note existence matches {0..1} matches {\"calm\", \"awake\"}
  day matches {yyyy-mm-??}
  hour existence matches {0..1} matches {Thh:mm:XX}
  born existence matches {0..1} matches {|>=2020-01-01|}
  fed existence matches {0..1} matches {True}
  old existence matches {0} matches {*}
}
";
const VALID: &str = "(FORM) <pulse = <rate = <140>> day = <2026-11>>\n";

/// A folder with the form's table.
fn with_form(name: &str) -> Folder {
    let folder = Folder::new(name);
    folder.compile("form", FORM, "big");
    folder
}

#[test]
fn compile_writes_the_table() {
    let folder = Folder::new("compile_writes");
    folder.put("a.cadl", SMALLEST);
    let ran = folder.run("compile a.cadl -o a.table");
    ran.answers(0, "a.cadl: compiled: 2 records, 1 byte of names, 49 bytes, big-endian\n");
    assert_eq!(folder.get("a.table"), hex(SMALLEST_TABLE));
    let ran = folder.run("compile --order little a.cadl -o b.table");
    ran.answers(0, "a.cadl: compiled: 2 records, 1 byte of names, 49 bytes, little-endian\n");
    let little = "ADC00000 02000000 01000000 01000000 00000000 00000000 \
                  ADC00100 00000000 01000000 00000000 00000000 00000000 41";
    assert_eq!(folder.get("b.table"), hex(little));
    assert_eq!(folder.files(), ["a.cadl", "a.table", "b.table"]);
}

#[test]
fn compile_from_and_to_standard_streams() {
    let folder = Folder::new("compile_streams");
    let ran = folder.run_on("compile - -o -", SMALLEST.as_bytes());
    assert_eq!((ran.status, ran.bytes), (0, hex(SMALLEST_TABLE)));
    assert_eq!(ran.err, "-: compiled: 2 records, 1 byte of names, 49 bytes, big-endian\n");
    let ran = folder.run_on("compile - -o -", b"A matches {");
    assert_eq!((ran.status, ran.out.as_str()), (1, ""));
    assert_eq!(ran.err, "-:1:12: refused 2: text ends here too early\nA matches {\n           ^\n");
    assert!(folder.files().is_empty());
}

#[test]
fn compile_shows_a_refusal_with_its_line() {
    let folder = Folder::new("compile_refused");
    let refused = |text: &str, answer: &str| {
        folder.put("t.cadl", text);
        folder.run("compile t.cadl -o t.table").answers(1, &format!("t.cadl:{answer}\n"));
    };
    refused(
        "A matches {\n  a matches {*}\r\n  b matches {*}\r  a matches {*}\n}\n",
        "4:3: refused 9: attribute named twice\n  a matches {*}\n  ^",
    );
    refused(
        "A matches {a matches {5, |5..9|}}",
        "1:26: refused 9: item overlaps an earlier one\nA matches {a matches {5, |5..9|}}\n                         ^",
    );
    refused("", "1:1: refused 2: text ends here too early\n\n^");
    refused("A matches {*}\n A", "2:2: refused 2: cannot follow here\n A\n ^");
    refused(
        "A\tmatches {a matches {\"x}}",
        "1:23: refused 2: unreadable\nA    matches {a matches {\"x}}\n                         ^",
    );
    refused("A ∈ {\u{e9} ∈ {*}}", "1:8: refused 2: unreadable\nA ∈ {\\xC3\\xA9 ∈ {*}}\n     ^");
    refused(
        "A matches {a matches {007}}",
        "1:23: refused 5: number with a needless zero or sign\nA matches {a matches {007}}\n                      ^",
    );
    refused(
        "A matches {a matches {|1900-02-29|}}",
        "1:24: refused 5: no such date\nA matches {a matches {|1900-02-29|}}\n                       ^",
    );
    refused(
        "A matches {a matches {|>0..<1|}}",
        "1:30: refused 6: empty interval\nA matches {a matches {|>0..<1|}}\n                             ^",
    );
    assert_eq!(folder.files(), ["t.cadl"]);
}

#[test]
fn compile_cuts_a_long_line() {
    let folder = Folder::new("compile_long_line");
    folder.put("t.cadl", format!("A matches {{{}?{}", " ".repeat(300), "x".repeat(300)));
    let line = format!("...{}?{}...", " ".repeat(60), "x".repeat(39));
    let caret = format!("{}^", " ".repeat(63));
    let answer = format!("t.cadl:1:312: refused 2: unreadable\n{line}\n{caret}\n");
    folder.run("compile t.cadl -o t.table").answers(1, &answer);
}

#[test]
fn a_refusal_leaves_the_old_output_alone() {
    let folder = Folder::new("old_output");
    folder.put("bad.cadl", "A matches {");
    folder.put("old.table", "as it was");
    assert_eq!(folder.run("compile bad.cadl -o old.table").status, 1);
    assert_eq!(folder.get("old.table"), b"as it was");
    assert_eq!(folder.run("merge old.table old.table -o old.table").status, 1);
    assert_eq!(folder.get("old.table"), b"as it was");
    assert_eq!(folder.files(), ["bad.cadl", "old.table"]);
}

#[test]
fn check_tells_tables_from_other_files() {
    let folder = Folder::new("check");
    folder.compile("a", SMALLEST, "big");
    folder
        .run("check a.table")
        .answers(0, "a.table: passes: 2 records, 1 byte of names, 49 bytes, big-endian, root 1\n");
    folder.put("empty", "");
    folder.run("check empty").answers(1, "empty: refused 12: not a table: no bytes\n");
    folder.put("short", &hex(SMALLEST_TABLE)[..48]);
    folder.run("check short").answers(1, "short: refused 12: not a table: 48 bytes, and the header asks for 49\n");
    folder.put("broken", table(&[record(1, 0, [0, 1, 0, 0, 2]), record(2, 3, [0, 1, 0, 0, 0])], b"A"));
    folder.run("check broken").answers(
        1,
        "broken: refused 13: record 2 breaks a rule\n\
         record 2: big-endian, kind 2, flag 3, a 0, b 1, c 0, d 0, e 0\n",
    );
    let ran = folder.run_on("check -", &hex(SMALLEST_TABLE));
    ran.answers(0, "-: passes: 2 records, 1 byte of names, 49 bytes, big-endian, root 1\n");
}

#[test]
fn merge_tells_where_each_root_went() {
    let folder = Folder::new("merge");
    folder.compile("a", SMALLEST, "big");
    let ran = folder.run("merge a.table a.table -o both.table");
    let told = "both.table: merged: 3 records, 2 bytes of names, 74 bytes, big-endian\n\
                a.table: root 1\n\
                a.table: root 2 (records moved by 1, names by 1)\n";
    ran.answers(0, told);
    let both = "C0AD0000 00000003 00000002 00000001 00000000 00000000 \
                C0AD0100 00000000 00000001 00000000 00000000 00000000 \
                C0AD0100 00000001 00000001 00000000 00000000 00000000 4141";
    assert_eq!(folder.get("both.table"), hex(both));
    // a table with another root, as the second of three, into one of the inputs
    folder.put("c.table", table(&[record(1, 0, [0, 1, 0, 0, 0]), record(1, 0, [1, 1, 0, 0, 0])], b"XY"));
    let mut other = folder.get("c.table");
    other[15] = 2;
    folder.put("c.table", other);
    let ran = folder.run("merge --order little a.table c.table both.table -o c.table");
    let told = "c.table: merged: 6 records, 5 bytes of names, 149 bytes, little-endian\n\
                a.table: root 1\n\
                c.table: root 3 (records moved by 1, names by 1)\n\
                both.table: root 4 (records moved by 3, names by 3)\n";
    ran.answers(0, told);
    folder.run("name c.table 3").answers(0, "Y\n");
    assert_eq!(folder.files(), ["a.cadl", "a.table", "both.table", "c.table"]);
}

#[test]
fn merge_names_the_table_that_is_refused() {
    let folder = Folder::new("merge_refused");
    folder.compile("a", SMALLEST, "big");
    folder.put("empty", "");
    let refused = "empty: refused 12: not a table: no bytes\n";
    folder.run("merge empty a.table -o x").answers(1, refused);
    folder.run("merge a.table empty -o x").answers(1, refused);
    folder.run("merge a.table a.table empty -o x").answers(1, refused);
    let ran = folder.run_on("merge a.table - -o x", b"");
    ran.answers(1, "-: refused 12: not a table: no bytes\n");
    folder.put("broken", table(&[record(1, 9, [0, 1, 0, 0, 0])], b"A"));
    let refused = "broken: refused 13: record 1 breaks a rule\n\
                   record 1: big-endian, kind 1, flag 9, a 0, b 1, c 0, d 0, e 0\n";
    folder.run("merge a.table broken -o x").answers(1, refused);
    folder.compile("wide", &widest(), "little");
    let refused = "a.table: refused 8: with it the table has 2,049 records, and up to 2,048 may be\n";
    folder.run("merge wide.table a.table -o x").answers(1, refused);
    let long = |letter: char| {
        let items: Vec<String> = (0..16u8)
            .map(|item| format!("\"{}{}\"", char::from(b'a' + item), letter.to_string().repeat(254)))
            .collect();
        let lists: Vec<String> = (0..3).map(|list| format!("a{list} matches {{{}}}", items.join(","))).collect();
        format!("A matches {{{}}}", lists.join("\n"))
    };
    // 3 lists of 16 strings of 255 bytes, 3 names of 2 and a type of 1
    folder.compile("long", &long('x'), "big");
    let refused = "long.table: refused 10: with it the table has 24,494 bytes of names, and up to 16,384 may be\n";
    folder.run("merge long.table long.table -o x").answers(1, refused);
    assert!(!folder.files().contains(&"x".to_string()));
}

#[test]
fn judge_says_valid() {
    let folder = with_form("judge_valid");
    folder.put("d.dadl", VALID);
    folder.run("judge form.table d.dadl").answers(0, "d.dadl: valid\n");
    folder.run("judge form.table --root 1 d.dadl d.dadl").answers(0, "d.dadl: valid\nd.dadl: valid\n");
    folder.run_on("judge form.table -", VALID.as_bytes()).answers(0, "-: valid\n");
    let ran = folder.run_on("judge - d.dadl", &folder.get("form.table"));
    ran.answers(0, "d.dadl: valid\n");
}

#[test]
fn judge_tells_each_verdict_with_its_path() {
    let folder = with_form("judge_verdicts");
    let invalid = |data: &str, answer: &str| {
        folder.put("d.dadl", data);
        folder.run("judge form.table d.dadl").answers(1, &format!("d.dadl:{answer}\n"));
    };
    invalid(
        "<pulse = <\n  rate = <99>\n>>",
        "2:10: FORM/pulse/rate: 24 value not admitted\n  rate = <99>\n         ^\nadmitted: 100..160, 7",
    );
    invalid(
        "<pulse = <rate = <08>>>",
        "1:18: FORM/pulse/rate: 20 cannot be read as an integer\n<pulse = <rate = <08>>>\n                 ^\nadmitted: 100..160, 7",
    );
    invalid(
        "<pulse = <5>>",
        "1:10: FORM/pulse: 20 leaf where a block is wanted\n<pulse = <5>>\n         ^\nwanted: a block of type ELEMENT",
    );
    invalid(
        "<pulse = <rate = <>>>",
        "1:18: FORM/pulse/rate: 20 block where an integer is wanted\n<pulse = <rate = <>>>\n                 ^\nadmitted: 100..160, 7",
    );
    invalid("(FORMS) <>", "1:9: FORM: 21 type differs\n(FORMS) <>\n        ^\nwanted: a block of type FORM");
    invalid(
        "<pulse = (X)<rate = <7>>>",
        "1:13: FORM/pulse: 21 type differs\n<pulse = (X)<rate = <7>>>\n            ^\nwanted: a block of type ELEMENT",
    );
    invalid(
        "<pulse = <>>",
        "1:10: FORM/pulse/rate: 22 member missing\n<pulse = <>>\n         ^\nmissing: rate\nadmitted: 100..160, 7",
    );
    invalid("<>", "1:1: FORM/pulse: 22 member missing\n<>\n^\nmissing: pulse\nwanted: a block of type ELEMENT");
    let behind = |member: &str| format!("<pulse = <rate = <7>> day = <2026>\n{member}>");
    invalid(
        &behind(""),
        "1:29: FORM/day: 24 value not admitted\n<pulse = <rate = <7>> day = <2026>\n                            ^\n\
         admitted: a date yyyy-mm-??, ?? may be left out",
    );
    let behind = |member: &str| format!("<pulse = <rate = <7>> day = <2026-11-16>\n{member}>");
    invalid(&behind("old = <5>"), "2:7: FORM/old: 23 member present under 0..0\nold = <5>>\n      ^\nforbidden: old");
    invalid(
        &behind("note = <\"sad\">"),
        "2:8: FORM/note: 24 value not admitted\nnote = <\"sad\">>\n       ^\nadmitted: \"calm\", \"awake\"",
    );
    invalid(
        &behind("note = <5>"),
        "2:8: FORM/note: 20 word where a string is wanted\nnote = <5>>\n       ^\nadmitted: \"calm\", \"awake\"",
    );
    invalid(
        &behind("hour = <08:30:15>"),
        "2:8: FORM/hour: 24 value not admitted\nhour = <08:30:15>>\n       ^\nadmitted: a time Thh:mm:XX, XX must be left out",
    );
    invalid(
        &behind("born = <2019-12-31>"),
        "2:8: FORM/born: 24 value not admitted\nborn = <2019-12-31>>\n       ^\nadmitted: >=2020-01-01",
    );
    invalid(&behind("fed = <False>"), "2:7: FORM/fed: 24 value not admitted\nfed = <False>>\n      ^\nadmitted: True");
}

#[test]
fn judge_shows_a_refusal_with_its_line() {
    let folder = with_form("judge_refused");
    let refused = |data: &str, answer: &str| {
        folder.put("d.dadl", data);
        folder.run("judge form.table d.dadl").answers(1, &format!("d.dadl:{answer}\n"));
    };
    refused("", "1:1: refused 2: text ends here too early\n\n^");
    refused("<a = 5>", "1:6: refused 2: cannot follow here\n<a = 5>\n     ^");
    refused("<a-b = <5>>", "1:2: refused 2: unreadable\n<a-b = <5>>\n ^");
    refused("<a = <5>\n a = <5>>", "2:2: refused 9: member named twice\n a = <5>>\n ^");
    refused("<a = <24:00>>", "1:7: refused 5: no Boolean, integer, date, time or duration\n<a = <24:00>>\n      ^");
}

#[test]
fn judge_tells_several_data_and_the_gravest_status() {
    let folder = with_form("judge_several");
    folder.put("good.dadl", VALID);
    folder.put("bad.dadl", "<>");
    let bad = "bad.dadl:1:1: FORM/pulse: 22 member missing\n<>\n^\nmissing: pulse\nwanted: a block of type ELEMENT\n";
    let ran = folder.run("judge form.table good.dadl bad.dadl good.dadl");
    ran.answers(1, &format!("good.dadl: valid\n{bad}good.dadl: valid\n"));
    let ran = folder.run("judge form.table bad.dadl none.dadl good.dadl");
    assert_eq!((ran.status, ran.out), (2, format!("{bad}good.dadl: valid\n")));
    assert_eq!(ran.err, "dubrakosh: none.dadl: no such file or directory\n");
}

#[test]
fn judge_asks_the_table_and_the_root_first() {
    let folder = with_form("judge_root");
    folder.put("bad.dadl", "no data at all");
    let refused = |root: &str| format!("form.table: refused 14: record {root} is no object of the table\n");
    for root in ["0", "2", "4294967295"] {
        let ran = folder.run(&format!("judge form.table --root {root} bad.dadl bad.dadl"));
        ran.answers(1, &refused(root));
    }
    folder.put("empty", "");
    folder.run("judge empty bad.dadl bad.dadl").answers(1, "empty: refused 12: not a table: no bytes\n");
    folder.put("inner.dadl", "<rate = <3>>");
    let told = "inner.dadl:1:9: ELEMENT/rate: 24 value not admitted\n<rate = <3>>\n        ^\nadmitted: 100..160, 7\n";
    folder.run("judge form.table --root 3 inner.dadl").answers(1, told);
}

#[test]
fn name_hands_out_names() {
    let folder = with_form("name");
    folder.run("name form.table 1").answers(0, "FORM\n");
    folder.run("name form.table 2").answers(0, "pulse\n");
    folder.run("name form.table 8").answers(0, "calm\n");
    folder.run("name form.table 5").answers(1, "form.table: refused 14: record 5 holds no name\n");
    folder.run("name form.table 0").answers(1, "form.table: refused 14: record 0 holds no name\n");
    folder.run("name form.table 4294967295").answers(1, "form.table: refused 14: record 4294967295 holds no name\n");
    folder.put("odd.table", table(&[record(1, 0, [0, 3, 0, 0, 0])], b"A\xC3\n"));
    folder.run("name odd.table 1").answers(0, "A\\xC3\\x0A\n");
    let json = "{\"command\":\"name\",\"outcome\":\"named\",\"file\":\"odd.table\",\"record\":1,\"name\":\"A\\u00C3\\u000A\"}\n";
    folder.run("name --json odd.table 1").answers(0, json);
}

#[test]
fn show_prints_each_record() {
    let folder = with_form("show");
    let shown = "   0 big    header        19 records, 56 bytes of names, root 1
   1 big    object        FORM[at0001]: attributes from 2 (root)
   2 big    attribute     pulse 1..1: value 3, next 7
   3 big    object        ELEMENT: attributes from 4
   4 big    attribute     rate 1..1: value 5
   5 big    integer       100..160, next 6
   6 big    integer       7..7
   7 big    attribute     note 0..1: value 8, next 10
   8 big    string        \"calm\", next 9
   9 big    string        \"awake\"
  10 big    attribute     day 1..1: value 11, next 12
  11 big    date pattern  yyyy-mm-??
  12 big    attribute     hour 0..1: value 13, next 14
  13 big    time pattern  Thh:mm:XX
  14 big    attribute     born 0..1: value 15, next 16
  15 big    date interval 2020-01-01..9999-12-31
  16 big    attribute     fed 0..1: value 17, next 18
  17 big    Boolean       True
  18 big    attribute     old 0..0: any value
";
    folder.run("show form.table").answers(0, shown);
    folder.put("empty", "");
    folder.run("show empty").answers(1, "empty: refused 12: not a table: no bytes\n");
    folder.compile("a", SMALLEST, "little");
    let shown = "   0 little header        2 records, 1 byte of names, root 1\n   1 little object        A: any members (root)\n";
    folder.run("show a.table").answers(0, shown);
}

/// The Duration pattern of a flag: the letters of its bits.
fn duration_pattern(flag: u32) -> String {
    let mut pattern = String::from("P");
    for (bit, letter) in "ymwdhms".chars().enumerate() {
        if bit >= 4 && flag >> bit & 1 == 1 && !pattern.contains('T') {
            pattern.push('T');
        }
        if flag >> bit & 1 == 1 {
            pattern.push(letter);
        }
    }
    pattern
}

#[test]
fn every_duration_pattern_is_shown_as_it_was_written() {
    let folder = Folder::new("durations");
    let attributes: String = (1..128).map(|flag| format!("a{flag} matches {{{}}}\n", duration_pattern(flag))).collect();
    folder.compile("all", &format!("A matches {{{attributes}}}"), "big");
    let ran = folder.run("show all.table");
    let shown: Vec<&str> = ran.out.lines().filter(|line| line.contains(" duration ")).collect();
    assert_eq!(shown.len(), 127, "{}", ran.out);
    for (line, flag) in shown.iter().zip(1..) {
        let number = 1 + 2 * flag;
        assert_eq!(*line, format!("{number:>4} big    duration      {}", duration_pattern(flag)));
    }
    folder.compile("gestation", "A matches {gestation matches {Pwd}}", "little");
    let json = "{\"command\":\"show\",\"outcome\":\"shown\",\"file\":\"gestation.table\",\"record\":3,\"order\":\"little\",\"kind\":\"duration\",\"admitted\":\"Pwd\"}";
    assert_eq!(folder.run("show --json gestation.table").out.lines().last(), Some(json));
}

#[test]
fn durations_are_judged() {
    let folder = Folder::new("durations-judged");
    folder.compile("a", "A matches {gestation matches {Pwd}}", "big");
    folder.put("good.dadl", "<gestation = <P12w3d>>");
    folder.run("judge a.table good.dadl").answers(0, "good.dadl: valid\n");
    folder.put("minutes.dadl", "<gestation = <PT5m>>");
    let told = "minutes.dadl:1:14: A/gestation: 24 value not admitted\n<gestation = <PT5m>>\n             ^\n\
        admitted: a duration Pwd, slots may be left out\n";
    folder.run("judge a.table minutes.dadl").answers(1, told);
    folder.put("days.dadl", "<gestation = <87>>");
    let told = "days.dadl:1:14: A/gestation: 20 cannot be read as a duration\n<gestation = <87>>\n             ^\n\
        admitted: a duration Pwd, slots may be left out\n";
    folder.run("judge a.table days.dadl").answers(1, told);
    folder.put("bare.dadl", "<gestation = <P12>>");
    let told = "bare.dadl:1:15: refused 5: no Boolean, integer, date, time or duration\n<gestation = <P12>>\n              ^\n";
    folder.run("judge a.table bare.dadl").answers(1, told);
}

#[test]
fn explain_explains() {
    let folder = Folder::new("explain");
    let explained = "24: value not admitted\n\
        When: The value is of the kind wanted, but none of the items admits it, or it doesn't fit the pattern. \
        A date interval admits full dates only.\n\
        Place: The value's <. The record is the first item.\n\
        What to do: Check the value. If it is right, the form was judged at the wrong root, or the constraint is too narrow.\n";
    folder.run("explain 24").answers(0, explained);
    let merging_alone = "10: too many bytes of names\n\
        When: Two tables to be merged have together more than 16,384 bytes of types, codes, names and strings. Merging alone tells it.\n\
        Place: 0.\n\
        What to do: Merge fewer tables into one image.\n";
    folder.run("explain 10").answers(0, merging_alone);
    for number in (1..=14).chain(20..=24) {
        let ran = folder.run(&format!("explain {number}"));
        assert_eq!((ran.status, ran.err.as_str()), (0, ""));
        assert_eq!(ran.out.lines().count(), 4, "{}", ran.out);
    }
    for number in [0, 15, 19, 25, 4_294_967_295u32] {
        let told = format!("dubrakosh: explain: no number {number}: there are 1 to 14 and 20 to 24\n");
        folder.run(&format!("explain {number}")).troubles(&told);
    }
}

#[test]
fn json_is_one_object_a_line() {
    let folder = with_form("json");
    let ran = folder.run("compile --json form.cadl -o form.table");
    let told = "{\"command\":\"compile\",\"outcome\":\"compiled\",\"file\":\"form.cadl\",\"table\":\"form.table\",\
                \"records\":19,\"names\":56,\"bytes\":512,\"root\":1}\n";
    ran.answers(0, told);
    folder.put("t.cadl", "A matches {a matches {*}\n a");
    let told = "{\"command\":\"compile\",\"outcome\":\"refused\",\"file\":\"t.cadl\",\"number\":9,\
                \"reason\":\"attribute named twice\",\"place\":26,\"line\":2,\"column\":2}\n";
    folder.run("compile t.cadl -o t.table --json").answers(1, told);
    let told = "{\"command\":\"check\",\"outcome\":\"passes\",\"file\":\"form.table\",\"records\":19,\"names\":56,\
                \"bytes\":512,\"order\":\"big-endian\",\"root\":1}\n";
    folder.run("check --json form.table").answers(0, told);
    folder.put("broken", table(&[record(1, 9, [0, 1, 0, 0, 0])], b"A"));
    let told = "{\"command\":\"check\",\"outcome\":\"refused\",\"file\":\"broken\",\"number\":13,\
                \"reason\":\"record 1 breaks a rule\",\"record\":1}\n";
    folder.run("check --json broken").answers(1, told);
    let told =
        "{\"command\":\"merge\",\"outcome\":\"merged\",\"file\":\"two\",\"records\":37,\"names\":112,\"bytes\":1000,\
                \"root\":1,\"tables\":[{\"file\":\"form.table\",\"root\":1,\"records_moved\":0,\"names_moved\":0},\
                {\"file\":\"form.table\",\"root\":19,\"records_moved\":18,\"names_moved\":56}]}\n";
    folder.run("merge --json form.table form.table -o two").answers(0, told);
    folder.put("good.dadl", VALID);
    folder.put("bad.dadl", "<pulse = <\n  rate = <99>\n>>");
    folder.put("worse.dadl", "<");
    let told = "{\"command\":\"judge\",\"outcome\":\"valid\",\"file\":\"good.dadl\",\"root\":19}\n\
                {\"command\":\"judge\",\"outcome\":\"invalid\",\"file\":\"bad.dadl\",\"root\":19,\"number\":24,\
                \"reason\":\"value not admitted\",\"record\":23,\"path\":\"FORM/pulse/rate\",\
                \"place\":20,\"line\":2,\"column\":10,\"admitted\":\"100..160, 7\"}\n\
                {\"command\":\"judge\",\"outcome\":\"refused\",\"file\":\"worse.dadl\",\"number\":2,\
                \"reason\":\"text ends here too early\",\"place\":1,\"line\":1,\"column\":2}\n";
    folder.run("judge --json two --root 19 good.dadl bad.dadl worse.dadl").answers(1, told);
    let ran = folder.run("show --json form.table");
    assert_eq!(ran.out.lines().count(), 19);
    let fifth = "{\"command\":\"show\",\"outcome\":\"shown\",\"file\":\"form.table\",\"record\":5,\"order\":\"big\",\
                 \"kind\":\"integer\",\"low\":100,\"high\":160,\"next\":6}";
    assert_eq!(ran.out.lines().nth(5), Some(fifth));
    let told = "{\"command\":\"explain\",\"outcome\":\"explained\",\"number\":7,\"title\":\"17th item\",\
                \"meaning\":\"A list has more than 16 items.\",\"place\":\"The first token of the 17th item.\",\
                \"advice\":\"Join neighbouring values into intervals.\"}\n";
    folder.run("explain --json 7").answers(0, told);
}

#[test]
fn help_and_version() {
    let folder = Folder::new("help");
    let ran = folder.run("--help");
    assert_eq!((ran.status, ran.err.as_str()), (0, ""));
    assert!(ran.out.starts_with("dubrakosh judges bedside forms against openEHR constraints.\n"));
    for command in ["compile", "check", "merge", "judge", "name", "show", "explain"] {
        assert!(ran.out.contains(&format!("\n  {command} ")), "{command}");
        let own = folder.run(&format!("{command} --help"));
        assert_eq!((own.status, own.err.as_str()), (0, ""));
        assert!(own.out.contains(&format!("\nUsage: dubrakosh {command} ")), "{command}");
        assert_eq!(own.out, folder.run(&format!("{command} -h")).out);
    }
    folder.run("--version").answers(0, "dubrakosh 0.1.0\n");
    folder.run("-V").answers(0, "dubrakosh 0.1.0\n");
}
