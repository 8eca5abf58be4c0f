//! Constraint texts, each with its tree or with its refusal's number and place.

use super::items::before;
use super::leaves::{in_texts, leaf_lists, left_out, sixteen};
use super::table::{groups, inputs, made_inputs, Group, Inputs, Table};
use super::{made, term};
use crate::constraint::{self, Value};
use crate::faults::Fault;

const USES: &[&str] = &[
    "mathlib.Core.Path.{◌≡◌, refl}",
    "mathlib.Core.List.{List, [], ◌∷◌}",
    "lib.ListN.{replicate}",
    "Rattle.lexis.specs.Text.{bytes}",
    "Rattle.lexis.proofs.Tables.{wrong}",
    "Rattle.meaning.specs.Constraints.{no_more, any, nested, leaf, single, ranges, texts, booleans, integers, date_pattern, dates, time_pattern, duration_pattern}",
    "Rattle.meaning.proofs.Trees.{range, item, object_with, attribute_with, object_list}",
    "Rattle.cadl_objects.proofs.Computes.{constraint_computes}",
    "Rattle.cadl_objects.proofs.Examples.{Case, accepts, refuses, accepts_from, refuses_from, right}",
];

fn table(module: &'static str, about: &'static str, all: &[Inputs]) -> Table {
    Table {
        holder: "cadl_objects",
        module,
        about,
        uses: USES,
        case: "Case",
        right: "right",
        unfolding: "object_list constraint_computes",
        groups: groups(all, case),
    }
}

pub fn tables() -> Vec<Table> {
    vec![
        table("TextTable", "Objects, attributes, existence, codes and limits.", &texts()),
        table("LeafTable", "Leaves: their items, intervals, patterns and Booleans.", &in_texts(leaf_lists(), around)),
        table(
            "FaultTable",
            "Syntax faults, what document 01 leaves out, and several faults in one text.",
            &fault_texts(),
        ),
        Table {
            groups: counted(),
            ..table("CountTable", "Objects from a record's number on, at the limit of a table's records.", &[])
        },
        table("MadeTable", "Short texts from a generator with a fixed seed.", &made::constraint_texts()),
    ]
}

fn case(text: &[u8]) -> String {
    match constraint::read(text) {
        Ok(tree) => format!("accepts {} {}", term::bytes(text), term::object(&tree, 0, term::bytes)),
        Err(fault) => format!("refuses {} {}", term::bytes(text), term::fault(fault)),
    }
}

/// Objects whose records come to the limit of a table.
fn counted() -> Vec<Group> {
    let long_type = [TYPE_63, b"Z matches {*}"].concat();
    let long_name = [b"B matches {", NAME_63, b"Z matches {*}}"].concat();
    let records: [(&[u8], u32); 18] = [
        (b"B matches {*}", 2_047),
        (b"B matches {*}", 2_048),
        (&long_type, 2_048),
        (b"B matches {b matches {*}}", 2_046),
        (b"B matches {b matches {*}}", 2_047),
        (&long_name, 2_047),
        (b"B matches {b matches {*} b matches {*}}", 2_046),
        (b"B matches {b matches {*} c matches {*}}", 2_045),
        (b"B matches {b matches {*} c matches {*}}", 2_046),
        (b"B matches {b matches {C matches {*}}}", 2_045),
        (b"B matches {b matches {C matches {*}}}", 2_046),
        (b"B matches {b matches {1, 2} c matches {True, False}}", 2_043),
        (b"B matches {b matches {1, 2} c matches {True, False}}", 2_042),
        (b"B matches {b matches {C matches {c matches {*}}} d matches {\"x\"}}", 2_043),
        (b"B matches {b matches {Pd}}", 2_045),
        (b"B matches {b matches {Pd}}", 2_046),
        (b"B matches {b matches {Pd x", 2_046),
        (b"B matches {b matches {Pd matches {*}}}", 2_046),
    ];
    vec![Group {
        about: "record 2,048",
        cases: records.iter().map(|(text, number)| counted_case(text, *number)).collect(),
    }]
}

/// An object that is no outermost one, from a record's number on.
fn counted_case(text: &[u8], number: u32) -> String {
    let front = before(number);
    let whole = [&front[..], text, b"}}"].concat();
    let start = format!("{} {}", term::bytes(text), term::number(u64::from(number)));
    let own = |fault: Fault| Fault { place: fault.place - front.len() as u64, ..fault };
    match constraint::read(&whole).map_err(own) {
        Ok(tree) => match tree.objects[0].attributes.last().map(|last| &last.value) {
            Some(Value::Object(index)) => format!("accepts_from {start} {}", term::object(&tree, *index, term::bytes)),
            _ => panic!("no object in {}", term::bytes(text)),
        },
        Err(fault) => format!("refuses_from {start} {}", term::fault(fault)),
    }
}

/// A text with one attribute that holds the leaf.
fn around(leaf: &[u8]) -> Vec<u8> {
    [b"A matches {a matches {", leaf, b"}}"].concat()
}

/// A text with one attribute of that existence.
fn existences(about: &'static str, all: &[&[u8]]) -> Inputs {
    let text = |inner: &&[u8]| [b"A matches {a existence matches {", *inner, b"} matches {*}}"].concat();
    made_inputs(about, all.iter().map(text).collect())
}

/// A text whose outermost object has what stands behind its TYPE.
fn headed(about: &'static str, all: &[&[u8]]) -> Inputs {
    made_inputs(about, all.iter().map(|head| [b"A", *head, b" matches {*}"].concat()).collect())
}

const TYPE_63: &[u8] = b"Abcdefghijklmnopqrstuvwxyz_0123456789_ABCDEFGHIJKLMNOPQRSTUVWXY";
const NAME_63: &[u8] = b"abcdefghijklmnopqrstuvwxyz_0123456789_ABCDEFGHIJKLMNOPQRSTUVWXY";

/// Objects inside each other, the innermost of the type and with what stands behind it.
fn nested(outer: usize, inner: &[u8]) -> Vec<u8> {
    [&b"A\xE2\x88\x88{a\xE2\x88\x88{".repeat(outer), inner, &b"}}".repeat(outer)].concat()
}

fn texts() -> Vec<Inputs> {
    vec![
        inputs(
            "the smallest text, cut off at each token, and with a token too many",
            &[
                b"A matches {*}",
                b"A matches {*",
                b"A matches {",
                b"A matches",
                b"A",
                b"",
                b" \t\r\n",
                b"A matches {}",
                b"A matches {*}}",
                b"A matches {*} B",
                b"A matches {**}",
                b"A matches *}",
                b"A {*}",
                b"matches {*}",
                b"A matches matches {*}",
                b"A A matches {*}",
                b"A matches {* a matches {*}}",
                b"A matches {a matches {*} *}",
            ],
        ),
        inputs(
            "no separator is needed, any may stand, and a comment may end at the text's end",
            &[
                b"A[at1]matches{*}",
                b"A[at1]matches{a matches{5}b matches{True}}",
                b"A\xE2\x88\x88{a\xE2\x88\x88{5}}",
                b"\r\nA\tmatches\n{ * }\r",
                b"A matches {*}  ",
                b"A matches {*  ",
                b"--\x00\xFF\nA--{\rmatches--\n{--*\n*--\n}--",
                b"A matches {* -- }",
                b"A matches {* -- }\r}",
                b"A matches {a existence matches { 0 .. 1 } matches { | > 5 .. < 9 | } }",
                b"Amatches {*}",
                b"A matchesx {*}",
            ],
        ),
        inputs(
            "other spellings of the keywords are none",
            &[b"A Matches {*}", b"A is_in {*}", b"A \xE2\x88{*}", b"A \xE2\x88\x87{*}", b"A matches\xE2\x88\x88{*}", b"A : {*}"],
        ),
        inputs(
            "TYPEs: True and False are none",
            &[
                b"True matches {*}",
                b"False matches {*}",
                b"TRUE matches {*}",
                b"True1 matches {*}",
                b"A_1b matches {*}",
                b"a matches {*}",
                b"_A matches {*}",
                b"1A matches {*}",
                b"Thh matches {*}",
                b"Thh:mm matches {*}",
                b"Thh:mm:ss matches {*}",
                b"T matches {a matches {True matches {*}}}",
                b"T matches {a matches {True_ matches {*}}}",
                b"Pd matches {*}",
                b"Pd",
                b"Pd}",
                b"A matches {Pd}",
                b"A matches {a existence matches {Pd} matches {*}}",
                b"PymwdThms[at1] matches {a matches {PTm matches {b matches {PTm}}}}",
            ],
        ),
        inputs(
            "NAMEs: the keywords are none",
            &[
                b"A matches {matches matches {*}}",
                b"A matches {existence matches {*}}",
                b"A matches {matchesx matches {*}}",
                b"A matches {existenc matches {*}}",
                b"A matches {a_B1 matches {*}}",
                b"A matches {true matches {*}}",
                b"A matches {yyyy matches {*}}",
                b"A matches {yyyy-mm-dd matches {*}}",
                b"A matches {yyyy-mm-d matches {*}}",
                b"A matches {B matches {*}}",
                b"A matches {5}",
                b"A matches {_a matches {*}}",
            ],
        ),
        inputs(
            "attributes and objects inside them: numbers in text order",
            &[
                b"A matches {a matches {*}}",
                b"A matches {a matches {B matches {*}}}",
                b"A[at1] matches {a matches {B[at1.1] matches {b matches {5} c matches {*}}} d matches {\"x\", \"y\"} e matches {True}}",
                b"A matches {a matches {1, 2, 3} b matches {*} c matches {False, True}}",
                b"A matches {a matches {A matches {a matches {A matches {a matches {yyyy-mm-dd}}}}}}",
                b"A matches {a matches {}}",
                b"A matches {a matches {* 5}}",
                b"A matches {a matches {*}, b matches {*}}",
                b"A matches {a}",
                b"A matches {a matches}",
                b"A matches {a matches {*}",
                b"A matches {a matches {B}}",
                b"A matches {a matches {B matches {b matches {*}}}",
                b"A matches {a matches {Pd} b matches {Pd matches {*}} c existence matches {0} matches {PThm}}",
                b"A matches {a matches {Pd} a matches {Pw}}",
                b"A matches {a matches {Pd",
                b"A matches {a matches {Pd}",
                b"A matches {a matches {Pd}}}",
                b"A matches {a matches {Pd --}}",
            ],
        ),
        inputs(
            "names: one that begins like another is another; a repeated one is told where it first comes again",
            &[
                b"A matches {a matches {*} ab matches {*}}",
                b"A matches {ab matches {*} a matches {*}}",
                b"A matches {a matches {*} b matches {*} b matches {*} a matches {*}}",
                b"A matches {a matches {*} a matches {*}}",
                b"A matches {a matches {*} b matches {*} a",
                b"A matches {a matches {*} b matches {*} c matches {*} a matches {*}}",
                b"A matches {a matches {B matches {a matches {*}}} b matches {*}}",
                b"A matches {a matches {B matches {b matches {*}}} b matches {*}}",
                b"A matches {a matches {B matches {b matches {*} b matches {*}}}}",
                b"A matches {a matches {*} A matches {*}}",
                b"A matches {a matches {*} aB matches {*} ab matches {*}}",
            ],
        ),
        existences("existence as it may be spelled", &[b"0", b"1", b"0..0", b"0..1", b"1..1", b" 0 .. 0 ", b"1--\n..--\r1"]),
        existences(
            "existence as it may not be spelled",
            &[
                b"00", b"-0", b"2", b"0..01", b"1..0", b"0..2", b"0..00", b"1..01", b"1..2", b"01..1", b"*", b"", b"0..", b"..1", b"1..1..1", b"0 1", b"0,1",
                b"|0..1|", b"0..<1", b">=0", b"0..*", b"1.1", b"0...1", b"-1", b"True", b"2004-01-01", b"0..\"1\"",
            ],
        ),
        inputs(
            "existence where it may not stand, or not whole",
            &[
                b"A matches {a existence {0} matches {*}}",
                b"A matches {a existence matches 0 matches {*}}",
                b"A matches {a existence matches {0 matches {*}}",
                b"A matches {a existence matches {0}}",
                b"A matches {a existence matches {0} {*}}",
                b"A matches {a matches {*} existence matches {0}}",
                b"A matches {a existence matches {0} existence matches {0} matches {*}}",
                b"A existence matches {0} matches {*}",
                b"A matches {a existence matches {0} matches {5} b existence matches {0..1} matches {B matches {*}}}",
            ],
        ),
        headed("codes", &[b"[at1]", b" [at0001]", b"[at1.2]", b"[at1.0.12]", b" --\n[at0]"]),
        headed(
            "codes of 31 bytes and of 32",
            &[b"[at012345678901234567890123456.8]", b"[at0123456789012345678901234567.9]", b"[at01234567890123456789012345678]", b"[at012345678901234567890123456789]"],
        ),
        headed(
            "what is no code, or stands where none may",
            &[
                b"[at]", b"[at1.]", b"[at1..2]", b"[at.1]", b"[ at1]", b"[at1 ]", b"[at 1]", b"[ac1]", b"[id1]", b"[AT1]", b"[aT1]", b"[at1", b"[at1x]", b"[at1]]", b"at1", b"[at1][at2]", b"[]", b"[",
            ],
        ),
        inputs(
            "a code too long behind a fault, and a code where none may stand",
            &[b"A matches[at1] {*}", b"A matches {a[at1] matches {*}}", b"A[at012345678901234567890123456789] {*}", b"[at1] matches {*}"],
        ),
        made_inputs(
            "types and names of 63 bytes and of 64",
            vec![
                [TYPE_63, b" matches {*}"].concat(),
                [TYPE_63, b"Z matches {*}"].concat(),
                [TYPE_63, b"Z {*}"].concat(),
                [b"A matches {", NAME_63, b" matches {*}}"].concat(),
                [b"A matches {", NAME_63, b"Z matches {*}}"].concat(),
                [b"A matches {", NAME_63, b"Z matches {*} ", NAME_63, b"Z matches {*}}"].concat(),
                [b"A matches {", NAME_63, b" matches {*} ", NAME_63, b" matches {*}}"].concat(),
                [b"A matches {a matches {", TYPE_63, b" matches {*}}}"].concat(),
                [b"A matches {a matches {", TYPE_63, b"z matches {*}}}"].concat(),
            ],
        ),
        made_inputs(
            "strings of 255 bytes and of 256",
            vec![
                around(&[b"\"", &b"x".repeat(255)[..], b"\""].concat()),
                around(&[b"\"", &b"x".repeat(256)[..], b"\""].concat()),
                around(&[b"\"a\", \"", &b"x".repeat(256)[..], b"\", \"a\""].concat()),
            ],
        ),
        made_inputs(
            "16 levels and the 17th, told at its TYPE",
            vec![
                nested(15, b"A matches{*}"),
                nested(15, b"A matches{a matches{5}}"),
                nested(16, b"A matches{*}"),
                nested(16, b"5"),
                nested(16, b"True"),
                nested(16, &[TYPE_63, b"Z matches{*}"].concat()),
                [&b"A\xE2\x88\x88{a\xE2\x88\x88{".repeat(16)[..], b"B"].concat(),
                [&b"A\xE2\x88\x88{a\xE2\x88\x88{".repeat(16)[..], b"b"].concat(),
                nested(16, b"Pd"),
                nested(16, b"Pd--}\n"),
                nested(16, b"PD"),
                nested(16, b"Pd matches{*}"),
                [&b"A\xE2\x88\x88{a\xE2\x88\x88{".repeat(16)[..], b"Pd"].concat(),
                [&b"A\xE2\x88\x88{a\xE2\x88\x88{".repeat(16)[..], b"Pd x"].concat(),
                [&b"A\xE2\x88\x88{a\xE2\x88\x88{".repeat(16)[..], b"P}"].concat(),
                [&b"A\xE2\x88\x88{a\xE2\x88\x88{".repeat(16)[..], b"Pd}"].concat(),
            ],
        ),
        made_inputs(
            "texts over 16,384 bytes, and of that length",
            vec![b" ".repeat(16_385), b"\x00".repeat(16_385), b" ".repeat(16_384), b"}".repeat(16_384)],
        ),
    ]
}

fn fault_texts() -> Vec<Inputs> {
    let mut all = in_texts(left_out(), around);
    all.extend([
        inputs(
            "containers, slots, references and invariants",
            &[
                b"A matches {a cardinality matches {0..1} matches {*}}",
                b"A matches {a existence matches {0..1} cardinality matches {0..1; unordered} matches {*}}",
                b"A matches {a matches {B matches {*} C matches {*}}}",
                b"A matches {a matches {B matches {*}, C matches {*}}}",
                b"A matches {a matches {B occurrences matches {0..1} matches {*}}}",
                b"A matches {a matches {allow_archetype B matches {*}}}",
                b"A matches {a matches {use_node B}}",
                b"A matches {a matches {use_archetype B}}",
                b"A matches {use_node B}",
                b"A matches {a matches {*} invariant}",
                b"A matches {*} invariant",
                b"A matches {a/b matches {*}}",
                b"A matches {/a matches {*}}",
                b"A matches {a matches {List<B>}}",
                b"A<B> matches {*}",
                b"A matches {a.b matches {*}}",
                b"A matches {a: B matches {*}}",
            ],
        ),
        inputs(
            "bytes that no token begins with, at the start, between tokens and at the end",
            &[
                b"\x00A matches {*}", b"A\x00matches {*}", b"A matches {*}\x00", b"\x0BA matches {*}",
                b"A\x0Cmatches {*}", b"A matches\xA0{*}", b"\xEF\xBB\xBFA matches {*}", b"A matches {*}\x1A",
                b"A matches {*};", b"A matches {*}\xFF", b"A matches {*}-", b"A matches {*}--", b"A matches {*}---",
                b"A matches {*}.", b"-A matches {*}", b"\"A\" matches {*}", b"5 matches {*}", b"{*}", b"* matches {*}",
                b"A-B matches {*}", b"A matches [*]", b"A matches (*)", b"A MATCHES {*}", b"A, matches {*}",
            ],
        ),
        inputs(
            "several faults: the least place is told",
            &[
                b"A matches {a matches {007} a matches {*}}",
                b"A matches {a matches {*} a matches {007}}",
                b"A matches {a matches {|9..5|} a matches {*}}",
                b"A matches {a matches {|9..5|, 007}}",
                b"A matches {a matches {|9..007|}}",
                b"A matches {a matches {|007..-0|}}",
                b"A matches {a matches {5, 5, |9..5|}}",
                b"A matches {a matches {|9..5|, 5, 5}}",
                b"A matches {a matches {007 8}}",
                b"A matches {a matches {007",
                b"A matches {a matches {\"x\", \"x\", 5}}",
                b"A matches {a matches {|2147483647+/-1| b matches {*}}",
                b"A matches {a matches {|5..4|} \x00",
                b"A matches {a matches {True, True, True}}",
                b"A matches {a matches {5, |5..9|} a matches {*}}",
                b"A[at1 matches {a matches {007}}",
                b"A matches {a matches {B matches {b matches {007} b matches {*}} a matches {*}}",
            ],
        ),
        made_inputs(
            "several faults at one place: the least number is told",
            vec![
                nested(16, &[TYPE_63, b"Z"].concat()),
                around(&[&sixteen()[..], b",1"].concat()),
                around(&[&sixteen()[..], b",|1..5|"].concat()),
                around(&[&sixteen()[..], b",01"].concat()),
                [b"A matches {", NAME_63, b" matches {*} ", NAME_63, b"Z matches {*} ", NAME_63, b" matches {*}}"]
                    .concat(),
            ],
        ),
        inputs(
            "longest match",
            &[
                b"A matches {a matches {5--3}}",
                b"A matches {a matches {5--3\n}}",
                b"A matches {a matches {|5--3\n|}}",
                b"A matches {a matches {|<--3\n5|}}",
                b"A matches {a matches {|<-3|}}",
                b"A matches {a matches {|<=-3|}}",
                b"A matches {a matches {|>-3..<-1|}}",
                b"A matches {a matches {|-3..-1|}}",
                b"A matches {a matches {|-3..--1\n-1|}}",
                b"A matches {a matches {|3..<-1|}}",
                b"A matches {yyyy-mm-ddx matches {*}}",
                b"A matches {yyyy_mm matches {*}}",
                b"A matches {at1 matches {[at1]}}",
                b"A matches {a matches {2004-05-20..}}",
                b"A matches {a matches {|2004-05-20..2004-05-21|}}",
                b"A matches {a matches {|20040520|}}",
                b"A matches {a matches {|20040-05-20|}}",
                b"A matches {a matches {|2004-05-20-1|}}",
                b"A matches {a matches {|2004-05--20\n|}}",
                b"A matches {a matches {PdX}}",
                b"A matches {a matches {Pd--X\n}}",
                b"A matches {a matches {Pd_}}",
            ],
        ),
    ]);
    all
}
