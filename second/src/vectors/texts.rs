//! Cases of compiling, and of lists of merges that start from a compiled text and are judged after each step: worked examples of
//! documents 01 and 001, the limits, and texts from the generator.

use super::stream::{digest, Head, Stream};
use crate::api::{CompileAnswer, JudgeAnswer, MergeAnswer};
use crate::examples::handmade::{compiled, every_kind, ordered, shared, unreached};
use crate::generator::{filling, Maker};
use crate::{compile, judge, limits, merge};

/// The seed of the generated cases, and how many there are.
const SEED: u64 = 1;
const CASES: usize = 1_000;

/// The longest text and the longest output that are taken from the generator; the limits are among the worked examples.
const LONGEST_TEXT: usize = 1_200;
const LONGEST_OUT: usize = 2_400;

/// What an output is filled from.
const FILL: u8 = 7;

/// The longest table.
const LONGEST_TABLE: usize = limits::RECORD * limits::RECORDS + limits::POOL;

pub fn cases() -> Stream {
    let mut stream = Stream::default();
    worked(&mut stream);
    tokens(&mut stream);
    lengths(&mut stream);
    items(&mut stream);
    levels(&mut stream);
    records(&mut stream);
    pools(&mut stream);
    outputs(&mut stream);
    lists(&mut stream);
    generated(&mut stream);
    stream
}

fn add(stream: &mut Stream, title: &str, text: &[u8], little: bool, out: &[u8]) {
    let mut after = out.to_vec();
    let answer = match compile(text, little, &mut after) {
        CompileAnswer::Done { length } => format!(" length {length}"),
        CompileAnswer::Refused { number, place } => format!(" refused {number} at {place}"),
    };
    let answer = format!("{answer}, bytes {}", digest(&after));
    stream.add(&Head { kind: b't', little, number: 0 }, title, &[text, out], &answer);
}

/// A text into an output that has room for most tables, in both orders.
fn add_text(stream: &mut Stream, title: &str, text: &str) {
    for (little, order) in [(false, "big"), (true, "little")] {
        add(stream, &format!("{title}, {order}"), text.as_bytes(), little, &filling(FILL, 2_000));
    }
}

/// A text into an output that has room for every table, in both orders.
fn add_long(stream: &mut Stream, title: &str, text: &str) {
    for (little, order) in [(false, "big"), (true, "little")] {
        add(stream, &format!("{title}, {order}"), text.as_bytes(), little, &filling(FILL, LONGEST_TABLE));
    }
}

/// A leaf in a small text.
fn under(leaf: &str) -> String {
    format!("A matches {{a matches {{{leaf}}}}}")
}

/// Document 01's examples of whole texts.
const TEXTS: &[&str] = &[
    "A matches {*}",
    "A\u{2208}{*}",
    "A[at1]matches{*}",
    "A [at0001.1] matches { * }",
    "-- a comment\nA matches {*} -- behind",
    "A matches {*} --",
    "A matches {*}\r--x\ry",
    "A matches {a matches {*}}",
    "A matches {a existence matches {0} matches {*}}",
    "A matches {a existence matches {1} matches {*}}",
    "A matches {a existence matches {0..0} matches {*}}",
    "A matches {a existence matches {0..1} matches {*}}",
    "A matches {a existence matches {1..1} matches {*}}",
    "A matches {a existence matches {1..0} matches {*}}",
    "A matches {a existence matches {00} matches {*}}",
    "A matches {a existence matches {2} matches {*}}",
    "A matches {a existence matches {0..01} matches {*}}",
    "A matches {a existence matches {0 .. 1} matches {*}}",
    "A matches {a existence matches {*} matches {*}}",
    "A matches {a matches {B matches {b matches {5}}} c matches {\"x\", \"\"}}",
    "A matches {a matches {B[at1] matches {*}} b matches {C matches {a matches {True}}}}",
    "A matches {a matches {5} a matches {6}}",
    "A matches {a matches {5} b matches {5} b matches {5} a matches {5}}",
    "A matches {a matches {B matches {a matches {5}}}}",
    "A matches {ab matches {5} a matches {5} abc matches {5}}",
    "A matches {}",
    "A matches {* *}",
    "A matches {a}",
    "A matches {a matches {}}",
    "A matches {a matches {B matches {*} C matches {*}}}",
    "A matches {*} A matches {*}",
    "True matches {*}",
    "a matches {*}",
    "A matches",
    "A",
    "",
    " ",
    "A matches {matches matches {*}}",
    "A matches {existence matches {*}}",
    "A matches {True matches {*}}",
    "A matches {a cardinality matches {0..1} matches {*}}",
    "A matches {a matches {B occurrences matches {0..1} matches {*}}}",
    "Pd",
    "Pd}",
    "Pd matches {*}",
    "A matches {Pd}",
    "A matches {a existence matches {Pd} matches {*}}",
    "A matches {a matches {Pd} b matches {Pd matches {c matches {PTs}}} a matches {Pw}}",
    "A[id1] matches {*}",
    "A[at1 ] matches {*}",
];

/// Leaves of documents 01 and 001, and leaves that are nearly one.
const LEAVES: &[&str] = &[
    // 001: Boolean, String, Integer
    "True",
    "False",
    "True, False",
    "True, False; False",
    "'r'",
    "'r', 'g', 'b'",
    "/[rgbcmyk]/",
    "\"platypus\"",
    "\"platypus\", \"kangaroo\"",
    "\"platypus\", \"kangaroo\", \"wombat\"",
    "/regular expression/",
    "^regular expression^",
    "1000",
    "0, 5, 8",
    "0",
    "|1000|",
    "|950..1050|",
    "|0..1000|",
    "|0..<1000|",
    "|>0..<1000|",
    "|100+/-5|",
    "|<10|",
    "|>10|",
    "|<=10|",
    "|>=10|",
    "|>=10|;5",
    "5, |10..100|, 150, |200..400|, 1000",
    "|0..10|",
    "|0..10|, |60..90|, |>500|",
    "|0..60|, |60..90|, |90..110|, |110..130|, |>130|",
    "50, 60, 70, 80, 100, 130",
    // 001: Real, dates, times, durations, codes
    "5.5",
    "|5.5|",
    "|80.0+/-12.0|",
    "|1998-09-20|",
    "|1998-09-20..2004-10-20|",
    "|>=1998-09-20|",
    "|<1998-09-20|",
    "yyyy-mm-dd",
    "yyyy-mm-??",
    "yyyy-??-??",
    "yyyy-mm-XX",
    "yyyy-??-XX",
    "Thh:mm:ss",
    "Thh:mm:XX",
    "Thh:??:XX",
    "Thh:??:??",
    "yyyy-mm-ddThh:mm:ss",
    "yyyy-mm-dd, yyyy-mm-??",
    "Pd",
    "Pm",
    "PTm",
    "Pwd",
    "PThm",
    "PmTm",
    "PymwdThms",
    "P",
    "PT",
    "PD",
    "PdT",
    "Pdm",
    "Pdd",
    "Pt",
    "PTM",
    "PdX",
    "P1d",
    "P1D",
    "|P1D|",
    "-Pd",
    "|Pd|",
    "|P1d..P2d|",
    "Pwd/|P0w..P50w|",
    "Pd, Pw",
    "Pd;",
    "Pd; P1d",
    "Pd]",
    "Pd Pd",
    "Pd matches {*}",
    "Pd[at1] matches {*}",
    "Pd[at1]",
    "Pd --c\n",
    "Pd --c",
    "[at1]",
    "[ac1]",
    "[ac1; at2]",
    "2004-05-20",
    "2004-05-20T10:00:00",
    // Booleans
    "False, True",
    "True, True",
    "True, False, True",
    "True, 5",
    "True False",
    "TRUE",
    "true",
    // integers
    "-0",
    "00",
    "007",
    "-5",
    "- 5",
    "+5",
    "2147483647",
    "2147483648",
    "-2147483648",
    "-2147483649",
    "99999999999999999999",
    "5--3",
    "5 -- 3\n",
    "5,",
    ",5",
    "5 6",
    "5, 5",
    "5, |5..9|",
    "|5..9|, 5",
    "|5..9|, 10",
    "|5..9|, |9..12|",
    "5, \"a\"",
    "5, |2004-01-01|",
    "|5..4|",
    "|5..5|",
    "|>5..<6|",
    "|>0..<1|",
    "|>5..6|",
    "|>2147483647|",
    "|<-2147483648|",
    "|>=2147483647|",
    "|<=-2147483648|",
    "|0..<-2147483648|",
    "|100+/--5|",
    "|100+/-0|",
    "|2147483647+/-1|",
    "|-2147483648+/-1|",
    "|0+/-2147483647|",
    "|-1+/-2147483647|",
    "|0+/--2147483648|",
    "|5 .. 9|",
    "| 5 |",
    "|5..9",
    "|5..|",
    "|..5|",
    "|5...9|",
    "|5..<=9|",
    "|5..>9|",
    "||",
    "|*|",
    "|007|",
    "|5..007|",
    "|5+/-007|",
    "|5+/-|",
    // strings
    "\"\"",
    "\"a\", \"b\", \"a\"",
    "\"\", \"\"",
    "\"unclosed",
    "\"a\\\"b\"",
    "\"a\tb\"",
    "\"~ !\"",
    "\"a\" \"b\"",
    "\"a\", 5",
    // dates
    "|2004-12-31..<2005-01-02|",
    "|>2004-12-31..2005-01-02|",
    "|>2004-02-28..<2004-03-01|",
    "|>2003-02-28..<2003-03-01|",
    "|2004-02-30|",
    "|1900-02-29|",
    "|2000-02-29|",
    "|>9999-12-31|",
    "|<0000-01-01|",
    "|<=0000-01-01|",
    "|2004-01-01+/-5|",
    "|2004-01-01..5|",
    "|2004-01-01|, |2004-01-01|",
    "|2004-01-01|, 5",
];

fn worked(stream: &mut Stream) {
    for text in TEXTS {
        let title = text.escape_default().to_string();
        add_text(stream, &format!("{title} as a text"), text);
    }
    for leaf in LEAVES {
        let title = leaf.escape_default().to_string();
        add_text(stream, &format!("{title} as a leaf"), &under(leaf));
        add_text(stream, &format!("{title} cut off"), &format!("A matches {{a matches {{{leaf}"));
    }
}

fn tokens(stream: &mut Stream) {
    for byte in 0..=255u8 {
        let places: [(&str, &[u8], &[u8]); 5] = [
            ("before a text", b"", b"A matches {*}"),
            ("behind a TYPE", b"A", b" matches {*}"),
            ("in a leaf", b"A matches {a matches {", b"}}"),
            ("in a string", b"A matches {a matches {\"", b"\"}}"),
            ("behind a comment's dashes", b"A matches {*}--", b"\nx"),
        ];
        for (place, front, back) in places {
            add(
                stream,
                &format!("byte {byte:02X} {place}"),
                &[front, &[byte], back].concat(),
                byte % 2 == 1,
                &filling(FILL, 200),
            );
        }
    }
}

fn lengths(stream: &mut Stream) {
    for size in [1, limits::NAME, limits::NAME + 1] {
        add_text(stream, &format!("a type of {size}"), &format!("{} matches {{*}}", "T".repeat(size)));
        add_text(stream, &format!("a name of {size}"), &format!("A matches {{{} matches {{*}}}}", "n".repeat(size)));
    }
    for size in [3, limits::CODE, limits::CODE + 1] {
        add_text(stream, &format!("a code of {size}"), &format!("A[at{}] matches {{*}}", "1".repeat(size - 2)));
    }
    for size in [0, limits::STRING, limits::STRING + 1] {
        add_text(stream, &format!("a string of {size}"), &under(&format!("\"{}\"", "s".repeat(size))));
    }
    for size in [limits::TEXT - 1, limits::TEXT, limits::TEXT + 1] {
        add_text(stream, &format!("a text of {size}"), &format!("A matches {{*}}{}", " ".repeat(size - 13)));
        add_text(stream, &format!("a text of {size}, unreadable"), &"?".repeat(size));
        add_text(stream, &format!("a text of {size}, one comment"), &format!("--{}", "x".repeat(size - 2)));
    }
}

fn items(stream: &mut Stream) {
    let list = |count: usize, item: &dyn Fn(usize) -> String| (0..count).map(item).collect::<Vec<_>>().join(", ");
    for count in [1, 2, 15, 16, 17, 18] {
        add_text(stream, &format!("{count} integers"), &under(&list(count, &|n| format!("{}", n * 3))));
        add_text(
            stream,
            &format!("{count} intervals"),
            &under(&list(count, &|n| format!("|{}..{}|", n * 3, n * 3 + 1))),
        );
        add_text(stream, &format!("{count} strings"), &under(&list(count, &|n| format!("\"s{n}\""))));
        add_text(stream, &format!("{count} dates"), &under(&list(count, &|n| format!("|{:04}-01-01|", n + 1))));
    }
    for last in ["007", "|007|", "|5", "|5..9|", "\"a\"", "*", "True", "0"] {
        add_text(
            stream,
            &format!("a 17th item {last}"),
            &under(&format!("{}, {last}", list(16, &|n| format!("{}", n * 3)))),
        );
    }
    let long = format!("\"{}\"", "s".repeat(256));
    add_text(stream, "a 17th string of 256", &under(&format!("{}, {long}", list(16, &|n| format!("\"s{n}\"")))));
}

/// A text of so many levels, around what the innermost object holds.
fn nested(levels: usize, inside: &str) -> String {
    "A matches {a matches {".repeat(levels - 1) + "A matches {" + inside + "}" + &"}}".repeat(levels - 1)
}

fn levels(stream: &mut Stream) {
    for levels in [1, 2, 15, 16, 17] {
        for inside in ["*", "b matches {5}", "", "b"] {
            add_text(stream, &format!("{levels} levels and {inside}"), &nested(levels, inside));
        }
    }
    for inside in ["Pd}}", "Pd--\n}}", "Pd", "Pd x", "P}", "Pd}", "Pd matches {*}}}", "PD}}"] {
        let closed = if inside.ends_with("}}") { "}".repeat(30) } else { String::new() };
        add_text(
            stream,
            &format!("{} behind 16 levels", inside.escape_default()),
            &format!("{}{inside}{closed}", "A matches {a matches {".repeat(16)),
        );
    }
    add_text(
        stream,
        "a 17th level of 64 bytes",
        &nested(16, &format!("a matches {{{} matches {{*}}}}", "T".repeat(64))),
    );
}

/// The name of an attribute by its number: of one letter, then of two, and so on.
fn name_of(mut number: usize) -> String {
    let mut name = String::new();
    loop {
        name.insert(0, char::from(b'a' + (number % 26) as u8));
        number /= 26;
        if number == 0 {
            return name;
        }
        number -= 1;
    }
}

/// A text with so many records, its header's among them: attributes with lists of 16 Booleans' worth of integers, and one attribute more for each record left.
fn wide(count: usize) -> String {
    let mut left = count - 2;
    let mut text = String::from("A\u{2208}{");
    let mut number = 0;
    while left > 0 {
        let items = if left >= 17 { 16 } else { left - 1 };
        let leaf = if items == 0 {
            String::from("*")
        } else {
            (0..items).map(|item| item.to_string()).collect::<Vec<_>>().join(",")
        };
        text.push_str(&format!("{}\u{2208}{{{leaf}}}", name_of(number)));
        left -= 1 + items;
        number += 1;
    }
    text.push('}');
    text
}

fn records(stream: &mut Stream) {
    for count in [limits::RECORDS - 1, limits::RECORDS, limits::RECORDS + 1, limits::RECORDS + 17] {
        add_long(stream, &format!("{count} records"), &wide(count));
    }
    let nearly = wide(limits::RECORDS - 1);
    let nearly = &nearly[..nearly.len() - 1];
    for more in ["zz matches {Pd}}", "zz matches {Pd", "zz matches {P}}", "zz matches {*}}"] {
        add(
            stream,
            &format!("2,047 records and {more}"),
            format!("{nearly} {more}").as_bytes(),
            false,
            &filling(FILL, 100),
        );
    }
    let full = wide(limits::RECORDS);
    let full = &full[..full.len() - 1];
    for more in ["zz matches {*}", "zz", "a matches {*}", "zz matches {5}", "?", ""] {
        add(
            stream,
            &format!("2,048 records and {more}"),
            format!("{full} {more}}}").as_bytes(),
            false,
            &filling(FILL, 100),
        );
    }
}

/// The string with a number: its four digits, then `s` up to its length.
fn string_of(number: usize, length: usize) -> String {
    format!("{number:04}{}", "s".repeat(length - 4))
}

/// The attribute with a number: its name is as long as a name may be, and its strings have these lengths.
fn full_attribute(number: usize, lengths: &[usize]) -> String {
    let first = limits::ITEMS * number;
    let name = format!("a{number:02}{}", "x".repeat(limits::NAME - 3));
    let strings: Vec<String> =
        lengths.iter().enumerate().map(|(at, length)| format!("\"{}\"", string_of(first + at, *length))).collect();
    format!("{name}\u{2208}{{{}}}", strings.join(","))
}

/// A text as long as a text may be, without a blank, whose parts are as long as they may be; its last string takes what is left.
fn fullest() -> String {
    let full = [limits::STRING; limits::ITEMS];
    let last = [&full[..14], &[16]].concat();
    let head = format!("{}[at{}]", "T".repeat(limits::NAME), "1".repeat(limits::CODE - 2));
    let attributes: String = (0..3).map(|number| full_attribute(number, &full)).collect();
    format!("{head}\u{2208}{{{attributes}{}}}", full_attribute(3, &last))
}

fn pools(stream: &mut Stream) {
    add_text(stream, "a type, a code, a name and a string", "A[at1] matches {ab matches {\"xyz\"}}");
    let text = fullest();
    add_long(stream, "the fullest text", &text);
    add_long(stream, "the fullest text and a blank", &format!("{text} "));
}

fn outputs(stream: &mut Stream) {
    for text in ["A matches {*}", "A matches {a matches {\"x\", \"\"} b matches {B[at1] matches {*}}}"] {
        let needed = compiled(text).bytes().len();
        for room in [0, 1, needed - 1, needed, needed + 1, needed + 50] {
            for little in [false, true] {
                add(
                    stream,
                    &format!("{text} into {room} bytes, little {little}"),
                    text.as_bytes(),
                    little,
                    &filling(FILL, room),
                );
            }
        }
    }
    add(stream, "a refused text into no bytes", b"A matches {a", false, &[]);
    add(stream, "a refused text into ten bytes", b"A matches {a", true, &filling(FILL, 10));
}

/// One merge of a list: the other table, whether the carried one comes first, the order asked, and whether the output is short.
struct Step {
    other: Vec<u8>,
    first: bool,
    little: bool,
    short: bool,
}

/// A text, then a list of merges; after each step the carried table is judged at record 1 + sum.
fn lists(stream: &mut Stream) {
    let small = compiled("A matches {*}").bytes();
    let others: Vec<Vec<u8>> = vec![
        small.clone(),
        ordered(&every_kind(), "lb").bytes(),
        ordered(&shared(), "l").bytes(),
        unreached().bytes(),
        Vec::new(),
        small[..30].to_vec(),
    ];
    let texts = [
        ("Pulse matches {rate matches {|40..180|} note existence matches {0..1} matches {\"ok\", \"\"}}", ["<rate=<72>>", "<rate=<10>>", "<rate=<72> note=<\"bad\">>", "<note=<\"ok\">>"]),
        ("Pregnancy matches {gestation matches {Pwd} contraction existence matches {0..1} matches {PTms}}", ["<gestation=<P12w3d>>", "<gestation=<P3m>>", "<gestation=<P12w3d> contraction=<PT1h>>", "<gestation=<12>>"]),
        ("Newborn[at7] matches {pulse matches {Pulse matches {rate matches {|100..160|}}} born matches {yyyy-mm-dd}}", ["<pulse=<rate=<120>> born=<2004-05-20>>", "<pulse=<rate=<72>> born=<2004-05-20>>", "<pulse=(Pulse)<rate=<120>> born=<2004>>", "(Adult)<>"]),
    ];
    for (number, (text, data)) in texts.iter().enumerate() {
        for start in [false, true] {
            for pattern in 0..16usize {
                let steps: Vec<Step> = (0..4)
                    .map(|at| Step {
                        other: others[(pattern + at * (1 + number)) % others.len()].clone(),
                        first: (pattern >> at) & 1 == 1,
                        little: (pattern + at) % 3 == 0,
                        short: (pattern + 2 * at) % 7 == 0,
                    })
                    .collect();
                run(
                    stream,
                    &format!("list {number}.{pattern} from {}", if start { "little" } else { "big" }),
                    text,
                    start,
                    &steps,
                    data,
                );
            }
        }
    }
}

/// Judging each data text by the carried table at a root.
fn judge_all(stream: &mut Stream, title: &str, table: &[u8], root: u32, data: &[&str]) {
    for text in data {
        let answer = match judge(table, root, text.as_bytes()) {
            JudgeAnswer::Valid => String::from(" valid"),
            JudgeAnswer::Refused { number, place } => format!(" refused {number} at {place}"),
            JudgeAnswer::Verdict { reason, record, place } => {
                format!(" reason {reason}, record {record}, place {place}")
            }
        };
        stream.add(
            &Head { kind: b'v', little: false, number: root },
            &format!("{title}, {text}"),
            &[text.as_bytes()],
            &answer,
        );
    }
}

fn run(stream: &mut Stream, title: &str, text: &str, little: bool, steps: &[Step], data: &[&str]) {
    let mut out = filling(FILL, LONGEST_TABLE);
    let CompileAnswer::Done { length } = compile(text.as_bytes(), little, &mut out) else {
        panic!("{text} is refused");
    };
    let mut table = out[..length as usize].to_vec();
    let mut sum = 0;
    stream.add(&Head { kind: b's', little, number: 0 }, title, &[text.as_bytes()], &format!(" length {length}"));
    judge_all(stream, title, &table, 1, data);
    for step in steps {
        let (first, second) = if step.first { (&table, &step.other) } else { (&step.other, &table) };
        let needed = (table.len() + step.other.len()).saturating_sub(limits::RECORD);
        let room = if step.short { needed.saturating_sub(1) } else { needed + 3 };
        let mut out = filling(FILL, room);
        let merged = merge(first, second, step.little, &mut out);
        let answer = match merged {
            MergeAnswer::Done { length, record_shift, pool_shift } => {
                format!(" length {length}, shifts {record_shift} and {pool_shift}")
            }
            MergeAnswer::Refused { number, place, table } => format!(" refused {number} at {place}, table {table}"),
        };
        let kind = if step.first { b'f' } else { b'l' };
        stream.add(&Head { kind, little: step.little, number: room as u32 }, title, &[&step.other], &answer);
        if let MergeAnswer::Done { length, record_shift, .. } = merged {
            table = out[..length as usize].to_vec();
            if !step.first {
                sum += record_shift;
            }
        }
        judge_all(stream, title, &table, 1 + sum, data);
    }
}

fn generated(stream: &mut Stream) {
    let maker = Maker::new(SEED);
    let all = (0..).map(|number| (number, maker.compile(number))).filter(|(_, case)| case.text.len() <= LONGEST_TEXT);
    for (number, case) in all.take(CASES) {
        let room = case.room.min(LONGEST_OUT);
        add(stream, &format!("compile {number}"), &case.text, case.little, &filling(case.fill, room));
    }
}
