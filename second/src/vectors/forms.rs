//! Cases of judging: worked examples, the limits, and cases from the generator.

use super::stream::{Head, Stream};
use super::ways;
use crate::api::JudgeAnswer;
use crate::examples::handmade::{changed, compiled, ordered, record, shared, table, unreached};
use crate::generator::{JudgeCase, Maker, Table};
use crate::{judge, limits};

/// The seed of the generated cases, and how many there are.
const SEED: u64 = 1;
const CASES: usize = 1_000;

/// The longest table and the longest data text that are taken from the generator; the limits are among the worked examples.
const LONGEST_TABLE: usize = 1_500;
const LONGEST_DATA: usize = 1_500;

pub fn cases() -> Stream {
    let mut stream = Stream::default();
    words(&mut stream);
    members(&mut stream);
    texts(&mut stream);
    roots(&mut stream);
    deep(&mut stream);
    long(&mut stream);
    ways::cases(&mut stream);
    generated(&mut stream);
    stream
}

pub fn add(stream: &mut Stream, title: &str, table: &[u8], root: u32, data: &[u8]) {
    let answer = match judge(table, root, data) {
        JudgeAnswer::Valid => String::from(" valid"),
        JudgeAnswer::Refused { number, place } => format!(" refused {number} at {place}"),
        JudgeAnswer::Verdict { reason, record, place } => format!(" reason {reason}, record {record}, place {place}"),
    };
    stream.add(&Head { kind: b'j', little: false, number: root }, title, &[table, data], &answer);
}

/// A data text by the table of a constraint text, in big-endian, little-endian and mixed order.
fn add_all(stream: &mut Stream, title: &str, text: &str, data: &str) {
    let table = compiled(text);
    for (order, pattern) in [("big", "b"), ("little", "l"), ("mixed", "lb")] {
        add(stream, &format!("{title}, {order}"), &ordered(&table, pattern).bytes(), 1, data.as_bytes());
    }
}

/// Every form of a word, and words that are nearly one.
const WORDS: [&str; 103] = [
    "True", "False", "TRUE", "Truex", "0", "-0", "00", "5", "+5", "-5", "-05", "05", "007", "2147483647", "2147483648",
    "-2147483648", "-2147483649", "99999999999999999999", "0000", "2004", "-2004", "9999", "10000", "2004-05",
    "2004-5", "2004-00", "2004-13", "2004-05-20", "2004-05-32", "2004-02-29", "1900-02-29", "2000-02-29", "2004-04-31",
    "2004-05-20x", "00:00", "08", "23", "24", "25", "23:59", "23:60", "24:00", "23:59:59", "23:59:60", "24:00:00",
    "12:30Z", "12Z", "12+01", "12+13", "12+13:59", "12+14", "12+14:00", "12-12", "12-12:59", "12-13", "12-00",
    "12-00:00", "12-00:30", "12-00:01", "12+00", "12+00:00", "12:30:15-03:30", "12:30:15+0930", "12:30:15+9",
    "12:30:15z", "1:30", "12:3", "12.5", "P1D", "2004-05-20T10:00:00", "_x", "-", "+", "5--3", "Tr.ue", "A:B", "P4w",
    "P12W3D", "-P5d", "P0d", "P0005d", "P5M", "PT5m", "PT5M3S", "P1w2dT3h", "P1y2m3w4dT5h6m7s",
    "-P9999y9999m9999w9999dT9999h9999m9999s", "P", "PT", "-P", "P5", "P5dT", "Pd", "P00005d", "P1d2w", "P1w1w",
    "PT1s1h", "P1.5d", "+P5d", "Pt5m", "P5d_", "P1h", "PT1d",
];

/// A leaf of each kind, and `*`.
const LEAVES: [&str; 24] = [
    "*", "True", "False", "True, False", "5", "|0..9|, 24", "|>=-5|", "2004, 24", "\"5\"", "\"\"", "yyyy-mm-dd",
    "yyyy-mm-??", "yyyy-??-??", "yyyy-mm-XX", "yyyy-??-XX", "|2004-05-20..2004-12-31|", "Thh:mm:ss", "Thh:mm:XX",
    "Thh:??:XX", "Thh:??:??", "Pwd", "PTm", "Pm", "PymwdThms",
];

fn words(stream: &mut Stream) {
    for leaf in LEAVES {
        let table = ordered(&compiled(&format!("A matches {{a matches {{{leaf}}}}}")), "bl").bytes();
        for word in WORDS {
            add(stream, &format!("{word} under {leaf}"), &table, 1, format!("<a=<{word}>>").as_bytes());
        }
        for string in ["\"\"", "\"5\"", "\"True\"", "\"2004-05-20\"", "\"P4w\""] {
            add(stream, &format!("{string} under {leaf}"), &table, 1, format!("<a=<{string}>>").as_bytes());
        }
        add(stream, &format!("a block under {leaf}"), &table, 1, b"<a=<>>");
    }
}

/// Constraint texts with data texts: existence, types, members that nobody names, beginnings of names, the first failure.
const MEMBERS: [(&str, &[&str]); 10] = [
    ("A matches {*}", &["<>", "(A)<>", "(B)<>", "( A ) < >", "<a=<5>>", "<a=<> b=(T)<c=<\"x\">>>"]),
    (
        "A matches {a matches {5}}",
        &["<>", "<a=<5>>", "<a=<6>>", "<a=<x5>>", "<ab=<5>>", "<ab=<6> a=<5>>", "<a=<5> ab=<6>>", "<b=<5> c=<5> a=<5>>", "(A)<a=<5>>", "(B)<a=<6>>", "<a=<>>", "<a=(B)<>>", "<a=<\"5\">>"],
    ),
    ("A matches {abc existence matches {0..1} matches {5}}", &["<>", "<ab=<5>>", "<abcd=<6>>", "<abcd=<6> abc=<6>>", "<abc=<5>>"]),
    ("A matches {a existence matches {0} matches {*}}", &["<>", "<a=<5>>", "<a=<>>", "<b=<5>>", "<a=(T)<a=<5>>>"]),
    (
        "A matches {a matches {B matches {b matches {True} c existence matches {0..1} matches {\"x\", \"y\"}}} d matches {Thh:mm:ss}}",
        &[
            "<a=<b=<True>> d=<10:00:00>>", "<d=<10:00:00> a=(B)<c=<\"y\"> b=<True>>>", "<a=(C)<b=<False>> d=<10>>", "<a=<b=<False>> d=<10>>", "<a=<b=<True> c=<\"z\">> d=<10>>",
            "<a=<c=<\"x\">> d=<10:00:00>>", "<a=<5> d=<10:00:00>>", "<a=<b=<True>> d=<\"10:00:00\">>", "<a=<b=<True>> d=(T)<>>", "<a=<b=<True>>>",
        ],
    ),
    ("A matches {a matches {1, 2, |5..9|} b matches {\"p\", \"q\"}}", &["<a=<2> b=<\"q\">>", "<a=<9> b=<\"p\">>", "<a=<10> b=<\"p\">>", "<a=<4> b=<\"r\">>", "<a=<7> b=<\"r\">>", "<b=<\"q\"> a=<3>>"]),
    ("Pulse matches {rate matches {|100..160|} when existence matches {0..1} matches {yyyy-mm-dd}}", &["<rate=<130>>", "<rate=<72>>", "(Pulse)<rate=<160> when=<2004-05-20>>", "<rate=<161> when=<2004-05>>", "<rate=<160> when=<2004-05>>"]),
    ("Pregnancy matches {gestation matches {Pwd} cycle existence matches {0..1} matches {PTm}}", &["<gestation=<P12w3d>>", "<gestation=<P12W3D> cycle=<PT5m>>", "<gestation=<P3m>>", "<gestation=<PT5m>>", "<gestation=<-P4w> cycle=<P5m>>", "<gestation=<12>>", "<gestation=<\"P4w\">>", "<gestation=<>>", "<gestation=<P12w3>>", "<cycle=<PT5m>>"]),
    ("Pd matches {a matches {PTm matches {b matches {PmTm}}}}", &["(Pd)<a=(PTm)<b=<P1mT1m>>>", "(PTm)<>", "<a=(Pd)<>>", "<a=<PT5m>>", "<a=<b=<P1y>>>", "<Pd=<5>>"]),
    ("A matches {a matches {*} b existence matches {0..0} matches {5} c matches {yyyy-??-XX}}", &["<a=<x> c=<2004>>", "<a=<> c=<2004-05>>", "<a=<5> c=<2004-05-06>>", "<a=<5> b=<5> c=<2004>>", "<c=<2004>>", "<a=<5> c=<20:04>>"]),
];

fn members(stream: &mut Stream) {
    for (text, all) in MEMBERS {
        for data in all {
            add_all(stream, &format!("{text} and {data}"), text, data);
        }
    }
    for (title, each) in [("shared records", shared()), ("unreached records", unreached())] {
        for number in 0..=each.records.len() as u32 {
            for data in [
                "<>", "<b=<b=<5>> c=<b=<9>> d=<1> e=<5> f=<5>>", "<b=<b=<4>> c=<b=<9>> d=<4> e=<5> f=<1>>",
                "(A)<a=<10>>", "(B)<b=<10>>",
            ] {
                add(
                    stream,
                    &format!("{title} at {number}, {data}"),
                    &ordered(&each, "bbl").bytes(),
                    number,
                    data.as_bytes(),
                );
            }
        }
    }
}

/// Data texts that are refused, or nearly: blanks and comments, unreadable tokens, repeated names, places.
const TEXTS: [&str; 58] = [
    "", " ", "-- only a comment", "<", ">", "<>>", "<> <>", "<> -- behind", "-- before\n<>", "--\r<>", "-<>",
    "< -- inside\n>", "<a>", "<a=>", "<a=<>", "<a=<5>", "<a=5>", "<a=<5>>x", "<5>", "<\"x\">", "<a=<5 6>>",
    "<a=<\"x\" \"y\">>", "<a=<\"x>>", "<a=<\"x\\\">>", "<a=<\"\t\">>", "<a=(T)<5>>", "<a=(T)<>>", "<a=(t)<>>",
    "<a=(True)<>>", "<a=()<>>", "<a=(T<>>", "<a=(T)>", "(T)", "(T", "(T)<a=<5>>", "<A=<5>>", "<a-b=<5>>",
    "<matches=<5>>", "<existence=<5>>", "<a=<5> a=<6>>", "<a=<5> b=<5> b=<5> a=<5>>", "<a=<a=<5>> b=<a=<5>>>",
    "<a=<5> a", "<a=<5> a=<", "<a=<b>>", "<a=<bad>>", "<a=<x5>>", "<a = < 5 > >", "<a=<5--c\n>>", "<a=<5 --c\n>>",
    "<a=<\u{1}>>", "<a=<5>;b=<6>>", "<a=<p5d>>", "<a=<--P5d>>", "<a=<--P5d\n-P5d>>", "(Pd)<>", "<Pd = <5>>",
    "<a=<P5d P5d>>",
];

fn texts(stream: &mut Stream) {
    let table = compiled("A matches {*}").bytes();
    for data in TEXTS {
        let title = data.escape_default().to_string();
        add(stream, &format!("{title} as a text"), &table, 1, data.as_bytes());
    }
    for byte in 0..=255u8 {
        add(stream, &format!("byte {byte:02X} in a block"), &table, 1, &[b'<', byte, b'>']);
        add(stream, &format!("byte {byte:02X} in a string"), &table, 1, &[&b"<a=<\""[..], &[byte], b"\">>"].concat());
        add(stream, &format!("byte {byte:02X} behind a digit"), &table, 1, &[&b"<a=<5"[..], &[byte], b">>"].concat());
        let slot = [&b"<a=<P5"[..], &[byte], b">>"].concat();
        add(stream, &format!("byte {byte:02X} behind a duration's digit"), &table, 1, &slot);
    }
}

fn roots(stream: &mut Stream) {
    let small = compiled("A matches {*}");
    for root in [0, 1, 2, 3, u32::MAX] {
        add(stream, &format!("root {root}"), &small.bytes(), root, b"<>");
        add(stream, &format!("root {root} and a text that is refused"), &small.bytes(), root, b"?");
        add(stream, &format!("root {root} and no table"), b"", root, b"?");
        let broken = changed(&small, 1, |record| record.flag = 1);
        add(stream, &format!("root {root} and a broken record"), &broken.bytes(), root, b"?");
    }
    let two = table(2, &[record(1, 0, [0, 1, 0, 0, 0]), record(1, 0, [1, 1, 0, 0, 0])], b"AB").bytes();
    for root in [1, 2] {
        for data in ["(A)<>", "(B)<>"] {
            add(stream, &format!("{data} at {root} of two"), &two, root, data.as_bytes());
        }
    }
}

/// A data text of so many levels, around what stands inside.
pub fn nested(levels: usize, inside: &str) -> String {
    let mut data = String::from("<");
    for _ in 1..levels {
        data.push_str("a=<");
    }
    data + inside + &">".repeat(levels)
}

/// A constraint text of so many levels, around a leaf.
fn nested_text(levels: usize, leaf: &str) -> String {
    "A matches {a matches {".repeat(levels) + leaf + &"}}".repeat(levels)
}

fn deep(stream: &mut Stream) {
    let any = compiled("A matches {*}").bytes();
    let most = compiled(&nested_text(limits::LEVELS, "5")).bytes();
    for levels in [1, 2, 15, 16, 17, 18] {
        for inside in ["", "a=<5>", "a=<6>", "a=<>", "a=(A)<>", "a=(A)<5>", "a=<\"x\">", "a=<x>", "a=<?>", "a=<", "a"] {
            let data = nested(levels, inside);
            add(stream, &format!("{levels} levels and {inside} under anything"), &any, 1, data.as_bytes());
            add(stream, &format!("{levels} levels and {inside} under 16 levels"), &most, 1, data.as_bytes());
        }
    }
}

/// A table whose objects form a chain longer than a data text is deep.
fn chain(objects: usize) -> Table {
    let mut records = Vec::new();
    for number in 0..objects {
        let at = 2 * number as u32 + 1;
        let last = number + 1 == objects;
        records.push(record(1, 0, [0, 1, 0, 0, at + 1]));
        records.push(record(2, 1, [1, 1, if last { 0 } else { at + 2 }, 0, 0]));
    }
    table(1, &records, b"Aa")
}

fn long(stream: &mut Stream) {
    let any = compiled("A matches {*}").bytes();
    for size in [limits::NAME, limits::NAME + 1] {
        let name = "n".repeat(size);
        add(stream, &format!("a name of {size}"), &any, 1, format!("<{name}=<5>>").as_bytes());
        let name = "N".repeat(size);
        add(stream, &format!("a type of {size}"), &any, 1, format!("<a=({name})<>>").as_bytes());
    }
    for size in [0, limits::STRING, limits::STRING + 1] {
        add(stream, &format!("a string of {size}"), &any, 1, format!("<a=<\"{}\">>", "s".repeat(size)).as_bytes());
    }
    for size in [1_003, 1_004, 1_005, limits::TEXT - 1, limits::TEXT, limits::TEXT + 1] {
        add(
            stream,
            &format!("a text of {size}, blanks behind"),
            &any,
            1,
            format!("<>{}", " ".repeat(size - 2)).as_bytes(),
        );
        add(
            stream,
            &format!("a text of {size}, one word"),
            &any,
            1,
            format!("<a=<{}>>", "9".repeat(size - 6)).as_bytes(),
        );
        add(stream, &format!("a text of {size}, unreadable"), &any, 1, "?".repeat(size).as_bytes());
        add(stream, &format!("a text of {size}, members without content"), &any, 1, opened(size).as_bytes());
        add(stream, &format!("a text of {size}, members"), &any, 1, full(size).as_bytes());
    }
    for objects in [16, 17, 40] {
        for levels in [16, 17] {
            add(
                stream,
                &format!("{levels} levels under a chain of {objects}"),
                &chain(objects).bytes(),
                1,
                nested(levels, "").as_bytes(),
            );
        }
    }
}

/// The name of a member by its number: of one letter, then of two, and so on.
pub fn member_name(mut number: usize) -> String {
    let mut name = String::new();
    loop {
        name.insert(0, char::from(b'a' + (number % 26) as u8));
        number /= 26;
        if number == 0 {
            return name;
        }
        number -= 1;
    }
}

/// A text of that size with as many members as it can hold, each without content, and blanks behind it.
fn full(size: usize) -> String {
    let mut data = String::from("<");
    for number in 0.. {
        let member = format!("{}=<>", member_name(number));
        if data.len() + member.len() + 1 > size {
            break;
        }
        data.push_str(&member);
    }
    data.push('>');
    data.push_str(&" ".repeat(size - data.len()));
    data
}

/// A text of that size whose blocks are 16 deep as often as it can be, the last of them left open.
fn opened(size: usize) -> String {
    let mut data = String::from("<");
    for number in 0.. {
        let member = format!("{}={}", member_name(number), nested(limits::LEVELS - 1, ""));
        if data.len() + member.len() > size {
            break;
        }
        data.push_str(&member);
    }
    data.push_str(&" ".repeat(size - data.len()));
    data
}

fn generated(stream: &mut Stream) {
    let maker = Maker::new(SEED);
    let short = |case: &JudgeCase| case.table.len() <= LONGEST_TABLE && case.data.len() <= LONGEST_DATA;
    let all = (0..).map(|number| (number, maker.judge(number))).filter(|(_, case)| short(case));
    for (number, case) in all.take(CASES) {
        add(stream, &format!("judge {number}"), &case.table, case.root, &case.data);
    }
}
