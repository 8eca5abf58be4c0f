//! Bytes with their sorts, the places where a token may start, and the tokens of both sorts of text.

use super::table::{groups, inputs, made_inputs, Group, Inputs, Table};
use super::term;
use crate::bytes::{is_blank, is_identifier, is_name, is_run, is_string, is_type, skip_separators, string_length};
use crate::durations;
use crate::tokens::{token_at, value_token_at, Kind};

const PATH: &str = "mathlib.Core.Path.{◌≡◌, refl}";
const BOOL: &str = "mathlib.Core.Bool.{true, false}";
const LIST: &str = "mathlib.Core.List.{List, [], ◌∷◌}";
const NUMBERS: &str = "Prim.Native.Nat.{◌+◌}";
const TEXT: &str = "Rattle.lexis.specs.Text.{bytes}";
const SORTS: &str = "Rattle.lexis.specs.Bytes.{blank, digit, small, capital, mark, other}";
const SPELLING: &str =
    "Rattle.lexis.specs.Spelling.{matches, existence, true_word, false_word, open_brace, close_brace, comma, star, bar, dots, less, greater, at_most, at_least, plus_minus, date_pattern, time_pattern}";
const TOKENS: &str =
    "Rattle.lexis.specs.Tokens.{token, text_end, unreadable, type_name, name, code, integer, date, string}";
const DATA_SPELLING: &str = "Rattle.lexis.specs.Spelling.{less, greater}";
const DATA_TOKENS: &str = "Rattle.lexis.specs.Tokens.{token, text_end, unreadable, type_name, name, string}";
const ROUNDS: &str = "Rattle.lexis.specs.DataTokens.{equals, open_round, close_round, word_run}";
const DURATIONS: &str = "Rattle.lexis.specs.Durations.{duration_pattern}";
const WRONG: &str = "Rattle.lexis.proofs.Tables.{wrong}";
const COMPUTES: &str = "Rattle.lexis.proofs.Computes.{lexis_computes}";

pub fn tables() -> Vec<Table> {
    vec![
        Table {
            holder: "lexis",
            module: "ByteTable",
            about: "All bytes: the sort of each, and whether it goes on in a word, in a string and in a run of data text, and ends a line.",
            uses: &[PATH, BOOL, LIST, SORTS, WRONG, COMPUTES, "Rattle.lexis.proofs.Examples.{ByteCase, byte_is, byte_right}"],
            case: "ByteCase",
            right: "byte_right",
            unfolding: "lexis_computes",
            groups: vec![Group { about: "0 to 255", cases: (0..=255).map(byte_case).collect() }],
        },
        Table {
            holder: "lexis",
            module: "BlankTable",
            about: "Blanks and comments: where a token may start, from each place of a text on.",
            uses: &[PATH, LIST, TEXT, WRONG, COMPUTES, "Rattle.lexis.proofs.Examples.{BlankCase, starts, blank_right}"],
            case: "BlankCase",
            right: "blank_right",
            unfolding: "lexis_computes",
            groups: blank_groups(),
        },
        Table {
            holder: "lexis",
            module: "RunTable",
            about: "Runs of bytes that are the same as another or stand in a list, and others; strings and codes with their bytes.",
            uses: &[PATH, BOOL, LIST, TEXT, WRONG, COMPUTES, "Rattle.lexis.proofs.Examples.{RunCase, same_is, listed_is, parts_are, run_right}"],
            case: "RunCase",
            right: "run_right",
            unfolding: "lexis_computes",
            groups: run_groups(),
        },
        Table {
            holder: "lexis",
            module: "TokenTable",
            about: "Constraint texts and their tokens, up to the text's end or to the first that is unreadable.",
            uses: &[PATH, LIST, NUMBERS, TEXT, SPELLING, TOKENS, WRONG, COMPUTES, "Rattle.lexis.proofs.Examples.{TokenCase, reads, tokens_from, token_right}"],
            case: "TokenCase",
            right: "token_right",
            unfolding: "tokens_from lexis_computes",
            groups: groups(&token_texts(), token_case),
        },
        Table {
            holder: "lexis",
            module: "DataTokenTable",
            about: "Data texts and their tokens, up to the text's end or to the first that is unreadable, and first tokens behind `(`.",
            uses: &[
                PATH, LIST, TEXT, DATA_SPELLING, DATA_TOKENS, ROUNDS, WRONG, COMPUTES, "Rattle.lexis.proofs.Examples.{DataTokenCase, data_reads, type_reads, tokens_from, data_token_right}",
            ],
            case: "DataTokenCase",
            right: "data_token_right",
            unfolding: "tokens_from lexis_computes",
            groups: data_groups(),
        },
        Table {
            holder: "lexis",
            module: "DurationTable",
            about: "Words of capital and small letters with the flag of the Duration pattern that each is, 0 for none.",
            uses: &[PATH, LIST, TEXT, WRONG, COMPUTES, "Rattle.lexis.proofs.Examples.{DurationCase, pattern_is, duration_right}"],
            case: "DurationCase",
            right: "duration_right",
            unfolding: "lexis_computes",
            groups: groups(&duration_texts(), duration_case),
        },
        Table {
            holder: "lexis",
            module: "ContentTokenTable",
            about: "Constraint texts and the token where a value may stand, from a place on.",
            uses: &[
                PATH, LIST, NUMBERS, TEXT, SPELLING, TOKENS, DURATIONS, WRONG, COMPUTES, "Rattle.lexis.proofs.Examples.{ContentCase, content_reads, content_right}",
            ],
            case: "ContentCase",
            right: "content_right",
            unfolding: "lexis_computes",
            groups: content_groups(),
        },
    ]
}

/// The sort of a byte, its rule written out a second time.
fn sort(byte: u8) -> &'static str {
    match byte {
        _ if is_blank(byte) => "blank",
        b'0'..=b'9' => "digit",
        b'a'..=b'z' => "small",
        b'A'..=b'Z' => "capital",
        b'{' | b'}' | b',' | b'*' | b'|' | b'.' | b'<' | b'>' | b'=' | b'+' | b'/' | b'-' => "mark",
        _ => "other",
    }
}

/// Whether a comment ends before the byte.
fn ends_line(byte: u8) -> bool {
    skip_separators(&[b'-', b'-', byte, b'x'], 0) == 3
}

fn byte_case(byte: u8) -> String {
    let flags = [is_identifier(byte), is_string(byte), is_run(byte), ends_line(byte)].map(term::truth);
    format!("byte_is {byte} {} {}", sort(byte), flags.join(" "))
}

fn blank_groups() -> Vec<Group> {
    let texts: [(&'static str, &[&[u8]]); 4] = [
        ("blanks", &[b"", b" ", b"\t\r\n x", b"x ", b" \x0B", b" \x0C", b" \x00", b" \xA0", b" _"]),
        (
            "comments ended by CR, by LF, by the text's end",
            &[
                b"--\rx", b"--\nx", b"--x", b"--\r\nx", b"--a\r--b\nc", b" --\t--\n --", b"--\x00\xFF\"\\\nx", b"-- ",
                b"--\n",
            ],
        ),
        (
            "`--` inside a run is found from its own place on, and a single `-` is no comment",
            &[b"5--3", b"5--3\n7", b"a--b\r--c\nd", b"- -", b"-", b"-x", b"---\nx", b"----", b"-\n-"],
        ),
        ("other marks open no comment", &[b"//x", b"#x", b"+/---5\n6", b"\"--\"", b"<!--x"]),
    ];
    let cases = |text: &&[u8]| (0..=text.len() + 1).map(|from| blank_case(text, from)).collect::<Vec<_>>();
    texts.iter().map(|(about, all)| Group { about, cases: all.iter().flat_map(cases).collect() }).collect()
}

fn blank_case(text: &[u8], from: usize) -> String {
    format!("starts {} {from} {}", term::bytes(text), skip_separators(text, from))
}

fn run_groups() -> Vec<Group> {
    let runs: [&[u8]; 7] = [b"", b"a", b"b", b"ab", b"abc", b"aB", b"ba"];
    let lists: [&[&[u8]]; 6] = [&[], &[b"a"], &[b"ab"], &[b"b", b"a"], &[b"abc", b"ab", b"b"], &[b"", b"aB"]];
    let parts: [&[u8]; 6] = [b"\"\"", b"\"a\"", b" \"abc\" x", b"[at1]", b"--\n[at1.23]]", b"\"ab\"\"cd\""];
    let same = |one: &&[u8]| {
        runs.map(|other| format!("same_is {} {} {}", term::bytes(one), term::bytes(other), term::truth(*one == other)))
    };
    let listed = |run: &&[u8]| {
        lists.map(|list| {
            let terms: Vec<String> = list.iter().map(|each| term::bytes(each)).collect();
            format!("listed_is {} {} {}", term::bytes(run), term::list(&terms), term::truth(list.contains(run)))
        })
    };
    vec![
        Group {
            about: "two runs: one that begins like another is another",
            cases: runs.iter().flat_map(same).collect(),
        },
        Group { about: "a run and a list", cases: runs.iter().flat_map(listed).collect() },
        Group {
            about: "the bytes of a string or a code, and those between its first and its last",
            cases: parts.map(parts_case).to_vec(),
        },
    ]
}

fn parts_case(text: &[u8]) -> String {
    let token = token_at(text, 0);
    format!("parts_are {} {} {}", term::bytes(text), term::bytes(token.spelling(text)), term::bytes(token.inner(text)))
}

/// How a definition names the sort of a token.
pub fn token_sort(kind: Kind) -> String {
    let name = match kind {
        Kind::OpenBrace => "open_brace",
        Kind::CloseBrace => "close_brace",
        Kind::Comma => "comma",
        Kind::Star => "star",
        Kind::Bar => "bar",
        Kind::Ellipsis => "dots",
        Kind::Less => "less",
        Kind::Greater => "greater",
        Kind::LessEqual => "at_most",
        Kind::GreaterEqual => "at_least",
        Kind::PlusMinus => "plus_minus",
        Kind::Type => "type_name",
        Kind::Name => "name",
        Kind::Matches => "matches",
        Kind::Existence => "existence",
        Kind::Boolean(true) => "true_word",
        Kind::Boolean(false) => "false_word",
        Kind::Code => "code",
        Kind::Integer => "integer",
        Kind::Date => "date",
        Kind::String => "string",
        Kind::End => "text_end",
        Kind::Unreadable => "unreadable",
        Kind::DatePattern(flag) => return format!("(date_pattern + {flag})"),
        Kind::TimePattern(flag) => return format!("(time_pattern + {flag})"),
        Kind::DurationPattern(flag) => return format!("(duration_pattern + {flag})"),
    };
    String::from(name)
}

/// A token; of an unreadable one only the place counts.
fn token_term(sort: &str, start: usize, end: usize) -> String {
    format!("token {sort} {start} {}", if sort == "unreadable" { start } else { end })
}

fn token_case(text: &[u8]) -> String {
    let mut terms = Vec::new();
    let mut place = 0;
    loop {
        let token = token_at(text, place);
        terms.push(token_term(&token_sort(token.kind), token.start, token.end));
        if matches!(token.kind, Kind::End | Kind::Unreadable) {
            return format!("reads {} {}", term::bytes(text), term::list(&terms));
        }
        place = token.end;
    }
}

fn token_texts() -> Vec<Inputs> {
    vec![
        inputs("no token but the end", &[b"", b" \t\r\n", b"--x", b" --\n"]),
        inputs(
            "each sort of token",
            &[
                b"{", b"}", b",", b"*", b"|", b"..", b"<", b">", b"<=", b">=", b"+/-", b"A", b"a", b"matches",
                b"\xE2\x88\x88", b"existence", b"True", b"False", b"[at1]", b"5", b"-5", b"2004-05-20", b"\"a\"",
                b"yyyy-mm-dd", b"yyyy-mm-??", b"yyyy-??-??", b"yyyy-mm-XX", b"yyyy-??-XX", b"Thh:mm:ss", b"Thh:mm:XX",
                b"Thh:??:XX", b"Thh:??:??",
            ],
        ),
        inputs(
            "words: TYPEs, NAMEs, keywords and Booleans by the longest match",
            &[
                b"Abc_1 aBC_1", b"TRUE", b"True1", b"Truea", b"True_", b"Tru", b"T", b"Falsey", b"Fals", b"false",
                b"true", b"matchesx", b"matche", b"Matches", b"matches1", b"matches_", b"existences", b"existenc",
                b"a1b2_C3", b"A__", b"True False", b"True,False", b"matches{", b"matches\xE2\x88\x88",
                b"a\xE2\x88\x88", b"A[at1]", b"a-b", b"a.b", b"z Z a A", b"zZ9_",
            ],
        ),
        inputs(
            "patterns against NAMEs and TYPEs",
            &[
                b"yyyy", b"yyyy-mm", b"yyyy-mm-d", b"yyyy-mm-ddx", b"yyyy-mm-dddd", b"yyyy-mm-dd_", b"yyyy-mm-XXx",
                b"yyyy-mm-XXX", b"yyyy-mm-??x", b"yyyy-mm-?", b"yyyy-??-dd", b"yyyy-XX-XX", b"yyyy-mm-xx",
                b"xyyyy-mm-dd", b"yyyyy-mm-dd", b"yyyy_mm-dd", b"yyyy-mm-ddThh:mm:ss", b"yyyy-mm-dd,yyyy-??-XX",
                b"Thh", b"Thh:mm", b"Thh:mm:s", b"Thh:mm:ssx", b"Thh:mm:??", b"Thh:??:ss", b"Thh:??:?", b"Thh:XX:XX",
                b"Thhx", b"TThh:mm:ss", b"thh:mm:ss", b"hh:mm:ss", b"Thh:mm:ssThh:mm:XX", b"YYYY-MM-DD", b"Pd",
                b"Pwd}", b"PTm }", b"PdX", b"P1d", b"-Pd", b"Pd;", b"{Pd}",
            ],
        ),
        inputs(
            "integers and dates",
            &[
                b"0", b"00", b"007", b"-0", b"-007", b"99999999999999999999", b"5 -3", b"5-3", b"5--3", b"5--3\n4",
                b"-5-6", b"--5", b"- 5", b"-a", b"-", b"5-", b"5a", b"5_", b"2004", b"2004-05", b"2004-05-2",
                b"2004-05-20", b"2004-05-201", b"2004-05-20-21", b"12004-05-20", b"-2004-01-01", b"-2004-05-20",
                b"2004-5-20", b"2004-005-20", b"2004-05--20", b"2004-05-20T10:00:00", b"2004-99-99", b"0000-00-00",
                b"20040520", b"2004-05-20..2005-01-01", b"2004-05-20|", b"2004-05-a0", b"200a-05-20", b"2004.05.20",
                b"5.5", b"5..9", b"5...9", b"5.", b"1,2", b"9|", b"/5", b":5", b"0/9:",
            ],
        ),
        inputs(
            "marks by the longest match",
            &[
                b"...", b"....", b".", b". .", b"..<", b"..<=", b"<==", b"< =", b"<>", b"><", b">>", b">>=", b"=",
                b"==", b"+", b"+/", b"+/5", b"+ / -", b"+/--5", b"+/---5", b"+/---5\n6", b"++/-", b"/", b"/-", b"-/+",
                b"||", b"|>5..<9|", b"|<=-5|", b"|>=5|", b"{}{,}*", b"{{**,,}}", b"|5+/-2|", b"<-5", b"<--5\n6",
                b"<=5", b"<5", b"5<6",
            ],
        ),
        inputs(
            "codes",
            &[
                b"[at0001]", b"[at1.2]", b"[at1.0.12]", b"[at1]]", b"[at1][at2]", b"[at]", b"[at.1]", b"[at1.]",
                b"[at1..2]", b"[ at1]", b"[at1 ]", b"[at 1]", b"[at1", b"[at1.", b"[at", b"[a", b"[", b"[]", b"]",
                b"[ac1]", b"[aT1]", b"[bt1]", b"[AT1]", b"[at1x]", b"[atx]", b"[at1,at2]", b"[at1]5", b"[at9]a",
                b"[at1\n]", b"[at1-2]", b"[at1/2]", b"[at1:2]", b"[at0123456789012345678901234567890123456789]",
            ],
        ),
        inputs(
            "strings",
            &[
                b"\"\"", b"\" ~!#[]^\"", b"\"a\"\"b\"", b"\"--\" 5", b"\"a\\\"", b"\"a\\\"b\"", b"\"\\\"", b"\"",
                b"\"a", b"\"a\n\"", b"\"\t\"", b"\"\x1F\"", b"\"\x7F\"", b"\"\x80\"", b"\"\xE2\x88\x88\"", b"\"\x00\"",
                b"'a'", b"a\"b\"", b"\"a\"b",
            ],
        ),
        made_inputs(
            "each byte that no token begins with",
            (0..=255u8)
                .filter(|byte| sort(*byte) == "other")
                .filter(|byte| *byte < 0x85 || *byte > 0xDF)
                .map(|byte| vec![b'5', byte])
                .collect(),
        ),
        inputs(
            "the sign and its parts",
            &[
                b"\xE2", b"\xE2\x88", b"\xE2\x88\x87", b"\xE2\x88\x89", b"\xE2\x89\x88", b"\xE3\x88\x88",
                b"\xE2 \x88\x88", b"\xE2\x88\x88\xE2\x88\x88", b"\x88\x88\xE2", b"\xE2\x88\x88\x88",
            ],
        ),
        inputs(
            "whole texts without separators, and with more than is needed",
            &[
                b"A[at1]matches{a existence matches{0..1}matches{|>5..<9|,-3}}",
                b"A\xE2\x88\x88{*}",
                b"A --x\rmatches\t{\n*--y\n}--z",
                b"a matches{yyyy-??-XX}b matches{\"x\",\"y\"}",
            ],
        ),
    ]
}

fn duration_case(word: &[u8]) -> String {
    format!("pattern_is {} {}", term::bytes(word), durations::pattern(word).unwrap_or(0))
}

/// The spelling of the pattern of a flag, its rule written out a second time.
fn pattern_spelling(flag: u8) -> Vec<u8> {
    let letters = b"ymwdhms";
    let chosen = |bits: std::ops::Range<usize>| bits.filter(|bit| flag >> bit & 1 == 1).map(|bit| letters[bit]);
    let mut word = vec![b'P'];
    word.extend(chosen(0..4));
    word.extend((flag >= 16).then_some(b'T'));
    word.extend(chosen(4..7));
    word
}

fn duration_texts() -> Vec<Inputs> {
    let all = || (1..=127).map(pattern_spelling);
    let followed = |byte: u8| {
        move |mut word: Vec<u8>| -> Vec<u8> {
            word.push(byte);
            word
        }
    };
    let some = || all().step_by(5);
    vec![
        made_inputs("all 127", all().collect()),
        inputs(
            "no letter, none behind a T, and other beginnings",
            &[
                b"", b"P", b"PT", b"PdT", b"PyT", b"PymwdT", b"PTT", b"PTTm", b"PTmT", b"PdTT", b"PdTTm", b"PdTmT",
                b"PdThTm", b"PP", b"PPd", b"PdP", b"T", b"Tm", b"TPd", b"d", b"y", b"dP", b"ymwdThms", b"APd", b"Xd",
                b"Qd", b"Od", b"True", b"False", b"Thh", b"A", b"Pt", b"Pdt", b"Pth", b"PdtH", b"Pdthm",
            ],
        ),
        inputs(
            "capital letters",
            &[
                b"PD", b"PW", b"PY", b"PM", b"PTH", b"PTM", b"PTS", b"PTHMS", b"PYMWD", b"PwD", b"PWd", b"PTHm",
                b"PThM", b"PdTH", b"PDTh", b"PYMWDTHMS", b"PymwdTHMS", b"PYmwdThms", b"PymwdThmS",
            ],
        ),
        inputs(
            "other orders, and letters twice",
            &[
                b"Pdm", b"Pdd", b"Pdw", b"Pdy", b"Pwm", b"Pwy", b"Pmy", b"Pyy", b"Pmm", b"Pww", b"Pymm", b"Pymdw",
                b"Pwdd", b"Pywm", b"Pdwmy", b"PTsh", b"PTmh", b"PTsm", b"PThh", b"PTmm", b"PTss", b"PThsm", b"PThmsh",
                b"PmThmm", b"Pymym", b"PThmThm",
            ],
        ),
        inputs(
            "letters on the wrong side of the T, and other letters",
            &[
                b"Ph", b"Ps", b"Pdh", b"Phms", b"Pds", b"PTy", b"PTw", b"PTd", b"PThd", b"PTdh", b"PTymwd", b"PTmd",
                b"Pa", b"Px", b"Pz", b"Pe", b"Pc", b"Pn", b"Pl", b"Pv", b"PTg", b"PTi", b"PTt", b"PTr", b"Pdx", b"PdX",
                b"PxTm", b"PdTx", b"PTmx", b"Pddx", b"PdTmm",
            ],
        ),
        inputs(
            "digits, underscores and other bytes",
            &[
                b"P1d", b"Pd1", b"P1", b"P_d", b"Pd_", b"P_", b"PT1m", b"PTm1", b"Pd ", b" Pd", b"P d", b"Pd}", b"-Pd",
                b"P-d", b"Pd-", b"Pd.", b"P?", b"P??", b"PXX", b"p", b"pd", b"pT", b"pTm", b"Pd[at1]",
            ],
        ),
        made_inputs("a small letter behind some", some().map(followed(b'y')).collect()),
        made_inputs("a T behind some", some().map(followed(b'T')).collect()),
        made_inputs("a capital letter behind some", some().map(followed(b'S')).collect()),
    ]
}

fn content_case(text: &[u8], from: usize) -> String {
    let token = value_token_at(text, from);
    let term = token_term(&token_sort(token.kind), token.start, token.end);
    format!("content_reads {} {from} ({term})", term::bytes(text))
}

fn content_groups() -> Vec<Group> {
    let mut all = groups(
        &[
            inputs(
                "patterns before a `}`, past blanks and comments",
                &[
                    b"Pd}", b"Pwd}", b"PTm}", b"Pm}", b"PThm}", b"PmTm}", b"PymwdThms}", b"Py}", b"Pw}", b"PTh}",
                    b"PTs}", b"Pd }", b" \tPd\r\n}", b"Pd --c\n}", b"Pd--c\n}", b"Pd--}\r}", b"--c\nPd--\r--\n }",
                    b"Pd}}", b"Pd}\xFF", b"Pd} matches {*}",
                ],
            ),
            inputs(
                "patterns before something else are TYPEs",
                &[
                    b"Pd", b"Pd ", b"Pd --}", b"Pd--}", b"Pd;", b"Pd;}", b"Pd,", b"Pd, Pw}", b"Pd Pd}",
                    b"Pd matches {*}}", b"Pd[at1] matches {*}}", b"Pd[at1]}", b"Pd]}", b"Pd]", b"Pd[}", b"Pd{}",
                    b"Pd*}", b"Pd..}", b"Pd\"\"}", b"Pd-}", b"Pd- -}", b"Pd\xE2\x88\x88{*}}", b"Pd\x00}", b"Pd\x0B}",
                    b"PTm\xE2}", b"Pd>}", b"Pd+/-}",
                ],
            ),
            inputs(
                "TYPEs that are no patterns",
                &[
                    b"P}", b"PT}", b"PD}", b"PdT}", b"Pdm}", b"Pdd}", b"Pt}", b"P1d}", b"PdX}", b"Pd_}", b"Pd1}",
                    b"PTM}", b"Pdh}", b"PTd}", b"PdPd}", b"P d}", b"PymwdThmsx}", b"A}", b"Thh}", b"PYMWDTHMS}",
                ],
            ),
            inputs(
                "other tokens before a `}`",
                &[
                    b"}", b"", b" ", b"*}", b"5}", b"True}", b"False}", b"yyyy-mm-dd}", b"Thh:mm:ss}", b"\"Pd\"}",
                    b"\"Pd}", b"pd}", b"-Pd}", b"|Pd|}", b"[at1]}", b"matches}", b"2004-05-20}", b"-5}", b"{Pd}",
                    b";}",
                ],
            ),
        ],
        |text| content_case(text, 0),
    );
    let text = b"A matches {a matches {Pwd}}";
    let places = [0, 1, 2, 10, 11, 13, 21, 22, 23, 24, 25, 26, 27];
    all.push(Group { about: "from other places on", cases: places.map(|from| content_case(text, from)).to_vec() });
    all
}

/// The token of data text that starts behind a place: how the definition names its sort, its start and its end.
fn data_token(text: &[u8], place: usize, behind_round: bool) -> (&'static str, usize, usize) {
    let start = skip_separators(text, place);
    let rest = text.get(start..).unwrap_or(&[]);
    let run = rest.iter().take_while(|byte| is_run(**byte)).count();
    let (sort, length) = match rest.first() {
        None => ("text_end", 0),
        Some(b'<') => ("less", 1),
        Some(b'>') => ("greater", 1),
        Some(b'=') => ("equals", 1),
        Some(b'(') => ("open_round", 1),
        Some(b')') => ("close_round", 1),
        Some(b'"') => string_length(rest).map_or(("unreadable", 1), |length| ("string", length)),
        Some(_) if run == 0 => ("unreadable", 1),
        Some(_) if behind_round && is_type(&rest[..run]) => ("type_name", run),
        Some(_) if behind_round => ("unreadable", run),
        Some(byte) if !byte.is_ascii_lowercase() => ("word_run", run),
        Some(_) if is_name(&rest[..run]) => ("name", run),
        Some(_) => ("unreadable", run),
    };
    (sort, start, start + length)
}

fn data_case(text: &[u8]) -> String {
    let mut terms = Vec::new();
    let mut place = 0;
    loop {
        let (sort, start, end) = data_token(text, place, false);
        terms.push(token_term(sort, start, end));
        if sort == "text_end" || sort == "unreadable" {
            return format!("data_reads {} {}", term::bytes(text), term::list(&terms));
        }
        place = end;
    }
}

fn type_case(text: &[u8]) -> String {
    let (sort, start, end) = data_token(text, 0, true);
    format!("type_reads {} ({})", term::bytes(text), token_term(sort, start, end))
}

fn data_groups() -> Vec<Group> {
    let mut all = groups(
        &[
            inputs(
                "each sort of token",
                &[
                    b"", b" --x", b"<", b">", b"=", b"(", b")", b"a", b"5", b"A", b"True", b"_", b"+", b"-", b".",
                    b":", b"\"a\"", b"<>", b"<=", b">=", b"..", b"+/-", b"()=<>",
                ],
            ),
            inputs(
                "runs: the longest, a NAME or unreadable where it opens with a small letter, else a word",
                &[
                    b"a1_B", b"a-b", b"a.b", b"a:b", b"a+b", b"a-", b"az", b"za", b"matches", b"existence",
                    b"matchesx", b"Matches", b"True", b"true", b"True.", b"A-b", b"_a", b"5a", b"-a", b"5--c",
                    b"5--c\n6", b"5 --c\n6", b"--5", b"-5--5", b"- -5", b"2004-05-20T10:00:00+05:30", b"08:30Z",
                    b"a=<5>", b"a =\t< 5 >", b"a\"b\"", b"5\"b\"", b"5/6", b"5,6", b"5*", b"A[at1]", b"a|b",
                    b"yyyy-mm-dd", b"Thh:mm:ss", b"Thh:??:??", b"a;", b"{", b"}", b",", b"*", b"|", b"[", b"/",
                    b"\xE2\x88\x88", b"\x00", b"5\x00", b"5\x0B", b"@", b"`", b"5@A", b"5`", b"z{", b"Z[", b"5;",
                    b"5/", b"P5d", b"-P5d", b"--P5d", b"p5d", b"P1.5d", b"<P12w3d>",
                ],
            ),
            inputs(
                "strings",
                &[b"\"\"", b"\"<>()=\" 5", b"\"--\"", b"\"a", b"\"a\\\"", b"\"\t\"", b"\"\x7F\"", b"\"a\"\"b\""],
            ),
        ],
        data_case,
    );
    all.extend(groups(
        &[inputs(
            "behind `(`: a run is a TYPE or unreadable",
            &[
                b"T", b"T)", b" T )", b"--\nT", b"T_1b", b"t", b"T-U", b"T.", b"T:", b"T+", b"_T", b"5", b"-T",
                b"True", b"False", b"TRUE", b"True1", b"Tru", b"Falsey", b"matches", b"Matches", b"T--x", b"\"T\"",
                b"\"T", b"(", b")", b"<", b"=", b">", b"", b"[", b"\x00", b"Z", b"A", b"@", b"[T", b"T<", b"AZ az09_",
            ],
        )],
        type_case,
    ));
    all
}
