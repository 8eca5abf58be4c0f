//! The leaves of constraint texts as inputs: for the leaf's own definitions all of them, for whole texts a choice.

use super::table::{made_inputs, Inputs};

/// Leaves that belong together.
pub struct Leaves {
    about: &'static str,
    /// Those that stand in whole texts too.
    choice: Vec<Vec<u8>>,
    /// Those that stand alone only.
    more: Vec<Vec<u8>>,
}

fn leaves(about: &'static str, choice: &[&[u8]], more: &[&[u8]]) -> Leaves {
    let all = |texts: &[&[u8]]| texts.iter().map(|text| text.to_vec()).collect();
    Leaves { about, choice: all(choice), more: all(more) }
}

/// The choice, each leaf in a text that holds it.
pub fn in_texts(all: Vec<Leaves>, around: fn(&[u8]) -> Vec<u8>) -> Vec<Inputs> {
    let inputs = |each: &Leaves| made_inputs(each.about, each.choice.iter().map(|leaf| around(leaf)).collect());
    all.iter().map(inputs).collect()
}

/// All of them, each with what must stand behind it.
pub fn alone(all: Vec<Leaves>, behind: &[u8]) -> Vec<Inputs> {
    let text = |leaf: &Vec<u8>| [leaf, behind].concat();
    let inputs = |each: &Leaves| made_inputs(each.about, each.choice.iter().chain(&each.more).map(text).collect());
    all.iter().map(inputs).collect()
}

/// Items, intervals, patterns and Booleans.
pub fn leaf_lists() -> Vec<Leaves> {
    let mut all = integer_leaves();
    all.extend(date_leaves());
    all.extend(list_leaves());
    all.push(seventeen());
    all
}

fn integer_leaves() -> Vec<Leaves> {
    vec![
        leaves(
            "integers: the range's ends, needless zeros, -0",
            &[
                b"5", b"-5", b"0", b"-2147483648", b"2147483647", b"2147483648", b"-2147483649",
                b"99999999999999999999", b"007", b"00", b"-0", b"5, 007", b"5 6", b"5,", b"- 5", b"+5", b"5-3",
                b"5--3", b"5a",
            ],
            &[b"1", b"-1", b"10", b"-00", b"-01", b"01", b"5, -0", b",5", b"5,,6", b"--5", b"5 -3", b"5, -3", b"5_"],
        ),
        leaves("lists of integers", &[b"3,1,2", b"1, |5..9|, 3"], &[b"1, 2, 3", b"|5..9|, 3, |>=20|", b"-5, 5"]),
        leaves(
            "every interval of integers",
            &[
                b"|5|", b"|5..9|", b"|5..<9|", b"|>5..9|", b"|>5..<9|", b"|100+/-5|", b"|<5|", b"|>5|", b"|<=5|",
                b"|>=5|", b"|>-9..<-5|", b"|0..<1000|",
            ],
            &[b"|-9..-5|", b"|-5..5|", b"|5..5|"],
        ),
        leaves(
            "ends at the range's ends",
            &[
                b"|-2147483648..2147483647|", b"|>-2147483648..<2147483647|", b"|>=-2147483648|", b"|<=2147483647|",
                b"|>=2147483647|", b"|<=-2147483648|", b"|>2147483646|", b"|<-2147483647|",
            ],
            &[
                b"|-2147483648|", b"|2147483647|", b"|>-2147483648|", b"|<2147483647|", b"|>2147483646..2147483647|",
                b"|-2147483648..<-2147483647|",
            ],
        ),
        leaves(
            "empty intervals, told at the closing bar, and the narrowest",
            &[
                b"|>2147483647|", b"|<-2147483648|", b"|>0..<1|", b"|>0..<2|", b"|>0..0|", b"|0..<0|", b"|0..<1|",
                b"|5..4|", b"|>2147483647..2147483647|", b"| 9 .. 5  |", b"|9..5", b"|9..5 6|",
            ],
            &[
                b"|>0..<0|", b"|>0..1|", b"|9..5|", b"|>2147483647..<2147483647|", b"|-2147483648..<-2147483648|",
                b"|>-2147483648..<-2147483648|", b"|>9..<5|", b"|>5..4|", b"|5..<4|", b"|9..5}",
            ],
        ),
        leaves(
            "a value with a distance on either side",
            &[
                b"|100+/-0|", b"|0+/-2147483647|", b"|-1+/-2147483647|", b"|1+/-2147483647|", b"|-2+/-2147483647|",
                b"|0+/-2147483648|", b"|2147483647+/-1|", b"|-2147483648+/-1|", b"|100+/--5|", b"|100+/- -5|",
                b"|100+/--0|", b"|2147483647+/--1|", b"|0+/--2147483648|", b"|100+/---5|", b"|100+/---5\n5|",
                b"|5+/-007|", b"|007+/-2|", b"|2147483647+/-1", b"|100+/--5", b"|>5+/-2|", b"|5+/-2..9|",
                b"|5+/-2004-01-01|", b"5+/-2",
            ],
            &[
                b"|2147483647+/-0|", b"|-2147483648+/-0|", b"|2147483642+/-5|", b"|2147483643+/-5|",
                b"|-2147483643+/-5|", b"|-2147483644+/-5|", b"|-2147483648+/--1|", b"|-1+/--2147483648|",
                b"|0+/--2147483647|", b"|1+/--2147483647|", b"|-1+/--2147483647|", b"|100+/---5\n|", b"|5 +/- 2|",
                b"|5+/-99999999999|", b"|2147483647+/-1 x|", b"|5+/->2|", b"|5+/-|", b"|5+ /-2|", b"|5+2|", b"|5-2|",
                b"|5+/-2+/-2|", b"|5..9+/-2|",
            ],
        ),
        leaves(
            "intervals with a token that can't follow",
            &[
                b"||", b"|", b"|5..|", b"|..5|", b"|5..9", b"|<5..9|", b"|>=5..9|", b"|5...9|", b"|5..<=9|", b"|> =5|",
                b"|> 5 .. < 9|", b"|\"a\"|", b"|True|", b"|5..9..10|",
            ],
            &[
                b"|5", b"|>|", b"|<|", b"|>5..|", b"|>5..<|", b"|<=5..9|", b"|>=5..<9|", b"|>5...9|", b"|5..>9|",
                b"|5..>=9|", b"|< 5|", b"|>>5|", b"|=5|", b"|*|", b"|5,6|", b"|5|6|", b"|5|7", b"|5.. 9|",
                b"|5 . . 9|", b"|yyyy-mm-dd|", b"|>5..<9..10|",
            ],
        ),
        leaves(
            "numbers in intervals: 5 where an integer may stand, 2 where none may",
            &[b"|007|", b"|>007|", b"|5..007|", b"|5..<-0|", b"|>007..9|", b"|5 007|", b"5 007"],
            &[
                b"|-0|", b"|<-0|", b"|<=007|", b"|>=007|", b"|5..<007|", b"|>5..-0|", b"|2147483648..|",
                b"|-2147483649..5|",
            ],
        ),
    ]
}

fn date_leaves() -> Vec<Leaves> {
    vec![
        leaves(
            "every interval of dates",
            &[
                b"|2004-05-20|", b"|2004-05-20..2005-01-01|", b"|2004-05-20..<2005-01-02|",
                b"|>2004-05-20..2005-01-01|", b"|>2004-05-20..<2005-01-02|", b"|<2004-05-20|", b"|>2004-05-20|",
                b"|<=2004-05-20|", b"|>=2004-05-20|", b"|2004-05-20+/-1|",
            ],
            &[b"|2004-05-20+/-2004-05-20|", b"|>2004-05-20+/-1|"],
        ),
        leaves(
            "open ends move by one calendar day",
            &[
                b"|>2003-12-31|", b"|<2004-01-01|", b"|>2004-02-28|", b"|>2004-02-29|", b"|>2003-02-28|",
                b"|<2004-03-01|", b"|<2003-03-01|", b"|<1900-03-01|", b"|<2000-03-01|", b"|>2004-04-30|",
                b"|>2004-12-31..<2006-01-01|",
            ],
            &[
                b"|>1900-02-28|", b"|>2000-02-28|", b"|<2004-05-01|", b"|>2004-01-31..<2004-03-01|", b"|>2004-05-09|",
                b"|<2004-05-10|", b"|>2004-08-31|", b"|<2004-08-01|", b"|<2004-12-01|",
            ],
        ),
        leaves(
            "dates at the range's ends, and empty intervals of dates",
            &[
                b"|0000-01-01..9999-12-31|", b"|>9999-12-31|", b"|<0000-01-01|", b"|>=9999-12-31|", b"|<=0000-01-01|",
                b"|>9999-12-30|", b"|<0000-01-02|", b"|>2003-12-31..<2004-01-01|", b"|>2003-12-31..<2004-01-02|",
                b"|2004-05-20..2004-05-19|", b"|>9999-12-31..<0000-01-01|",
            ],
            &[
                b"|>0000-01-01|", b"|<9999-12-31|", b"|>2004-02-28..<2004-03-01|", b"|>2003-02-28..<2003-03-01|",
                b"|2004-05-20..<2004-05-20|", b"|>2004-05-20..2004-05-20|", b"|2004-05-20..2004-05-20|",
                b"|>9999-12-31..9999-12-31|", b"|0000-01-01..<0000-01-01|", b"|>2004-12-31..2004-12-31|",
            ],
        ),
        leaves(
            "dates that the calendar has, and others",
            &[
                b"|2000-02-29|", b"|1900-02-29|", b"|2004-02-30|", b"|2004-13-10|", b"|2004-12-00|",
                b"|2004-01-01..2004-02-30|", b"|>2004-02-30|",
            ],
            &[
                b"|2004-02-29|", b"|2003-02-29|", b"|2100-02-29|", b"|0000-02-29|", b"|2004-04-31|", b"|2004-00-10|",
                b"|2004-12-32|", b"|0000-00-00|", b"|9999-99-99|", b"|<2004-06-31..|", b"|2004-02-30..2004-02-31|",
            ],
        ),
        leaves(
            "what is no date, and dates outside bars",
            &[
                b"2004-05-20", b"|2004-05|", b"|2004|", b"|2004-05-2|", b"|2004-05-201|", b"|12004-05-20|",
                b"|-2004-01-01|", b"12004-05-20", b"-2004-01-01", b"2004-05", b"5, 2004-05-20",
            ],
            &[
                b"|2004-5-20|", b"|2004/05/20|", b"|2004-05-20T10:00:00|", b"2004-05-20, 5", b"|>=2004-05-20..|",
                b"|2004--05-20|",
            ],
        ),
    ]
}

fn list_leaves() -> Vec<Leaves> {
    vec![
        leaves(
            "items that overlap, told at the later item, and items that only touch",
            &[
                b"5, |5..9|",
                b"|5..9|, 9",
                b"|5..9|, 10",
                b"|5..9|, 4",
                b"|1..3|, |3..5|",
                b"|1..3|, |4..5|",
                b"|1..9|, |3..5|",
                b"|>=5|, |<5|",
                b"|>=5|, |<=5|",
                b"1, 2, 2, 1",
                b"|100+/-5|, 106",
                b"|100+/-5|, 105",
                b"|0..<1000|, 1000",
                b"|0..<1000|, 999",
                b"|<2004-01-01|, |>=2004-01-01|",
                b"|<=2004-01-01|, |>=2004-01-01|",
                b"|>2003-12-31|, |2003-12-31|",
                b"|2004-01-01..2004-02-01|, |2004-02-02|, |2004-01-31|",
            ],
            &[
                b"4, |5..9|", b"10, |5..9|", b"9, |5..9|", b"|4..5|, |1..3|", b"|3..5|, |1..3|", b"|3..5|, |1..9|",
                b"|<5|, |>5|, 5", b"1, 2, 1", b"5, 5", b"|100+/-5|, 94", b"|100+/-5|, 95", b"|>0..<3|, 3, 0",
                b"|>5|, 6", b"|>5|, 5", b"|2004-01-01|, |2004-01-01|", b"|<2004-01-01|, |2003-12-31|",
                b"|>2003-12-31|, |2004-01-01|",
            ],
        ),
        leaves(
            "an item with a fault of its own overlaps nothing",
            &[
                b"5, |5..9", b"5, |5..4|", b"5, |5..09|", b"5, |5..x|", b"5, |5..9| x", b"5, 5..9", b"|9..5|, 5, 5",
                b"5, |4+/-2147483647|", b"007, 7", b"5, 5, 007", b"|2004-01-01|, |2004-01-01..2003-01-01|",
            ],
            &[
                b"5, |5+/-x|", b"5, 5.5", b"5, |9..5|, 7", b"5, |4+/-9999999999|", b"5, 007, 5",
                b"|2004-01-01|, |2004-01-01..2004-02-30|",
            ],
        ),
        leaves(
            "mixed items, told at the first token that shows it",
            &[
                b"5, \"a\"", b"\"a\", 5", b"5, |2004-01-01|", b"|2004-01-01|, 5", b"|2004-01-01|, |5|", b"\"a\", |5|",
                b"True, 5", b"5, True", b"5, yyyy-mm-dd", b"|5..2004-01-01|", b"|2004-01-01..5|", b"5, B matches {*}",
                b"*, 5",
            ],
            &[
                b"|5|, |2004-01-01|", b"|2004-01-01|, |>5|", b"|5|, \"a\"", b"yyyy-mm-dd, 5", b"5, *",
                b"|5|, |<2004-01-01|", b"|<2004-01-01|, |<=5|", b"5, 2004-01-01", b"\"a\", True",
                b"|2004-01-01|, |2005-01-01|, 7",
            ],
        ),
        leaves(
            "Booleans",
            &[
                b"True", b"False", b"True, False", b"False, True", b"True, True", b"False, False",
                b"True, False, True", b"True, False,", b"True False", b"True,", b"true", b"TRUE",
            ],
            &[b"True,False", b"True, Tru", b"True, True, True", b"True, *"],
        ),
        leaves(
            "patterns",
            &[
                b"yyyy-mm-dd", b"yyyy-mm-??", b"yyyy-??-??", b"yyyy-mm-XX", b"yyyy-??-XX", b"Thh:mm:ss", b"Thh:mm:XX",
                b"Thh:??:XX", b"Thh:??:??", b" yyyy-mm-dd--\n",
            ],
            &[b"yyyy-mm-dd\t"],
        ),
        leaves(
            "duration patterns",
            &[b"Pd", b"Pwd", b"PTm", b"PmTm", b"PymwdThms", b"Pd --c\n"],
            &[b"Py", b"Pm", b"PTh", b"PTs", b"PThm", b"PwdTm", b" --}\nPd\t", b"PyThms"],
        ),
        leaves(
            "what is no duration pattern, or isn't followed by `}`",
            &[
                b"P", b"PT", b"PD", b"PdT", b"Pdm", b"Pdd", b"P1d", b"PdX", b"-Pd", b"|Pd|", b"Pd, Pw", b"Pd;",
                b"Pd Pd", b"Pd[at1]", b"Pd]", b"Pd matches {*}", b"Pd[at1] matches {*}", b"|P1d..P2d|",
            ],
            &[
                b"Pt", b"pd", b"PTM", b"PTmh", b"PTT", b"Pd_", b"Pdh", b"PTd", b"Pd 5", b"Pd *", b"Pd{", b"5, Pd",
                b"True, Pd", b"\"Pd\"", b"Pd..Pw", b"yyyy-mm-dd Pd", b"Pwd/|P0w..P50w|", b"<Pd|", b"Pd --c",
            ],
        ),
        leaves(
            "what is no pattern, or more than one",
            &[
                b"yyyy-mm-d", b"yyyy-mm", b"yyyy-mm-ddx", b"yyyy-mm-ddThh:mm:ss", b"yyyy-??-dd", b"Thh", b"Thh:mm",
                b"Thh:mm:??", b"Thh:mm:ssx", b"yyyy-mm-dd, yyyy-mm-??", b"\"yyyy-mm-dd\"",
            ],
            &[
                b"yyyy", b"yyyy-MM-dd", b"yyyy-XX-XX", b"YYYY-MM-DD", b"yyyy-mm-xx", b"yyyy-mm-?", b"yyyy-mm-XXX",
                b"Thh:??:ss", b"Thh:XX:XX", b"Thh:mm:ss Z", b"hh:mm:ss", b"thh:mm:ss", b"TThh:mm:ss",
                b"Thh:mm:ss, Thh:mm:XX", b"yyyy-mm-dd yyyy-mm-dd",
            ],
        ),
        leaves(
            "strings",
            &[
                b"\"\"", b"\" ~'{}|,*--\"", b"\"a\", \"b\"", b"\"a\",\"ab\"", b"\"ab\",\"a\"", b"\"a\", \"A\"",
                b"\"a\", \"a\"", b"\"\", \"\"", b"\"a\", \"b\", \"b\", \"a\"", b"\"a\" \"b\"", b"\"a\"\"b\"", b"\"a",
                b"\"a\\\"b\"", b"\"\t\"", b"\"\x7F\"", b"\"\xE2\x88\x88\"", b"\"a\", \"a",
            ],
            &[
                b"\"a b\"", b"\"--\"", b"\"{}|,*\"", b"\" ~\"", b"\"'\"", b"\"\", \"a\"", b"\"a\", \"b\", \"a\"",
                b"\"a\",", b"\"", b"\"a\\n\"", b"\"\n\"", b"\"\x1F\"", b"\"\x00\"", b"\"a\", \"a\" x", b"'a'",
            ],
        ),
    ]
}

/// Lists of 16 and 17 items, the 17th with a fault of its own and without.
fn seventeen() -> Leaves {
    let numbers = sixteen();
    let strings = (b'a'..=b'p').map(|letter| [b'"', letter, b'"']).collect::<Vec<_>>().join(&b',');
    let long = [b"\"", &b"x".repeat(256)[..], b"\""].concat();
    let dates = (1..=16).map(|day| format!("|2004-01-{day:02}|")).collect::<Vec<_>>().join(",").into_bytes();
    let with = |front: &[u8], last: &&[u8]| [front, b",", last].concat();
    let numbered: [&[u8]; 6] = [b"17", b"|17..18|", b"007", b"|007|", b"1", b"\"a\""];
    let texts: [&[u8]; 3] = [b"\"q\"", b"\"a\"", &long];
    let mut choice = vec![numbers.clone()];
    choice.extend(numbered.iter().map(|last| with(&numbers, last)));
    choice.extend(texts.iter().map(|last| with(&strings, last)));
    let numbered: [&[u8]; 6] = [b"|20..x", b"", b"17, 18", b"2004-01-01", b"|2004-01-01|", b"17 x"];
    let texts: [&[u8]; 2] = [b"5", b"\"q"];
    let dated: [&[u8]; 4] = [b"|2005-01-01|", b"|2004-02-30|", b"5", b"|5|"];
    let mut more = vec![strings.clone(), dates.clone()];
    more.extend(numbered.iter().map(|last| with(&numbers, last)));
    more.extend(texts.iter().map(|last| with(&strings, last)));
    more.extend(dated.iter().map(|last| with(&dates, last)));
    Leaves { about: "16 items and the 17th", choice, more }
}

/// A list of 16 integers.
pub fn sixteen() -> Vec<u8> {
    b"1,2,3,4,5,6,7,8,9,10,11,12,13,14,15,16".to_vec()
}

/// What document 01 leaves out.
pub fn left_out() -> Vec<Leaves> {
    vec![
        leaves("Real and Character", &[b"5.0", b"5.5", b"|5.0..6.0|", b".5", b"'a'"], &[b"-5.5", b"5.", b"'a', 'b'"]),
        leaves(
            "Date_time, and durations that are no pattern",
            &[b"2004-05-20T10:00:00", b"|>2004-05-20T10:00:00|", b"yyyy-mm-ddThh:mm:ss", b"P1Y", b"|P1Y|", b"-P1Y"],
            &[b"PT5M", b"P1Y, P2Y", b"|P1Y..P2Y|"],
        ),
        leaves("times outside patterns", &[b"10:00:00", b"T10:00:00"], &[b"|10:00..11:00|"]),
        leaves(
            "term codes",
            &[b"[at1]", b"[ac1]", b"[local::at1]"],
            &[b"[at1, at2]", b"[openehr::147|x|]", b"[ac1; at1]"],
        ),
        leaves("patterns on strings", &[b"/a/", b"\"a\", /b/"], &[b"/a.*/", b"^a^"]),
        leaves(
            "assumed values",
            &[b"5; 6", b"\"a\"; \"a\"", b"True; True", b"yyyy-mm-dd; 2004-01-01"],
            &[b"|5..9|; 7", b"|2004-01-01|; 2004-01-01"],
        ),
        leaves(
            "other marks and bytes",
            &[
                b"(5)", b"5 | 6", b"5..9", b">=5", b"+/-5", b"/", b"-", b".", b"?", b"5 - 6", b"\x00", b"\x0B",
                b"\xFF", b"\x7F", b"\xE2\x88\x88",
            ],
            &[b"<5>", b">5", b"..", b"=", b"+", b":", b"_", b"\\", b"#", b"5; ", b"\x0C", b"\x80", b""],
        ),
    ]
}
