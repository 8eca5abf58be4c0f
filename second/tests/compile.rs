//! Tables that compiling writes, byte for byte.

mod common;
use common::*;
use second::api::*;
use second::compile;
use second::generator::{Maker, LONGEST_TABLE};

#[test]
fn smallest_table_is_49_bytes() {
    let big: [u8; 49] = [
        0xC0, 0xAD, 0, 0, 0, 0, 0, 2, 0, 0, 0, 1, 0, 0, 0, 1, 0, 0, 0, 0, 0, 0, 0, 0, //
        0xC0, 0xAD, 1, 0, 0, 0, 0, 0, 0, 0, 0, 1, 0, 0, 0, 0, 0, 0, 0, 0, 0, 0, 0, 0, //
        0x41,
    ];
    assert_eq!(table("A matches {*}", false), big);
    let little: [u8; 49] = [
        0xAD, 0xC0, 0, 0, 2, 0, 0, 0, 1, 0, 0, 0, 1, 0, 0, 0, 0, 0, 0, 0, 0, 0, 0, 0, //
        0xAD, 0xC0, 1, 0, 0, 0, 0, 0, 1, 0, 0, 0, 0, 0, 0, 0, 0, 0, 0, 0, 0, 0, 0, 0, //
        0x41,
    ];
    assert_eq!(table("A matches {*}", true), little);
}

/// The table of a text in both orders is the one made by hand.
fn compiles_to(text: &str, lines: &[Line], pool: &str) {
    for little in [false, true] {
        assert_eq!(table(text, little), made(little, 1, lines, pool), "{text}");
    }
}

#[test]
fn matches_sign_is_the_keyword() {
    compiles_to("A∈{*}", &[(1, 0, [0, 1, 0, 0, 0])], "A");
    compiles_to("A ∈ {a existence ∈ {0} ∈ {*}}", &[(1, 0, [0, 1, 0, 0, 2]), (2, 0, [1, 1, 0, 0, 0])], "Aa");
}

#[test]
fn code_follows_type_in_the_pool() {
    compiles_to("AB[at0001.2] matches {*}", &[(1, 0, [0, 2, 2, 8, 0])], "ABat0001.2");
}

#[test]
fn pool_holds_type_code_name_and_string() {
    let text = "A[at1] matches {ab matches {\"xyz\"}}";
    assert_eq!(text.len(), 35);
    let lines = [(1, 0, [0, 1, 1, 3, 2]), (2, 2, [4, 2, 3, 0, 0]), (5, 0, [6, 3, 0, 0, 0])];
    compiles_to(text, &lines, "Aat1abxyz");
}

#[test]
fn records_and_pool_are_in_text_order() {
    let text = "A[at1] matches { -- note\n b existence matches {0..1} matches { \
                B matches { c matches {\"x\", \"\", \"yz\"} d matches {*} } } \
                e existence matches {0} matches {True, False} f matches {5, |7..9|} }";
    let lines = [
        (1, 0, [0, 1, 1, 3, 2]),
        (2, 1, [4, 1, 3, 9, 0]),
        (1, 0, [5, 1, 0, 0, 4]),
        (2, 2, [6, 1, 5, 8, 0]),
        (5, 0, [7, 1, 0, 0, 6]),
        (5, 0, [0, 0, 0, 0, 7]),
        (5, 0, [8, 2, 0, 0, 0]),
        (2, 2, [10, 1, 0, 0, 0]),
        (2, 0, [11, 1, 10, 11, 0]),
        (3, 3, [0, 0, 0, 0, 0]),
        (2, 2, [12, 1, 12, 0, 0]),
        (4, 0, [5, 5, 0, 0, 13]),
        (4, 0, [7, 9, 0, 0, 0]),
    ];
    compiles_to(text, &lines, "Aat1bBcxyzdef");
}

/// The table of one attribute `a` of an object `A` whose leaf has these records.
fn leaf_compiles_to(leaf: &str, items: &[Line]) {
    let mut lines = vec![(1, 0, [0, 1, 0, 0, 2]), (2, 2, [1, 1, 3, 0, 0])];
    lines.extend(items);
    compiles_to(&format!("A matches {{a matches {{{leaf}}}}}"), &lines, "Aa");
}

#[test]
fn booleans() {
    leaf_compiles_to("True", &[(3, 1, [0; 5])]);
    leaf_compiles_to("False", &[(3, 2, [0; 5])]);
    leaf_compiles_to("True, False", &[(3, 3, [0; 5])]);
    leaf_compiles_to("False,True", &[(3, 3, [0; 5])]);
}

#[test]
fn patterns() {
    for (index, pattern) in ["yyyy-mm-dd", "yyyy-mm-??", "yyyy-??-??", "yyyy-mm-XX", "yyyy-??-XX"].iter().enumerate() {
        leaf_compiles_to(pattern, &[(6, index as u8 + 1, [0; 5])]);
    }
    for (index, pattern) in ["Thh:mm:ss", "Thh:mm:XX", "Thh:??:XX", "Thh:??:??"].iter().enumerate() {
        leaf_compiles_to(pattern, &[(8, index as u8 + 1, [0; 5])]);
    }
    for (pattern, flag) in [("Py", 1), ("Pwd", 12), ("PTm", 32), ("PymwdThms", 127)] {
        leaf_compiles_to(pattern, &[(9, flag, [0; 5])]);
    }
}

fn integers(leaf: &str, low: i32, high: i32) {
    leaf_compiles_to(leaf, &[(4, 0, [low as u32, high as u32, 0, 0, 0])]);
}

#[test]
fn integer_forms_become_closed_pairs() {
    integers("5", 5, 5);
    integers("-5", -5, -5);
    integers("0", 0, 0);
    integers("|5|", 5, 5);
    integers("|5..9|", 5, 9);
    integers("|5..5|", 5, 5);
    integers("|0..<1000|", 0, 999);
    integers("|>5..9|", 6, 9);
    integers("|>5..<9|", 6, 8);
    integers("|>5..<7|", 6, 6);
    integers("|100+/-5|", 95, 105);
    integers("|100+/-0|", 100, 100);
    integers("|<10|", i32::MIN, 9);
    integers("|>10|", 11, i32::MAX);
    integers("|<=10|", i32::MIN, 10);
    integers("|>=10|", 10, i32::MAX);
    integers("| >= 10 |", 10, i32::MAX);
    integers("|-9..-5|", -9, -5);
    integers("|5 .. < 9|", 5, 8);
}

#[test]
fn integer_range_ends() {
    integers("2147483647", i32::MAX, i32::MAX);
    integers("-2147483648", i32::MIN, i32::MIN);
    integers("|-2147483648..2147483647|", i32::MIN, i32::MAX);
    integers("|>2147483646|", i32::MAX, i32::MAX);
    integers("|<-2147483647|", i32::MIN, i32::MIN);
    integers("|>=2147483647|", i32::MAX, i32::MAX);
    integers("|<=-2147483648|", i32::MIN, i32::MIN);
    integers("|2147483640+/-7|", 2_147_483_633, i32::MAX);
    integers("|-2147483641+/-7|", i32::MIN, -2_147_483_634);
}

fn dates(leaf: &str, low: u32, high: u32) {
    leaf_compiles_to(leaf, &[(7, 0, [low, high, 0, 0, 0])]);
}

#[test]
fn date_forms_become_closed_pairs() {
    dates("|2004-05-20|", 20_040_520, 20_040_520);
    dates("|2004-05-20..2004-06-02|", 20_040_520, 20_040_602);
    dates("|2004-05-20..<2004-06-01|", 20_040_520, 20_040_531);
    dates("|>2003-12-31..2004-06-02|", 20_040_101, 20_040_602);
    dates("|>2003-12-31..<2005-01-01|", 20_040_101, 20_041_231);
    dates("|<2004-03-01|", 101, 20_040_229);
    dates("|<1900-03-01|", 101, 19_000_228);
    dates("|>2000-02-28|", 20_000_229, 99_991_231);
    dates("|>2000-02-29|", 20_000_301, 99_991_231);
    dates("|<=2004-03-01|", 101, 20_040_301);
    dates("|>=2004-03-01|", 20_040_301, 99_991_231);
}

#[test]
fn date_range_ends() {
    dates("|0000-01-01|", 101, 101);
    dates("|9999-12-31|", 99_991_231, 99_991_231);
    dates("|>9999-12-30|", 99_991_231, 99_991_231);
    dates("|<0000-01-02|", 101, 101);
    dates("|0000-02-29|", 229, 229);
}

#[test]
fn lists_are_linked() {
    leaf_compiles_to("1, |3..4|,9", &[(4, 0, [1, 1, 0, 0, 4]), (4, 0, [3, 4, 0, 0, 5]), (4, 0, [9, 9, 0, 0, 0])]);
    leaf_compiles_to(
        "|2004-01-01|, |>2004-01-01|",
        &[(7, 0, [20_040_101, 20_040_101, 0, 0, 4]), (7, 0, [20_040_102, 99_991_231, 0, 0, 0])],
    );
}

#[test]
fn existence_spellings() {
    let cases = [("0", 0), ("0..0", 0), ("0..1", 1), ("1", 2), ("1..1", 2), ("0 .. 1", 1), (" 1 ", 2)];
    for (spelling, flag) in cases {
        compiles_to(
            &format!("A matches {{a existence matches {{{spelling}}} matches {{*}}}}"),
            &[(1, 0, [0, 1, 0, 0, 2]), (2, flag, [1, 1, 0, 0, 0])],
            "Aa",
        );
    }
}

#[test]
fn nested_object_links() {
    compiles_to(
        "A matches {a matches {B matches {*}} b matches {C[at2] matches {*}}}",
        &[
            (1, 0, [0, 1, 0, 0, 2]),
            (2, 2, [1, 1, 3, 4, 0]),
            (1, 0, [2, 1, 0, 0, 0]),
            (2, 2, [3, 1, 5, 0, 0]),
            (1, 0, [4, 1, 5, 3, 0]),
        ],
        "AaBbCat2",
    );
}

#[test]
fn output_long_enough_and_one_short() {
    let text = b"A matches {*}";
    let mut out = [FILL; 49];
    assert_eq!(compile(text, false, &mut out), CompileAnswer::Done { length: 49 });
    let mut out = [FILL; 48];
    assert_eq!(compile(text, false, &mut out), CompileAnswer::Refused { number: 11, place: 13 });
    assert_eq!(out, [FILL; 48]);
    assert_eq!(compile(text, true, &mut []), CompileAnswer::Refused { number: 11, place: 13 });
    // The text end is behind blanks and comments too.
    assert_eq!(compile(b"A matches {*} --x\n", true, &mut []), CompileAnswer::Refused { number: 11, place: 18 });
    // 11 after all.
    assert_eq!(compile(b"A matches {a matches {007}}", true, &mut []), CompileAnswer::Refused { number: 5, place: 22 });
}

#[test]
fn bytes_past_the_table_stay() {
    let mut out: Vec<u8> = (0..100).collect();
    assert_eq!(compile(b"A matches {*}", false, &mut out), CompileAnswer::Done { length: 49 });
    let behind: Vec<u8> = (49..100).collect();
    assert_eq!(out[49..], behind[..]);
}

/// The names of the fullest text's four attributes.
fn fullest_names() -> [String; 4] {
    ["a00", "a01", "a02", "a03"].map(|front| front.to_string() + &"x".repeat(60))
}

/// The strings of the fullest text, numbered from 0 on, in one list to each attribute.
fn fullest_strings() -> Vec<Vec<String>> {
    let mut all: Vec<String> = (0..62).map(|number| format!("{number:04}") + &"s".repeat(251)).collect();
    all.push(String::from("0062ssssssssssss"));
    all.chunks(16).map(<[String]>::to_vec).collect()
}

/// The text of 16,384 bytes whose types, codes, names and strings are as long as they may be.
fn fullest() -> String {
    let mut text = "T".repeat(63) + "[at" + &"1".repeat(29) + "]∈{";
    for (name, strings) in fullest_names().iter().zip(fullest_strings()) {
        text += &format!("{name}∈{{\"{}\"}}", strings.join("\",\""));
    }
    text + "}"
}

/// The bytes of its type, its code without brackets, and its names and strings without quotes.
fn fullest_pool() -> String {
    let mut pool = "T".repeat(63) + "at" + &"1".repeat(29);
    for (name, strings) in fullest_names().iter().zip(fullest_strings()) {
        pool += name;
        pool += &strings.concat();
    }
    pool
}

/// Its records: an object, and four times an attribute with its strings behind it.
fn fullest_lines() -> Vec<Line> {
    let mut lines = vec![(1, 0, [0, 63, 63, 31, 2])];
    let mut place = 94;
    for (first, next, items) in [(2, 19, 16), (19, 36, 16), (36, 53, 16), (53, 0, 15)] {
        lines.push((2, 2, [place, 63, first + 1, next, 0]));
        place += 63;
        for number in first + 1..=first + items {
            let length = if number == 68 { 16 } else { 255 };
            let link = if number == first + items { 0 } else { number + 1 };
            lines.push((5, 0, [place, length, 0, 0, link]));
            place += length;
        }
    }
    lines
}

#[test]
fn fullest_text_is_accepted() {
    let (text, pool) = (fullest(), fullest_pool());
    assert_eq!(text.len(), 16_384);
    assert_eq!(pool.len(), 16_172);
    accepted(&text);
    for little in [false, true] {
        let bytes = table(&text, little);
        assert_eq!(bytes.len(), 17_828);
        assert_eq!(bytes[..24], record(little, 0, 0, [69, 16_172, 1, 0, 0]));
        assert_eq!(&bytes[69 * 24..], pool.as_bytes());
    }
    compiles_to(&text, &fullest_lines(), &pool);
}

#[test]
fn fullest_text_into_an_output_that_fits_and_one_short() {
    let text = fullest();
    for little in [false, true] {
        let mut out = vec![FILL; 17_828];
        assert_eq!(compile(text.as_bytes(), little, &mut out), CompileAnswer::Done { length: 17_828 });
        let mut out = vec![FILL; 17_827];
        let short = CompileAnswer::Refused { number: 11, place: 16_384 };
        assert_eq!(compile(text.as_bytes(), little, &mut out), short);
        assert!(out.iter().all(|byte| *byte == FILL));
    }
}

#[test]
fn fullest_text_and_a_blank_is_too_long() {
    let text = fullest() + " ";
    refused_bytes(1, 16_384, text.as_bytes());
    for little in [false, true] {
        let long = CompileAnswer::Refused { number: 1, place: 16_384 };
        assert_eq!(compile(text.as_bytes(), little, &mut []), long);
    }
}

/// Whether each of the bytes is found at a place of its own in the text, in the same order.
fn stands_in(bytes: &[u8], text: &[u8]) -> bool {
    let mut rest = text.iter();
    bytes.iter().all(|byte| rest.any(|other| other == byte))
}

/// A number of a table's header, in the order that its mark says.
fn header_number(bytes: &[u8], at: usize) -> usize {
    let four = [bytes[at], bytes[at + 1], bytes[at + 2], bytes[at + 3]];
    let little = bytes[0] == 0xAD;
    (if little { u32::from_le_bytes(four) } else { u32::from_be_bytes(four) }) as usize
}

/// Compiles into an output of so many bytes; the answer isn't 10, and a pool's bytes are the text's. Whether it was done.
fn pool_comes_from_the_text(text: &[u8], little: bool, room: usize) -> bool {
    let mut out = vec![FILL; room];
    let shown = String::from_utf8_lossy(&text[..text.len().min(300)]);
    match compile(text, little, &mut out) {
        CompileAnswer::Done { length } => {
            let (count, pool) = (header_number(&out, 4), header_number(&out, 8));
            assert_eq!(length as usize, 24 * count + pool, "{shown}");
            assert!(pool <= text.len(), "{shown}");
            assert!(stands_in(&out[24 * count..length as usize], text), "{shown}");
            true
        }
        CompileAnswer::Refused { number, .. } => {
            assert_ne!(number, 10, "{shown}");
            false
        }
    }
}

#[test]
fn any_pool_comes_from_its_text() {
    let maker = Maker::new(21);
    let mut done = 0;
    for number in 0..10_000 {
        let case = maker.compile(number);
        pool_comes_from_the_text(&case.text, case.little, case.room);
        for little in [false, true] {
            done += usize::from(pool_comes_from_the_text(&case.text, little, LONGEST_TABLE));
        }
    }
    assert!(done > 10_000, "{done}");
}

#[test]
fn pools_of_texts_near_the_fullest_come_from_them() {
    let text = fullest();
    let mut done = 0;
    for place in (0..text.len()).step_by(61) {
        for byte in *b"s\"},{ 1" {
            let mut bytes = text.clone().into_bytes();
            bytes[place] = byte;
            done += usize::from(pool_comes_from_the_text(&bytes, place % 2 == 0, LONGEST_TABLE));
            bytes.remove(place);
            pool_comes_from_the_text(&bytes, place % 2 == 1, LONGEST_TABLE);
        }
    }
    assert!(done > 500, "{done}");
}
