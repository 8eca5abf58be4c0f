//! Verdicts, by the table in both byte orders and by the meaning of the two texts.

mod common;
use common::*;
use second::api::*;
use second::{judge, meaning};

/// The object `A` with one attribute `a`; the leaf's first record is 3.
fn leaf(leaf: &str) -> String {
    format!("A matches {{a matches {{{leaf}}}}}")
}

fn admits(constraint: &str, value: &str) {
    valid(&leaf(constraint), &format!("<a = <{value}>>"));
}

fn refuses(constraint: &str, reason: u32, value: &str) {
    verdict(&leaf(constraint), reason, 3, &format!("<a = ^<{value}>>"));
}

#[test]
fn m1_open_high_end() {
    admits("|0..<1000|", "999");
    admits("|0..<1000|", "0");
    refuses("|0..<1000|", 24, "1000");
    refuses("|0..<1000|", 24, "-1");
}

#[test]
fn m2_plus_minus() {
    admits("|100+/-5|", "95");
    admits("|100+/-5|", "105");
    refuses("|100+/-5|", 24, "94");
    refuses("|100+/-5|", 24, "106");
}

#[test]
fn m3_m4_m5_refusals() {
    leaf_refused(6, "|>2147483647^|");
    leaf_refused(6, "|>0..<1^|");
    leaf_refused(9, "5, ^|5..9|");
}

#[test]
fn m6_leap_days() {
    admits("yyyy-mm-dd", "2000-02-29");
    data_refused(5, "<a = <^1900-02-29>>");
    leaf_accepted("|2000-02-29|");
    leaf_refused(5, "|^1900-02-29|");
}

#[test]
fn m7_no_hour_24() {
    data_refused(5, "<a = <^24:00:00>>");
}

#[test]
fn m8_a_word_is_read_as_the_kind_asks() {
    refuses("8", 20, "08");
    refuses("|0..10|", 20, "08");
    admits("Thh:??:??", "08");
}

#[test]
fn m9_partial_date() {
    refuses("yyyy-mm-dd", 24, "2004-05");
}

#[test]
fn m10_m11_zones() {
    admits("Thh:mm:ss", "08:00:00+13:59");
    data_refused(5, "<a = <^08:00:00+14:00>>");
    admits("Thh:mm:ss", "08:00:00-00:30");
    data_refused(5, "<a = <^08:00:00-00:00>>");
    admits("Thh:mm:ss", "08:00:00+00:00");
    admits("Thh:mm:ss", "08:00:00Z");
}

#[test]
fn a_year_is_no_integer_under_a_date() {
    admits("yyyy-??-??", "2004");
    refuses("yyyy-mm-dd", 24, "2004");
    admits("2004", "2004");
    refuses("|2000-01-01..2009-12-31|", 24, "2004");
    refuses("|2000-01-01..2009-12-31|", 24, "2004-05");
    refuses("|2000-01-01..2009-12-31|", 20, "20040520");
    refuses("yyyy-??-??", 20, "20040520");
    refuses("yyyy-??-??", 20, "5");
    refuses("5", 20, "0005");
    refuses("yyyy-??-??", 20, "True");
    admits("yyyy-??-??", "0830");
}

#[test]
fn open_date_ends_move_by_a_day() {
    let list = "|>2003-12-31..<2005-01-01|";
    admits(list, "2004-01-01");
    admits(list, "2004-12-31");
    refuses(list, 24, "2003-12-31");
    refuses(list, 24, "2005-01-01");
    admits("|>2004-02-28|", "2004-02-29");
    admits("|<2004-03-01|", "2004-02-29");
    admits("|<=2004-03-01|", "0000-01-01");
    admits("|>=2004-03-01|", "9999-12-31");
}

#[test]
fn members_with_the_same_beginning() {
    let text = "A matches {ab matches {5}}";
    valid(text, "<a = <6> abc = <6> ab = <5>>");
    verdict(text, 24, 3, "<a = <5> abc = <5> ab = ^<6>>");
    verdict(text, 22, 2, "^<a = <5> abc = <5>>");
}

#[test]
fn members_nobody_named() {
    valid("A matches {a matches {5}}", "<z = <y = <>> a = <5>>");
    valid("A matches {*}", "<z = (B)<y = <5>> a = <\"x\">>");
    valid("A matches {a existence matches {0..1} matches {5}}", "<b = <6>>");
}

#[test]
fn types() {
    valid("A matches {*}", "(A)<a = <5>>");
    valid("A matches {*}", "<>");
    verdict("A matches {*}", 21, 1, "(B) ^<a = <5>>");
    verdict("A matches {*}", 21, 1, "(AA)^<>");
    verdict("AA matches {*}", 21, 1, "(A)^<>");
    verdict("A matches {a matches {B matches {*}}}", 21, 3, "(A)<a = (A)^<>>");
    valid("A matches {a matches {B matches {*}}}", "(A)<a = (B)<>>");
    // The type comes before the attributes.
    verdict("A matches {a matches {*}}", 21, 1, "(B)^<>");
    // `*` in an attribute takes any type.
    valid("A matches {a matches {*}}", "<a = (Z)<>>");
}

#[test]
fn block_for_leaf_and_leaf_for_block() {
    verdict("A matches {a matches {5}}", 20, 3, "<a = ^<>>");
    verdict("A matches {a matches {5}}", 20, 3, "<a = (T) ^<b = <5>>>");
    verdict("A matches {a matches {B matches {*}}}", 20, 3, "<a = ^<5>>");
    verdict("A matches {a matches {B matches {*}}}", 20, 3, "<a = ^<\"x\">>");
    for any in ["<a = <5>>", "<a = <\"x\">>", "<a = <>>", "<a = (T)<b = <5>>>"] {
        valid("A matches {a matches {*}}", any);
    }
}

#[test]
fn existence() {
    let forbidden = "A matches {a existence matches {0} matches {5}}";
    valid(forbidden, "<>");
    verdict(forbidden, 23, 2, "<b = <5> a = ^<5>>");
    verdict(forbidden, 23, 2, "<a = (T) ^<>>");
    verdict("A matches {a existence matches {0..0} matches {*}}", 23, 2, "<a = ^<5>>");
    let optional = "A matches {a existence matches {0..1} matches {5}}";
    valid(optional, "<>");
    valid(optional, "<a = <5>>");
    verdict(optional, 24, 3, "<a = ^<6>>");
    for required in ["A matches {a matches {5}}", "A matches {a existence matches {1} matches {5}}"] {
        verdict(required, 22, 2, "  ^<>");
        verdict(required, 22, 2, "(A)^<b = <5>>");
    }
    verdict("A matches {a matches {*}}", 22, 2, "^<>");
    verdict("A matches {a matches {B matches {b matches {*}}}}", 22, 4, "<a = ^<>>");
}

#[test]
fn booleans() {
    admits("True", "True");
    refuses("True", 24, "False");
    admits("False", "False");
    refuses("False", 24, "True");
    admits("False, True", "True");
    admits("False, True", "False");
    refuses("True", 20, "1");
    refuses("True", 20, "\"True\"");
}

#[test]
fn strings() {
    admits("\"a\", \"\", \"b c\"", "\"\"");
    admits("\"a\", \"\", \"b c\"", "\"b c\"");
    refuses("\"a\", \"b\"", 24, "\"A\"");
    refuses("\"a\", \"b\"", 24, "\"ab\"");
    refuses("\"a\", \"b\"", 24, "\"\"");
    refuses("\"5\"", 20, "5");
    refuses("\"True\"", 20, "True");
    refuses("5", 20, "\"5\"");
    refuses("yyyy-mm-dd", 20, "\"2004-01-01\"");
    refuses("|2004-01-01|", 20, "\"2004-01-01\"");
    refuses("Thh:mm:ss", 20, "\"08:00:00\"");
}

#[test]
fn lists_name_the_first_item() {
    let list = "1, |3..4|, 9, |>=20|";
    for good in ["1", "3", "4", "9", "20", "2147483647"] {
        admits(list, good);
    }
    for bad in ["0", "2", "5", "8", "10", "19", "-2147483648"] {
        refuses(list, 24, bad);
    }
    admits("|<5|", "-2147483648");
    admits("|-5..-3|", "-4");
    let dates = "|2004-01-01..2004-01-31|, |2004-03-01|";
    admits(dates, "2004-01-31");
    admits(dates, "2004-03-01");
    refuses(dates, 24, "2004-02-01");
    refuses(dates, 20, "08:00");
}

#[test]
fn date_patterns() {
    let forms = ["2004", "2004-05", "2004-05-20"];
    let table = [
        ("yyyy-mm-dd", [false, false, true]),
        ("yyyy-mm-??", [false, true, true]),
        ("yyyy-??-??", [true, true, true]),
        ("yyyy-mm-XX", [false, true, false]),
        ("yyyy-??-XX", [true, true, false]),
    ];
    for (pattern, row) in table {
        for (form, good) in forms.iter().zip(row) {
            if good {
                admits(pattern, form);
            } else {
                refuses(pattern, 24, form);
            }
        }
        refuses(pattern, 20, "08:30");
        refuses(pattern, 20, "08");
        refuses(pattern, 20, "-5");
    }
}

#[test]
fn time_patterns() {
    let table = [
        ("Thh:mm:ss", [false, false, true]),
        ("Thh:mm:XX", [false, true, false]),
        ("Thh:??:XX", [true, true, false]),
        ("Thh:??:??", [true, true, true]),
    ];
    for (pattern, row) in table {
        for zone in ["", "Z", "+02", "-02:30"] {
            for (form, good) in ["08", "08:30", "08:30:15"].iter().zip(row) {
                if good {
                    admits(pattern, &format!("{form}{zone}"));
                } else {
                    refuses(pattern, 24, &format!("{form}{zone}"));
                }
            }
        }
        refuses(pattern, 20, "2004");
        refuses(pattern, 20, "2004-05-20");
        refuses(pattern, 20, "5");
        refuses(pattern, 20, "24");
    }
    // 10 is an integer and an hour.
    admits("Thh:??:??", "10");
    admits("10", "10");
}

#[test]
fn the_walk_is_depth_first_in_table_order() {
    let text = "A matches {b matches {B matches {c matches {5}}} a matches {5}}";
    verdict(text, 24, 5, "<a = <6> b = <c = ^<6>>>");
    verdict(text, 24, 7, "<a = ^<6> b = <c = <5>>>");
    verdict(text, 22, 2, "^<a = <6>>");
    verdict(text, 22, 4, "<a = <6> b = ^<>>");
    verdict(text, 22, 6, "^<b = <c = <5>>>");
    verdict(text, 21, 3, "<a = <6> b = (C)^<>>");
    verdict("A matches {a matches {5} b matches {6}}", 24, 3, "<b = <5> a = ^<6>>");
}

#[test]
fn sixteen_levels_are_judged() {
    let text = format!("{}A∈{{a∈{{5}}}}{}", "A∈{a∈{".repeat(15), "}}".repeat(15));
    let data = |leaf: &str| format!("{}<a={leaf}>{}", "<a=".repeat(15), ">".repeat(15));
    valid(&text, &data("<5>"));
    // Objects 1, 3, ... 31; the last attribute is 32.
    verdict(&text, 24, 33, &data("^<6>"));
    verdict(&text, 20, 33, &data("^<7777-01>"));
    verdict(&text, 22, 32, &format!("{}^<>{}", "<a=".repeat(15), ">".repeat(15)));
    // A block of the 17th level is refused, whatever the constraint.
    let deep = format!("{}<>{}", "<a=".repeat(16), ">".repeat(16));
    assert_eq!(answer(&text, deep.as_bytes()), JudgeAnswer::Refused { number: 3, place: 48 });
}

#[test]
fn order_of_refusals() {
    let mut broken = table("A matches {*}", false);
    broken[0] = 0;
    assert_eq!(judge(&broken, 9, b"?"), JudgeAnswer::Refused { number: 12, place: 0 });
    let good = table("A matches {a matches {5}}", false);
    assert_eq!(judge(&good, 9, b"?"), JudgeAnswer::Refused { number: 14, place: 9 });
    assert_eq!(judge(&good, 0, b"?"), JudgeAnswer::Refused { number: 14, place: 0 });
    assert_eq!(judge(&good, 2, b"<>"), JudgeAnswer::Refused { number: 14, place: 2 });
    assert_eq!(judge(&good, 3, b"<>"), JudgeAnswer::Refused { number: 14, place: 3 });
    assert_eq!(judge(&good, 4, b"<>"), JudgeAnswer::Refused { number: 14, place: 4 });
    assert_eq!(judge(&good, u32::MAX, b"<>"), JudgeAnswer::Refused { number: 14, place: 4_294_967_295 });
    // The whole data text comes before any verdict.
    assert_eq!(judge(&good, 1, b"(B)<a = <6> b = <T>>"), JudgeAnswer::Refused { number: 5, place: 17 });
    assert_eq!(judge(&good, 1, b"(B)<a = <6>> x"), JudgeAnswer::Refused { number: 2, place: 13 });
    assert_eq!(judge(&good, 1, b"(B)<a = <6>>"), JudgeAnswer::Verdict { reason: 21, record: 1, place: 3 });
    assert_eq!(meaning(b"A matches {", b"?"), MeaningAnswer::ConstraintRefused { number: 2, place: 11 });
    assert_eq!(meaning(b"A matches {*}", b"?"), MeaningAnswer::Answer(JudgeAnswer::Refused { number: 2, place: 0 }));
}

#[test]
fn another_root() {
    let good = table("A matches {a matches {B matches {b matches {5}}}}", true);
    assert_eq!(judge(&good, 3, b"(B)<b = <5>>"), JudgeAnswer::Valid);
    assert_eq!(judge(&good, 3, b"(A)<b = <5>>"), JudgeAnswer::Verdict { reason: 21, record: 3, place: 3 });
    assert_eq!(judge(&good, 3, b"<b = <6>>"), JudgeAnswer::Verdict { reason: 24, record: 5, place: 5 });
    assert_eq!(judge(&good, 3, b"<a = <6>>"), JudgeAnswer::Verdict { reason: 22, record: 4, place: 0 });
}

#[test]
fn shared_records() {
    // Both attributes lead to one object, and two objects to one attribute.
    let lines = [
        (1, 0, [0, 1, 0, 0, 2]),
        (2, 2, [1, 1, 4, 3, 0]),
        (2, 1, [2, 1, 4, 0, 0]),
        (1, 0, [0, 1, 0, 0, 5]),
        (2, 1, [1, 1, 6, 0, 0]),
        (4, 0, [5, 5, 0, 0, 0]),
    ];
    for bytes in [made(false, 1, &lines, "Aab"), made(true, 1, &lines, "Aab"), made_mixed(true, 1, &lines, "Aab")] {
        assert_eq!(judge(&bytes, 1, b"<a = <a = <5>> b = <a = <5>>>"), JudgeAnswer::Valid);
        let (data, place) = marked("<a = <a = <5>> b = <a = ^<6>>>");
        assert_eq!(judge(&bytes, 1, &data), JudgeAnswer::Verdict { reason: 24, record: 6, place });
        assert_eq!(judge(&bytes, 4, b"<a = <5>>"), JudgeAnswer::Valid);
    }
}

#[test]
fn deeply_shared_records_are_judged_quickly() {
    // 15 objects, each with two attributes of the same name that lead to the next: 2 to the 15 ways.
    let mut lines: Vec<Line> = Vec::new();
    for level in 0..15 {
        let own = 1 + 3 * level;
        lines.push((1, 0, [0, 1, 0, 0, own + 1]));
        lines.push((2, 2, [1, 1, own + 3, own + 2, 0]));
        lines.push((2, 2, [1, 1, own + 3, 0, 0]));
    }
    lines.push((1, 0, [0, 1, 0, 0, 47]));
    lines.push((2, 2, [1, 1, 48, 0, 0]));
    lines.push((4, 0, [5, 5, 0, 0, 0]));
    let bytes = made(false, 1, &lines, "Aa");
    let data = |leaf: &str| format!("{}<a={leaf}>{}", "<a=".repeat(15), ">".repeat(15));
    assert_eq!(judge(&bytes, 1, data("<5>").as_bytes()), JudgeAnswer::Valid);
    let failure = JudgeAnswer::Verdict { reason: 24, record: 48, place: 48 };
    assert_eq!(judge(&bytes, 1, data("<6>").as_bytes()), failure);
}

#[test]
fn many_shared_attributes_are_judged_quickly() {
    // 120 attributes of one name in one chain, each leading to the same object again a level below.
    let mut lines: Vec<Line> = Vec::new();
    let width = 120;
    for level in 0..16 {
        let own = 1 + (width + 1) * level;
        lines.push((1, 0, [0, 1, 0, 0, own + 1]));
        for index in 1..=width {
            let next = if index == width { 0 } else { own + index + 1 };
            let value = if level == 15 { 0 } else { own + width + 1 };
            lines.push((2, 2, [1, 1, value, next, 0]));
        }
    }
    let bytes = made(true, 1, &lines, "Aa");
    let data = format!("{}<a=<5>>{}", "<a=".repeat(15), ">".repeat(15));
    assert_eq!(judge(&bytes, 1, data.as_bytes()), JudgeAnswer::Valid);
}

#[test]
fn an_attribute_named_twice_in_a_table_is_judged_twice() {
    // A checked table may name an attribute twice: a b b a.
    let lines = [
        (1, 0, [0, 1, 0, 0, 2]),
        (2, 2, [1, 1, 6, 3, 0]),
        (2, 2, [2, 1, 6, 4, 0]),
        (2, 2, [3, 1, 7, 5, 0]),
        (2, 2, [4, 1, 7, 0, 0]),
        (4, 0, [1, 5, 0, 0, 0]),
        (4, 0, [5, 9, 0, 0, 0]),
    ];
    let bytes = made(false, 1, &lines, "Aabba");
    assert_eq!(judge(&bytes, 1, b"<a=<5> b=<5>>"), JudgeAnswer::Valid);
    assert_eq!(judge(&bytes, 1, b"<a=<4> b=<4>>"), JudgeAnswer::Verdict { reason: 24, record: 7, place: 9 });
    assert_eq!(judge(&bytes, 1, b"<a=<4> b=<6>>"), JudgeAnswer::Verdict { reason: 24, record: 6, place: 9 });
    assert_eq!(judge(&bytes, 1, b"<a=<6> b=<4>>"), JudgeAnswer::Verdict { reason: 24, record: 6, place: 3 });
}

#[test]
fn overlapping_items_of_a_table() {
    // A checked table may hold overlapping items, and more than 16 of them.
    let mut lines: Vec<Line> = vec![(1, 0, [0, 1, 0, 0, 2]), (2, 2, [1, 1, 3, 0, 0])];
    for index in 0..40u32 {
        let next = if index == 39 { 0 } else { index + 4 };
        lines.push((4, 0, [index, index + 1, 0, 0, next]));
    }
    let bytes = made(false, 1, &lines, "Aa");
    assert_eq!(judge(&bytes, 1, b"<a=<40>>"), JudgeAnswer::Valid);
    assert_eq!(judge(&bytes, 1, b"<a=<41>>"), JudgeAnswer::Verdict { reason: 24, record: 3, place: 3 });
}
