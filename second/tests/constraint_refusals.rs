//! Refusals 1 to 9 of a constraint text, both sides of every limit, and the order of faults.

mod common;
use common::*;
use second::{text_faults, Fault};

fn padded(text: &str, length: usize) -> Vec<u8> {
    let mut bytes = text.as_bytes().to_vec();
    bytes.resize(length, b' ');
    bytes
}

#[test]
fn text_length() {
    assert_eq!(text_faults(&padded("A matches {*}", 16_384)), vec![]);
    refused_bytes(1, 16_384, &padded("A matches {*}", 16_385));
    refused_bytes(1, 16_384, &padded("}", 16_385));
    refused_bytes(1, 16_384, &padded("A matches {a matches {007}}", 40_000));
    refused_bytes(2, 16_384, &padded("A matches {*", 16_384));
}

/// An object with `levels` levels, the innermost with this body, and what closes it.
fn nested(levels: usize, body: &str) -> String {
    let around = levels - 1;
    format!("{}A matches {{{body}}}{}", "A matches {a matches {".repeat(around), "}}".repeat(around))
}

#[test]
fn levels() {
    accepted(&nested(16, "*"));
    accepted(&nested(16, "a matches {5}"));
    // Each level around is 22 bytes long.
    refused_bytes(3, 352, nested(17, "*").as_bytes());
    refused_bytes(3, 352, nested(18, "*").as_bytes());
    refused_bytes(3, 352, nested(600, "*").as_bytes());
    // Levels count from their first token: a later syntax fault doesn't matter, an earlier one does.
    refused_bytes(3, 352, nested(17, "5").as_bytes());
    refused_bytes(3, 352, "A matches {a matches {".repeat(17).as_bytes());
    refused_bytes(3, 352, ["A matches {a matches {".repeat(16).as_bytes(), b"A?"].concat().as_slice());
    refused_bytes(2, 352, "A matches {a matches {".repeat(16).as_bytes());
    refused_bytes(5, 340, &deep_number());
}

/// 15 levels of 22 bytes, then `A∈{a∈{`, ten bytes, and a bad number.
fn deep_number() -> Vec<u8> {
    format!("{}A∈{{a∈{{007}}}}{}", "A matches {a matches {".repeat(15), "}}".repeat(15)).into_bytes()
}

#[test]
fn levels_are_not_siblings() {
    let siblings: Vec<String> = (0..30).map(|number| format!("a{number} matches {{B matches {{*}}}}")).collect();
    accepted(&format!("A matches {{{}}}", siblings.join(" ")));
}

#[test]
fn type_and_name_lengths() {
    let (fits, long) = ("b".repeat(62), "b".repeat(63));
    accepted(&format!("A{fits} matches {{a{fits} matches {{B{fits} matches {{*}}}}}}"));
    refused(4, &format!("^A{long} matches {{*}}"));
    refused(4, &format!("A matches {{^a{long} matches {{*}}}}"));
    refused(4, &format!("A matches {{a matches {{^B{long} matches {{*}}}}}}"));
    // A token that can't follow is a syntax fault first.
    refused(2, &format!("^a{long} matches {{*}}"));
    refused(4, &format!("^A{long}"));
    refused(4, &format!("A matches {{a matches {{*}} ^b{long} matches {{*}} b{long} matches {{*}}}}"));
}

#[test]
fn code_lengths() {
    let digits = "1".repeat(29);
    accepted(&format!("A[at{digits}] matches {{*}}"));
    refused(4, &format!("A^[at{digits}1] matches {{*}}"));
    accepted(&format!("A[at{}.1] matches {{*}}", "1".repeat(27)));
    refused(4, &format!("A ^[at{}.1] matches {{*}}", "1".repeat(28)));
}

#[test]
fn string_lengths() {
    let string = "s".repeat(255);
    leaf_accepted(&format!("\"{string}\""));
    leaf_refused(4, &format!("^\"{string}s\""));
    leaf_refused(4, &format!("\"a\", ^\"{string}s\", \"a\""));
    // The same too long string twice: the second one has a fault of its own, and the first is first.
    leaf_refused(4, &format!("^\"{string}s\", \"{string}s\""));
}

#[test]
fn integers_impossible() {
    for literal in ["007", "00", "-0", "-00", "-01", "2147483648", "-2147483649", "99999999999999999999", "4294967296"]
    {
        leaf_refused(5, &format!("^{literal}"));
        leaf_refused(5, &format!("|^{literal}|"));
        leaf_refused(5, &format!("|>^{literal}|"));
        leaf_refused(5, &format!("|1..^{literal}|"));
        leaf_refused(5, &format!("|1..<^{literal}|"));
        leaf_refused(5, &format!("|^{literal}..1|"));
        leaf_refused(5, &format!("|1+/-^{literal}|"));
        leaf_refused(5, &format!("|^{literal}+/-1|"));
        leaf_refused(5, &format!("1, ^{literal}, 3"));
    }
    leaf_refused(5, &format!("^{}", "9".repeat(10_000)));
}

#[test]
fn plus_minus_outside() {
    leaf_refused(5, "|2147483647+/-^1|");
    leaf_refused(5, "|-2147483648+/-^1|");
    leaf_refused(5, "|0+/-^-2147483648|");
    leaf_refused(5, "|-2+/-^2147483647|");
    leaf_accepted("|0+/-2147483647|");
    leaf_accepted("|-1+/-2147483647|");
    // A distance below nought makes an empty interval.
    leaf_refused(6, "|100+/--5^|");
    leaf_refused(5, "|2147483647+/-^-1|");
}

#[test]
fn dates_impossible() {
    let cases = [
        "1900-02-29", "2001-02-29", "2100-02-29", "2004-02-30", "2004-00-01", "2004-13-01", "2004-01-00", "2004-01-32",
        "2004-04-31", "2004-06-31", "2004-09-31", "2004-11-31", "9999-99-99",
    ];
    for case in cases {
        leaf_refused(5, &format!("|^{case}|"));
        leaf_refused(5, &format!("|<=^{case}|"));
        leaf_refused(5, &format!("|2000-01-01..^{case}|"));
    }
    for case in ["2000-02-29", "2004-02-29", "0000-02-29", "2400-02-29", "2001-02-28", "2004-04-30", "2004-12-31"] {
        leaf_accepted(&format!("|{case}|"));
    }
}

#[test]
fn empty_intervals() {
    leaf_refused(6, "|>2147483647^|");
    leaf_refused(6, "|<-2147483648^|");
    leaf_refused(6, "|>0..<1^|");
    leaf_refused(6, "|9..5^|");
    leaf_refused(6, "|5..<5 ^|");
    leaf_refused(6, "|>5..5^|");
    leaf_refused(6, "|>2147483647..5^|");
    leaf_refused(6, "|5..<-2147483648^|");
    leaf_refused(6, "|>2147483647..<-2147483648^|");
    leaf_refused(6, "|>9999-12-31^|");
    leaf_refused(6, "|<0000-01-01^|");
    leaf_refused(6, "|2004-01-02..2004-01-01^|");
    leaf_refused(6, "|>2003-12-31..<2004-01-01^|");
    leaf_refused(6, "|>2004-02-28..<2004-02-29^|");
    leaf_accepted("|>2004-02-28..<2004-03-01|");
    leaf_refused(6, "|>2005-02-28..<2005-03-01^|");
}

/// `count` integers from 1, by comma.
fn integers(count: usize) -> String {
    (1..=count).map(|number| number.to_string()).collect::<Vec<_>>().join(",")
}

#[test]
fn items() {
    let sixteen = integers(16);
    leaf_accepted(&sixteen);
    leaf_refused(7, &format!("{sixteen},^17"));
    leaf_refused(7, &format!("{sixteen},^17,18,19"));
    leaf_refused(7, &format!("{sixteen}, ^|20..30|"));
    leaf_refused(7, &format!("{sixteen},^1"));
    leaf_refused(7, &format!("{sixteen},^|20..x"));
    leaf_refused(7, &format!("{sixteen},^|007|"));
    leaf_refused(7, &format!("{sixteen},^17 18"));
    // Two faults at one token: the smaller number.
    leaf_refused(5, &format!("{sixteen},^007"));
    leaf_refused(2, &format!("{sixteen},^\"a\""));
    leaf_refused(2, &format!("{sixteen},^"));
    let strings = (0..16).map(|number| format!("\"{number}\"")).collect::<Vec<_>>().join(",");
    leaf_accepted(&strings);
    leaf_refused(7, &format!("{strings},^\"x\""));
    leaf_refused(4, &format!("{strings},^\"{}\"", "x".repeat(256)));
    let dates = (1..=16).map(|day| format!("|2004-01-{day:02}|")).collect::<Vec<_>>().join(",");
    leaf_accepted(&dates);
    leaf_refused(7, &format!("{dates},^|2004-02-01|"));
}

#[test]
fn overlapping_and_equal_items() {
    leaf_refused(9, "5, ^|5..9|");
    leaf_refused(9, "|5..9|, ^5");
    leaf_refused(9, "|5..9|, ^|9..11|");
    leaf_refused(9, "|5..9|, ^|1..5|");
    leaf_refused(9, "|5..9|, ^|1..20|");
    leaf_refused(9, "|1..20|, ^|5..9|");
    leaf_refused(9, "5, 6, ^5");
    leaf_refused(9, "5, 6, ^|<6|");
    leaf_accepted("|5..9|, |>9|, |<5|");
    leaf_accepted("|5..<9|, 9, |>9|");
    leaf_refused(9, "\"a\", ^\"a\"");
    leaf_refused(9, "\"\", ^\"\"");
    leaf_accepted("\"a\", \"A\", \"aa\", \"\", \" \"");
    leaf_refused(9, "|2004-01-01|, ^|<=2004-01-01|");
    leaf_accepted("|2004-01-01|, |<2004-01-01|, |>2004-01-01|");
    leaf_refused(9, "True, ^True");
    leaf_refused(9, "False, ^False");
}

#[test]
fn an_item_with_a_fault_of_its_own_overlaps_nothing() {
    leaf_refused(5, "5, |5..^99999999999|");
    leaf_refused(5, "5, |^05..9|");
    leaf_refused(6, "5, |9..1^|");
    leaf_refused(2, "5, |5..^x|");
    leaf_refused(2, "5, |5..9^");
    leaf_refused(2, "5, |5 ^9|");
    leaf_refused(2, "5, |5..9^,");
    leaf_refused(5, "5, |5+/-^2147483647|");
    leaf_refused(5, "|2004-01-01|, |2004-01-01..^2004-02-30|");
    // A complete item followed by a token that can't follow isn't faulty itself.
    leaf_refused(9, "5, ^5 7");
    leaf_refused(9, "5, ^5.5");
    leaf_refused(9, "5, ^5..9");
    leaf_refused(9, "5, ^|5..9| 7");
    leaf_refused(9, "\"a\", ^\"a\" 7");
    leaf_refused(9, "True, ^True, True");
    leaf_refused(9, "5, ^5, |5..x");
    // Nor does a later item overlap a faulty one; the earlier fault is the answer.
    assert_eq!(
        text_faults(b"A matches {a matches {|9..5|, 7, 07, 7}}"),
        vec![Fault { number: 6, place: 27 }, Fault { number: 5, place: 33 }, Fault { number: 9, place: 37 }]
    );
}

#[test]
fn attributes_named_twice() {
    refused(9, "A matches {a matches {*} ^a matches {*}}");
    refused(9, "A matches {a matches {*} b matches {*} ^b matches {*} a matches {*}}");
    refused(9, "A matches {a matches {*} b matches {*} ^a matches {*} b matches {*}}");
    refused(9, "A matches {a matches {*} ^a");
    refused(9, "A matches {a matches {*} ^a matches {007}}");
    refused(9, "A matches {a matches {B matches {*}} ^a matches {*}}");
    refused(5, "A matches {a matches {^007} a matches {*}}");
    accepted("A matches {a matches {A matches {a matches {*}}} b matches {A matches {a matches {*}}}}");
    accepted("A matches {a matches {*} aa matches {*} aB matches {*} aA matches {*} a_ matches {*}}");
}

/// 120 attributes with 16 items each and one with five: with the object 2,047 records.
fn full(more_items: &str, more_attributes: &str) -> String {
    let mut text = String::from("A∈{");
    for number in 0..120 {
        let name = [b'a' + number / 26, b'a' + number % 26].map(char::from).iter().collect::<String>();
        text += &format!("{name}∈{{0,1,2,3,4,5,6,7,8,9,-1,-2,-3,-4,-5,-6}}");
    }
    text + &format!("z∈{{1,2,3,4,5{more_items}}}{more_attributes}}}")
}

/// 120 attributes with 16 items each and one with four: with the object 2,046 records.
fn nearly_full(more_attributes: &str) -> String {
    full("", more_attributes).replace("z∈{1,2,3,4,5", "z∈{1,2,3,4")
}

#[test]
fn record_2048_needed() {
    let table = table(&full("", ""), true);
    assert_eq!(&table[4..8], &[0x00, 0x08, 0x00, 0x00]);
    assert_eq!(second::check(&table), second::api::CheckAnswer::Passed);
    accepted(&nearly_full(" y∈{*}"));
    refused(8, &full(",^6", ""));
    refused(8, &full(",^6,7,8", ""));
    refused(8, &full(", ^|6..9|", ""));
    refused(8, &full(", ^|6..x|", ""));
    refused(8, &full(", ^|06|", ""));
    refused(8, &full(", ^5", ""));
    refused(5, &full(", ^06", ""));
    refused(2, &full(", ^\"a\"", ""));
    refused(8, &full("", " ^y∈{*}"));
    refused(8, &full("", " ^y"));
    refused(8, &full("", " ^z∈{*}"));
    refused(4, &full("", &format!(" ^{}∈{{*}}", "y".repeat(64))));
    refused(8, &nearly_full(" y∈{^B∈{*}}"));
    refused(8, &nearly_full(" y∈{^True,True}"));
    refused(8, &nearly_full(" y∈{^yyyy-mm-dd}"));
    refused(8, &nearly_full(" y∈{^Thh:mm:ss}"));
    refused(8, &nearly_full(" y∈{^Pwd}"));
    refused(8, &nearly_full(" y∈{^\"\"}"));
    refused(4, &nearly_full(&format!(" y∈{{^\"{}\"}}", "s".repeat(256))));
    refused(8, &nearly_full(" y∈{*} ^x∈{*}"));
    refused(9, &nearly_full(" ^z∈{*} x∈{*}"));
}

#[test]
fn smallest_place_then_smallest_number() {
    refused(5, "A matches {a matches {^007} b matches {|9..5|} b");
    refused(4, &format!("A^[at{}] matches {{5}}", "1".repeat(30)));
    refused(6, "A matches {a matches {|9..5^|, |08|} ?");
    assert_eq!(
        text_faults(b"A matches {a matches {5, |5..9|, |5..09|} a matches {?"),
        vec![
            Fault { number: 9, place: 25 },
            Fault { number: 5, place: 37 },
            Fault { number: 9, place: 42 },
            Fault { number: 2, place: 53 },
        ]
    );
}
