//! The examples of READINGS.md, under its numbers.

mod common;
use common::*;
use second::api::*;
use second::{check, data_faults, judge, merge, name, text_faults};

#[test]
fn readings_1_to_4_longest_match() {
    refused_bytes(2, 11, b"A matches {yyyy-mm-dd matches {*}}");
    refused_bytes(2, 15, b"A matches {yyyy-mm-d matches {*}}");
    refused_bytes(2, 0, b"Thh:mm:ss matches {*}");
    refused_bytes(2, 3, b"Thh:mm matches {*}");
    refused_bytes(2, 25, b"A matches {a matches {Thh:mm}}");
    refused_bytes(2, 22, b"A matches {a matches {yyyy-mm}}");
    refused_bytes(2, 32, b"A matches {a matches {yyyy-mm-ddx}}");
    refused_bytes(2, 27, b"A matches {a matches {|2004-05-2|}}");
    refused_bytes(2, 33, b"A matches {a matches {|2004-05-201|}}");
    refused_bytes(2, 28, b"A matches {a matches {5--3}}");
    refused_bytes(2, 23, b"A matches {a matches {5-3}}");
}

#[test]
fn readings_5_to_8_marks_and_unreadable_tokens() {
    refused_bytes(6, 31, b"A matches {a matches {|100+/--5|}}");
    refused_bytes(5, 36, b"A matches {a matches {|2147483647+/--1|}}");
    refused_bytes(2, 26, b"A matches {a matches {|5...9|}}");
    refused_bytes(2, 22, b"A matches {a matches {\"ab\\\"}}");
    refused_bytes(2, 1, b"A[at1.] matches {*}");
    refused_bytes(2, 1, b"A[at] matches {*}");
    refused_bytes(2, 1, b"A[at1..2] matches {*}");
}

#[test]
fn readings_9_to_11_keywords_comments_end() {
    accepted("TRUE matches {true matches {*}}");
    refused_bytes(2, 2, b"A is_in {*}");
    assert_eq!(text_faults(b"--\x00\xFF\nA--{\rmatches--\n{--*\n*--\n}--"), vec![]);
    leaf_accepted("\"--\"");
    refused_bytes(2, 16, b"A matches {* --x");
    refused_bytes(2, 0, b"");
}

#[test]
fn readings_12_to_16_shapes() {
    accepted("A matches {a existence matches {0 .. 1} matches {*}}");
    refused_bytes(2, 32, b"A matches {a existence matches {00} matches {*}}");
    refused_bytes(2, 35, b"A matches {a existence matches {1..0} matches {*}}");
    refused_bytes(9, 28, b"A matches {a matches {True, True}}");
    refused_bytes(2, 33, b"A matches {a matches {True, False, True}}");
    refused_bytes(2, 26, b"A matches {a matches {5, |2004-01-01|}}");
    refused_bytes(2, 27, b"A matches {a matches {\"a\", |5|}}");
    refused_bytes(2, 24, b"A matches {a matches {5 007}}");
    refused_bytes(2, 26, b"A matches {a matches {|>=5..9|}}");
}

#[test]
fn readings_17_and_18_one_token_and_counts() {
    let sixteen = "1,2,3,4,5,6,7,8,9,10,11,12,13,14,15,16";
    leaf_refused(5, &format!("{sixteen},^007"));
    leaf_refused(7, &format!("{sixteen},^|007|"));
    leaf_refused(7, &format!("{sixteen},^|20..x"));
    leaf_refused(2, &format!("{sixteen},^"));
    refused(3, &format!("{}^A", "A∈{a∈{".repeat(16)));
}

#[test]
fn readings_19_to_22_items_and_names() {
    refused_bytes(2, 29, b"A matches {a matches {5, |5..x|}}");
    refused_bytes(5, 29, b"A matches {a matches {5, |5..09|}}");
    refused_bytes(9, 25, b"A matches {a matches {5, 5.5}}");
    refused_bytes(9, 25, b"A matches {a matches {5, 5..9}}");
    refused(9, "A∈{a∈{*}b∈{*}^b∈{*}a∈{*}}");
    data_refused(9, "<a=<>b=<>^b=<>a=<>>");
    let long = "a".repeat(64);
    refused(4, &format!("A∈{{^{long}∈{{*}}{long}∈{{*}}}}"));
}

#[test]
fn readings_26_to_32_data_tokens() {
    data_refused_bytes(2, 1, b"<matches = <5>>");
    data_refused_bytes(2, 1, b"(True)<>");
    data_refused_bytes(2, 1, b"<a-b = <5>>");
    data_refused_bytes(2, 1, b"(T--x\n)<>");
    data_refused_bytes(5, 6, b"<a = <5--3>>");
    data_refused_bytes(2, 11, b"<a = <--5>>");
    let sixteen = "<a=".repeat(16);
    data_refused(3, &format!("{sixteen}^<\"x"));
    data_refused(3, &format!("{sixteen}^<b.c"));
    data_refused(5, &format!("{sixteen}<^B"));
    data_refused(4, &format!("{sixteen}<^\"{}\"", "x".repeat(256)));
    data_refused(3, &format!("{sixteen}(T)^<"));
    data_refused(2, &format!("{sixteen}(T^<"));
    data_refused_bytes(2, 1, b"<5x>");
    data_refused_bytes(5, 6, b"<a = <B = <5>>>");
}

#[test]
fn readings_33_to_36_words() {
    data_refused_bytes(5, 6, b"<a = <5.5>>");
    data_refused_bytes(5, 6, b"<a = <2004-01-01T00:00:00>>");
    data_refused_bytes(2, 7, b"<a = <1, 2>>");
    for bad in ["+5", "-0", "007", "08+0530", "08-00", "08-00:00", "08:30:60", "-12:59"] {
        data_refused(5, &format!("<a = <^{bad}>>"));
    }
    for good in ["08", "0008", "20040520", "0000-01-01", "08Z", "08+05:30", "08+00", "08+00:00", "08-00:30", "08-12:59"]
    {
        assert_eq!(data_faults(format!("<a = <{good}>>").as_bytes()), vec![]);
    }
}

#[test]
fn readings_37_to_43_judging() {
    verdict("A matches {a matches {\"5\"}}", 20, 3, "<a = ^<5>>");
    verdict("A matches {a matches {5}}", 20, 3, "<a = ^<\"5\">>");
    verdict("A matches {a matches {|>2000-01-01|}}", 24, 3, "<a = ^<2004-05>>");
    verdict("A matches {a existence matches {0} matches {5}}", 23, 2, "<a = (T)^<>>");
    verdict("A matches {a matches {*}}", 22, 2, "^<>");
    verdict("A matches {a matches {1, 2}}", 20, 3, "<a = ^<>>");
    verdict("A matches {a matches {B matches {*}}}", 20, 3, "<a = ^<5>>");
    let unlinked = made(false, 1, &[(1, 0, [0, 1, 0, 0, 0]), (1, 0, [1, 1, 0, 0, 0])], "AB");
    assert_eq!(second::judge(&unlinked, 2, b"(B)<>"), JudgeAnswer::Valid);
    assert_eq!(second::judge(&unlinked, 0, b"<>"), JudgeAnswer::Refused { number: 14, place: 0 });
    assert_eq!(second::judge(&unlinked, 3, b"<>"), JudgeAnswer::Refused { number: 14, place: 3 });
}

#[test]
fn reading_45_what_the_check_leaves_alone() {
    // A name of any bytes, a type that is no TYPE, a code that is no code, unreachable and shared records.
    let lines = [
        (1, 0, [0, 1, 1, 2, 0]),
        (1, 0, [0, 3, 0, 0, 4]),
        (1, 0, [0, 3, 0, 0, 4]),
        (2, 2, [2, 1, 5, 0, 0]),
        (4, 0, [5, 5, 0, 0, 6]),
        (4, 0, [5, 5, 0, 0, 0]),
    ];
    assert_eq!(second::check(&made(true, 2, &lines, "\n \0")), CheckAnswer::Passed);
}

#[test]
fn readings_52_to_55_duration_patterns() {
    refused_bytes(2, 25, b"A matches {a matches {Pdd}}");
    refused_bytes(2, 25, b"A matches {a matches {Pdm}}");
    assert_eq!(table("A matches {a matches {PmTm}}", false)[74..76], [9, 34]);
    refused_bytes(2, 2, b"Pd}");
    refused_bytes(2, 11, b"A matches {Pd}");
    refused_bytes(2, 32, b"A matches {a existence matches {Pd} matches {*}}");
    accepted("Pd matches {*}");
    refused_bytes(2, 25, b"A matches {a matches {Pd}");
    let sixteen = "A matches {a matches {".repeat(16);
    refused_bytes(2, 355, format!("{sixteen}Pd}}").as_bytes());
    for behind in ["Pd", "Pd x", "P}"] {
        refused_bytes(3, 352, format!("{sixteen}{behind}").as_bytes());
    }
    refused_bytes(2, 24, b"A matches {a matches {Pd;}}");
    // One object, 120 attributes of 16 items, one of 4 and one more: 2,047 records.
    let items = "0,1,2,3,4,5,6,7,8,9,-1,-2,-3,-4,-5,-6";
    let mut full = String::from("A matches {");
    for index in 0..120 {
        full.push_str(&format!("n{index} matches {{{items}}} "));
    }
    full.push_str("y matches {1,2,3,4} z matches {");
    accepted(&format!("{full}*}}}}"));
    refused(8, &format!("{full}^Pd}}}}"));
    refused(8, &format!("{full}^Pd"));
}

#[test]
fn readings_56_to_60_and_65_duration_words() {
    for good in ["P1y2M", "P0000d", "-P0d", "P1y2w3d"] {
        data_accepted(&format!("<a = <{good}>>"));
    }
    for bad in ["P1dt5m", "P00005d", "+P5d"] {
        data_refused(5, &format!("<a = <^{bad}>>"));
    }
    data_refused_bytes(2, 9, b"<a = <p5d>>");
    data_refused_bytes(2, 13, b"<a = <--P5d>>");
    verdict("A matches {a matches {Pwd}}", 20, 3, "<a = ^<\"P4w\">>");
    verdict("A matches {a matches {Pwd}}", 20, 3, "<a = ^<2004>>");
    verdict("A matches {a matches {Pd}}", 24, 3, "<a = ^<P0y5d>>");
    valid("A matches {a matches {PymwdThms}}", "<a = <P0d>>");
    verdict("A matches {a matches {PTm}}", 24, 3, "<a = ^<P5m>>");
}

#[test]
fn readings_61_to_64_kind_9_and_other_forms() {
    let lines = |flag| [(1, 0, [0, 1, 0, 0, 2]), (2, 2, [1, 1, 3, 0, 0]), (9, flag, [0; 5])];
    for (flag, answer) in [
        (1, CheckAnswer::Passed),
        (127, CheckAnswer::Passed),
        (0, CheckAnswer::Refused { number: 13, place: 3 }),
        (128, CheckAnswer::Refused { number: 13, place: 3 }),
        (255, CheckAnswer::Refused { number: 13, place: 3 }),
    ] {
        assert_eq!(check(&made(false, 1, &lines(flag), "Aa")), answer, "{flag}");
    }
    let led = [(1, 0, [0, 1, 0, 0, 2]), (9, 8, [0; 5])];
    assert_eq!(check(&made(false, 1, &led, "A")), CheckAnswer::Refused { number: 13, place: 1 });
    let bytes = made(true, 1, &lines(12), "Aa");
    assert_eq!(name(&bytes, 3), NameAnswer::Refused { number: 14, place: 3 });
    assert_eq!(judge(&bytes, 3, b"<>"), JudgeAnswer::Refused { number: 14, place: 3 });
    let mut out = [0; 172];
    let done = MergeAnswer::Done { length: 172, record_shift: 3, pool_shift: 2 };
    assert_eq!(merge(&bytes, &bytes, true, &mut out), done);
    assert_eq!(out[144..168], bytes[72..96]);
    refused_bytes(2, 23, b"A matches {a matches {|P1d..P2d|}}");
    refused_bytes(2, 25, b"A matches {a matches {P1Y}}");
    refused_bytes(2, 24, b"A matches {a matches {Pw/P4w}}");
}
