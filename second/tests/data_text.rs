//! Data texts: tokens, structure, words, and refusals 1 to 5 and 9.

mod common;
use common::*;
use second::{data_faults, Fault};

#[test]
fn shapes() {
    data_accepted("<>");
    data_accepted("(T)<>");
    data_accepted(" ( T ) < > ");
    data_accepted("<a = <5>>");
    data_accepted("<a=<5>b=<\"x\">c=<>d=(T)<e=<True>>>");
    data_accepted("-- note\n<-- note\ra --x\n = --y\n <--z\n5 -- w\n> > -- end");
    data_accepted("<a = <\"--\">>--");
}

#[test]
fn text_length() {
    let mut data = b"<>".to_vec();
    data.resize(16_384, b' ');
    assert_eq!(data_faults(&data), vec![]);
    data.push(b' ');
    data_refused_bytes(1, 16_384, &data);
    data[0] = b'?';
    data_refused_bytes(1, 16_384, &data);
}

#[test]
fn syntax() {
    for case in [
        "^", "  ^", "--x^", "^a = <5>", "^5", "^\"a\"", "^>", "<^", "<a^", "<a^>", "<a =^", "<a = ^5>", "<a = ^>",
        "<a = ^\"x\">", "<a = <5^", "<a = <5>^", "<a = <5 ^6>>", "<a = <\"x\" ^\"y\">>", "<a = <5^,6>>", "<> ^<>",
        "<>^>", "<^<>>", "<^=<5>>", "<^(T)<>>", "(^", "(^)<>", "(T^<>", "(T)^", "(T)^(T)<>", "(T ^U)<>", "(T)^a",
        "<a = <>^;b = <>>", "<a = <5> ^= <5>>", "<a = (T)^5>", "<a = (T)^\"x\">", "<a = <b = <5>>^", "<^?>",
        "<a = <^?>>", "<a = <^'x'>>", "<a = <^|5|>>", "<a = <^[at1]>>", "<a = <5^*>>", "<^*>", "^{}", "<a = <5^=>>",
        "<a ^<5>>", "<a = <5> b ^>", "<a^, b = <5>>",
    ] {
        data_refused(2, case);
    }
    data_refused_bytes(2, 0, b"\xE2\x88\x88<>");
    data_refused_bytes(2, 1, b"<\0>");
    data_refused_bytes(2, 1, b"<\x0B>");
    data_refused_bytes(2, 2, b"<>\xFF");
}

#[test]
fn what_a_less_sign_opens() {
    // The outermost is a block's.
    data_refused(2, "<^5>");
    data_refused(2, "<^\"x\">");
    data_refused(2, "<^True>");
    // With a type it is a block's.
    data_refused(2, "<a = (T)<^5>>");
    data_refused(2, "<a = (T)<^\"x\">>");
    // With neither string nor word behind it, it is a block's.
    data_refused(2, "<a = <b^>>");
    data_refused(2, "<a = <true^>>");
    data_refused(2, "<a = <^b-c>>");
    data_refused(2, "<a = <^\"x>>");
    data_accepted("<a = <b = <5>>>");
    // A word that opens with a capital makes a leaf.
    data_refused(5, "<a = <^B = <5>>>");
    data_refused(5, "<a = <^T>>");
}

#[test]
fn runs() {
    data_refused(2, "<^a-b = <5>>");
    data_refused(2, "<^a--b = <5>>");
    data_refused(2, "<^a.b = <5>>");
    data_refused(2, "<^A = <5>>");
    data_refused(2, "<^_a = <5>>");
    data_refused(2, "<^5 = <5>>");
    data_refused(2, "<a = <^t08:00>>");
    data_refused(2, "(^a)<>");
    data_refused(2, "(^T-x)<>");
    data_refused(2, "(^T.x)<>");
    data_refused(2, "(^5)<>");
    data_refused(2, "(^_T)<>");
    data_refused(2, "(^\"T\")<>");
    data_refused(2, "(^True)<>");
    data_refused(2, "(^False)<>");
    data_refused(2, "<a = (^true)<>>");
    data_accepted("(Truex)<a_B9 = (T_9x)<>>");
    data_accepted("(TRUE)<>");
    // The keywords aren't NAMEs.
    data_refused(2, "<^matches = <5>>");
    data_refused(2, "<^existence = <5>>");
    data_accepted("<matchesx = <5>>");
}

#[test]
fn comments_start_only_where_a_token_may() {
    data_refused(5, "<a = <^5--3>>");
    data_refused(2, "<a = <5 --3>>^");
    data_accepted("<a = <5 --3>>\n>>");
    data_refused(2, "<a = <--5>>^");
    data_accepted("<a = <--5>>\n5>>");
    data_accepted("<a = <\"x\"--5>>\n>>");
    data_accepted("<a = <-5>>");
    data_refused(5, "<a = <^->>");
    data_refused(5, "<a = <^- -5>>");
    data_refused(5, "<a = <^+--5>>");
    // Behind `(` a run goes on through `--`, and then is no TYPE.
    data_refused(2, "(^T--x\n)<>");
    data_accepted("(T --x\n)<>");
    data_accepted("(--x\nT)--y\n<>");
}

#[test]
fn levels() {
    let nested =
        |blocks: usize, inner: &str| format!("{}<{inner}>{}", "<a=".repeat(blocks - 1), ">".repeat(blocks - 1));
    data_accepted(&nested(16, ""));
    // A leaf in the 16th block is no level.
    data_accepted(&nested(16, "a=<5>"));
    data_accepted(&nested(16, "a=<\"x\">"));
    data_refused_bytes(3, 48, nested(17, "").as_bytes());
    data_refused_bytes(3, 48, nested(18, "").as_bytes());
    data_refused_bytes(3, 48, nested(4_000, "").as_bytes());
    data_refused_bytes(3, 48, "<a=".repeat(5_461).as_bytes());
    data_refused_bytes(3, 48, nested(17, "?").as_bytes());
    data_refused_bytes(3, 48, "<a=".repeat(17).as_bytes());
    // The place is the `<`, behind the type.
    data_refused_bytes(3, 51, format!("{}(T)<5", "<a=".repeat(16)).as_bytes());
    data_refused_bytes(2, 51, format!("{}(T)5", "<a=".repeat(16)).as_bytes());
    data_refused_bytes(2, 49, format!("{}(t)<", "<a=".repeat(16)).as_bytes());
    data_refused_bytes(2, 48, "<a=".repeat(16).as_bytes());
    // Behind the 17th `<` stands a bad word: a leaf's.
    data_refused_bytes(5, 49, format!("{}<T", "<a=".repeat(16)).as_bytes());
    // An unreadable string is no string, so the `<` is a block's.
    data_refused_bytes(3, 48, format!("{}<\"x", "<a=".repeat(16)).as_bytes());
    data_refused_bytes(3, 48, format!("{}<b-c", "<a=".repeat(16)).as_bytes());
    data_refused_bytes(3, 48, format!("{}<", "<a=".repeat(16)).as_bytes());
}

#[test]
fn lengths() {
    let long = "b".repeat(63);
    let fits = "b".repeat(62);
    data_accepted(&format!("(A{fits})<a{fits} = (A{fits})<>>"));
    data_refused(4, &format!("(^A{long})<>"));
    data_refused(4, &format!("<^a{long} = <5>>"));
    data_refused(4, &format!("<a = (^A{long})<>>"));
    data_refused(4, &format!("<a = (^A{long}"));
    data_refused(4, &format!("<^a{long}"));
    data_refused(2, &format!("(^a{long}"));
    let string = "s".repeat(255);
    data_accepted(&format!("<a = <\"{string}\">>"));
    data_refused(4, &format!("<a = <^\"{string}s\">>"));
    data_refused(4, &format!("<a = <^\"{string}s\" 5>>"));
    data_refused(4, &format!("<^a{long} = <5> a{long} = <5>>"));
}

#[test]
fn strings() {
    data_accepted("<a = <\"\">>");
    data_accepted("<a = <\" !#$%&'()*+,-./:;<=>?@[]^_`{|}~\">>");
    data_refused(2, "<a = <^\"x\\\"y\">>");
    data_refused(2, "<a = <^\"x\ty\">>");
    data_refused(2, "<a = <^\"x\ny\">>");
    data_refused(2, "<a = <^\"x\x7Fy\">>");
    data_refused(2, "<a = <^\"caf\u{E9}\">>");
    data_refused(2, "<a = <^\">>");
}

#[test]
fn members_named_twice() {
    data_refused(9, "<a = <5> ^a = <5>>");
    data_refused(9, "<a = <> b = <> ^b = <> a = <>>");
    data_refused(9, "<a = <> b = <> ^a = <> b = <>>");
    data_refused(9, "<a = <5> ^a");
    data_refused(9, "<a = <b = <5>> ^a = <T>>");
    data_refused(5, "<a = <^T> a = <5>>");
    data_refused(9, "<a = <b = <1> ^b = <2>> a = <>>");
    data_accepted("<a = <a = <5>> b = <a = <5>> aa = <> aB = <>>");
}

#[test]
fn good_words() {
    for word in [
        "True", "False", "0", "5", "24", "-5", "2147483647", "-2147483648", "10", "0000", "2004", "0830", "2004-01",
        "2004-12", "0000-01", "2004-02-29", "2000-02-29", "0000-01-01", "9999-12-31", "00", "08", "23", "00:00",
        "23:59", "00:00:00", "23:59:59", "08Z", "08:30Z", "08:30:15Z", "08+00", "08+00:00", "08+13", "08+13:59", "P1Y",
        "-P1Y2M", "PT5M", "08-12", "08-12:59", "08-01", "08-00:01", "08-00:30", "08:30+01:30", "08:30:15-05",
        "08:30:15-05:59",
    ] {
        data_accepted(&format!("<a = <{word}>>"));
    }
}

#[test]
fn unreadable_words() {
    for word in [
        "TRUE1", "TRUE", "Truex", "T", "Z", "_", "+", "-", ".", ":", "+5", "-0", "00005", "007", "-08", "000",
        "2147483648", "-2147483649", "99999999999", "5.5", "5:5", "2004-00", "2004-13", "2004-1", "2004-011", "2004-",
        "2004-02-30", "1900-02-29", "2001-02-29", "2004-00-01", "2004-01-00", "2004-1-1", "2004-01-011", "20040-01-01",
        "-2004-01-01", "2004-01-01T00:00:00", "24:00:00", "24:00", "08:60", "08:30:60", "8:30", "08:3", "08:30:1",
        "08:30:155", "08:", "08:30:", "0830Z", "08z", "08ZZ", "08Z+01", "08+", "08+1", "08+14", "08+14:00", "08-13",
        "08-13:00", "08-00", "08-00:00", "08+01:", "08+01:6", "08+01:60", "08+0130", "08+01:300", "08-12:60", "T08:30",
        "08.5", "08:30.5", "08:30:15.5", "24Z", "P1", "P1H", "1e5", "0x10", "5_000", "A", "2004-01Z", "2004-01-01Z",
    ] {
        data_refused(5, &format!("<a = <^{word}>>"));
    }
}

#[test]
fn all_faults_are_collected() {
    assert_eq!(
        data_faults(b"<a = <T> a = <007> b = <5> b = <5>"),
        vec![
            Fault { number: 5, place: 6 },
            Fault { number: 9, place: 9 },
            Fault { number: 5, place: 14 },
            Fault { number: 9, place: 27 },
            Fault { number: 2, place: 34 },
        ]
    );
}
