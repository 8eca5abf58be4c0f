//! Tokens of the constraint text by longest match, and the syntax faults that come of it.

mod common;
use common::*;

#[test]
fn separators() {
    accepted("A\tmatches\r\n{*}");
    accepted("--\nA--x\rmatches--y--z\n{ * -- \u{2208} any bytes\n}");
    accepted("A matches {*} -- up to the end");
    accepted("A matches {*}--");
    accepted("A matches{a matches{5--3\n}}");
    accepted("A matches{aa--b\nmatches{*}}");
    refused(2, "A^\x0Bmatches {*}");
    refused(2, "A^\x0Cmatches {*}");
    refused(2, "A^\0matches {*}");
}

#[test]
fn comment_bytes_are_any_bytes() {
    let mut text = b"A matches {*} --".to_vec();
    text.extend([0, 0xFF, 0x80, b'"', b'{', 9]);
    assert_eq!(second::text_faults(&text), vec![]);
    text.extend(b"\n}");
    refused_bytes(2, 23, &text);
}

#[test]
fn types_and_names() {
    accepted("Abc_9X matches {aB_9 matches {*}}");
    accepted("Truex matches {matchesx matches {*} existence1 matches {*}}");
    accepted("TRUE matches {true matches {*}}");
    accepted("Amatches matches {*}");
    refused(2, "^a matches {*}");
    refused(2, "^True matches {*}");
    refused(2, "^False matches {*}");
    refused(2, "^_A matches {*}");
    refused(2, "^9 matches {*}");
    refused(2, "A ^MATCHES {*}");
    refused(2, "A ^is_in {*}");
    refused(2, "A matches {^B matches {*}}");
    refused(2, "A matches {^matches matches {*}}");
    refused(2, "A matches {^existence matches {*}}");
    refused(2, "A^-");
}

#[test]
fn a_dash_alone_is_unreadable() {
    refused(2, "A ^- matches {*}");
    leaf_refused(2, "^-");
    leaf_refused(2, "^-x");
    leaf_refused(2, "^+5");
    leaf_refused(2, "^+/5");
}

#[test]
fn matches_sign_needs_all_three_bytes() {
    refused_bytes(2, 1, b"A\xE2\x88{*}");
    refused_bytes(2, 1, b"A\xE2\x88\x89{*}");
    refused_bytes(2, 1, b"A\xE2");
    refused_bytes(2, 0, b"\xEF\xBB\xBFA matches {*}");
    refused_bytes(2, 1, b"A\xC3\xA9 matches {*}");
}

#[test]
fn codes() {
    accepted("A[at1] matches {*}");
    accepted("A [at0001.1.22] matches {*}");
    refused(2, "A^[at] matches {*}");
    refused(2, "A^[at1.] matches {*}");
    refused(2, "A^[at1..2] matches {*}");
    refused(2, "A^[at.1] matches {*}");
    refused(2, "A^[ at1] matches {*}");
    refused(2, "A^[at1 ] matches {*}");
    refused(2, "A^[at 1] matches {*}");
    refused(2, "A^[ac1] matches {*}");
    refused(2, "A^[id1] matches {*}");
    refused(2, "A^[AT1] matches {*}");
    refused(2, "A^[at1 matches {*}");
    refused(2, "A^[at1");
    refused(2, "A^[");
    refused(2, "A^] matches {*}");
    refused(2, "A[at1]^[at2] matches {*}");
    refused(2, "A matches {a^[at1] matches {*}}");
    refused(2, "^[at1] matches {*}");
}

#[test]
fn integers_and_dates_by_longest_match() {
    leaf_refused(2, "2004^-05");
    leaf_refused(2, "2004^-05-2");
    leaf_refused(2, "^2004-05-20");
    leaf_refused(2, "|2004^-05-2|");
    leaf_refused(2, "|2004-05-20^1|");
    leaf_refused(2, "|12004^-05-20|");
    leaf_refused(2, "|204^-05-20|");
    leaf_refused(2, "|-2004^-05-20|");
    leaf_refused(2, "|2004-05-20^-1|");
    leaf_accepted("|2004-05-20--\n|");
    leaf_accepted("|2004--05-20\n|");
    leaf_refused(2, "5^-3");
    leaf_refused(2, "5^x");
    leaf_refused(2, "5 ^6");
    leaf_refused(2, "5^.5");
    leaf_refused(2, "5^.");
    leaf_refused(2, "5^..6");
    leaf_refused(2, "10^:30");
    leaf_refused(5, "^09:30:00");
    refused(2, "A matches {a matches {5--3}}^");
}

#[test]
fn plus_minus() {
    leaf_accepted("|5 +/- 3|");
    leaf_accepted("|5+/---3\n3|");
    leaf_refused(2, "|5^+ /-3|");
    leaf_refused(2, "|5^+-3|");
    leaf_refused(2, "|5+/-^|");
    leaf_refused(2, "|5+/-^+3|");
    leaf_refused(2, "|2004-01-01^+/-3|");
    leaf_refused(2, "|>5^+/-3|");
    leaf_refused(2, "|5+/-3^..4|");
    leaf_refused(2, "|5+/-^2004-01-01|");
    leaf_refused(2, "5^+/-3");
}

#[test]
fn ellipsis_is_two_dots() {
    leaf_refused(2, "|5..^.9|");
    leaf_refused(2, "|5..^..9|");
    leaf_refused(2, "|5^. .9|");
    refused(2, "A matches {a existence matches {0..^.1} matches {*}}");
}

#[test]
fn interval_grammar() {
    leaf_refused(2, "|^|");
    leaf_refused(2, "|5^");
    leaf_refused(2, "|5..^|");
    leaf_refused(2, "|5 ^6|");
    leaf_refused(2, "|5^,6|");
    leaf_refused(2, "|<5^..9|");
    leaf_refused(2, "|<=5^..9|");
    leaf_refused(2, "|>=5^..9|");
    leaf_refused(2, "|>5..^>9|");
    leaf_refused(2, "|>5..^<=9|");
    leaf_refused(2, "|5..^>=9|");
    leaf_refused(2, "|<^<5|");
    leaf_refused(2, "|<^>5|");
    leaf_refused(2, "|< ^= 5|");
    leaf_refused(2, "|^*|");
    leaf_refused(2, "|^\"a\"|");
    leaf_refused(2, "|^True|");
    leaf_refused(2, "|5..^2004-01-01|");
    leaf_refused(2, "|2004-01-01..^5|");
    leaf_refused(2, "|^yyyy-mm-dd|");
    leaf_refused(2, "|^..5|");
}

#[test]
fn patterns_by_longest_match() {
    leaf_refused(2, "yyyy-mm-dd^x");
    leaf_refused(2, "yyyy-mm-dd^, yyyy-mm-XX");
    leaf_refused(2, "yyyy-mm-XX^X");
    leaf_refused(2, "^yyyy-mm-d");
    leaf_refused(2, "^yyyy-XX-XX");
    leaf_refused(2, "^yyyy-XX-??");
    leaf_refused(2, "^yyyy-??-dd");
    leaf_refused(2, "^yyyy");
    leaf_refused(2, "YYYY^-MM-DD");
    leaf_refused(2, "Thh^:mm");
    leaf_refused(2, "Thh^:mm:??");
    leaf_refused(2, "Thh^:XX:XX");
    leaf_refused(2, "Thh:mm:ss^Z");
    leaf_refused(2, "Thh:mm:ss^+hh");
    leaf_refused(2, "^hh:mm:ss");
    leaf_refused(2, "yyyy-mm-dd^Thh:mm:ss");
    leaf_refused(2, "^?");
    refused(2, "^Thh:mm:ss matches {*}");
    accepted("Thh matches {yyyy matches {*}}");
    refused(2, "A matches {^yyyy-mm-dd matches {*}}");
    refused(2, "A matches {yyyy^-mm-d matches {*}}");
    refused(2, "A matches {yyyy^-mm--dd\n matches {*}}");
    refused(2, "Thh^:mm matches {*}");
}

#[test]
fn strings() {
    leaf_accepted("\"\"");
    leaf_accepted("\" !#$%&'()*+,-./:;<=>?@[]^_`{|}~ --\"");
    leaf_accepted("\"a\",\"b\"");
    leaf_refused(2, "^\"abc");
    leaf_refused(2, "^\"a\\\"b\"");
    leaf_refused(2, "^\"a\tb\"");
    leaf_refused(2, "^\"a\nb\"");
    leaf_refused(2, "^\"a\x7Fb\"");
    leaf_refused(2, "^\"caf\u{E9}\"");
    leaf_refused(2, "\"a\"^\"b\"");
    leaf_refused(2, "^'a'");
    leaf_refused(2, "^/a.*/");
}

#[test]
fn kinds_that_are_syntax_faults() {
    leaf_refused(2, "5^.0");
    leaf_refused(2, "|5^.0..6.0|");
    leaf_refused(2, "^'x'");
    leaf_refused(2, "yyyy-mm-dd^Thh:mm:ss");
    leaf_refused(2, "|2004-01-01^T00:00:00|");
    leaf_refused(2, "P1Y^");
    leaf_refused(2, "|^P1Y|");
    leaf_refused(2, "^[at1]");
    leaf_refused(2, "^[local::at1]");
    leaf_refused(2, "5^; 5");
    leaf_refused(2, "True^; True");
    leaf_refused(2, "\"a\"^; \"a\"");
    leaf_refused(2, "\"a\", ^...");
    refused(2, "A ^occurrences matches {0..1} matches {*}");
    refused(2, "A matches {a ^cardinality matches {0..1} matches {*}}");
    refused(2, "A matches {a matches {^allow_archetype B matches {*}}}");
    refused(2, "A matches {a matches {^use_node B /a}}");
    refused(2, "A matches {a matches {B matches {*} ^C matches {*}}}");
    refused(2, "A ^~matches {*}");
    refused(2, "A^<B> matches {*}");
    refused(2, "A matches {* ^invariant}");
}

#[test]
fn structure() {
    refused(2, "^");
    refused(2, " \n^");
    refused(2, "--x^");
    refused(2, "A^");
    refused(2, "A --x^");
    refused(2, "A ^{*}");
    refused(2, "A matches ^*");
    refused(2, "A matches {^}");
    refused(2, "A matches {*^");
    refused(2, "A matches {* ^*}");
    refused(2, "A matches {* ^a matches {*}}");
    refused(2, "A matches {a matches {*} ^*}");
    refused(2, "A matches {a matches {*}^, b matches {*}}");
    refused(2, "A matches {a matches {*}^");
    refused(2, "A matches {a matches {^}}");
    refused(2, "A matches {a matches {*^,*}}");
    refused(2, "A matches {a ^{*}}");
    refused(2, "A matches {a matches ^*}");
    refused(2, "A matches {*} ^}");
    refused(2, "A matches {*} ^B matches {*}");
    refused(2, "A matches {*} ^\"");
    refused(2, "A matches {a matches {^b matches {*}}}");
    refused(2, "A matches {a matches {B matches {*}^");
    refused(2, "A matches {a matches {B matches {*}}^");
    refused(2, "A matches {a matches {B ^}}");
}

#[test]
fn existence_faults() {
    let cases = [
        "^2", "^00", "^-0", "^-1", "^01", "0..^2", "1..^0", "1..^00", "0..^}", "^}", "^*", "0..^*", "0^,1", "^True",
        "^9999999999", "0..^9999999999", "^2004-01-01", "^|0|", "^..1", "0 ^1", "0..1^..1",
    ];
    for case in cases {
        refused(2, &format!("A matches {{a existence matches {{{case}}} matches {{*}}}}"));
    }
    refused(2, "A matches {a existence ^{0} matches {*}}");
    refused(2, "A matches {a existence matches ^0 matches {*}}");
    refused(2, "A matches {a existence matches {0} ^existence matches {0} matches {*}}");
    refused(2, "A matches {a existence matches {0}^}");
    refused(2, "A matches {a matches {*} ^existence matches {0}}");
}

#[test]
fn mixed_lists() {
    leaf_refused(2, "5, ^\"a\"");
    leaf_refused(2, "5, ^True");
    leaf_refused(2, "\"a\", ^5");
    leaf_refused(2, "\"a\", ^|5|");
    leaf_refused(2, "True, ^5");
    leaf_refused(2, "True, ^}");
    leaf_refused(2, "True, False^, True");
    leaf_refused(2, "True ^False");
    leaf_refused(2, "5, |^2004-01-01|");
    leaf_refused(2, "|2004-01-01|, ^5");
    leaf_refused(2, "|2004-01-01|, |^5|");
    leaf_refused(2, "|2004-01-01|, ^2004-01-02");
    leaf_refused(2, "5, ^yyyy-mm-dd");
    leaf_refused(2, "5,^");
    leaf_refused(2, "5,^,6");
    leaf_refused(2, "^,5");
    leaf_refused(2, "5 ^*");
}
