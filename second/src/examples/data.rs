//! Data texts, each with its tree or with its refusal's number and place.

use super::table::{groups, inputs, made_inputs, Inputs, Table};
use super::{made, term};
use crate::data;

const USES: &[&str] = &[
    "mathlib.Core.Path.{◌≡◌, refl}",
    "Rattle.std.specs.Prelude.{None, Some}",
    "mathlib.Core.List.{List, [], ◌∷◌}",
    "lib.ListN.{replicate}",
    "Rattle.lexis.specs.Text.{bytes}",
    "Rattle.lexis.proofs.Tables.{wrong}",
    "Rattle.meaning.specs.Data.{datum, no_more, member, string, word, block}",
    "Rattle.meaning.proofs.Trees.{datum_list}",
    "Rattle.dadl.proofs.Computes.{data_computes}",
    "Rattle.dadl.proofs.Examples.{Case, accepts, refuses, right}",
];

fn table(module: &'static str, about: &'static str, all: &[Inputs]) -> Table {
    Table {
        holder: "dadl",
        module,
        about,
        uses: USES,
        case: "Case",
        right: "right",
        unfolding: "datum_list data_computes",
        groups: groups(all, case),
    }
}

pub fn tables() -> Vec<Table> {
    vec![
        table("TextTable", "Blocks, members, leaves, words and limits.", &texts()),
        table("MadeTable", "Short texts from a generator with a fixed seed.", &made::data_texts()),
    ]
}

fn case(text: &[u8]) -> String {
    match data::read(text) {
        Ok(tree) => format!("accepts {} {}", term::bytes(text), term::datum(&tree, 0)),
        Err(fault) => format!("refuses {} {}", term::bytes(text), term::fault(fault)),
    }
}

/// Texts with one member that holds the leaf.
fn leaves(about: &'static str, all: &[&[u8]]) -> Inputs {
    made_inputs(about, all.iter().map(|leaf| [b"<a=<", *leaf, b">>"].concat()).collect())
}

/// So many blocks inside each other, with what stands in the innermost.
fn nested(levels: usize, inner: &[u8]) -> Vec<u8> {
    [&b"<a=".repeat(levels - 1)[..], b"<", inner, &b">".repeat(levels)].concat()
}

/// What stands behind the `=` of a member of the 16th level, not closed.
fn at_seventeen(value: &[u8]) -> Vec<u8> {
    [&b"<a=".repeat(16), value].concat()
}

const TYPE_63: &[u8] = b"Abcdefghijklmnopqrstuvwxyz_0123456789_ABCDEFGHIJKLMNOPQRSTUVWXY";
const NAME_63: &[u8] = b"abcdefghijklmnopqrstuvwxyz_0123456789_ABCDEFGHIJKLMNOPQRSTUVWXY";

fn texts() -> Vec<Inputs> {
    vec![
        inputs(
            "the smallest texts, cut off at each token, and with a token too many",
            &[
                b"<>", b"(T)<>", b"( T ) < >", b"<a=<>>", b"<a=<5>>", b"<a=(T)<>>", b"(T)<a=(U)<b=<5>>>", b"",
                b" \r\n", b"<", b"<a", b"<a=", b"<a=<", b"<a=<5", b"<a=<5>", b"<a=<>", b"(", b"(T", b"(T)", b"(T)<",
                b"<a=(", b"<a=(T", b"<a=(T)", b"<a=(T)<", b"<>>", b"<><>", b"<> x", b"<>)", b">", b"=", b"()", b"()<>",
                b"(T)(T)<>", b"T<>", b"5", b"\"a\"", b"a=<5>", b"<a>", b"<a<5>>", b"<=<5>>", b"<a=5>", b"<a=\"x\">",
                b"<a==<5>>", b"<a=<5>,b=<6>>", b"<a=<5>;b=<6>>",
            ],
        ),
        inputs(
            "members and blocks inside them, in text order",
            &[
                b"<a=<5>b=<\"x\">c=<>d=<e=<True>>>", b"< a = < 5 > b = (B) < c = < \"\" > > >", b"<a=<b=<c=<5>>>>",
                b"<a=<b=<5>>b=<6>>", b"<a_B1=<5>>", b"<a=(T)<a=(T)<>>>", b"<true=<True>>", b"<yyyy=<2004>>",
            ],
        ),
        inputs(
            "blanks and comments: a comment starts only where a token may",
            &[
                b"--\n<>", b"--\r<>", b"--<>", b"<--\n>", b"<-- >", b"<a--\n=<5>>", b"<a--c=<5>>",
                b"<a=--\xFF\x00\r<5>>", b"<a=<--\n5>>", b"<a=<5 --c\n>>", b"<a=<5--c\n>>", b"<a=<5--c>>", b"<a=<--5>>",
                b"<a=<-5--c\n>>", b"<>--", b"<>-- x", b"<>-", b"(T--x\n)<>", b"(--\nT)<>", b"(T --x\n)<>",
                b"<a=<\"--\">>", b"\t<\r>\n", b"<a=<5>\x0B>", b"<a\x00=<5>>", b"\x0C<>", b"<a=<5>>\xFF",
                b"\xEF\xBB\xBF<>",
            ],
        ),
        inputs(
            "TYPEs: behind `(` a run is a TYPE or unreadable",
            &[
                b"(True)<>", b"(False)<>", b"(TRUE)<>", b"(T_1b)<>", b"(t)<>", b"(T-U)<>", b"(T.U)<>", b"(T:U)<>",
                b"(T+)<>", b"(_T)<>", b"(5)<>", b"(\"T\")<>", b"(T U)<>", b"(List<T>)<>", b"(T>", b"<a=(True)<>>",
                b"<a=(t)<>>", b"<a=(T-U)<>>", b"<a=(matches)<>>", b"(Matches)<>", b"(Pd)<>", b"(P5d)<>", b"(-P5d)<>",
                b"<Pd = <5>>", b"<P5d=<5>>",
            ],
        ),
        inputs(
            "NAMEs: a run that opens with a small letter is a NAME or unreadable, and a keyword is none",
            &[
                b"<matches=<5>>", b"<existence=<5>>", b"<matchesx=<5>>", b"<a-b=<5>>", b"<a.b=<5>>", b"<a:b=<5>>",
                b"<a+=<5>>", b"<A=<5>>", b"<_a=<5>>", b"<5=<5>>", b"<a=<b>>", b"<a=<matches>>", b"<a=<b.c>>",
                b"<a=<true>>", b"<a=<b=<5>>>", b"<a=<b-c>>", b"<a=(T)<b-c=<5>>>", b"<\"a\"=<5>>", b"<a b=<5>>",
            ],
        ),
        inputs(
            "a `<` is a leaf's when it has no type, isn't the outermost, and a string or word follows",
            &[
                b"<5>", b"<5x>", b"<\"a\">", b"<True>", b"(T)<5>", b"(T)<\"a\">", b"<a=(T)<5>>", b"<a=(T)<5x>>",
                b"<a=(T)<\"a\">>", b"<a=<5 6>>", b"<a=<5 \"a\">>", b"<a=<\"a\" 5>>", b"<a=<1,2>>", b"<a=<5=<6>>>",
                b"<a=<B=<5>>>", b"<a=<True b=<5>>>", b"<a=<\"a\"\"b\">>", b"<a=<<5>>>", b"<a=<(T)<>>>", b"<a=<)>>",
                b"<a=<=>>", b"<a=<*>>",
            ],
        ),
        leaves(
            "strings",
            &[
                b"\"\"", b"\"a b\"", b"\" ~\"", b"\"<>=()\"", b"\"5\"", b"\"a", b"\"a\\\"b\"", b"\"\\\"", b"\"\t\"",
                b"\"\x7F\"", b"\"\x1F\"", b"\"\xE2\x88\x88\"", b"\"\n\"", b"\"\x00\"",
            ],
        ),
        leaves(
            "words that are good",
            &[
                b"True", b"False", b"0", b"5", b"-5", b"24", b"99", b"2147483647", b"-2147483648", b"08", b"00", b"23",
                b"0000", b"2004", b"9999", b"20040520", b"2004-05", b"2004-12", b"2004-05-20", b"2000-02-29",
                b"0000-01-01", b"9999-12-31", b"10:30", b"10:30:59", b"23:59:59", b"00:00:00", b"08Z", b"08:30Z",
                b"08:30:00Z", b"08+05", b"08+05:30", b"08:30+05", b"08:30:00+05:30", b"08+13", b"08+13:59", b"08-12",
                b"08-12:59", b"08-00:30", b"08-00:01", b"08-01", b"08-01:00", b"08+00", b"08+00:00", b"12-12",
            ],
        ),
        leaves(
            "words that are durations",
            &[
                b"P12w3d", b"P12W3D", b"-P5d", b"P0d", b"P0005d", b"PT5M3S", b"P1y2m3w4dT5h6m7s",
                b"P9999y9999m9999w9999dT9999h9999m9999s", b"-P9999Y9999M9999W9999DT9999H9999M9999S",
            ],
        ),
        leaves(
            "words that are nearly durations",
            &[
                b"P", b"PT", b"-P", b"P5", b"P5dT", b"Pd", b"P00005d", b"P1d2w", b"P1w1w", b"PT1s1h", b"P1.5d",
                b"+P5d", b"Pt5m", b"P5d_", b"p5d", b"--P5d", b"-p5d", b"P1h", b"PT1d", b"PTT5m", b"P5dT5",
            ],
        ),
        leaves(
            "words that are not",
            &[
                b"TRUE", b"Tru", b"True1", b"Truefalse", b"_x", b"Z", b"T", b"+", b"-", b".", b":", b"--5", b"+5",
                b"-0", b"-00", b"-05", b"007", b"025", b"60:00", b"2147483648", b"-2147483649",
                b"99999999999999999999", b"5.5", b"5.", b"5-", b"5:", b"1e5", b"5--3", b"5--c", b"24:00", b"24:00:00",
                b"24Z", b"25:00", b"08:60", b"08:30:60", b"8:30", b"08:3", b"08:30:5", b"08:30:00:00", b"083000",
                b"0830Z", b"08z", b"08ZZ", b"08+14", b"08+14:00", b"08+13:60", b"08-13", b"12-13", b"08-13:00",
                b"08-12:60", b"08-00", b"12-00", b"08-00:00", b"12+0930", b"08+0530", b"08+5", b"08+05:3",
                b"08+05:300", b"08+05Z", b"08+", b"08-", b"+08", b"Z08", b"2004-13", b"2004-00", b"2004-5",
                b"2004-05-", b"2004-05-2", b"2004-05-201", b"2004-05-32", b"2004-04-31", b"1900-02-29", b"2003-02-29",
                b"2004-02-30", b"2004-00-10", b"2004-05-00", b"200", b"02004", b"12004-05-20", b"-2004",
                b"-2004-05-20", b"2004-05-20Z", b"2004-05-20T10:00:00", b"2004-01-01T00:00:00", b"2004:05", b"T10:00",
                b"10:00.5", b"08:30:00.0", b"08:30-00:00", b"08:30:00-00", b"-12:59",
            ],
        ),
        inputs(
            "several faults: the least place is told",
            &[
                b"<a=<5x>a=<6>>", b"<a=<5>a=<6x>>", b"<a=<5>a=<6", b"<a=<5>b=<6>b=<7>a=<8>>", b"<a=<5>b=<6>a",
                b"<a=<5>a", b"<a=<5>a-b", b"<a=<5x", b"<a=<5x y", b"<a=<5x>\x00", b"<a=<\"x\" 5x>>", b"(true)<a=<5x>>",
                b"<a=<24:00:00>a=<>>",
            ],
        ),
        inputs(
            "names: one that begins like another is another; a repeated one is told where it first comes again",
            &[
                b"<a=<5>ab=<5>>", b"<ab=<5>a=<5>>", b"<a=<5>aB=<5>ab=<5>>", b"<a=<>b=<>b=<>a=<>>", b"<a=<a=<5>>>",
                b"<a=<a=<5>a=<5>>>", b"<a=<b=<5>>b=<5>c=<>a=<>>", b"<a=<>a=<>a=<>>",
            ],
        ),
        made_inputs(
            "types and names of 63 bytes and of 64",
            vec![
                [b"(", TYPE_63, b")<>"].concat(),
                [b"(", TYPE_63, b"Z)<>"].concat(),
                [b"(", TYPE_63, b"Z"].concat(),
                [b"(", TYPE_63, b"-)<>"].concat(),
                [b"<a=(", TYPE_63, b")<>>"].concat(),
                [b"<a=(", TYPE_63, b"Z)<>>"].concat(),
                [b"<", NAME_63, b"=<5>>"].concat(),
                [b"<", NAME_63, b"Z=<5>>"].concat(),
                [b"<", NAME_63, b"Z"].concat(),
                [b"<", NAME_63, b"-=<5>>"].concat(),
                [b"<", NAME_63, b"=<5>", NAME_63, b"=<5>>"].concat(),
                [b"<", NAME_63, b"Z=<5>", NAME_63, b"Z=<5>>"].concat(),
            ],
        ),
        made_inputs(
            "strings of 255 bytes and of 256; a word has no limit",
            vec![
                [b"<a=<\"", &b"x".repeat(255)[..], b"\">>"].concat(),
                [b"<a=<\"", &b"x".repeat(256)[..], b"\">>"].concat(),
                [b"<a=<\"", &b"x".repeat(256)[..], b"\""].concat(),
                [b"<a=<", &b"1".repeat(256)[..], b">>"].concat(),
            ],
        ),
        made_inputs(
            "16 levels and the 17th, told at its `<`; a leaf has no level",
            vec![
                nested(16, b""),
                nested(16, b"a=<5>"),
                nested(16, b"a=<\"x\">"),
                nested(17, b""),
                nested(17, b"a=<5>"),
                at_seventeen(b"<"),
                at_seventeen(b"<5>"),
                at_seventeen(b"<\"x"),
                at_seventeen(b"<b.c"),
                at_seventeen(b"<b"),
                at_seventeen(b"<5x"),
                at_seventeen(b"<>"),
                at_seventeen(&[b"<\"", &b"x".repeat(256)[..], b"\""].concat()),
                at_seventeen(b"(T)<>"),
                at_seventeen(b"(T) <5>"),
                at_seventeen(b"(T)"),
                at_seventeen(b"(T"),
                at_seventeen(b"(t)<>"),
                at_seventeen(&[b"(", TYPE_63, b"Z)<"].concat()),
                [b"(T)<", &b"a=(T)<".repeat(15)[..], &b">".repeat(16)].concat(),
                [b"(T)<", &b"a=(T)<".repeat(16)[..], &b">".repeat(17)].concat(),
            ],
        ),
        made_inputs(
            "texts over 16,384 bytes, and of that length",
            vec![b" ".repeat(16_385), b"\x00".repeat(16_385), b" ".repeat(16_384), b"<".repeat(16_384)],
        ),
    ]
}
