//! Words with all that they read as, the calendar, values with a distance on either side, and patterns.

use super::table::{groups, inputs, made_inputs, Group, Inputs, Table};
use super::term;
use crate::calendar::{days_in_month, is_leap, Date};
use crate::durations;
use crate::numbers;
use crate::patterns::{admits_date, admits_time};
use crate::words::{self, PartialDate, PartialTime};

const PATH: &str = "mathlib.Core.Path.{◌≡◌, refl}";
const BOOL: &str = "mathlib.Core.Bool.{true, false}";
const OPTION: &str = "Rattle.std.specs.Prelude.{None, Some}";
const LIST: &str = "mathlib.Core.List.{List, [], ◌∷◌}";
const TEXT: &str = "Rattle.lexis.specs.Text.{bytes}";
const PAIR: &str = "Rattle.values.specs.Integers.{pair, nought, greatest}";
const DAYS: &str = "Rattle.values.specs.Calendar.{first_day, last_day}";
const WRONG: &str = "Rattle.lexis.proofs.Tables.{wrong}";
const COMPUTE: &str = "Rattle.values.proofs.Computes.{values_compute}";

pub fn tables() -> Vec<Table> {
    vec![
        Table {
            holder: "values",
            module: "WordTable",
            about: "Words, what each reads as, a Boolean, an integer, a date, a time, a duration, and whether it is good.",
            uses: &[PATH, BOOL, OPTION, LIST, TEXT, WRONG, COMPUTE, "Rattle.values.proofs.Examples.{WordCase, reads, date, word_right}"],
            case: "WordCase",
            right: "word_right",
            unfolding: "values_compute",
            groups: groups(&word_texts(), word_case),
        },
        Table {
            holder: "values",
            module: "NumberTable",
            about: "Leap years, month lengths, real dates, the days around a day, and values with a distance on either side.",
            uses: &[
                PATH,
                BOOL,
                OPTION,
                LIST,
                PAIR,
                DAYS,
                WRONG,
                COMPUTE,
                "Rattle.values.proofs.Examples.{NumberCase, leap_is, days_are, real_is, follows, precedes, spreads, bits_are, end_is, number_right}",
            ],
            case: "NumberCase",
            right: "number_right",
            unfolding: "values_compute",
            groups: number_groups(),
        },
        Table {
            holder: "values",
            module: "PatternTable",
            about: "Each pattern against words.",
            uses: &[PATH, BOOL, LIST, TEXT, WRONG, COMPUTE, "Rattle.values.proofs.Examples.{PatternCase, date_fits, time_fits, duration_fits, pattern_right}"],
            case: "PatternCase",
            right: "pattern_right",
            unfolding: "values_compute",
            groups: pattern_groups(),
        },
    ]
}

/// A date with how many of its parts are there; a part that isn't there is 1.
fn date_term(word: &[u8], date: PartialDate) -> Option<String> {
    let (parts, filled) = match date {
        PartialDate::Year => (1, [word, b"-01-01"].concat()),
        PartialDate::Month => (2, [word, b"-01"].concat()),
        PartialDate::Full(_) => (3, word.to_vec()),
    };
    Date::read(&filled).map(|day| format!("(date {parts} {})", term::number(u64::from(day.packed()))))
}

fn time_parts(time: PartialTime) -> u32 {
    match time {
        PartialTime::Hour => 1,
        PartialTime::Minute => 2,
        PartialTime::Second => 3,
    }
}

fn word_case(word: &[u8]) -> String {
    let boolean = term::option(words::boolean(word).map(|value| String::from(if value { "1" } else { "2" })));
    let integer = term::option(numbers::integer(word).map(term::distance));
    let date = term::option(words::date(word).and_then(|date| date_term(word, date)));
    let time = term::option(words::time(word).map(|time| time_parts(time).to_string()));
    let duration = term::option(durations::word(word).map(|filled| filled.to_string()));
    let good = term::truth(words::is_good(word));
    format!("reads {} {boolean} {integer} {date} {time} {duration} {good}", term::bytes(word))
}

fn word_texts() -> Vec<Inputs> {
    vec![
        inputs(
            "Booleans",
            &[b"True", b"False", b"true", b"TRUE", b"False1", b"Tru", b"True.", b"Fals", b"T", b"", b"FalseTrue"],
        ),
        inputs(
            "integers: the range's ends, needless zeros, -0, signs, long runs of digits",
            &[
                b"0", b"1", b"5", b"9", b"10", b"24", b"99", b"100", b"-1", b"-5", b"-10", b"2147483646",
                b"2147483647", b"2147483648", b"2147483649", b"-2147483647", b"-2147483648", b"-2147483649",
                b"4294967295", b"4294967296", b"-4294967296", b"9999999999", b"99999999999999999999",
                b"-99999999999999999999", b"00000000005", b"007", b"01", b"000", b"-0", b"-00", b"-01", b"-05", b"+5",
                b"+0", b"--5", b"-", b"+", b"5-", b"5.", b"5.0", b".5", b"1e5", b"5a", b"a5", b"_5", b"5_", b" 5",
                b"5 ", b"1:0", b"12/", b"1:", b"-:", b"5-3",
            ],
        ),
        inputs(
            "dates: years, months and days, real and others",
            &[
                b"2004", b"0000", b"9999", b"0004", b"1900", b"200", b"20040", b"02004", b"2004-01", b"2004-05",
                b"2004-12", b"2004-13", b"2004-00", b"0000-12", b"2004-5", b"2004-", b"2004-005", b"2004-1a",
                b"200a-10", b"2004-05-20", b"2004-05-01", b"2004-05-31", b"2004-05-32", b"2004-05-00", b"2004-04-30",
                b"2004-04-31", b"2000-02-29", b"1900-02-29", b"1900-02-28", b"2004-02-29", b"2004-02-30",
                b"2003-02-29", b"2003-02-28", b"2100-02-29", b"0000-02-29", b"0000-01-01", b"9999-12-31",
                b"9999-12-32", b"2004-00-10", b"2004-13-10", b"2004-99-99", b"0000-00-00", b"2004-05-2",
                b"2004-05-201", b"2004-05-", b"2004-05-20-", b"2004-5-20", b"2004-05-2a", b"2004:05:20", b"2004-05:20",
                b"2004.05-20", b"2004/05/20", b"-2004", b"-2004-05-20", b"+2004", b"2004-05-20Z",
                b"2004-05-20T10:00:00", b"20040520", b"12004-05-20", b"yyyy", b"dddd", b"dddd-dd-dd", b"2004-dd",
            ],
        ),
        inputs(
            "times: hours 00 to 23, minutes and seconds 00 to 59",
            &[
                b"00", b"08", b"09", b"12", b"23", b"24", b"25", b"8", b"1a", b"a1", b"00:00", b"08:30", b"23:59",
                b"24:00", b"23:60", b"08:00", b"08:99", b"8:30", b"08:3", b"08:", b"08:3a", b"08:300", b"00:00:00",
                b"08:30:15", b"23:59:59", b"24:00:00", b"24:00:01", b"23:60:00", b"23:59:60", b"08:30:99", b"08:30:5",
                b"08:30:", b"08:30:5a", b"08:30:150", b"08:30:15:00", b"08:30:15.0", b"08:30:15,0", b"083015", b"0830",
                b"T08:30", b"08-30", b"08.30", b"08:30.15", b":08:30", b"dd", b"dd:dd", b"08:dd",
            ],
        ),
        made_inputs("zones behind hours, minutes and seconds", zoned()),
        inputs(
            "zones without a time, and with something behind them",
            &[
                b"Z", b"z", b"+05", b"-05:00", b"+05:30", b"08ZZ", b"08Z1", b"08+05Z", b"08Z+05", b"08+05+05",
                b"08:30Z:15", b"08z", b"2004Z", b"5Z", b"24Z", b"24+05", b"True+05", b"08:60Z", b"08:30:60+05",
            ],
        ),
        inputs(
            "durations: each slot alone, in either case, and all of them",
            &[
                b"P1y", b"P1m", b"P1w", b"P1d", b"PT1h", b"PT1m", b"PT1s", b"P1Y", b"P1M", b"P1W", b"P1D", b"PT1H",
                b"PT1M", b"PT1S", b"P12w3d", b"P12W3D", b"P12w3D", b"-P5d", b"-PT5m", b"P1y2m3w4d", b"PT5h6m7s",
                b"P1y2m3w4dT5h6m7s", b"-P1Y2M3W4DT5H6M7S", b"P1mT1m", b"P5M3DT5M3S", b"PT5M3S", b"P1yT1s", b"P1y4d",
            ],
        ),
        inputs(
            "durations: one to four digits to a slot, nought and leading zeros",
            &[
                b"P0d", b"-P0d", b"P00d", b"P0005d", b"P0000d", b"P9999d", b"P00005d", b"P10000d", b"P12345y",
                b"PT00000s", b"PT9999s", b"P1y99999d", b"P99999y1d", b"P9999y9999m9999w9999dT9999h9999m9999s",
                b"-P9999y9999m9999w9999dT9999h9999m9999s", b"-P9999y9999m9999w9999dT9999h9999m99999s",
            ],
        ),
        inputs(
            "no durations: no slot, no digits, no letter, nothing behind a T",
            &[
                b"P", b"PT", b"-P", b"-PT", b"P5", b"PT5", b"P1y5", b"P5dT", b"P5dT5", b"P5dTh", b"Pd", b"PTm", b"Pwd",
                b"P1wd", b"Pw1d", b"PTT5m", b"PT5mT", b"PT5mT5s", b"P5dT5mT5s", b"P5dP5d", b"PP5d", b"P1d1", b"5d",
                b"T5m", b"-T5m", b"PT5",
            ],
        ),
        inputs(
            "no durations: slots out of order, twice, or on the wrong side of the T",
            &[
                b"P1d2w", b"P1w1w", b"P1m1y", b"P1w1m", b"P1d1y", b"P1m1m", b"PT1s1h", b"PT1m1h", b"PT1s1m", b"PT1h1h",
                b"PT1s1S", b"P1D1d", b"P1h", b"P1s", b"P1d1h", b"PT1d", b"PT1y", b"PT1w", b"PT1h1d", b"P1h1dT1m",
                b"P1m1d1m", b"P1mT1m1m",
            ],
        ),
        inputs(
            "no durations: other letters, signs, dots and small letters for P and T",
            &[
                b"P1.5d", b"P1,5d", b"P.5d", b"P5.d", b"+P5d", b"--P5d", b"P-5d", b"P+5d", b"P1y-5d", b"P5d-", b"P5d_",
                b"P5dZ", b"P5d.", b"P5d:", b"P5_d", b"_P5d", b"Pt5m", b"P1dt5m", b"p5d", b"-p5d", b"pT5m", b"P5x",
                b"P5q", b"P5T", b"P5Td", b"P5a", b"PT5n", b"P5e", b"P5c", b"P5z", b"P5P", b"P 5d", b"P5 d", b"P5d ",
                b"P:5d", b"P/5d", b"D5d", b"Q5d", b"O5d", b"PU5m", b"PS5m", b"P1dS5m", b"P12w3d5", b"P1D2", b"P5\xC4",
                b"P5\xE4", b"P5$", b"P5[",
            ],
        ),
    ]
}

/// Zones at both sides of each limit, behind each sort of time.
fn zoned() -> Vec<Vec<u8>> {
    let zones: [&[u8]; 40] = [
        b"Z", b"+00", b"+01", b"+09", b"+12", b"+13", b"+14", b"+99", b"-00", b"-01", b"-11", b"-12", b"-13", b"-99",
        b"+00:00", b"+00:30", b"+05:30", b"+12:59", b"+13:00", b"+13:59", b"+13:60", b"+14:00", b"+05:60", b"-00:00",
        b"-00:01", b"-00:30", b"-00:59", b"-00:60", b"-01:00", b"-12:00", b"-12:59", b"-12:60", b"-13:00", b"+5",
        b"+0530", b"+05:3", b"+05:", b"+05:300", b"-", b"+",
    ];
    let mut all: Vec<Vec<u8>> = zones.iter().map(|zone| [b"08", *zone].concat()).collect();
    for front in [&b"08:30"[..], b"08:30:15", b"12", b"00:00"] {
        all.extend(
            [&b"Z"[..], b"+13:59", b"+14:00", b"-00:30", b"-00:00", b"-00", b"-12", b"-13", b"+0930"]
                .iter()
                .map(|zone| [front, zone].concat()),
        );
    }
    all
}

fn number_groups() -> Vec<Group> {
    let years = [
        0, 1, 2, 3, 4, 96, 100, 200, 300, 400, 500, 800, 1600, 1700, 1899, 1900, 1904, 1996, 1999, 2000, 2001, 2002,
        2003, 2004, 2100, 2200, 2300, 2400, 4000, 9996, 9999,
    ];
    let leaps = years.iter().map(|year| format!("leap_is {year} {}", term::truth(is_leap(*year)))).collect();
    let months = [2003, 2004, 1900, 2000].iter().flat_map(|year| (0..=13).map(move |month| (*year, month)));
    let lengths =
        months.map(|(year, month)| format!("days_are {year} {month} {}", days_in_month(year, month))).collect();
    let numbers = [
        0, 1, 31, 100, 101, 131, 132, 228, 229, 230, 1231, 1232, 1301, 9_999, 10_000, 10_101, 19_000_228, 19_000_229,
        19_000_301, 20_000_229, 20_030_229, 20_040_100, 20_040_101, 20_040_131, 20_040_132, 20_040_229, 20_040_230,
        20_040_430, 20_040_431, 20_041_200, 20_041_231, 20_041_232, 20_041_301, 20_040_001, 20_049_999, 21_000_229,
        99_991_230, 99_991_231, 99_991_232, 99_991_301, 100_000_101, 100_000_000, 4_294_967_295,
    ];
    let reals = numbers
        .iter()
        .map(|packed| {
            format!(
                "real_is {} {}",
                term::number(u64::from(*packed)),
                term::truth(Date::from_packed(*packed).is_some())
            )
        })
        .collect();
    vec![
        Group { about: "leap years by 4, not 100, yet 400", cases: leaps },
        Group { about: "month lengths of common and leap years", cases: lengths },
        Group { about: "packed numbers that are days of the calendar, and others", cases: reals },
        Group {
            about: "the day after and the day before, at the ends of months, of years and of the range",
            cases: day_cases(),
        },
        Group { about: "a - d and a + d, where both lie in the range", cases: spread_cases() },
        Group { about: "the ends of the ranges, and 0", cases: end_cases() },
        Group {
            about: "two's complement",
            cases: [i32::MIN, i32::MIN + 1, -1000, -2, -1, 0, 1, 2, 1000, i32::MAX - 1, i32::MAX]
                .iter()
                .map(bits_case)
                .collect(),
        },
    ]
}

fn end_cases() -> Vec<String> {
    let ends = [
        ("first_day", term::number(u64::from(Date::FIRST.packed()))),
        ("last_day", term::number(u64::from(Date::LAST.packed()))),
        ("nought", term::distance(0)),
        ("greatest", term::distance(i32::MAX)),
    ];
    ends.iter().map(|(name, value)| format!("end_is {name} {value}")).collect()
}

fn day_cases() -> Vec<String> {
    let days: [&[u8]; 38] = [
        b"0000-01-01", b"0000-01-02", b"0000-01-31", b"0000-02-01", b"0000-02-28", b"0000-02-29", b"0000-03-01",
        b"0000-12-31", b"0001-01-01", b"1899-12-31", b"1900-01-01", b"1900-02-28", b"1900-03-01", b"2000-02-28",
        b"2000-02-29", b"2000-03-01", b"2003-02-28", b"2003-03-01", b"2003-12-30", b"2003-12-31", b"2004-01-01",
        b"2004-01-31", b"2004-02-01", b"2004-02-28", b"2004-02-29", b"2004-03-01", b"2004-03-31", b"2004-04-30",
        b"2004-05-01", b"2004-05-09", b"2004-05-10", b"2004-09-30", b"2004-10-01", b"2004-11-30", b"2004-12-01",
        b"9999-12-30", b"9999-12-31", b"9998-12-31",
    ];
    let packed = |date: Date| term::number(u64::from(date.packed()));
    let mut all = Vec::new();
    for day in days.iter().filter_map(|spelling| Date::read(spelling)) {
        all.extend(day.next_day().map(|next| format!("follows {} {}", packed(day), packed(next))));
        all.extend(day.previous_day().map(|before| format!("precedes {} {}", packed(day), packed(before))));
    }
    all
}

fn spread_cases() -> Vec<String> {
    let pairs = [
        (100, 5),
        (100, 0),
        (100, -5),
        (0, 0),
        (0, 1),
        (0, -1),
        (-100, 5),
        (5, 100),
        (i32::MAX, 0),
        (i32::MAX, 1),
        (i32::MAX, -1),
        (i32::MAX - 1, 1),
        (i32::MAX - 5, 5),
        (i32::MAX - 4, 5),
        (i32::MIN, 0),
        (i32::MIN, 1),
        (i32::MIN, -1),
        (i32::MIN + 1, 1),
        (i32::MIN + 5, 5),
        (i32::MIN + 4, 5),
        (0, i32::MAX),
        (-1, i32::MAX),
        (1, i32::MAX),
        (-2, i32::MAX),
        (0, i32::MIN),
        (-1, i32::MIN),
        (1, i32::MIN),
        (0, i32::MIN + 1),
        (-1, i32::MIN + 1),
        (1, i32::MIN + 1),
        (i32::MAX, i32::MAX),
        (i32::MIN, i32::MIN),
    ];
    pairs.iter().map(|(middle, distance)| spread_case(*middle, *distance)).collect()
}

fn spread_case(middle: i32, distance: i32) -> String {
    let ends = middle.checked_sub(distance).zip(middle.checked_add(distance));
    let pair = ends.map(|(low, high)| format!("(pair {} {})", term::distance(low), term::distance(high)));
    format!("spreads {} {} {}", term::distance(middle), term::distance(distance), term::option(pair))
}

fn bits_case(value: &i32) -> String {
    format!("bits_are {} {}", term::distance(*value), term::number(u64::from(*value as u32)))
}

/// Words that fill no slot as a duration does.
const NO_DURATIONS: [&[u8]; 11] =
    [b"P", b"PT", b"5", b"Pd", b"p5d", b"P00005d", b"P1d2w", b"P5dT", b"2004-05-20", b"08:30", b"True"];

/// A duration that fills the slots of a flag, each with the next digit.
fn duration(flag: u8, letters: [&[u8; 7]; 2], sign: &str) -> Vec<u8> {
    let mut word = [sign.as_bytes(), b"P"].concat();
    for bit in 0..7 {
        if bit == 4 && flag >= 16 {
            word.push(b'T');
        }
        if flag >> bit & 1 == 1 {
            word.extend([b'1' + bit, letters[usize::from(bit % 2)][usize::from(bit)]]);
        }
    }
    word
}

/// The slots that the words of a pattern's cases fill: the pattern's own, one less, one more, others and all.
fn tried(flag: u8) -> Vec<u8> {
    let lowest = flag & flag.wrapping_neg();
    let missing = !flag & 127;
    let one_more = missing & missing.wrapping_neg();
    let top_more = if missing == 0 { 0 } else { 1 << missing.ilog2() };
    let all = [
        flag,
        flag & !lowest,
        lowest,
        flag | one_more,
        top_more,
        flag | top_more,
        missing,
        lowest | one_more,
        flag.rotate_left(3) & 127,
        flag.wrapping_mul(37) & 127,
        flag & 0b0101_0101,
    ];
    let mut out: Vec<u8> = Vec::new();
    for filled in all {
        if filled != 0 && !out.contains(&filled) {
            out.push(filled);
        }
    }
    out
}

/// A pattern against words of its own slots and of others, small, capital and mixed, with and without a sign, and one that is no duration.
fn duration_cases(flag: u8) -> Vec<String> {
    let (small, capital) = (b"ymwdhms", b"YMWDHMS");
    let spellings = [[small, small], [capital, capital], [small, capital], [capital, small]];
    let mut all = Vec::new();
    for (index, filled) in tried(flag).into_iter().enumerate() {
        let turn = index + usize::from(flag);
        all.push(duration(filled, spellings[turn % 4], if turn.is_multiple_of(3) { "-" } else { "" }));
    }
    all.push(NO_DURATIONS[usize::from(flag) % NO_DURATIONS.len()].to_vec());
    let case = |word: &Vec<u8>| {
        let fits = durations::word(word).is_some_and(|filled| durations::admits(flag, filled));
        format!("duration_fits {flag} {} {}", term::bytes(word), term::truth(fits))
    };
    all.iter().map(case).collect()
}

fn pattern_groups() -> Vec<Group> {
    let dates: [&[u8]; 7] = [b"2004", b"2004-05", b"2004-05-20", b"0000", b"2004-13", b"2004-02-30", b"True"];
    let times: [&[u8]; 12] = [
        b"08", b"08:30", b"08:30:15", b"08Z", b"08:30+13:59", b"08:30:15-00:30", b"12-12", b"24", b"08:60",
        b"24:00:00", b"08:30-00:00", b"2004-05",
    ];
    let date = |flag: u8| {
        dates.map(|word| {
            format!(
                "date_fits {flag} {} {}",
                term::bytes(word),
                term::truth(words::date(word).is_some_and(|date| admits_date(flag, date)))
            )
        })
    };
    let time = |flag: u8| {
        times.map(|word| {
            format!(
                "time_fits {flag} {} {}",
                term::bytes(word),
                term::truth(words::time(word).is_some_and(|time| admits_time(flag, time)))
            )
        })
    };
    vec![
        Group {
            about: "date patterns by flag, 1 to 5; no other flag admits anything",
            cases: (0..=6).flat_map(date).collect(),
        },
        Group {
            about: "time patterns by flag, 1 to 4; no other flag admits anything",
            cases: (0..=5).flat_map(time).collect(),
        },
        Group { about: "duration patterns by flag, 1 to 127", cases: (1..=127).flat_map(duration_cases).collect() },
    ]
}
