//! Spells a constraint's shape as tokens, each item in one of the forms that mean its pair.

use super::calendar::{spelled, LAST_DAY};
use super::random::Random;
use super::shape::{Attribute, Object, Value, HIGHEST, LOWEST};
use super::tokens::Tokens;

pub const DATE_PATTERNS: [&[u8]; 5] = [b"yyyy-mm-dd", b"yyyy-mm-??", b"yyyy-??-??", b"yyyy-mm-XX", b"yyyy-??-XX"];
pub const TIME_PATTERNS: [&[u8]; 4] = [b"Thh:mm:ss", b"Thh:mm:XX", b"Thh:??:XX", b"Thh:??:??"];

/// The letters of a Duration pattern's slots, lowest bit of the flag first.
pub const SLOTS: [u8; 7] = *b"ymwdhms";

/// The Duration pattern with a flag.
pub fn duration_pattern(flag: u8) -> Vec<u8> {
    let mut pattern = vec![b'P'];
    for (bit, letter) in SLOTS.into_iter().enumerate() {
        if bit == 4 && flag > 15 {
            pattern.push(b'T');
        }
        if flag & (1 << bit) != 0 {
            pattern.push(letter);
        }
    }
    pattern
}

/// Tokens that are close to a Duration pattern, or to its end.
pub const NEAR_DURATIONS: [&[u8]; 40] = [
    b"P", b"PT", b"PD", b"PW", b"PTM", b"PdT", b"PymwdT", b"Pdm", b"Pdd", b"Pdw", b"Pmy", b"PTmh", b"PTss", b"Pt",
    b"Ptm", b"Pdt", b"P1d", b"PT5m", b"P4w", b"-P5d", b"PdX", b"Pd_", b"Pd1", b"PTmx", b"Pdh", b"PTd", b"PThd",
    b"PTTm", b"PThTm", b"PPd", b"PdP", b"pd", b"pTm", b"-Pd", b"+Pd", b"Pwd/", b"Td", b"PymwdThmss", b"PXX", b"P??",
];

/// The other spelling of `matches`.
pub const ELEMENT_OF: &[u8] = b"\xE2\x88\x88";

/// Tokens that may turn up at any place when a text is damaged.
pub const STRANGERS: [&[u8]; 68] = [
    b"{", b"}", b",", b"*", b"|", b"..", b"<", b">", b"<=", b">=", b"+/-", b"matches", ELEMENT_OF, b"existence",
    b"True", b"False", b"A", b"a", b"[at0001]", b"[at0001.1]", b"[ at1]", b"[ac1]", b"[at1.]", b"[at]", b"at1", b"0",
    b"1", b"-1", b"007", b"-0", b"00", b"2147483648", b"2000-02-29", b"1900-02-29", b"0000-00-00", b"2000-1-1",
    b"\"a\"", b"\"", b"\"\\\"", b"\"\t\"", b"yyyy-mm-dd", b"yyyy-??-mm", b"yyyy-XX-XX", b"Thh:mm:ss", b"Thh:??:ss",
    b"Thh:mm:??", b"Thh:XX:XX", b"1.5", b"...", b".", b"+", b"/", b"-", b"=", b"_a", b"\x80", b"\xE2\x88", b"\x00",
    b"Pd", b"Pwd", b"PTm", b"PymwdThms", b"P", b"PT", b"PD", b"Pdm", b"P1d", b";",
];

/// How a shape is spelled.
#[derive(Clone, Copy, Debug)]
pub struct Spelling {
    /// How often (in 1,000) a literal gets a fault.
    pub faults: usize,
    /// Only the shortest forms.
    pub plain: bool,
}

impl Spelling {
    fn fault(&self, random: &mut Random) -> bool {
        self.faults > 0 && random.below(1000) < self.faults
    }
}

/// The tokens of an object.
pub fn spell(random: &mut Random, object: &Object, how: Spelling) -> Tokens {
    let mut out = Tokens::new();
    spell_object(random, object, how, &mut out);
    out
}

fn spell_object(random: &mut Random, object: &Object, how: Spelling, out: &mut Tokens) {
    out.push(&object.type_name);
    if let Some(code) = &object.code {
        out.push(&[b"[", &code[..], b"]"].concat());
    }
    open(random, how, out);
    if object.attributes.is_empty() {
        out.push(b"*");
    }
    for attribute in &object.attributes {
        spell_attribute(random, attribute, how, out);
    }
    out.push(b"}");
}

/// `matches {`, in either spelling.
fn open(random: &mut Random, how: Spelling, out: &mut Tokens) {
    out.push(if how.plain || random.one_in(4) { ELEMENT_OF } else { b"matches" });
    out.push(b"{");
}

fn spell_attribute(random: &mut Random, attribute: &Attribute, how: Spelling, out: &mut Tokens) {
    out.push(&attribute.name);
    spell_existence(random, attribute.existence, how, out);
    open(random, how, out);
    spell_value(random, &attribute.value, how, out);
    out.push(b"}");
}

fn spell_existence(random: &mut Random, existence: u8, how: Spelling, out: &mut Tokens) {
    if existence == 2 && (how.plain || random.one_in(2)) {
        return;
    }
    out.push(b"existence");
    open(random, how, out);
    let short = random.coin();
    if how.fault(random) {
        for _ in 0..=random.below(3) {
            out.push(random.one_of(&[&b"0"[..], b"1", b"2", b"..", b"-1", b"00"]));
        }
    } else if existence == 1 {
        push_all(out, &[b"0", b"..", b"1"]);
    } else {
        let end: &[u8] = if existence == 0 { b"0" } else { b"1" };
        if short {
            out.push(end);
        } else {
            push_all(out, &[end, b"..", end]);
        }
    }
    out.push(b"}");
}

fn push_all(out: &mut Tokens, tokens: &[&[u8]]) {
    for token in tokens {
        out.push(token);
    }
}

fn spell_value(random: &mut Random, value: &Value, how: Spelling, out: &mut Tokens) {
    match value {
        Value::Any => out.push(b"*"),
        Value::Object(object) => spell_object(random, object, how, out),
        Value::Booleans(list) => {
            for (index, &truth) in list.iter().enumerate() {
                comma(index, out);
                out.push(if truth { b"True" } else { b"False" });
            }
        }
        Value::Integers(list) => {
            for (index, &pair) in list.iter().enumerate() {
                comma(index, out);
                spell_integers(random, pair, how, out);
            }
        }
        Value::Strings(list) => {
            for (index, string) in list.iter().enumerate() {
                comma(index, out);
                out.push(&[b"\"", &string[..], b"\""].concat());
            }
        }
        Value::Dates(list) => {
            for (index, &pair) in list.iter().enumerate() {
                comma(index, out);
                spell_dates(random, pair, how, out);
            }
        }
        Value::DatePattern(flag) => out.push(DATE_PATTERNS[usize::from(*flag) - 1]),
        Value::TimePattern(flag) => out.push(TIME_PATTERNS[usize::from(*flag) - 1]),
        Value::DurationPattern(flag) if how.fault(random) => spoiled_duration(random, *flag, out),
        Value::DurationPattern(flag) => out.push(&duration_pattern(*flag)),
    }
}

/// A Duration pattern with a fault: something behind it or before it, or another token close to it.
fn spoiled_duration(random: &mut Random, flag: u8, out: &mut Tokens) {
    let pattern = duration_pattern(flag);
    match random.below(12) {
        0 => push_all(out, &[&pattern, b",", b"Pw"]),
        1 => push_all(out, &[&pattern, b";"]),
        2 => push_all(out, &[&pattern, b"Pd"]),
        3 => push_all(out, &[&pattern, b"matches", b"{", b"*", b"}"]),
        4 => push_all(out, &[&pattern, b"[at1]", b"matches", b"{", b"*", b"}"]),
        5 => push_all(out, &[&pattern, b"[at1]"]),
        6 => push_all(out, &[&pattern, b"]"]),
        7 => between_bars(out, &[&pattern]),
        8 => push_all(out, &[b"-", &pattern]),
        _ => out.push(random.one_of(&NEAR_DURATIONS)),
    }
}

fn comma(index: usize, out: &mut Tokens) {
    if index > 0 {
        out.push(b",");
    }
}

fn spell_integers(random: &mut Random, pair: (i64, i64), how: Spelling, out: &mut Tokens) {
    let (low, high) = pair;
    if how.fault(random) {
        return spoiled_integers(random, pair, out);
    }
    if low == high && (how.plain || random.coin()) {
        return out.push(low.to_string().as_bytes());
    }
    if (high - low) % 2 == 0 && high >= low && random.one_in(4) {
        let middle = (low + high) / 2;
        let width = (high - low) / 2;
        if width <= HIGHEST {
            return between_bars(out, &[middle.to_string().as_bytes(), b"+/-", width.to_string().as_bytes()]);
        }
    }
    spell_interval(random, pair, (LOWEST, HIGHEST), i64::to_string_form, out);
}

/// Spelling of one end of an interval.
trait Form {
    fn to_string_form(self) -> String;
    fn to_date_form(self) -> String;
}

impl Form for i64 {
    fn to_string_form(self) -> String {
        self.to_string()
    }

    /// Day numbers outside the calendar become dates that do not exist.
    fn to_date_form(self) -> String {
        if (0..=LAST_DAY).contains(&self) {
            spelled(self)
        } else if self < 0 {
            String::from("0000-00-31")
        } else {
            String::from("9999-12-32")
        }
    }
}

fn between_bars(out: &mut Tokens, tokens: &[&[u8]]) {
    out.push(b"|");
    push_all(out, tokens);
    out.push(b"|");
}

fn spell_dates(random: &mut Random, pair: (i64, i64), how: Spelling, out: &mut Tokens) {
    if how.fault(random) {
        return spoiled_dates(random, pair, out);
    }
    spell_interval(random, pair, (0, LAST_DAY), i64::to_date_form, out);
}

/// One of the forms of an interval that mean the pair in the range.
fn spell_interval(random: &mut Random, pair: (i64, i64), range: (i64, i64), form: fn(i64) -> String, out: &mut Tokens) {
    let (low, high) = pair;
    if low == range.0 && random.coin() {
        if high < range.1 && random.coin() {
            return between_bars(out, &[b"<", form(high + 1).as_bytes()]);
        }
        return between_bars(out, &[b"<=", form(high).as_bytes()]);
    }
    if high == range.1 && random.coin() {
        if low > range.0 && random.coin() {
            return between_bars(out, &[b">", form(low - 1).as_bytes()]);
        }
        return between_bars(out, &[b">=", form(low).as_bytes()]);
    }
    if low == high && random.coin() {
        return between_bars(out, &[form(low).as_bytes()]);
    }
    let open_low = low > range.0 && random.one_in(3);
    let open_high = high < range.1 && random.one_in(3);
    out.push(b"|");
    if open_low {
        out.push(b">");
    }
    out.push(form(low - i64::from(open_low)).as_bytes());
    out.push(b"..");
    if open_high {
        out.push(b"<");
    }
    out.push(form(high + i64::from(open_high)).as_bytes());
    out.push(b"|");
}

const BAD_INTEGERS: [&[u8]; 12] = [
    b"007", b"-0", b"00", b"-01", b"2147483648", b"-2147483649", b"99999999999999999999", b"4294967296", b"01",
    b"-99999999999999999999", b"0000000000000000000001", b"18446744073709551616",
];

const BAD_DATES: [&[u8]; 10] = [
    b"1900-02-29", b"2001-02-29", b"2000-02-30", b"2000-04-31", b"2000-00-10", b"2000-13-10", b"2000-10-00",
    b"2000-10-32", b"0000-00-00", b"9999-99-99",
];

/// An integer item with a fault, or at the edge of one.
fn spoiled_integers(random: &mut Random, pair: (i64, i64), out: &mut Tokens) {
    let low = pair.0.to_string();
    let high = pair.1.to_string();
    let next = (pair.0 + 1).to_string();
    let bad = random.one_of(&BAD_INTEGERS);
    let (low, high, next) = (low.as_bytes(), high.as_bytes(), next.as_bytes());
    match random.below(18) {
        0 => out.push(bad),
        1 => between_bars(out, &[bad, b"..", high]),
        2 => between_bars(out, &[low, b"..", bad]),
        3 => between_bars(out, &[b">", low, b"..", b"<", next]),
        4 => between_bars(out, &[low, b"..", b"<", low]),
        5 => between_bars(out, &[b">", high, b"..", high]),
        6 => between_bars(out, &[b">", b"2147483647"]),
        7 => between_bars(out, &[b"<", b"-2147483648"]),
        8 => between_bars(out, &[b"2147483600", b"+/-", b"48"]),
        9 => between_bars(out, &[b"-2147483600", b"+/-", b"49"]),
        10 => between_bars(out, &[low, b"+/-", b"-1"]),
        11 => between_bars(out, &[low, b"+/-", bad]),
        12 => between_bars(out, &[b"<", bad]),
        13 => between_bars(out, &[b">=", bad]),
        14 => between_bars(out, &[b"<=", low, b"..", high]),
        15 => between_bars(out, &[bad]),
        16 => between_bars(out, &[next, b"..", low]),
        _ => between_bars(out, &[bad, b"..", random.one_of(&BAD_INTEGERS)]),
    }
}

/// A date item with a fault, or at the edge of one.
fn spoiled_dates(random: &mut Random, pair: (i64, i64), out: &mut Tokens) {
    let low = pair.0.to_date_form();
    let high = pair.1.to_date_form();
    let (low, high) = (low.as_bytes(), high.as_bytes());
    let bad = random.one_of(&BAD_DATES);
    match random.below(12) {
        0 => out.push(low),
        1 => between_bars(out, &[bad, b"..", high]),
        2 => between_bars(out, &[low, b"..", bad]),
        3 => between_bars(out, &[b">", low, b"..", b"<", low]),
        4 => between_bars(out, &[b">", b"9999-12-31"]),
        5 => between_bars(out, &[b"<", b"0000-01-01"]),
        6 => between_bars(out, &[b">", b"2000-02-28", b"..", b"<", b"2000-03-01"]),
        7 => between_bars(out, &[b">", b"1900-02-28", b"..", b"<", b"1900-03-01"]),
        8 => between_bars(out, &[low, b"+/-", b"1"]),
        9 => between_bars(out, &[high, b"..", b"<", low]),
        10 => between_bars(out, &[bad]),
        _ => between_bars(out, &[b">=", bad]),
    }
}
