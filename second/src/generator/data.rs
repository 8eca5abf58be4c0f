//! Data texts shaped after a constraint: right in most places, and wrong at chosen ones.

use super::calendar::{spelled, LAST_DAY};
use super::random::Random;
use super::shape::{duration_flag, Object, Value, HIGHEST, LOWEST, NAMES, TYPES};
use super::spelling::SLOTS;
use super::tokens::Tokens;

/// Tokens that may turn up at any place when a data text is damaged.
pub const STRANGERS: [&[u8]; 46] = [
    b"<", b">", b"=", b"(", b")", b"<>", b"(A)", b"a", b"A", b"\"a\"", b"\"\"", b"True", b"5", b"-5", b"2004",
    b"08:30", b"a-b", b"a.b", b"matches", b"existence", b"\"", b"\"\\\"", b"--x\n", b"--", b"{", b"|", b",", b"*",
    b"+5", b".", b"_", b"\x80", b"\x00", b"/", b"5--3", b"T08:30", b"[at1]", b"(True)", b"(a)", b"\"\t\"", b"P5d",
    b"-PT5m", b"Pd", b"p5d", b"--P5d", b"(Pd)",
];

/// Words of every form, good ones first.
const GOOD_WORDS: [&[u8]; 54] = [
    b"True", b"False", b"0", b"-1", b"2147483647", b"-2147483648", b"2004", b"0000", b"9999", b"2004-05",
    b"2004-02-29", b"2000-02-29", b"0000-01-01", b"9999-12-31", b"00", b"08", b"23", b"24", b"23:59", b"23:59:59",
    b"00:00:00Z", b"08Z", b"08+01", b"08-01", b"08:30+13:59", b"08:30-12:59", b"08:30:15-00:30", b"08+00", b"08+00:00",
    b"08-05", b"08:30+13", b"08:30-12", b"08:30:15+00:30", b"1", b"10", b"-10", b"2004-12-31", b"1900-02-28",
    b"08:30:15Z", b"0000-12", b"2004-01", b"20", b"19", b"12:00:00+05:30", b"P12w3d", b"P12W3D", b"-P5d", b"P0d",
    b"P0005d", b"PT5M3S", b"P5m", b"PT5m", b"P1y2m3w4dT5h6m7s", b"-P9999y9999m9999w9999dT9999h9999m9999s",
];

const BAD_WORDS: [&[u8]; 70] = [
    b"24:00:00", b"24:00", b"08:60", b"08:30:60", b"08:30:15:00", b"8:30", b"08:3", b"08:30:", b"08:30+14",
    b"08:30+14:00", b"08:30-13", b"08:30-00", b"08-00:00", b"08:30-00:00", b"08:30z", b"08:30+1", b"08:30+01:60",
    b"08:30+0130", b"2004-13", b"2004-00", b"2004-02-30", b"1900-02-29", b"2004-5", b"20040506", b"2004-05-",
    b"99999999999", b"2147483648", b"-2147483649", b"-0", b"00012", b"-01", b"+5", b"TRUE", b"Tru", b"Truee",
    b"T08:30", b".", b":", b"1.5", b"1_000", b"_", b"5--3", b"-", b"08:30+01:00Z", b"P", b"PT", b"-P", b"P5", b"P5dT",
    b"Pd", b"PTm", b"P00005d", b"P1d2w", b"P1w1w", b"P1w1W", b"PT1s1h", b"P1.5d", b"+P5d", b"Pt5m", b"P5d_", b"P1h",
    b"PT1d", b"P5dT5", b"PTT5m", b"P-5d", b"PP5d", b"P5dt5m", b"-p5d", b"P5x", b"P12345y",
];

const STRINGS: [&[u8]; 8] = [b"", b"a", b"ab", b"A", b" ", b"--", b"<>", b"b"];

/// What a random data text may hold.
#[derive(Clone, Debug)]
pub struct DataPlan {
    /// How often (in 1,000) a place is made wrong.
    pub wrong: usize,
    /// How many places may still be made wrong.
    pub left: usize,
    /// How often (in 1,000) a word, name or string gets a fault of its own.
    pub faults: usize,
    /// A member that nobody named nests down to this level; 0 for none.
    pub deep: usize,
}

impl DataPlan {
    /// One of the usual plans: no fault, one wrong place, several, or faults of the text.
    pub fn any(random: &mut Random) -> DataPlan {
        let (wrong, left, faults) = match random.below(8) {
            0 | 1 => (0, 0, 0),
            2..=4 => (random.one_of(&[60, 150, 400]), 1, 0),
            5 | 6 => (100, 4, 0),
            _ => (60, 2, 60),
        };
        let deep = if random.one_in(40) { 15 + random.below(4) } else { 0 };
        DataPlan { wrong, left, faults, deep }
    }

    fn wrong(&mut self, random: &mut Random) -> bool {
        let here = self.left > 0 && random.below(1000) < self.wrong;
        self.left -= usize::from(here);
        here
    }

    fn fault(&self, random: &mut Random) -> bool {
        self.faults > 0 && random.below(1000) < self.faults
    }
}

/// The tokens of a data text for an object.
pub fn data(random: &mut Random, object: &Object, plan: &mut DataPlan) -> Tokens {
    let mut out = Tokens::new();
    block(random, object, plan, 1, &mut out);
    out
}

fn block(random: &mut Random, object: &Object, plan: &mut DataPlan, level: usize, out: &mut Tokens) {
    if random.coin() && plan.wrong(random) {
        write_type(random, plan, random_type(&object.type_name), out);
    } else if random.coin() {
        write_type(random, plan, &object.type_name, out);
    }
    out.push(b"<");
    let mut order: Vec<usize> = (0..object.attributes.len()).collect();
    if random.one_in(4) {
        random.shuffle(&mut order);
    }
    let mut given: Vec<&[u8]> = Vec::new();
    for index in order {
        let attribute = &object.attributes[index];
        if random.one_in(10) {
            stranger(random, object, plan, level, &mut given, out);
        }
        let present = match attribute.existence {
            0 => plan.wrong(random),
            1 => random.percent(65),
            _ => !plan.wrong(random),
        };
        let twice = given.contains(&&attribute.name[..]);
        if present && (!twice || plan.wrong(random)) {
            member(random, &attribute.name, plan, out);
            value(random, &attribute.value, plan, level, out);
            given.push(&attribute.name);
        }
    }
    if random.one_in(10) || (level == 1 && plan.deep > 0) {
        stranger(random, object, plan, level, &mut given, out);
    }
    out.push(b">");
}

/// A type that is close to the one given, but another.
fn random_type(own: &[u8]) -> &'static [u8] {
    match own {
        b"A" => b"AB",
        b"AB" => b"A",
        [b'E', ..] => b"ELEMENTS",
        _ => b"Other",
    }
}

fn write_type(random: &mut Random, plan: &DataPlan, name: &[u8], out: &mut Tokens) {
    out.push(b"(");
    if plan.fault(random) {
        let long = vec![b'T'; 63 + random.below(3)];
        let others = [&long[..], b"True", b"False", b"a", b"A-b", b"A.b", b"5", b"", b"\"A\""];
        out.push(random.one_of(&others));
    } else {
        out.push(name);
    }
    out.push(b")");
}

/// The name of a member and `=`.
fn member(random: &mut Random, name: &[u8], plan: &DataPlan, out: &mut Tokens) {
    if plan.fault(random) {
        let long = vec![b'n'; 63 + random.below(3)];
        let others = [&long[..], b"matches", b"existence", b"A", b"a-b", b"_a", b"5"];
        out.push(random.one_of(&others));
    } else {
        out.push(name);
    }
    out.push(b"=");
}

/// A member that the object does not name (or, rarely, one given before).
fn stranger(
    random: &mut Random,
    object: &Object,
    plan: &mut DataPlan,
    level: usize,
    given: &mut Vec<&[u8]>,
    out: &mut Tokens,
) {
    let mut name = random.one_of(&NAMES);
    if let (Some(first), true) = (given.first(), plan.wrong(random)) {
        name = first;
    } else if object.attributes.iter().any(|a| a.name == name) || given.contains(&name) {
        return;
    }
    given.push(name);
    member(random, name, plan, out);
    let deep = std::mem::take(&mut plan.deep);
    if deep > level {
        deep_block(random, plan, deep - level, out);
    } else {
        anything(random, plan, level + 1, out);
    }
}

/// Blocks one inside the other, so many levels.
fn deep_block(random: &mut Random, plan: &DataPlan, levels: usize, out: &mut Tokens) {
    for index in 0..levels {
        if random.one_in(6) {
            let name = random.pick(&TYPES);
            write_type(random, plan, name, out);
        }
        out.push(b"<");
        if index + 1 < levels {
            let name = random.pick(&NAMES);
            member(random, name, plan, out);
        }
    }
    for _ in 0..levels {
        out.push(b">");
    }
}

/// Any leaf or small block; a block would have this level, and below 16 there is none without faults.
fn anything(random: &mut Random, plan: &DataPlan, level: usize, out: &mut Tokens) {
    if random.percent(60) || (level > 16 && plan.faults == 0) {
        return any_leaf(random, plan, out);
    }
    if random.one_in(3) {
        let name = random.pick(&TYPES);
        write_type(random, plan, name, out);
    }
    out.push(b"<");
    if level < 12 && random.one_in(3) {
        member(random, b"a", plan, out);
        anything(random, plan, level + 1, out);
        if random.coin() {
            member(random, b"b", plan, out);
            anything(random, plan, level + 1, out);
        }
    }
    out.push(b">");
}

fn any_leaf(random: &mut Random, plan: &DataPlan, out: &mut Tokens) {
    if random.one_in(4) {
        let string = random.pick(&STRINGS);
        string_leaf(random, plan, string, out);
    } else {
        let word = random.pick(&GOOD_WORDS);
        word_leaf(random, plan, word, out);
    }
}

fn word_leaf(random: &mut Random, plan: &DataPlan, word: &[u8], out: &mut Tokens) {
    out.push(b"<");
    out.push(if plan.fault(random) { random.one_of(&BAD_WORDS) } else { word });
    out.push(b">");
}

fn string_leaf(random: &mut Random, plan: &DataPlan, string: &[u8], out: &mut Tokens) {
    out.push(b"<");
    if plan.fault(random) {
        let long = [b"\"", &vec![b's'; 254 + random.below(4)][..], b"\""].concat();
        let others = [&long[..], b"\"", b"\"\\\"", b"\"\n\"", b"\"\x7f\"", b"\"\x80\""];
        out.push(random.one_of(&others));
    } else {
        out.push(&[b"\"", string, b"\""].concat());
    }
    out.push(b">");
}

/// A value for an attribute: right, or wrong in one way.
fn value(random: &mut Random, value: &Value, plan: &mut DataPlan, level: usize, out: &mut Tokens) {
    let wrong = plan.wrong(random);
    match value {
        Value::Any => anything(random, plan, level + 1, out),
        Value::Object(_) if wrong => any_leaf(random, plan, out),
        Value::Object(object) => block(random, object, plan, level + 1, out),
        _ if wrong && random.one_in(3) => {
            if random.coin() {
                write_type(random, plan, b"A", out);
            }
            push_empty_block(out);
        }
        _ if wrong && random.coin() => any_leaf(random, plan, out),
        Value::Strings(list) => {
            let item = random.pick(list).clone();
            let item = if wrong { altered(random, item) } else { item };
            string_leaf(random, plan, &item, out);
        }
        _ => {
            let word = word(random, value, wrong);
            word_leaf(random, plan, word.as_bytes(), out);
        }
    }
}

fn push_empty_block(out: &mut Tokens) {
    out.push(b"<");
    out.push(b">");
}

/// A string that differs in its last byte or its length.
fn altered(random: &mut Random, mut string: Vec<u8>) -> Vec<u8> {
    match random.below(3) {
        0 if string.len() < 255 => string.push(b'x'),
        1 if !string.is_empty() => drop(string.pop()),
        _ => match string.last_mut() {
            Some(last) => *last = if *last == b'y' { b'z' } else { b'y' },
            None => string.push(b'x'),
        },
    }
    string
}

/// A word for a leaf: one that it admits, one just outside, or any good or bad word.
pub fn any_word(random: &mut Random, value: &Value) -> Vec<u8> {
    match random.below(6) {
        0 => random.one_of(&GOOD_WORDS).to_vec(),
        1 => random.one_of(&BAD_WORDS).to_vec(),
        part => word(random, value, part < 4).into_bytes(),
    }
}

/// A word that a leaf admits, or one just outside.
fn word(random: &mut Random, value: &Value, wrong: bool) -> String {
    match value {
        Value::Booleans(list) => {
            let truth = random.pick(list) ^ wrong;
            String::from(if truth { "True" } else { "False" })
        }
        Value::Integers(list) => near(random, list, wrong, LOWEST, HIGHEST).to_string(),
        Value::Dates(list) if wrong && random.one_in(3) => {
            let parts = 1 + random.below(2);
            date_word(near(random, list, false, 0, LAST_DAY), parts)
        }
        Value::Dates(list) => spelled(near(random, list, wrong, 0, LAST_DAY)),
        Value::DatePattern(flag) => {
            let parts = parts(random, date_parts(*flag), wrong);
            date_word(random.between(0, LAST_DAY), parts)
        }
        Value::TimePattern(flag) => {
            let parts = parts(random, time_parts(*flag), wrong);
            time_word(random, parts)
        }
        Value::DurationPattern(flag) => duration_word(random, *flag, wrong),
        Value::Any | Value::Object(_) | Value::Strings(_) => String::from("5"),
    }
}

/// A duration that fills some slots of a pattern, or, if wrong, perhaps others too.
fn duration_word(random: &mut Random, flag: u8, wrong: bool) -> String {
    let some = flag & random.byte();
    let filled = match (wrong, random.below(3)) {
        (true, 0) => duration_flag(random),
        (true, 1) => !flag & 127,
        (true, _) => some | 1 << random.below(7),
        (false, 0) => some,
        (false, _) => flag,
    };
    let filled = if filled & 127 == 0 { flag } else { filled & 127 };
    let mut word = String::from(if random.one_in(4) { "-P" } else { "P" });
    for (bit, letter) in SLOTS.into_iter().enumerate() {
        if bit == 4 && filled > 15 {
            word.push('T');
        }
        if filled & (1 << bit) != 0 {
            let letter = if random.one_in(3) { letter.to_ascii_uppercase() } else { letter };
            word.push_str(random.one_of(&["0", "1", "5", "12", "00", "0005", "040", "9999"]));
            word.push(char::from(letter));
        }
    }
    word
}

/// A value in one of the pairs, at an end in most cases, or just outside one.
fn near(random: &mut Random, list: &[(i64, i64)], wrong: bool, low: i64, high: i64) -> i64 {
    let pair = random.one_of(list);
    let value = match (wrong, random.below(5)) {
        (true, 0..=2) => pair.1 + 1,
        (true, _) => pair.0 - 1,
        (false, 0 | 1) => pair.0,
        (false, 2 | 3) => pair.1,
        (false, _) => random.between(pair.0, pair.1),
    };
    value.clamp(low, high)
}

/// How many parts a date pattern admits.
fn date_parts(flag: u8) -> &'static [usize] {
    [&[3][..], &[2, 3], &[1, 2, 3], &[2], &[1, 2]][usize::from(flag) - 1]
}

/// How many parts a time pattern admits.
fn time_parts(flag: u8) -> &'static [usize] {
    [&[3][..], &[2], &[1, 2], &[1, 2, 3]][usize::from(flag) - 1]
}

fn parts(random: &mut Random, admitted: &[usize], wrong: bool) -> usize {
    if wrong {
        1 + random.below(3)
    } else {
        random.one_of(admitted)
    }
}

fn date_word(day: i64, parts: usize) -> String {
    let full = spelled(day);
    String::from(&full[..[4, 7, 10][parts - 1]])
}

fn time_word(random: &mut Random, parts: usize) -> String {
    let hour = random.one_of(&[0, 8, 12, 23]);
    let minute = random.one_of(&[0, 30, 59]);
    let second = random.one_of(&[0, 15, 59]);
    let full = format!("{hour:02}:{minute:02}:{second:02}");
    let zones = ["", "", "Z", "+01", "-01", "+13:59", "-12:59", "+00", "+00:00", "-00:30", "+05:30", "-12", "+13"];
    format!("{}{}", &full[..[2, 5, 8][parts - 1]], random.pick(&zones))
}
