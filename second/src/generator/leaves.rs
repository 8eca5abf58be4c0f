//! One leaf under one attribute: what judging has to answer is worked out here from the paper alone,
//! words read anew.

use super::calendar::{day_of, month_days};
use super::cases::filling;
use super::counts::Job;
use super::data::any_word;
use super::law::{count_judge, count_meaning, ensure, Bench, Outcome};
use super::random::Random;
use super::shape::{clean_leaf, Attribute, Object, Value, HIGHEST, LOWEST};
use super::shapes::smaller_value;
use super::shrink::{smaller_bytes, Candidates, Smaller};
use super::single::Single;
use super::spelling::{spell, Spelling, DATE_PATTERNS, SLOTS, TIME_PATTERNS};
use super::tokens::Style;
use crate::api::{CompileAnswer, JudgeAnswer, MeaningAnswer};

/// A leaf's constraint and the leaf in the data: a word, or a string without its quotes.
#[derive(Clone, Debug, PartialEq, Eq)]
pub struct LeafCase {
    pub value: Value,
    pub leaf: Vec<u8>,
    pub is_string: bool,
    pub spelling: u64,
}

const LEAF: u64 = 30;
const SPELL: u64 = 31;

/// Case `number` of a seed.
pub fn leaf_case(seed: u64, number: u64) -> LeafCase {
    let random = &mut Random::new(seed, LEAF, number);
    let value = clean_leaf(random);
    let is_string = random.one_in(if matches!(value, Value::Strings(_)) { 2 } else { 12 });
    let leaf = if is_string { any_string(random, &value) } else { word(random, &value) };
    LeafCase { value, leaf, is_string, spelling: random.bits() }
}

fn any_string(random: &mut Random, value: &Value) -> Vec<u8> {
    match value {
        Value::Strings(list) if random.coin() => random.pick(list).clone(),
        _ => random.one_of(&[&b"a"[..], b"", b"ab", b"True", b"5", b"2000-01-01", b"P4w"]).to_vec(),
    }
}

/// A word that could be read, with a byte changed at times.
fn word(random: &mut Random, value: &Value) -> Vec<u8> {
    let mut word = any_word(random, value);
    for _ in 0..random.below(3).saturating_sub(random.below(2)) {
        let at = random.below(word.len() + 1);
        let duration = matches!(value, Value::DurationPattern(_)) && random.coin();
        let bytes: &[u8] = if duration { b"PTTymwdhmsYMWDHMS0459-" } else { b"00112345689--++::.ZT_Z" };
        let byte = random.one_of(bytes);
        match random.below(3) {
            0 => word.insert(at, byte),
            1 if at < word.len() => word[at] = byte,
            _ if at < word.len() && word.len() > 1 => drop(word.remove(at)),
            _ => {}
        }
    }
    let no_word = word.starts_with(b"--") || word.first().is_none_or(u8::is_ascii_lowercase);
    if no_word {
        b"0".to_vec()
    } else {
        word
    }
}

impl LeafCase {
    /// The constraint text and the data text.
    pub fn parts(&self) -> (Vec<u8>, Vec<u8>) {
        let attribute = Attribute { name: b"a".to_vec(), existence: 2, value: self.value.clone() };
        let object = Object { type_name: b"A".to_vec(), code: None, attributes: vec![attribute] };
        let random = &mut Random::new(self.spelling, SPELL, 0);
        let tokens = spell(random, &object, Spelling { faults: 0, plain: false });
        let quote: &[u8] = if self.is_string { b"\"" } else { b"" };
        (tokens.text(random, Style::Tight, false), [b"<a=<", quote, &self.leaf, quote, b">>"].concat())
    }

    /// What judging has to answer.
    fn expected(&self) -> JudgeAnswer {
        let verdict = |reason| JudgeAnswer::Verdict { reason, record: 3, place: 3 };
        if !self.is_string && !is_good(&self.leaf) {
            return JudgeAnswer::Refused { number: 5, place: 4 };
        }
        match self.admitted() {
            None => verdict(20),
            Some(false) => verdict(24),
            Some(true) => JudgeAnswer::Valid,
        }
    }

    /// Whether the leaf is admitted; nothing when it can't be read as the kind asked.
    fn admitted(&self) -> Option<bool> {
        let leaf = &self.leaf;
        match (&self.value, self.is_string) {
            (Value::Strings(list), true) => Some(list.contains(leaf)),
            (Value::Booleans(list), false) => Some(list.contains(&boolean(leaf)?)),
            (Value::Integers(list), false) => Some(within(list, integer(leaf)?)),
            (Value::Dates(list), false) => Some(date(leaf)?.1.is_some_and(|day| within(list, day))),
            (Value::DatePattern(flag), false) => Some(parts_fit(DATE_PATTERNS[usize::from(*flag) - 1], date(leaf)?.0)),
            (Value::TimePattern(flag), false) => Some(parts_fit(TIME_PATTERNS[usize::from(*flag) - 1], time(leaf)?)),
            (Value::DurationPattern(flag), false) => Some(duration(leaf)?.iter().all(|slot| flag & (1 << slot) != 0)),
            _ => None,
        }
    }
}

fn within(list: &[(i64, i64)], value: i64) -> bool {
    list.iter().any(|pair| pair.0 <= value && value <= pair.1)
}

/// Whether a pattern lets a value have so many of its three parts.
fn parts_fit(pattern: &[u8], count: usize) -> bool {
    let parts: Vec<&[u8]> = pattern.split(|byte| matches!(byte, b'-' | b':')).collect();
    parts.iter().enumerate().all(|(index, part)| match *part {
        b"??" => true,
        b"XX" => index >= count,
        _ => index < count,
    })
}

fn is_good(word: &[u8]) -> bool {
    boolean(word).is_some()
        || integer(word).is_some()
        || date(word).is_some()
        || time(word).is_some()
        || duration(word).is_some()
}

fn boolean(word: &[u8]) -> Option<bool> {
    match word {
        b"True" => Some(true),
        b"False" => Some(false),
        _ => None,
    }
}

fn integer(word: &[u8]) -> Option<i64> {
    let text = std::str::from_utf8(word).ok()?;
    let digits = text.strip_prefix('-').unwrap_or(text);
    let all_digits = !digits.is_empty() && digits.bytes().all(|byte| byte.is_ascii_digit());
    let needless = digits.len() > 1 && digits.starts_with('0');
    if !all_digits || needless || text == "-0" {
        return None;
    }
    text.parse::<i64>().ok().filter(|value| (LOWEST..=HIGHEST).contains(value))
}

/// The number of two or four digits.
fn digits(bytes: &[u8]) -> Option<i64> {
    let all = bytes.iter().all(u8::is_ascii_digit);
    all.then(|| bytes.iter().fold(0, |sum, byte| 10 * sum + i64::from(byte - b'0')))
}

/// How many parts a date has, and its day number when it is full.
fn date(word: &[u8]) -> Option<(usize, Option<i64>)> {
    let mut parts = word.split(|byte| *byte == b'-');
    let year = parts.next().filter(|part| part.len() == 4).and_then(digits)?;
    let Some(month) = parts.next() else {
        return Some((1, None));
    };
    let month = Some(month).filter(|part| part.len() == 2).and_then(digits)?;
    if !(1..=12).contains(&month) {
        return None;
    }
    let Some(day) = parts.next() else {
        return Some((2, None));
    };
    let day = Some(day).filter(|part| part.len() == 2).and_then(digits)?;
    let real = (1..=month_days(year, month)).contains(&day) && parts.next().is_none();
    real.then(|| (3, Some(day_of(year, month, day))))
}

/// How many parts a time has, its zone set aside.
fn time(word: &[u8]) -> Option<usize> {
    let zone_at = word.iter().position(|byte| matches!(byte, b'Z' | b'+' | b'-')).unwrap_or(word.len());
    let (clock, zone) = word.split_at(zone_at);
    let parts: Vec<&[u8]> = clock.split(|byte| *byte == b':').collect();
    let limits = [23, 59, 59];
    let good = parts.len() <= 3
        && parts.iter().zip(limits).all(|(part, most)| part.len() == 2 && digits(part).is_some_and(|n| n <= most));
    (good && is_zone(zone)).then_some(parts.len())
}

fn is_zone(zone: &[u8]) -> bool {
    let (most, rest) = match zone {
        [] | [b'Z'] => return true,
        [b'+', rest @ ..] => (13, rest),
        [b'-', rest @ ..] => (12, rest),
        _ => return false,
    };
    let (hours, minutes) = match rest {
        [a, b] => (digits(&[*a, *b]), Some(0)),
        [a, b, b':', c, d] => (digits(&[*a, *b]), digits(&[*c, *d])),
        _ => return false,
    };
    let nought = hours == Some(0) && minutes == Some(0);
    hours.is_some_and(|n| n <= most) && minutes.is_some_and(|n| n <= 59) && !(nought && zone[0] == b'-')
}

/// The numbers of the slots that a duration fills, from 0 for years to 6 for seconds. The word is cut at its
/// letters; each piece must name a slot behind the one before it.
fn duration(word: &[u8]) -> Option<Vec<usize>> {
    let text = std::str::from_utf8(word).ok()?;
    let text = text.strip_prefix('-').unwrap_or(text).strip_prefix('P')?;
    let mut slots: Vec<usize> = Vec::new();
    let mut is_time = false;
    for piece in text.split_inclusive(|letter: char| !letter.is_ascii_digit()) {
        if piece == "T" && !is_time {
            is_time = true;
            continue;
        }
        let letter = piece.bytes().last().filter(u8::is_ascii_alphabetic)?.to_ascii_lowercase();
        let part = if is_time { 4..7 } else { 0..4 };
        let slot = part.clone().find(|slot| SLOTS[*slot] == letter)?;
        let follows = slots.last().is_none_or(|last| *last < slot);
        if !follows || !(2..=5).contains(&piece.len()) {
            return None;
        }
        slots.push(slot);
    }
    let last = *slots.last()?;
    (!is_time || last >= 4).then_some(slots)
}

impl Single for LeafCase {
    fn run(&self, bench: &mut Bench) -> Outcome {
        let (text, data) = self.parts();
        let expected = self.expected();
        let mut out = filling(0, 24 * 20 + 5_000);
        let answer = (bench.jobs.compile)(&text, false, &mut out);
        bench.counts.add(Job::Compile, 0);
        let CompileAnswer::Done { length } = answer else {
            return Err(format!("compile: {answer:?}"));
        };
        let table = &out[..length as usize];
        bench.counts.meet(Job::Compile, table);
        let judged = (bench.jobs.judge)(table, 1, &data);
        bench.counts.meet(Job::Judge, table);
        let meant = (bench.jobs.meaning)(&text, &data);
        count_judge(bench, judged);
        count_meaning(bench, meant);
        ensure(judged == expected && meant == MeaningAnswer::Answer(expected), || {
            format!("judge {judged:?}, meaning {meant:?}, the rules say {expected:?}")
        })
    }
}

impl Smaller for LeafCase {
    fn smaller<'a>(&'a self) -> Candidates<'a, Self> {
        let values = smaller_value(&self.value).filter(|value| *value != Value::Any);
        let values = values.map(|value| LeafCase { value, ..self.clone() });
        let leaves = smaller_bytes(&self.leaf).filter(|leaf| self.is_string || !leaf.is_empty());
        let leaves = leaves.filter(|leaf| self.is_string || !leaf.starts_with(b"--"));
        Box::new(values.chain(leaves.map(|leaf| LeafCase { leaf, ..self.clone() })))
    }
}
