//! Texts without faults: the table that compiling has to make of them is known from the shape, and
//! data made to fit is valid.

use super::cases::{clean_data, clean_shape, filling, LONGEST_TABLE};
use super::counts::Job;
use super::law::{count_judge, count_meaning, Bench, Outcome};
use super::random::Random;
use super::shape::{Object, Value};
use super::shrink::{smaller_list, Candidates, Smaller};
use super::single::Single;
use super::spelling::{spell, Spelling};
use super::tables::table_of;
use super::tokens::any_style;
use crate::api::{CompileAnswer, JudgeAnswer, MeaningAnswer};

/// A shape without faults and the stream that spells it and makes its data.
#[derive(Clone, Debug, PartialEq, Eq)]
pub struct ShapeCase {
    pub shape: Object,
    pub spelling: u64,
}

const SHAPE: u64 = 20;
const SPELL: u64 = 21;

/// Case `number` of a seed.
pub fn shape_case(seed: u64, number: u64) -> ShapeCase {
    let random = &mut Random::new(seed, SHAPE, number);
    ShapeCase { shape: clean_shape(random), spelling: random.bits() }
}

impl ShapeCase {
    /// The text, whether it is compiled little-endian, and a data text that fits.
    pub fn parts(&self) -> (Vec<u8>, bool, Vec<u8>) {
        let random = &mut Random::new(self.spelling, SPELL, 0);
        let tokens = spell(random, &self.shape, Spelling { faults: 0, plain: false });
        let style = any_style(random);
        let text = tokens.text(random, style, false);
        let little = random.coin();
        (text, little, clean_data(random, &self.shape))
    }
}

impl Single for ShapeCase {
    /// Compiling makes the shape's table, and the data that fits is valid.
    fn run(&self, bench: &mut Bench) -> Outcome {
        let jobs = bench.jobs;
        let (text, little, data) = self.parts();
        let mut expected = table_of(&self.shape);
        for record in &mut expected.records {
            record.set_order(little);
        }
        let expected = expected.bytes();
        let mut out = filling(0, LONGEST_TABLE);
        let answer = (jobs.compile)(&text, little, &mut out);
        bench.counts.add(Job::Compile, 0);
        if answer != (CompileAnswer::Done { length: expected.len() as u64 }) {
            return Err(format!("compile: {answer:?}, not {} bytes done", expected.len()));
        }
        if out[..expected.len()] != expected[..] {
            return Err(String::from("compile: another table than the shape's"));
        }
        bench.counts.meet(Job::Compile, &expected);
        let judged = (jobs.judge)(&expected, 1, &data);
        bench.counts.meet(Job::Judge, &expected);
        let meant = (jobs.meaning)(&text, &data);
        count_judge(bench, judged);
        count_meaning(bench, meant);
        if judged != JudgeAnswer::Valid || meant != MeaningAnswer::Answer(JudgeAnswer::Valid) {
            return Err(format!("data made to fit: judge {judged:?}, meaning {meant:?}"));
        }
        Ok(())
    }
}

impl Smaller for ShapeCase {
    fn smaller<'a>(&'a self) -> Candidates<'a, Self> {
        Box::new(smaller_object(&self.shape).map(|shape| ShapeCase { shape, ..self.clone() }))
    }
}

fn smaller_object(object: &Object) -> Candidates<'_, Object> {
    let code = object.code.iter().map(|_| Object { code: None, ..object.clone() });
    let attributes = smaller_list(&object.attributes, |attribute| {
        Box::new(smaller_value(&attribute.value).map(|value| {
            let mut attribute = attribute.clone();
            attribute.value = value;
            attribute
        }))
    });
    Box::new(code.chain(attributes.map(|attributes| Object { attributes, ..object.clone() })))
}

/// A leaf or object with less in it, `*` first.
pub(super) fn smaller_value(value: &Value) -> Candidates<'_, Value> {
    match value {
        Value::Any => Box::new(std::iter::empty()),
        Value::Object(object) => Box::new(std::iter::once(Value::Any).chain(smaller_object(object).map(Value::Object))),
        Value::Integers(list) => any_or_fewer(list, Value::Integers),
        Value::Dates(list) => any_or_fewer(list, Value::Dates),
        Value::Strings(list) => any_or_fewer(list, Value::Strings),
        Value::Booleans(list) => any_or_fewer(list, Value::Booleans),
        Value::DatePattern(_) | Value::TimePattern(_) => Box::new(std::iter::once(Value::Any)),
        Value::DurationPattern(flag) => {
            let fewer = (0..7).map(move |bit| flag & !(1 << bit)).filter(move |less| *less != 0 && less < flag);
            Box::new(std::iter::once(Value::Any).chain(fewer.map(Value::DurationPattern)))
        }
    }
}

/// `*`, or the list with an item less.
fn any_or_fewer<T: Clone>(list: &[T], value: fn(Vec<T>) -> Value) -> Candidates<'_, Value> {
    let fewer = smaller_list(list, |_| Box::new(std::iter::empty())).filter(|list| !list.is_empty()).map(value);
    Box::new(std::iter::once(Value::Any).chain(fewer))
}
