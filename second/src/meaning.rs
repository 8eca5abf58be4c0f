//! The meaning, read from a constraint text and a data text alone.

use crate::api::{JudgeAnswer, MeaningAnswer};
use crate::constraint::{self, Attribute, Existence, Item, Leaf, LeafBody, Object, Value};
use crate::data::{self, Block, Datum, LeafValue};
use crate::durations;
use crate::numbers;
use crate::patterns;
use crate::words::{self, PartialDate};

pub fn meaning(text: &[u8], data: &[u8]) -> MeaningAnswer {
    let constraint = match constraint::read(text) {
        Ok(tree) => tree,
        Err(fault) => return MeaningAnswer::ConstraintRefused { number: fault.number, place: fault.place },
    };
    let data = match data::read(data) {
        Ok(tree) => tree,
        Err(fault) => return MeaningAnswer::Answer(JudgeAnswer::Refused { number: fault.number, place: fault.place }),
    };
    let walk = Walk { constraint: &constraint, data: &data };
    let failure = walk.object(&constraint.objects[0], &data.blocks[0]);
    MeaningAnswer::Answer(failure.unwrap_or(JudgeAnswer::Valid))
}

fn verdict(reason: u32, record: u32, place: usize) -> Option<JudgeAnswer> {
    Some(JudgeAnswer::Verdict { reason, record, place: place as u64 })
}

/// The two parse trees, walked side by side. Each function answers the first failure.
struct Walk<'a> {
    constraint: &'a constraint::Tree<'a>,
    data: &'a data::Tree<'a>,
}

impl Walk<'_> {
    /// "An object admits a block whose type, if written, is its own and whose members satisfy each attribute."
    fn object(&self, object: &Object, block: &Block) -> Option<JudgeAnswer> {
        if block.type_name.is_some_and(|written| written != object.type_name) {
            return verdict(21, object.number, block.place);
        }
        object.attributes.iter().find_map(|attribute| self.attribute(attribute, block))
    }

    fn attribute(&self, attribute: &Attribute, block: &Block) -> Option<JudgeAnswer> {
        let Some(member) = block.member(attribute.name) else {
            return match attribute.existence {
                Existence::Required => verdict(22, attribute.number, block.place),
                Existence::Forbidden | Existence::Optional => None,
            };
        };
        if attribute.existence == Existence::Forbidden {
            return verdict(23, attribute.number, member.value.place(self.data));
        }
        self.value(&attribute.value, &member.value)
    }

    fn value(&self, value: &Value, datum: &Datum) -> Option<JudgeAnswer> {
        match (value, datum) {
            (Value::Any, _) => None,
            (Value::Object(object), Datum::Block(block)) => {
                self.object(&self.constraint.objects[*object], &self.data.blocks[*block])
            }
            (Value::Object(object), Datum::Leaf(leaf)) => {
                verdict(20, self.constraint.objects[*object].number, leaf.place)
            }
            (Value::Leaf(leaf), Datum::Block(block)) => verdict(20, leaf.number, self.data.blocks[*block].place),
            (Value::Leaf(leaf), Datum::Leaf(datum)) => match admits(leaf, datum.value) {
                Some(true) => None,
                Some(false) => verdict(24, leaf.number, datum.place),
                None => verdict(20, leaf.number, datum.place),
            },
        }
    }
}

/// Whether the leaf admits the value; nothing if the value is unreadable as the kind asked.
fn admits(leaf: &Leaf, value: LeafValue) -> Option<bool> {
    match (&leaf.body, value) {
        (LeafBody::Items(items), value) => items_admit(items, value),
        (LeafBody::Boolean { admits_true, admits_false }, LeafValue::Word(word)) => {
            words::boolean(word).map(|value| if value { *admits_true } else { *admits_false })
        }
        (LeafBody::DatePattern(flag), LeafValue::Word(word)) => {
            words::date(word).map(|date| patterns::admits_date(*flag, date))
        }
        (LeafBody::TimePattern(flag), LeafValue::Word(word)) => {
            words::time(word).map(|time| patterns::admits_time(*flag, time))
        }
        (LeafBody::DurationPattern(flag), LeafValue::Word(word)) => {
            durations::word(word).map(|filled| durations::admits(*flag, filled))
        }
        (_, LeafValue::Text(_)) => None,
    }
}

/// "Lists admit a value in some item; a date interval admits full dates only". All items are of the first's kind.
fn items_admit(items: &[Item], value: LeafValue) -> Option<bool> {
    match (items.first()?, value) {
        (Item::Text(_), LeafValue::Text(string)) => Some(items.iter().any(|item| holds_string(item, string))),
        (Item::Integer(_), LeafValue::Word(word)) => {
            let value = numbers::integer(word)?;
            Some(items.iter().any(|item| matches!(item, Item::Integer((low, high)) if *low <= value && value <= *high)))
        }
        (Item::Date(_), LeafValue::Word(word)) => {
            let date = words::date(word)?;
            Some(items.iter().any(|item| holds_date(item, date)))
        }
        _ => None,
    }
}

fn holds_string(item: &Item, string: &[u8]) -> bool {
    matches!(item, Item::Text(own) if *own == string)
}

fn holds_date(item: &Item, date: PartialDate) -> bool {
    match (item, date) {
        (Item::Date((low, high)), PartialDate::Full(date)) => *low <= date && date <= *high,
        _ => false,
    }
}
