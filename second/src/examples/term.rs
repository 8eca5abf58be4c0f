//! Values as antt terms. A term that is more than one word is bracketed.

use crate::constraint::{self, Existence, Item, Leaf, LeafBody, Value};
use crate::data::{self, Datum, LeafValue};
use crate::faults::Fault;

/// The longest text that is quoted; a longer one must be one byte many times.
const LONGEST_QUOTED: usize = 4_000;

/// A text: each character stands for the byte of its number.
pub fn bytes(text: &[u8]) -> String {
    if text.is_empty() {
        return String::from("[]");
    }
    if text.len() > LONGEST_QUOTED {
        assert!(text.iter().all(|byte| *byte == text[0]), "a long text of many bytes");
        return format!("(replicate {} {})", number(text.len() as u64), text[0]);
    }
    let quoted: String = text.iter().map(|byte| char::from(*byte)).collect();
    format!("(bytes {quoted:?})")
}

/// A number, with `_` between each three digits from 10,000 on.
pub fn number(value: u64) -> String {
    let digits = value.to_string();
    if digits.len() < 5 {
        return digits;
    }
    let mut out = String::new();
    for (index, digit) in digits.chars().enumerate() {
        if index > 0 && (digits.len() - index).is_multiple_of(3) {
            out.push('_');
        }
        out.push(digit);
    }
    out
}

/// An integer as its distance from -2,147,483,648.
pub fn distance(value: i32) -> String {
    number((i64::from(value) - i64::from(i32::MIN)) as u64)
}

pub fn truth(value: bool) -> &'static str {
    if value {
        "true"
    } else {
        "false"
    }
}

pub fn option(value: Option<String>) -> String {
    match value {
        Some(term) => format!("(Some {term})"),
        None => String::from("None"),
    }
}

/// A list, bracketed.
pub fn list(terms: &[String]) -> String {
    if terms.is_empty() {
        return String::from("[]");
    }
    format!("({} ∷ [])", terms.join(" ∷ "))
}

/// A refusal's number and place.
pub fn fault(fault: Fault) -> String {
    format!("{} {}", fault.number, number(fault.place))
}

/// How bytes are spelled.
pub type Spell = fn(&[u8]) -> String;

/// Numbers as a list, bracketed.
pub fn numbers(all: impl Iterator<Item = u32>) -> String {
    list(&all.map(|each| each.to_string()).collect::<Vec<_>>())
}

/// The object of that index with what it holds.
pub fn object(tree: &constraint::Tree, index: usize, spell: Spell) -> String {
    let object = &tree.objects[index];
    let mut attributes = String::from("no_more");
    for attribute in object.attributes.iter().rev() {
        let existence = match attribute.existence {
            Existence::Forbidden => 0,
            Existence::Optional => 1,
            Existence::Required => 2,
        };
        let value = match &attribute.value {
            Value::Any => String::from("any"),
            Value::Object(inner) => format!("(nested {})", self::object(tree, *inner, spell)),
            Value::Leaf(inner) => format!("(leaf {})", leaf(inner, inner.number, spell)),
        };
        let name = spell(attribute.name);
        attributes = format!("(attribute_with {} {existence} {name} {value} {attributes})", attribute.number);
    }
    format!("(object_with {} {} {} {attributes})", object.number, spell(object.type_name), spell(object.code))
}

/// A leaf whose first record has that number.
pub fn leaf(leaf: &Leaf, first: u32, spell: Spell) -> String {
    match &leaf.body {
        LeafBody::Boolean { admits_true, admits_false } => {
            format!("(single booleans {first} {})", u32::from(*admits_true) + 2 * u32::from(*admits_false))
        }
        LeafBody::DatePattern(flag) => format!("(single date_pattern {first} {flag})"),
        LeafBody::TimePattern(flag) => format!("(single time_pattern {first} {flag})"),
        LeafBody::DurationPattern(flag) => format!("(single duration_pattern {first} {flag})"),
        LeafBody::Items(items) => {
            let kind = match items.first() {
                Some(Item::Integer(_)) => "ranges integers",
                Some(Item::Date(_)) => "ranges dates",
                _ => "texts",
            };
            let terms: Vec<String> =
                items.iter().zip(first..).map(|(each, number)| item(each, number, spell)).collect();
            format!("({kind} {})", list(&terms))
        }
    }
}

fn item(item: &Item, record: u32, spell: Spell) -> String {
    match item {
        Item::Integer((low, high)) => format!("range {record} {} {}", distance(*low), distance(*high)),
        Item::Date((low, high)) => {
            let day = |date: &crate::calendar::Date| number(u64::from(date.packed()));
            format!("range {record} {} {}", day(low), day(high))
        }
        Item::Text(text) => format!("item {record} {}", spell(text)),
    }
}

/// The block of that index with what it holds.
pub fn datum(tree: &data::Tree, index: usize) -> String {
    let block = &tree.blocks[index];
    let mut members = String::from("no_more");
    for member in block.members.iter().rev() {
        let content = match &member.value {
            Datum::Block(inner) => format!("(block {})", datum(tree, *inner)),
            Datum::Leaf(leaf) => match leaf.value {
                LeafValue::Text(text) => format!("(string {} {})", leaf.place, bytes(text)),
                LeafValue::Word(word) => format!("(word {} {})", leaf.place, bytes(word)),
            },
        };
        members = format!("(member {} {content} {members})", bytes(member.name));
    }
    format!("(datum {} {} {members})", block.place, option(block.type_name.map(bytes)))
}
