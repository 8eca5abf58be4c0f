//! Leaves alone, each with what is read or with its refusal's number and place, given the number of the next record.

use super::leaves::{alone, leaf_lists, left_out};
use super::table::{groups, Group, Table};
use super::term;
use crate::constraint::{self, Leaf, Value};
use crate::faults::Fault;
use crate::tokens::{token_at, value_token_at, Kind};

const USES: &[&str] = &[
    "mathlib.Core.Path.{◌≡◌, refl}",
    "mathlib.Core.List.{List, [], ◌∷◌}",
    "Rattle.lexis.specs.Text.{bytes}",
    "Rattle.lexis.proofs.Tables.{wrong}",
    "Rattle.meaning.specs.Constraints.{single, ranges, texts, booleans, integers, date_pattern, dates, time_pattern, duration_pattern}",
    "Rattle.meaning.proofs.Trees.{range, item}",
    "Rattle.cadl_items.proofs.Computes.{items_compute}",
    "Rattle.cadl_items.proofs.Examples.{Case, reads, refuses, right}",
];

pub fn tables() -> Vec<Table> {
    let mut lists = groups(&alone(leaf_lists(), b"}"), |text| case(text, 1));
    lists.extend(groups(&alone(left_out(), b"}"), |text| case(text, 1)));
    lists.push(counted());
    vec![Table {
        holder: "cadl_items",
        module: "LeafTable",
        about: "Leaves with a closing brace behind them.",
        uses: USES,
        case: "Case",
        right: "right",
        unfolding: "items_compute",
        groups: lists,
    }]
}

/// Leaves whose records come to the limit of a table.
fn counted() -> Group {
    let records: [(&[u8], u32); 16] = [
        (b"5}", 2_047),
        (b"5}", 2_048),
        (b"1, 2}", 2_047),
        (b"1, 007}", 2_047),
        (b"1, 1}", 2_047),
        (b"|5..4|}", 2_048),
        (b"|2004-01-01|, |2005-01-01|}", 2_047),
        (b"\"a\", \"b\"}", 2_047),
        (b"\"a\"}", 2_048),
        (b"True, False}", 2_047),
        (b"True, True}", 2_048),
        (b"yyyy-mm-dd}", 2_048),
        (b"Thh:mm:ss}", 2_048),
        (b"Thh:mm:ss}", 2_047),
        (b"Pwd}", 2_048),
        (b"Pwd}", 2_047),
    ];
    let cases = records.iter().map(|(text, number)| case(text, *number)).collect();
    Group { about: "record 2,048", cases }
}

fn case(text: &[u8], number: u32) -> String {
    let start = format!("{} {}", term::bytes(text), term::number(u64::from(number)));
    match leaf_of(text, number) {
        Ok((leaf, end)) => format!("reads {start} {leaf} {end}"),
        Err(fault) => format!("refuses {start} {}", term::fault(fault)),
    }
}

/// The leaf at the front of a text and the place behind it, or its fault. Where a token that can't follow stands behind
/// the leaf, the leaf is read without the rest.
fn leaf_of(text: &[u8], number: u32) -> Result<(String, usize), Fault> {
    let first = value_token_at(text, 0);
    if matches!(first.kind, Kind::Star | Kind::Type) {
        // In a whole text these may stand there, yet no leaf begins with them.
        return Err(Fault { number: 2, place: first.start as u64 });
    }
    read_leaf(text, number).or_else(|fault| {
        let cut = [&text[..fault.place as usize], b"\n}"].concat();
        if fault.number == 2 {
            read_leaf(&cut, number).map_err(|_| fault)
        } else {
            Err(fault)
        }
    })
}

/// The same of a text whose last token is the `}` behind the leaf. The leaf is read in a whole text.
fn read_leaf(text: &[u8], number: u32) -> Result<(String, usize), Fault> {
    let front = before(number);
    let whole = [&front[..], text, if is_closed(text) { b"}" } else { b"" }].concat();
    let tree = constraint::read(&whole).map_err(|fault| Fault { place: fault.place - front.len() as u64, ..fault })?;
    match last_leaf(&tree) {
        Some(leaf) => Ok((term::leaf(leaf, number, term::bytes), leaf_end(text))),
        None => panic!("no leaf in {}", term::bytes(text)),
    }
}

/// Whether the last token is a `}`.
fn is_closed(text: &[u8]) -> bool {
    let mut token = token_at(text, 0);
    loop {
        let next = token_at(text, token.end);
        if matches!(next.kind, Kind::End | Kind::Unreadable) || token.kind == Kind::End {
            return token.kind == Kind::CloseBrace;
        }
        token = next;
    }
}

/// The front of a text in which the next record has the number; the number 3 where it is below that.
pub fn before(number: u32) -> Vec<u8> {
    let mut text = b"A\xE2\x88\x88{".to_vec();
    let mut left = number.max(3) - 3;
    while left > 0 {
        let taken = left.min(17);
        let items: Vec<String> = (1..taken).map(|item| item.to_string()).collect();
        let inner = if items.is_empty() { String::from("*") } else { items.join(",") };
        text.extend(format!("b{left}∈{{{inner}}}").bytes());
        left -= taken;
    }
    text.extend(b"a\xE2\x88\x88{");
    text
}

/// The leaf of the outermost object's last attribute.
fn last_leaf<'a, 't>(tree: &'a constraint::Tree<'t>) -> Option<&'a Leaf<'t>> {
    match &tree.objects[0].attributes.last()?.value {
        Value::Leaf(leaf) => Some(leaf),
        _ => None,
    }
}

/// The place behind the last token of a leaf that a `}` follows.
fn leaf_end(text: &[u8]) -> usize {
    let mut end = 0;
    loop {
        let token = token_at(text, end);
        if matches!(token.kind, Kind::CloseBrace | Kind::End) {
            return end;
        }
        end = token.end;
    }
}
