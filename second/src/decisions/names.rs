//! The names that an entry gives to texts, such as `with S for ..` and `with F of R19`.

use super::cursor::{Cursor, Piece};
use super::inputs::joined;
use std::collections::BTreeMap;

/// The texts of an entry's names.
pub type Names = BTreeMap<String, Vec<u8>>;

/// Letters that stand for something on the whole page.
const TAKEN: [&str; 6] = ["B", "C", "D", "L", "T", "W"];

/// Reads what stands behind `- **Example:**`. `before` holds the names of the entries before this one.
pub fn read(words: &str, before: &BTreeMap<String, Names>) -> Result<Names, String> {
    let cursor = &mut Cursor::new(words)?;
    let mut names = Names::new();
    if cursor.peek().is_some() {
        cursor.phrase("with")?;
        define(cursor, &mut names, before)?;
        while cursor.takes_word("and") {
            define(cursor, &mut names, before)?;
        }
    }
    cursor.end()?;
    Ok(names)
}

/// Reads one name and its text.
fn define(cursor: &mut Cursor, names: &mut Names, before: &BTreeMap<String, Names>) -> Result<(), String> {
    let name = cursor.word("a name")?;
    let is_capital = name.len() == 1 && name.as_bytes()[0].is_ascii_uppercase();
    if !is_capital || TAKEN.contains(&name.as_str()) || names.contains_key(&name) {
        return Err(format!("`{name}` can't be a name here"));
    }
    let text = if cursor.takes_word("of") {
        let entry = cursor.word("an entry")?;
        let known = before.get(&entry).and_then(|names| names.get(&name));
        known.cloned().ok_or_else(|| format!("no `{name}` of `{entry}` stands before this entry"))?
    } else {
        cursor.phrase("for")?;
        spelled(cursor, names)?
    };
    names.insert(name, text);
    Ok(())
}

/// A text, or `x, then for each of the n names a, b to c the name and y, then z`.
fn spelled(cursor: &mut Cursor, names: &Names) -> Result<Vec<u8>, String> {
    let mut text = joined(cursor, names)?;
    if cursor.peek() != Some(&Piece::Sign(',')) {
        return Ok(text);
    }
    cursor.phrase(", then for each of the")?;
    let count: usize = cursor.number()?;
    cursor.phrase("names")?;
    let first = cursor.quoted("the first name")?;
    cursor.phrase(",")?;
    let second = cursor.quoted("the second name")?;
    cursor.phrase("to")?;
    let last = cursor.quoted("the last name")?;
    let row = row(&first, &second, &last, count)?;
    cursor.phrase("the name and")?;
    let behind = joined(cursor, names)?;
    cursor.phrase(", then")?;
    let end = joined(cursor, names)?;
    for name in row {
        text.extend_from_slice(name.as_bytes());
        text.extend_from_slice(&behind);
    }
    text.extend_from_slice(&end);
    Ok(text)
}

/// The names of small letters from the first to the last in alphabetical order; there must be `count`.
fn row(first: &str, second: &str, last: &str, count: usize) -> Result<Vec<String>, String> {
    let row: Vec<String> = std::iter::successors(Some(String::from(first)), |name| next(name)).take(count).collect();
    let fits = row.len() == count && row.get(1).is_some_and(|name| name == second);
    if fits && row.last().is_some_and(|name| name == last) {
        return Ok(row);
    }
    Err(format!("`{first}`, `{second}` to `{last}` are not {count} names"))
}

/// The name of as many small letters that comes next.
fn next(name: &str) -> Option<String> {
    let (before, last) = name.split_at_checked(name.len().checked_sub(1)?)?;
    match last.as_bytes()[0] {
        b'z' => Some(next(before)? + "a"),
        letter @ b'a'..=b'y' => Some(format!("{before}{}", char::from(letter + 1))),
        _ => None,
    }
}
