//! What stands before a line's answer: texts, tables, and what is asked of a job.

use super::cursor::{Cursor, Piece};
use super::names::Names;
use super::tables;

/// What is asked of a job.
#[derive(Clone, Debug, PartialEq, Eq)]
pub enum Input {
    /// A constraint text is compiled, with output enough if no room is given.
    Compile {
        text: Vec<u8>,
        room: Option<usize>,
    },
    /// A data text is read for itself.
    Data(Vec<u8>),
    Check(Given),
    Judge {
        table: Given,
        root: u32,
        data: Vec<u8>,
    },
    Merge {
        first: Given,
        second: Given,
        room: Option<usize>,
    },
    Name {
        table: Given,
        record: u32,
    },
}

/// A table as a line gives it, and the byte that it changes there: its place and its value.
#[derive(Clone, Debug, PartialEq, Eq)]
pub struct Given {
    pub source: Source,
    pub change: Option<(usize, u8)>,
}

/// Where a table is from.
#[derive(Clone, Debug, PartialEq, Eq)]
pub enum Source {
    /// It is written on the page, big-endian.
    Bytes(Vec<u8>),
    /// It is what compiling this text writes.
    TableOf(Vec<u8>),
}

/// More bytes than a line needs.
const MOST_BYTES: usize = 1_000_000;

/// What stands before and behind the text of L and of W.
const LEAF: (&[u8], &[u8]) = (b"A matches {a matches {", b"}}");
const WORD: (&[u8], &[u8]) = (b"<a = <", b">>");

/// Reads a line up to the colon before its answer; each input has that answer.
pub fn read(cursor: &mut Cursor, names: &Names) -> Result<Vec<Input>, String> {
    let inputs = if is_sort(cursor.peek(), ["C", "L"]) {
        constraints(cursor, names)?
    } else if is_sort(cursor.peek(), ["D", "W"]) {
        texts(cursor, names)?.into_iter().map(Input::Data).collect()
    } else if cursor.takes_word("check") {
        checks(cursor, names)?
    } else if cursor.takes_word("compile") {
        vec![compile(cursor, names)?]
    } else if cursor.takes_word("judge") {
        judge(cursor, names)?
    } else if cursor.takes_word("merge") {
        vec![merge(cursor, names)?]
    } else if cursor.takes_word("name") {
        vec![name(cursor, names)?]
    } else {
        return cursor.expected("an input");
    };
    if !cursor.takes_sign(':') {
        return cursor.expected("`:` and the answer");
    }
    Ok(inputs)
}

fn is_sort(piece: Option<&Piece>, sorts: [&str; 2]) -> bool {
    matches!(piece, Some(Piece::Word(word)) if sorts.contains(&word.as_str()))
}

/// Constraint texts alone, or one with data texts that are judged by its table at record 1.
fn constraints(cursor: &mut Cursor, names: &Names) -> Result<Vec<Input>, String> {
    let mut all = texts(cursor, names)?;
    if !is_sort(cursor.ahead(1), ["D", "W"]) {
        return Ok(all.into_iter().map(|text| Input::Compile { text, room: None }).collect());
    }
    let (Some(text), true) = (all.pop(), all.is_empty()) else {
        return Err(String::from("more than one constraint text stands before the data"));
    };
    judged(cursor, names, Given { source: Source::TableOf(text), change: None }, 1)
}

fn checks(cursor: &mut Cursor, names: &Names) -> Result<Vec<Input>, String> {
    let mut inputs = vec![Input::Check(table(cursor, names)?)];
    while cursor.takes_sign(',') {
        inputs.push(Input::Check(table(cursor, names)?));
    }
    Ok(inputs)
}

fn compile(cursor: &mut Cursor, names: &Names) -> Result<Input, String> {
    let text = constraint(cursor, names)?;
    Ok(Input::Compile { text, room: Some(room(cursor)?) })
}

fn judge(cursor: &mut Cursor, names: &Names) -> Result<Vec<Input>, String> {
    let table = table(cursor, names)?;
    cursor.phrase("at")?;
    let root = cursor.number()?;
    judged(cursor, names, table, root)
}

/// Reads the data texts behind a table and a root.
fn judged(cursor: &mut Cursor, names: &Names, table: Given, root: u32) -> Result<Vec<Input>, String> {
    cursor.phrase(",")?;
    if !is_sort(cursor.peek(), ["D", "W"]) {
        return cursor.expected("D or W");
    }
    let input = |data| Input::Judge { table: table.clone(), root, data };
    Ok(texts(cursor, names)?.into_iter().map(input).collect())
}

fn merge(cursor: &mut Cursor, names: &Names) -> Result<Input, String> {
    let first = table(cursor, names)?;
    cursor.phrase(",")?;
    let second = table(cursor, names)?;
    let has_room = cursor.peek() == Some(&Piece::Sign(','));
    let room = if has_room { Some(room(cursor)?) } else { None };
    Ok(Input::Merge { first, second, room })
}

fn name(cursor: &mut Cursor, names: &Names) -> Result<Input, String> {
    cursor.phrase("of")?;
    let table = table(cursor, names)?;
    cursor.phrase(", record")?;
    Ok(Input::Name { table, record: cursor.number()? })
}

/// Reads `, output of n bytes`.
fn room(cursor: &mut Cursor) -> Result<usize, String> {
    cursor.phrase(", output of")?;
    let room = cursor.number()?;
    cursor.phrase("bytes")?;
    if room > MOST_BYTES {
        return Err(format!("an output of {room} bytes is more than a line needs"));
    }
    Ok(room)
}

/// Reads a table: B, T, `no bytes` or `the table of C`, and the byte that is changed.
fn table(cursor: &mut Cursor, names: &Names) -> Result<Given, String> {
    let source = if cursor.takes_word("B") {
        Source::Bytes(tables::B.to_vec())
    } else if cursor.takes_word("T") {
        let written = String::from_utf8(joined(cursor, names)?).map_err(|_| String::from("T is no text"))?;
        Source::Bytes(tables::made(&written)?)
    } else if cursor.takes_word("no") {
        cursor.phrase("bytes")?;
        Source::Bytes(Vec::new())
    } else if cursor.takes_word("the") {
        cursor.phrase("table of")?;
        Source::TableOf(constraint(cursor, names)?)
    } else {
        return cursor.expected("a table");
    };
    let change = if cursor.takes_word("with") { Some(change(cursor)?) } else { None };
    Ok(Given { source, change })
}

/// Reads `byte n = h`.
fn change(cursor: &mut Cursor) -> Result<(usize, u8), String> {
    cursor.phrase("byte")?;
    let place = cursor.number()?;
    if !cursor.takes_sign('=') {
        return cursor.expected("`=`");
    }
    match cursor.hex()?[..] {
        [byte] => Ok((place, byte)),
        _ => Err(format!("byte {place} is set to more than one byte")),
    }
}

/// Reads one constraint text.
fn constraint(cursor: &mut Cursor, names: &Names) -> Result<Vec<u8>, String> {
    if is_sort(cursor.peek(), ["C", "L"]) {
        return text(cursor, names);
    }
    cursor.expected("C or L")
}

/// Reads a sort and its texts, with commas between them.
fn texts(cursor: &mut Cursor, names: &Names) -> Result<Vec<Vec<u8>>, String> {
    let around = sort(cursor)?;
    let mut texts = vec![framed(cursor, names, around)?];
    while cursor.peek() == Some(&Piece::Sign(',')) && starts_text(cursor.ahead(1), names) {
        cursor.phrase(",")?;
        texts.push(framed(cursor, names, around)?);
    }
    Ok(texts)
}

/// Reads a sort and one text.
fn text(cursor: &mut Cursor, names: &Names) -> Result<Vec<u8>, String> {
    let around = sort(cursor)?;
    framed(cursor, names, around)
}

/// Reads a sort: what stands before and behind its texts.
fn sort(cursor: &mut Cursor) -> Result<(&'static [u8], &'static [u8]), String> {
    match cursor.word("C, D, L or W")?.as_str() {
        "L" => Ok(LEAF),
        "W" => Ok(WORD),
        _ => Ok((b"", b"")),
    }
}

fn framed(cursor: &mut Cursor, names: &Names, (before, behind): (&[u8], &[u8])) -> Result<Vec<u8>, String> {
    let inner = if cursor.takes_word("of") {
        cursor.phrase("no bytes")?;
        Vec::new()
    } else {
        joined(cursor, names)?
    };
    Ok([before, &inner, behind].concat())
}

fn starts_text(piece: Option<&Piece>, names: &Names) -> bool {
    match piece {
        Some(Piece::Quoted(_)) => true,
        Some(Piece::Word(word)) => word == "hex" || names.contains_key(word),
        _ => false,
    }
}

/// Reads parts joined by `+`.
pub fn joined(cursor: &mut Cursor, names: &Names) -> Result<Vec<u8>, String> {
    let mut bytes = part(cursor, names)?;
    while cursor.takes_sign('+') {
        bytes.extend(part(cursor, names)?);
    }
    Ok(bytes)
}

/// Reads one part: quoted, in hex or a name, and how often it is repeated.
fn part(cursor: &mut Cursor, names: &Names) -> Result<Vec<u8>, String> {
    let bytes = match cursor.peek() {
        Some(Piece::Quoted(_)) => cursor.quoted("a text")?.into_bytes(),
        Some(Piece::Word(word)) if word == "hex" => {
            cursor.phrase("hex")?;
            cursor.hex()?
        }
        Some(Piece::Word(word)) if names.contains_key(word) => names[&cursor.word("a name")?].clone(),
        _ => return cursor.expected("a text"),
    };
    if !cursor.takes_sign('×') {
        return Ok(bytes);
    }
    let times: usize = cursor.number()?;
    if bytes.len().saturating_mul(times) > MOST_BYTES {
        return Err(format!("{times} times {} bytes are more than a line needs", bytes.len()));
    }
    Ok(bytes.repeat(times))
}
