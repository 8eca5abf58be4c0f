//! A line's answer, read and printed as the page writes it.

use super::cursor::{Cursor, Piece};
use super::inputs::joined;
use super::names::Names;
use super::tables::{self, RECORD};
use std::fmt;

/// An answer.
#[derive(Clone, Debug, PartialEq, Eq)]
pub enum Answer {
    /// A constraint text is accepted, and these facts hold of its table.
    Accepted(Vec<Fact>),
    /// A data text has no refusal of its own.
    Good,
    /// A data text is valid by a table.
    Valid,
    /// A table passes the check.
    Passed,
    Refused {
        number: u32,
        place: u64,
    },
    Verdict {
        number: u32,
        record: u32,
        place: u64,
    },
    MergeRefused {
        number: u32,
        place: u64,
        table: u32,
    },
    Merged {
        length: u64,
        record_shift: u32,
        pool_shift: u32,
        root: u32,
    },
    Named {
        start: u64,
        length: u64,
    },
}

/// Something that holds of the big-endian table of a text.
#[derive(Clone, Debug, PartialEq, Eq)]
pub enum Fact {
    /// Its length.
    Bytes(usize),
    /// How many records it has, the header among them.
    Records(usize),
    Pool(Vec<u8>),
    KindAndFlag {
        record: usize,
        kind: u8,
        flag: u8,
    },
    /// All bytes of one of its records.
    Record {
        record: usize,
        bytes: Vec<u8>,
    },
}

/// Reads an answer, and the end of its line.
pub fn read(cursor: &mut Cursor, names: &Names) -> Result<Answer, String> {
    let answer = if cursor.takes_word("accepted") {
        Answer::Accepted(facts(cursor, names)?)
    } else if cursor.takes_word("good") {
        Answer::Good
    } else if cursor.takes_word("valid") {
        Answer::Valid
    } else if cursor.takes_word("passed") {
        Answer::Passed
    } else if cursor.takes_word("length") {
        merged(cursor)?
    } else if cursor.takes_word("start") {
        named(cursor)?
    } else if matches!(cursor.peek(), Some(Piece::Word(word)) if word.starts_with(|first: char| first.is_ascii_digit()))
    {
        numbered(cursor)?
    } else {
        return cursor.expected("an answer");
    };
    cursor.end()?;
    Ok(answer)
}

/// Reads what stands behind `length`: `n, shifts a and b, root r`.
fn merged(cursor: &mut Cursor) -> Result<Answer, String> {
    let length = cursor.number()?;
    cursor.phrase(", shifts")?;
    let record_shift = cursor.number()?;
    cursor.phrase("and")?;
    let pool_shift = cursor.number()?;
    cursor.phrase(", root")?;
    Ok(Answer::Merged { length, record_shift, pool_shift, root: cursor.number()? })
}

/// Reads what stands behind `start`: `n, length m`.
fn named(cursor: &mut Cursor) -> Result<Answer, String> {
    let start = cursor.number()?;
    cursor.phrase(", length")?;
    Ok(Answer::Named { start, length: cursor.number()? })
}

/// Reads `n at p`, `n at p, table t` or `n, record r, at p`.
fn numbered(cursor: &mut Cursor) -> Result<Answer, String> {
    let number = cursor.number()?;
    if cursor.takes_comma_before("record") {
        cursor.phrase("record")?;
        let record = cursor.number()?;
        cursor.phrase(", at")?;
        return Ok(Answer::Verdict { number, record, place: cursor.number()? });
    }
    cursor.phrase("at")?;
    let place = cursor.number()?;
    if cursor.takes_comma_before("table") {
        cursor.phrase("table")?;
        return Ok(Answer::MergeRefused { number, place, table: cursor.number()? });
    }
    Ok(Answer::Refused { number, place })
}

fn facts(cursor: &mut Cursor, names: &Names) -> Result<Vec<Fact>, String> {
    let mut facts = Vec::new();
    while cursor.takes_sign(',') {
        facts.push(fact(cursor, names)?);
    }
    Ok(facts)
}

fn fact(cursor: &mut Cursor, names: &Names) -> Result<Fact, String> {
    if cursor.takes_word("pool") {
        return Ok(Fact::Pool(joined(cursor, names)?));
    }
    if cursor.takes_word("record") {
        return record_fact(cursor);
    }
    let number = cursor.number()?;
    if cursor.takes_word("bytes") {
        return Ok(Fact::Bytes(number));
    }
    cursor.phrase("records")?;
    Ok(Fact::Records(number))
}

/// Reads what stands behind `record`: `n has kind k and flag f` or `n is` and its bytes in hex.
fn record_fact(cursor: &mut Cursor) -> Result<Fact, String> {
    let record = cursor.number()?;
    if cursor.takes_word("is") {
        let bytes = cursor.hex()?;
        if bytes.len() != RECORD {
            return Err(format!("record {record} has {RECORD} bytes, and {} are given", bytes.len()));
        }
        return Ok(Fact::Record { record, bytes });
    }
    cursor.phrase("has kind")?;
    let kind = cursor.number()?;
    cursor.phrase("and flag")?;
    Ok(Fact::KindAndFlag { record, kind, flag: cursor.number()? })
}

impl Fact {
    /// Whether it holds of a big-endian table; if not, what holds.
    pub fn holds(&self, table: &[u8]) -> Result<(), String> {
        let found = self.found(table)?;
        if found == *self {
            return Ok(());
        }
        Err(format!("the page says {self}, the table has {found}"))
    }

    /// The fact of the same sort that holds of a table.
    fn found(&self, table: &[u8]) -> Result<Fact, String> {
        let bytes_of = |record| tables::record_of(table, record).ok_or(format!("the table has no record {record}"));
        Ok(match *self {
            Fact::Bytes(_) => Fact::Bytes(table.len()),
            Fact::Records(_) => Fact::Records(tables::count(table)),
            Fact::Pool(_) => Fact::Pool(tables::pool(table).ok_or("the table has no pool")?.to_vec()),
            Fact::KindAndFlag { record, .. } => {
                let bytes = bytes_of(record)?;
                Fact::KindAndFlag { record, kind: bytes[2], flag: bytes[3] }
            }
            Fact::Record { record, .. } => Fact::Record { record, bytes: bytes_of(record)?.to_vec() },
        })
    }
}

impl fmt::Display for Fact {
    fn fmt(&self, out: &mut fmt::Formatter) -> fmt::Result {
        match self {
            Fact::Bytes(count) => write!(out, "{count} bytes"),
            Fact::Records(count) => write!(out, "{count} records"),
            Fact::Pool(pool) => write!(out, "pool `{}`", pool.escape_ascii()),
            Fact::KindAndFlag { record, kind, flag } => write!(out, "record {record} has kind {kind} and flag {flag}"),
            Fact::Record { record, bytes } => {
                write!(out, "record {record} is")?;
                bytes.iter().try_for_each(|byte| write!(out, " {byte:02X}"))
            }
        }
    }
}

impl fmt::Display for Answer {
    fn fmt(&self, out: &mut fmt::Formatter) -> fmt::Result {
        match self {
            Answer::Accepted(facts) => {
                write!(out, "accepted")?;
                facts.iter().try_for_each(|fact| write!(out, ", {fact}"))
            }
            Answer::Good => write!(out, "good"),
            Answer::Valid => write!(out, "valid"),
            Answer::Passed => write!(out, "passed"),
            Answer::Refused { number, place } => write!(out, "{number} at {place}"),
            Answer::Verdict { number, record, place } => write!(out, "{number}, record {record}, at {place}"),
            Answer::MergeRefused { number, place, table } => write!(out, "{number} at {place}, table {table}"),
            Answer::Merged { length, record_shift, pool_shift, root } => {
                write!(out, "length {length}, shifts {record_shift} and {pool_shift}, root {root}")
            }
            Answer::Named { start, length } => write!(out, "start {start}, length {length}"),
        }
    }
}
