//! `merge`: several tables into one.

use std::ffi::{OsStr, OsString};

use super::{size, write};
use crate::arguments::Command;
use crate::json::Object;
use crate::limits;
use crate::output::{outcome, Output, Report, Status};
use crate::records::{summary, Table};
use crate::refusals;
use crate::shown;

/// Where a table of a merge went: its root, and by how much its records and names moved.
struct Moved<'n> {
    name: &'n OsStr,
    root: u32,
    records: u32,
    names: u32,
}

/// Merges tables, one behind the other, and writes the whole.
pub fn run(names: &[OsString], little: bool, target: &OsStr, output: &mut Output) -> Status {
    let Some(tables) = read_all(names) else { return Status::Trouble };
    let (whole, moved) = match merged(names, &tables, little) {
        Ok(done) => done,
        Err(refused) => {
            output.tell(refused);
            return Status::Refused;
        }
    };
    if write(target, &whole).is_none() {
        return Status::Trouble;
    }
    if let Some(table) = Table::new(&whole) {
        output.tell(done(target, &table, &moved));
    }
    Status::Fine
}

/// All tables, or nothing if one can't be read.
fn read_all(names: &[OsString]) -> Option<Vec<Vec<u8>>> {
    let tables: Vec<Option<Vec<u8>>> = names.iter().map(|name| super::table(name)).collect();
    tables.into_iter().collect()
}

/// The whole and where each table went, or the report of the first refusal.
fn merged<'n>(names: &'n [OsString], tables: &[Vec<u8>], little: bool) -> Result<(Vec<u8>, Vec<Moved<'n>>), Report> {
    let mut whole = tables.first().cloned().unwrap_or_default();
    let mut moved = Vec::new();
    for (pair, table) in names.windows(2).zip(tables.iter().skip(1)) {
        let (before, name) = (&pair[0], &pair[1]);
        let mut out = vec![0; limits::TABLE];
        let answer = binding::merge(&whole, table, little, &mut out);
        if answer.number != 0 {
            return Err(refused(answer, before, &whole, name, table));
        }
        if moved.is_empty() {
            moved.push(Moved { name: before, root: root(&whole), records: 0, names: 0 });
        }
        let (records, pool) = (answer.record_shift, answer.pool_shift);
        moved.push(Moved { name, root: root(table).saturating_add(records), records, names: pool });
        out.truncate(usize::try_from(answer.place).unwrap_or(usize::MAX));
        whole = out;
    }
    Ok((whole, moved))
}

/// The report of a merge that is refused. Only the first merge can refuse the table before: a whole is always a table.
fn refused(answer: binding::Merged, before: &OsStr, whole: &[u8], name: &OsStr, table: &[u8]) -> Report {
    match (answer.number, answer.which) {
        (12 | 13, 1) => refusals::table(Command::Merge, before, whole, answer.number, answer.place),
        (12 | 13, _) => refusals::table(Command::Merge, name, table, answer.number, answer.place),
        _ => too_much(name, answer.number, whole, table),
    }
}

/// The root in a table's header.
fn root(bytes: &[u8]) -> u32 {
    Table::new(bytes).map_or(0, |table| table.root)
}

/// The refusal of a table that there is no room for.
fn too_much(name: &OsStr, number: u32, whole: &[u8], table: &[u8]) -> Report {
    let both = Table::new(whole).zip(Table::new(table));
    let reason = match (number, both) {
        (8, Some((first, second))) => {
            let count = first.count + second.count - 1;
            format!("with it the table has {} records, and up to 2,048 may be", shown::thousands(count.into()))
        }
        (10, Some((first, second))) => {
            let names = first.names() + second.names();
            format!("with it the table has {} bytes of names, and up to 16,384 may be", shown::thousands(names as u64))
        }
        _ => "output too short".to_string(),
    };
    refusals::plain(Command::Merge, name, number, &reason)
}

/// The whole and where each table went, in words.
fn done(target: &OsStr, table: &Table, moved: &[Moved]) -> Report {
    let mut plain = format!("{}: merged: {}\n", shown::file(target), summary(table));
    for part in moved {
        plain.push_str(&format!("{}: root {}", shown::file(part.name), part.root));
        if part.records > 0 {
            plain.push_str(&format!(" (records moved by {}, names by {})", part.records, part.names));
        }
        plain.push('\n');
    }
    let roots = moved.iter().map(moved_json).collect();
    Report {
        plain,
        json: outcome(Command::Merge, "merged", target)
            .number("records", table.count)
            .number("names", size(table.names()))
            .number("bytes", size(table.length()))
            .number("root", table.root)
            .objects("tables", roots),
    }
}

/// Where one table went, as an object.
fn moved_json(part: &Moved) -> Object {
    Object::new()
        .text("file", &part.name.to_string_lossy())
        .number("root", part.root)
        .number("records_moved", part.records)
        .number("names_moved", part.names)
}
