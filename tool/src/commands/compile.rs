//! `compile`: a constraint text into a table.

use std::ffi::OsStr;

use super::{size, text, write};
use crate::arguments::Command;
use crate::limits;
use crate::output::{outcome, Output, Report, Status};
use crate::records::{summary, Table};
use crate::refusals;
use crate::shown;

/// Compiles a text and writes its table.
pub fn run(name: &OsStr, little: bool, target: &OsStr, output: &mut Output) -> Status {
    let Some(text) = text(name) else { return Status::Trouble };
    let mut out = vec![0; limits::TABLE];
    let answer = binding::compile(&text, little, &mut out);
    if answer.number != 0 {
        output.tell(refusals::constraint(name, &text, answer.number, answer.place));
        return Status::Refused;
    }
    out.truncate(usize::try_from(answer.place).unwrap_or(usize::MAX));
    if write(target, &out).is_none() {
        return Status::Trouble;
    }
    if let Some(table) = Table::new(&out) {
        output.tell(done(name, target, &table));
    }
    Status::Fine
}

/// The table that was written, in words.
fn done(name: &OsStr, target: &OsStr, table: &Table) -> Report {
    Report {
        plain: format!("{}: compiled: {}\n", shown::file(name), summary(table)),
        json: outcome(Command::Compile, "compiled", name)
            .text("table", &target.to_string_lossy())
            .number("records", table.count)
            .number("names", size(table.names()))
            .number("bytes", size(table.length()))
            .number("root", table.root),
    }
}
