//! `check`: whether a file is a table.

use std::ffi::OsStr;

use super::size;
use crate::arguments::Command;
use crate::output::{outcome, Output, Report, Status};
use crate::records::{orders, summary, Table};
use crate::refusals;
use crate::shown;

/// Checks a table.
pub fn run(name: &OsStr, output: &mut Output) -> Status {
    let Some(bytes) = super::table(name) else { return Status::Trouble };
    match checked(Command::Check, name, &bytes) {
        Ok(table) => {
            output.tell(passed(name, &table));
            Status::Fine
        }
        Err(refused) => {
            output.tell(refused);
            Status::Refused
        }
    }
}

/// The table, if its bytes pass the check; else the report of its refusal.
pub fn checked<'b>(command: Command, name: &OsStr, bytes: &'b [u8]) -> Result<Table<'b>, Report> {
    let answer = binding::check(bytes);
    match Table::new(bytes) {
        Some(table) if answer.number == 0 => Ok(table),
        _ => Err(refusals::table(command, name, bytes, answer.number, answer.place)),
    }
}

/// A table that passed, in words.
fn passed(name: &OsStr, table: &Table) -> Report {
    Report {
        plain: format!("{}: passes: {}, root {}\n", shown::file(name), summary(table), table.root),
        json: outcome(Command::Check, "passes", name)
            .number("records", table.count)
            .number("names", size(table.names()))
            .number("bytes", size(table.length()))
            .text("order", orders(table))
            .number("root", table.root),
    }
}
