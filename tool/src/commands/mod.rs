//! The commands, one file each.

mod check;
mod compile;
mod explain;
mod judge;
mod merge;
mod name;
mod show;

use std::ffi::OsStr;

use crate::arguments::Job;
use crate::files::{self, STANDARD};
use crate::output::{trouble, Output, Status};
use crate::shown;

/// Does a job and gives the exit status.
pub fn run(job: &Job, json: bool) -> Status {
    let mut output = Output::new(json, holds_table(job));
    let status = match job {
        Job::Compile { text, little, table } => compile::run(text, *little, table, &mut output),
        Job::Check { table } => check::run(table, &mut output),
        Job::Merge { tables, little, table } => merge::run(tables, *little, table, &mut output),
        Job::Judge { table, root, data } => judge::run(table, *root, data, &mut output),
        Job::Name { table, record } => name::run(table, *record, &mut output),
        Job::Show { table } => show::run(table, &mut output),
        Job::Explain { number } => explain::run(*number, &mut output),
    };
    output.status(status)
}

/// Whether standard output takes the table, so that the answer goes to standard error.
fn holds_table(job: &Job) -> bool {
    matches!(job, Job::Compile { table, .. } | Job::Merge { table, .. } if table == STANDARD)
}

/// Reads a text, or says why it can't be read.
fn text(name: &OsStr) -> Option<Vec<u8>> {
    told(name, files::read_text(name))
}

/// Reads a table's bytes, or says why they can't be read.
fn table(name: &OsStr) -> Option<Vec<u8>> {
    told(name, files::read_table(name))
}

/// Writes a table, or says why it can't be written. A reader that went away is told by the status alone.
fn write(name: &OsStr, bytes: &[u8]) -> Option<()> {
    match files::write(name, bytes) {
        Err(error) if name == STANDARD && error.kind() == std::io::ErrorKind::BrokenPipe => None,
        written => told(name, written),
    }
}

/// What was done with a file, or nothing once it is said why not.
fn told<T>(name: &OsStr, done: std::io::Result<T>) -> Option<T> {
    done.map_err(|error| trouble(&format!("{}: {}", shown::file(name), files::reason(&error)))).ok()
}

/// A size or a length, for JSON.
fn size(value: usize) -> i64 {
    i64::try_from(value).unwrap_or(i64::MAX)
}
