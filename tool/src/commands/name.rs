//! `name`: the name that a record holds.

use std::ffi::OsStr;

use crate::arguments::Command;
use crate::output::{outcome, Output, Report, Status};
use crate::refusals;
use crate::shown;

/// Hands out a record's name.
pub fn run(name: &OsStr, record: u32, output: &mut Output) -> Status {
    let Some(bytes) = super::table(name) else { return Status::Trouble };
    let answer = binding::name(&bytes, record);
    if answer.number == 0 {
        output.tell(found(name, record, part(&bytes, answer.start, answer.length)));
        return Status::Fine;
    }
    output.tell(match answer.number {
        14 => no_name(name, record),
        number => refusals::table(Command::Name, name, &bytes, number, answer.start),
    });
    Status::Refused
}

/// The part of the table that is the name.
fn part(bytes: &[u8], start: u64, length: u64) -> &[u8] {
    let start = usize::try_from(start).unwrap_or(usize::MAX);
    let length = usize::try_from(length).unwrap_or(usize::MAX);
    bytes.get(start..).and_then(|rest| rest.get(..length)).unwrap_or(&[])
}

/// A name that was found.
fn found(file: &OsStr, record: u32, name: &[u8]) -> Report {
    Report {
        plain: format!("{}\n", shown::bytes(name)),
        json: outcome(Command::Name, "named", file).number("record", record).bytes("name", name),
    }
}

/// A record that holds no name.
fn no_name(file: &OsStr, record: u32) -> Report {
    let mut refused = refusals::plain(Command::Name, file, 14, &format!("record {record} holds no name"));
    refused.json = refused.json.number("record", record);
    refused
}
