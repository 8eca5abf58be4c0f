//! `judge`: data texts by a table.

use std::ffi::{OsStr, OsString};

use super::{check, text};
use crate::arguments::Command;
use crate::output::{outcome, Output, Report, Status};
use crate::paths;
use crate::records::Table;
use crate::refusals::{self, Placed};
use crate::shown;
use crate::verdicts;

/// Judges data texts at a root, or at the header's.
pub fn run(name: &OsStr, root: Option<u32>, data: &[OsString], output: &mut Output) -> Status {
    let Some(bytes) = super::table(name) else { return Status::Trouble };
    let table = match check::checked(Command::Judge, name, &bytes) {
        Ok(table) => table,
        Err(refused) => {
            output.tell(refused);
            return Status::Refused;
        }
    };
    let root = root.unwrap_or(table.root);
    // the root asked for comes before any fault of the data
    if binding::judge(&bytes, root, b"").number == 14 {
        let reason = format!("record {root} is no object of the table");
        let mut refused = refusals::plain(Command::Judge, name, 14, &reason);
        refused.json = refused.json.number("record", root);
        output.tell(refused);
        return Status::Refused;
    }
    let judgement = Judgement { bytes: &bytes, table, root };
    data.iter().map(|name| judgement.file(name, output)).max().unwrap_or(Status::Fine)
}

/// A table and the root to judge at.
struct Judgement<'b> {
    bytes: &'b [u8],
    table: Table<'b>,
    root: u32,
}

impl Judgement<'_> {
    /// Judges one data text and tells the answer.
    fn file(&self, name: &OsStr, output: &mut Output) -> Status {
        let Some(data) = text(name) else { return Status::Trouble };
        let answer = binding::judge(self.bytes, self.root, &data);
        let (report, status) = match answer.number {
            0 => (self.valid(name), Status::Fine),
            20..=29 => (self.invalid(name, &data, answer), Status::Refused),
            number => (refusals::data(name, &data, number, answer.place), Status::Refused),
        };
        output.tell(report);
        status
    }

    /// Data that are valid.
    fn valid(&self, name: &OsStr) -> Report {
        Report {
            plain: format!("{}: valid\n", shown::file(name)),
            json: outcome(Command::Judge, "valid", name).number("root", self.root),
        }
    }

    /// Data that are not admitted: where, by which constraint, why, and what would be.
    fn invalid(&self, name: &OsStr, data: &[u8], answer: binding::Judged) -> Report {
        let placed = Placed::new(name, data, answer.place);
        let place = usize::try_from(answer.place).unwrap_or(usize::MAX);
        let verdict = verdicts::verdict(&self.table, answer.number, answer.record, data, place);
        let names = paths::path(&self.table, self.root, answer.record).unwrap_or_default();
        let path = paths::joined(&names);
        let number = answer.number;
        let mut plain =
            format!("{}: {}: {number} {}\n{}", placed.head, shown::bytes(&path), verdict.reason, placed.excerpt);
        let mut json = outcome(Command::Judge, "invalid", name)
            .number("root", self.root)
            .number("number", number)
            .text("reason", &verdict.reason)
            .number("record", answer.record)
            .bytes("path", &path);
        json = placed.json(json);
        for (key, note) in verdict.notes {
            plain.push_str(&format!("{key}: {}\n", shown::bytes(&note)));
            json = json.bytes(key, &note);
        }
        Report { plain, json }
    }
}
