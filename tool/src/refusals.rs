//! Reports of refusals: of a text with its place, of a table with its record.

use std::ffi::OsStr;

use crate::arguments::Command;
use crate::json::Object;
use crate::output::{outcome, Report};
use crate::places::{excerpt, spot};
use crate::{shown, words};

/// A place in a text, as it begins a report and as it is shown behind it.
pub struct Placed {
    /// `file:line:column`
    pub head: String,
    /// The line and the caret, each with its line end.
    pub excerpt: String,
    line: usize,
    column: usize,
    place: usize,
}

impl Placed {
    /// Finds a place in a text.
    pub fn new(file: &OsStr, text: &[u8], place: u64) -> Placed {
        let place = usize::try_from(place).unwrap_or(usize::MAX).min(text.len());
        let found = spot(text, place);
        let shown = excerpt(text, &found);
        Placed {
            head: format!("{}:{}:{}", shown::file(file), found.line, found.column),
            excerpt: format!("{}\n{}\n", shown.line, shown.caret),
            line: found.line,
            column: found.column,
            place,
        }
    }

    /// Adds the place to an object.
    pub fn json(&self, object: Object) -> Object {
        let number = |value: usize| i64::try_from(value).unwrap_or(i64::MAX);
        object
            .number("place", number(self.place))
            .number("line", number(self.line))
            .number("column", number(self.column))
    }
}

/// A constraint text that is refused.
pub fn constraint(file: &OsStr, text: &[u8], number: u32, place: u64) -> Report {
    let placed = Placed::new(file, text, place);
    let reason = words::of_constraint(number, text, placed.place);
    text_report(Command::Compile, file, &placed, number, &reason)
}

/// A data text that is refused.
pub fn data(file: &OsStr, text: &[u8], number: u32, place: u64) -> Report {
    let placed = Placed::new(file, text, place);
    let reason = words::of_data(number, text, placed.place);
    text_report(Command::Judge, file, &placed, number, &reason)
}

/// A text that is refused: the place, the number and the reason, then the line.
fn text_report(command: Command, file: &OsStr, placed: &Placed, number: u32, reason: &str) -> Report {
    let object = outcome(command, "refused", file).number("number", number).text("reason", reason);
    Report {
        plain: format!("{}: refused {number}: {reason}\n{}", placed.head, placed.excerpt),
        json: placed.json(object),
    }
}

/// A table that is refused with 12 or 13.
pub fn table(command: Command, file: &OsStr, bytes: &[u8], number: u32, place: u64) -> Report {
    let (reason, note) = words::of_table(number, bytes, place);
    let mut report = plain(command, file, number, &reason);
    if number == 13 {
        report.json = report.json.number("record", i64::try_from(place).unwrap_or(i64::MAX));
    }
    if let Some(note) = note {
        report.plain.push_str(&note);
        report.plain.push('\n');
    }
    report
}

/// A refusal without a place: the file, the number and the reason.
pub fn plain(command: Command, file: &OsStr, number: u32, reason: &str) -> Report {
    Report {
        plain: format!("{}: refused {number}: {reason}\n", shown::file(file)),
        json: outcome(command, "refused", file).number("number", number).text("reason", reason),
    }
}
