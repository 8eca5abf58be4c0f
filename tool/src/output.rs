//! What the tool prints: answers on standard output, trouble on standard error.

use std::ffi::OsStr;
use std::io::{ErrorKind, Write};

use crate::arguments::Command;
use crate::files;
use crate::json::Object;

/// The exit status. The greater of two is the graver.
#[derive(Clone, Copy, Debug, PartialEq, Eq, PartialOrd, Ord)]
pub enum Status {
    /// Done, passed or valid.
    Fine = 0,
    /// Refused or invalid.
    Refused = 1,
    /// Wrong use, or a file that can't be read or written.
    Trouble = 2,
}

/// An answer, in both ways to print it.
pub struct Report {
    /// One line or more, each with its line end.
    pub plain: String,
    /// One object.
    pub json: Object,
}

/// The beginning of every object: the command, its outcome, and the file that it is about.
pub fn outcome(command: Command, outcome: &str, file: &OsStr) -> Object {
    Object::new().text("command", command.word()).text("outcome", outcome).text("file", &file.to_string_lossy())
}

/// Where answers go, and how.
pub struct Output {
    json: bool,
    aside: bool,
    closed: bool,
    failed: bool,
}

impl Output {
    /// Answers as JSON or as words; on standard error if standard output holds a table.
    pub fn new(json: bool, aside: bool) -> Output {
        Output { json, aside, closed: false, failed: false }
    }

    /// Prints an answer.
    pub fn tell(&mut self, report: Report) {
        if self.json {
            self.print(&report.json.line());
        } else {
            self.print(&report.plain);
        }
    }

    /// Prints a text as it is. A reader that went away ends the printing, quietly.
    pub fn print(&mut self, text: &str) {
        if self.aside {
            let _ = std::io::stderr().write_all(text.as_bytes());
        } else if !self.closed {
            self.note(files::write_standard(text.as_bytes()));
        }
    }

    /// Notes whether standard output took what was written.
    fn note(&mut self, written: std::io::Result<()>) {
        match written {
            Ok(()) => {}
            Err(error) if error.kind() == ErrorKind::BrokenPipe => self.closed = true,
            Err(error) => {
                self.closed = true;
                self.failed = true;
                trouble(&format!("-: {}", files::reason(&error)));
            }
        }
    }

    /// The status, given that of the job.
    pub fn status(&self, job: Status) -> Status {
        if self.failed {
            Status::Trouble
        } else {
            job
        }
    }
}

/// Says on standard error what went wrong.
pub fn trouble(message: &str) {
    let _ = std::io::stderr().write_all(format!("dubrakosh: {message}\n").as_bytes());
}
