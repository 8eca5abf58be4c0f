//! The command-line tool of the gateway. The jobs themselves are the proved ones, called through
//! `binding`; this program reads and writes files and says in words what the jobs answer.
#![forbid(unsafe_code)]

mod arguments;
mod commands;
mod files;
mod help;
mod json;
mod leaves;
mod limits;
mod numbers;
mod output;
mod paths;
mod places;
mod records;
mod refusals;
mod shown;
mod tokens;
mod verdicts;
mod words;

use std::ffi::OsString;
use std::process::ExitCode;

use arguments::Asked;
use output::{trouble, Output, Status};

fn main() -> ExitCode {
    let given: Vec<OsString> = std::env::args_os().skip(1).collect();
    let status = match arguments::read(&given) {
        Ok(Asked::Help(command)) => print(&help::of(command)),
        Ok(Asked::Version) => print(concat!("dubrakosh ", env!("CARGO_PKG_VERSION"), "\n")),
        Ok(Asked::Job(job, json)) => commands::run(&job, json),
        Err(wrong) => {
            trouble(&wrong.message);
            trouble(&format!("see {}", help::invocation(wrong.command)));
            Status::Trouble
        }
    };
    ExitCode::from(status as u8)
}

/// Prints a text as it is.
fn print(text: &str) -> Status {
    let mut output = Output::new(false, false);
    output.print(text);
    output.status(Status::Fine)
}
