//! `explain`: what a number means.

use crate::arguments::Command;
use crate::json::Object;
use crate::numbers::{self, Number};
use crate::output::{trouble, Output, Report, Status};

/// Explains a number of document 01.
pub fn run(number: u32, output: &mut Output) -> Status {
    match numbers::number(number) {
        Some(entry) => {
            output.tell(explained(entry));
            Status::Fine
        }
        None => {
            trouble(&format!("explain: no number {number}: there are 1 to 14 and 20 to 24"));
            Status::Trouble
        }
    }
}

/// A number with all there is to say of it.
fn explained(entry: &Number) -> Report {
    let Number { number, title, meaning, place, advice } = entry;
    Report {
        plain: format!("{number}: {title}\nWhen: {meaning}\nPlace: {place}\nWhat to do: {advice}\n"),
        json: Object::new()
            .text("command", Command::Explain.word())
            .text("outcome", "explained")
            .number("number", *number)
            .text("title", title)
            .text("meaning", meaning)
            .text("place", place)
            .text("advice", advice),
    }
}
