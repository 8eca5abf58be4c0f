//! The examples of `docs/DECISIONS.md`, run by a set of jobs. The page says how they are written.
//!
//! `report` reads a page and runs every line. `test` does so for a test: it prints what is wrong, or how many lines ran.

mod answers;
mod cursor;
mod inputs;
mod names;
mod page;
mod run;
mod tables;

use crate::generator::law::Jobs;
use answers::Answer;
use cursor::Cursor;
use inputs::Input;
use names::Names;
pub use page::{plain_count, Failure};
use std::collections::BTreeMap;
use std::fs;
use std::process::ExitCode;

/// A line of the page: its inputs, and the answer that each of them has.
struct Example {
    inputs: Vec<Input>,
    answer: Answer,
}

/// How many examples a page has, and what is wrong with it.
#[derive(Clone, Debug, PartialEq, Eq)]
pub struct Report {
    pub examples: usize,
    pub failures: Vec<Failure>,
}

/// Reads a line with the names of its entry.
fn example(line: &str, names: &Names) -> Result<Example, String> {
    let cursor = &mut Cursor::new(line)?;
    let inputs = inputs::read(cursor, names)?;
    Ok(Example { inputs, answer: answers::read(cursor, names)? })
}

/// Runs every example of a page.
pub fn report(page: &str, jobs: &Jobs) -> Report {
    let (entries, mut failures) = page::entries(page);
    let mut examples = 0;
    let mut before = BTreeMap::new();
    for entry in &entries {
        let names = names::read(&entry.definitions, &before).unwrap_or_else(|what| {
            failures.push(Failure::new(entry.name, entry.heading.unwrap_or(entry.title), what));
            Names::new()
        });
        for line in &entry.examples {
            let outcome = example(line.text, &names).and_then(|example| run::run(&example, jobs));
            failures.extend(outcome.err().map(|what| Failure::new(entry.name, *line, what)));
        }
        examples += entry.examples.len();
        before.insert(String::from(entry.name), names);
    }
    failures.sort_by_key(|failure| failure.number);
    Report { examples, failures }
}

/// Runs the examples of the page at a path, and prints how many ran, or each line that is wrong.
pub fn test(path: &str, jobs: &Jobs) -> ExitCode {
    let page = match fs::read_to_string(path) {
        Ok(page) => page,
        Err(error) => {
            eprintln!("{path}: {error}");
            return ExitCode::FAILURE;
        }
    };
    let Report { examples, failures } = report(&page, jobs);
    for failure in &failures {
        eprintln!("{failure}");
    }
    let counted = plain_count(&page);
    if !failures.is_empty() || examples != counted || examples == 0 {
        let failures = failures.len();
        eprintln!("docs/DECISIONS.md: failures: {failures}, examples read: {examples}, by a plain count: {counted}");
        return ExitCode::FAILURE;
    }
    println!("{examples} examples of docs/DECISIONS.md ran");
    ExitCode::SUCCESS
}

#[cfg(test)]
mod tests;
