//! Writes the tables of examples for the definitions, or compares them with what it would write.
//!
//!     example_tables write ROOT
//!     example_tables check ROOT
//!
//! ROOT is the folder that holds crates/. `check` ends with 1 where a file differs, and names it.

use second::examples;
use std::path::Path;
use std::process::ExitCode;

fn main() -> ExitCode {
    let words: Vec<String> = std::env::args().skip(1).collect();
    match words.iter().map(String::as_str).collect::<Vec<_>>()[..] {
        ["write", root] => write(Path::new(root)),
        ["check", root] => check(Path::new(root)),
        _ => {
            eprintln!("example_tables: say `write ROOT` or `check ROOT`");
            ExitCode::from(2)
        }
    }
}

fn write(root: &Path) -> ExitCode {
    match examples::write(root) {
        Ok(lines) => {
            for line in lines {
                println!("{line}");
            }
            ExitCode::SUCCESS
        }
        Err(what) => {
            eprintln!("example_tables: {what}");
            ExitCode::FAILURE
        }
    }
}

fn check(root: &Path) -> ExitCode {
    let different = examples::check(root);
    for path in &different {
        eprintln!("example_tables: {path} is not as `example_tables write` writes it");
    }
    if different.is_empty() {
        ExitCode::SUCCESS
    } else {
        ExitCode::FAILURE
    }
}
