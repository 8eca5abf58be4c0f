//! Writes the test vectors of the programs, or compares them with what it would write.
//!
//!     vectors write ROOT
//!     vectors check ROOT
//!
//! ROOT is the folder that holds crates/. `check` ends with 1 where a file differs, and names it.

use second::vectors;
use std::path::Path;
use std::process::ExitCode;

fn main() -> ExitCode {
    let words: Vec<String> = std::env::args().skip(1).collect();
    let (lines, good) = match words.iter().map(String::as_str).collect::<Vec<_>>()[..] {
        ["write", root] => match vectors::write(Path::new(root)) {
            Ok(lines) => (lines, true),
            Err(what) => (vec![what], false),
        },
        ["check", root] => {
            let different = vectors::check(Path::new(root));
            let good = different.is_empty();
            (different.iter().map(|path| format!("{path} is not as `vectors write` writes it")).collect(), good)
        }
        _ => {
            eprintln!("vectors: say `write ROOT` or `check ROOT`");
            return ExitCode::from(2);
        }
    };
    for line in lines {
        println!("{line}");
    }
    if good {
        ExitCode::SUCCESS
    } else {
        ExitCode::FAILURE
    }
}
