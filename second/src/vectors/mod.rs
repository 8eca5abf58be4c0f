//! Test vectors for the program that runs the jobs: what it reads from standard input, and what it must print.
//! The inputs stand here or come from the generator; the expectations are this library's answers.
//!
//! `write` writes the files below a root, `check` compares them with what it would write. `stream` says how cases
//! are spelled for the program, and the other modules hold the cases: tables, data texts, constraint texts.

mod forms;
mod stream;
mod tables;
mod texts;
mod ways;

use std::fs;
use std::path::Path;
use stream::Stream;

/// A file below the root.
struct File {
    path: String,
    bytes: Vec<u8>,
}

/// Every file.
fn files() -> Vec<File> {
    let streams: [Stream; 3] = [tables::cases(), forms::cases(), texts::cases()];
    let input = streams.iter().flat_map(|stream| stream.input.clone()).collect();
    let output: String = streams.into_iter().map(|stream| stream.output).collect();
    vec![
        File { path: "crates/vectors/stdin".to_owned(), bytes: input },
        File { path: "crates/vectors/stdout".to_owned(), bytes: output.into_bytes() },
    ]
}

/// Writes every file below the root, and says how long each is.
pub fn write(root: &Path) -> Result<Vec<String>, String> {
    let mut lines = Vec::new();
    for file in files() {
        let path = root.join(&file.path);
        fs::write(&path, &file.bytes).map_err(|error| format!("{}: {error}", path.display()))?;
        lines.push(format!("{}: {} bytes", file.path, file.bytes.len()));
    }
    Ok(lines)
}

/// The files below the root that aren't as `write` would write them.
pub fn check(root: &Path) -> Vec<String> {
    let differs = |file: &File| fs::read(root.join(&file.path)).ok().as_deref() != Some(&file.bytes[..]);
    files().into_iter().filter(differs).map(|file| file.path).collect()
}
