//! Tables of examples for the definitions in antt: the inputs stand here, the expectations are what this
//! library answers, and each table is written as one statement that the proof checker computes.
//!
//! `write` writes the files below a root, `check` compares them with what it would write. `table` says how a
//! file is laid out, `term` how values are printed as antt terms, and the other modules hold the inputs of
//! one crate each.

mod answers;
mod broken;
mod compiles;
mod constraint;
mod data;
pub(crate) mod handmade;
mod images;
mod interface;
mod items;
mod judging;
mod leaves;
mod lexis;
mod made;
mod meaning;
mod merges;
mod refusals;
mod spelled;
mod table;
mod term;
mod values;

use std::fs;
use std::path::Path;
use table::{File, Table};

/// Every file, lowest crate first.
fn files() -> Vec<File> {
    let mut all: Vec<File> = Vec::new();
    let mut add = |tables: Vec<Table>| all.extend(tables.iter().map(Table::file));
    add(lexis::tables());
    add(values::tables());
    add(refusals::tables());
    add(items::tables());
    add(constraint::tables());
    add(data::tables());
    add(judging::tables());
    add(images::tables());
    add(merges::tables());
    add(compiles::tables());
    add(answers::tables());
    add(interface::tables());
    all.push(meaning::file());
    all
}

/// Writes every file below the root, and says how many cases each holds.
pub fn write(root: &Path) -> Result<Vec<String>, String> {
    let mut lines = Vec::new();
    for file in files() {
        let path = root.join(&file.path);
        fs::write(&path, &file.text).map_err(|error| format!("{}: {error}", path.display()))?;
        lines.push(format!("{}: {} cases", file.path, file.cases));
    }
    Ok(lines)
}

/// The files below the root that aren't as `write` would write them.
pub fn check(root: &Path) -> Vec<String> {
    let differs = |file: &File| fs::read(root.join(&file.path)).ok().as_deref() != Some(file.text.as_bytes());
    files().into_iter().filter(differs).map(|file| file.path).collect()
}
