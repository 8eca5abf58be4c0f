//! Definitions that a reader must believe, and those that only carry contracts and proofs: the former stand in `crates/*/specs`, the latter in
//! `crates/*/specs/Clauses`, and no file of the former speaks of one of the latter.

use std::fs;
use std::io;
use std::path::{Path, PathBuf};

/// What was looked at: the files of either kind, and what is wrong with those of the former.
#[derive(Debug, Default)]
pub struct Layers {
    pub definitions: usize,
    pub of_clauses: usize,
    /// The lines of files of the latter, and of sources, that speak of the latter: they may.
    pub allowed: usize,
    /// The lines of definitions that speak of what only carries contracts.
    pub misplaced: Vec<String>,
}

/// Looks through the definitions and the sources below `crates`.
pub fn layers(crates: &Path) -> io::Result<Layers> {
    let mut found = Layers::default();
    for folder in sorted(crates)? {
        for file in files(&folder.join("specs"))? {
            found.definitions += 1;
            let text = fs::read_to_string(&file)?;
            let said =
                uses(&text).map(|line| format!("{} speaks of what only carries contracts: {line}", file.display()));
            found.misplaced.extend(said);
        }
        let of_clauses = files(&folder.join("specs/Clauses"))?;
        found.of_clauses += of_clauses.len();
        for file in of_clauses.into_iter().chain(files(&folder.join("src"))?) {
            found.allowed += uses(&fs::read_to_string(file)?).count();
        }
    }
    Ok(found)
}

/// The lines of a file outside its comments that speak of a module of `specs/Clauses`, of this crate or another.
fn uses(text: &str) -> impl Iterator<Item = &str> {
    text.lines().filter(|line| {
        let code = line.split("--").next().unwrap_or("").split("//").next().unwrap_or("");
        code.contains(".specs.Clauses")
    })
}

/// The files of a folder, by name; none where there is no such folder.
fn files(folder: &Path) -> io::Result<Vec<PathBuf>> {
    if !folder.is_dir() {
        return Ok(Vec::new());
    }
    Ok(sorted(folder)?.into_iter().filter(|path| path.is_file()).collect())
}

/// What stands in a folder, by name.
fn sorted(folder: &Path) -> io::Result<Vec<PathBuf>> {
    let mut paths = fs::read_dir(folder)?.map(|entry| Ok(entry?.path())).collect::<io::Result<Vec<_>>>()?;
    paths.sort();
    Ok(paths)
}

#[cfg(test)]
mod tests {
    use super::*;

    #[test]
    fn what_speaks_of_clauses_is_found() {
        let import = "use Rattle.table.specs.Clauses.Answers.{record_of}";
        let inline = "x = Rattle.table.specs.Clauses.Answers.record_of 1";
        let text =
            format!("use Rattle.table.specs.Records.{{count}}\n{import}\n{inline} -- told\npub use Rattle.table.specs.Clauses\n");
        let found: Vec<&str> = uses(&text).collect();
        assert_eq!(found, [import, &format!("{inline} -- told"), "pub use Rattle.table.specs.Clauses"]);
    }

    #[test]
    fn the_list_of_clauses_itself_and_a_comment_are_no_use() {
        assert_eq!(
            uses("-- As Rattle.table.specs.Clauses.Answers has it.\npub mod Clauses\npub mod Answers\n").count(),
            0
        );
    }

    #[test]
    fn files_are_told_apart_by_their_folder() {
        let crates = std::env::temp_dir().join(format!("gate-layers-{}", std::process::id()));
        let import = "use Rattle.small.specs.Clauses.Answers.{a}\n";
        let files = [
            ("small/specs/A.antt", import),
            ("small/specs/B.antt", "b = 1\n"),
            ("small/specs/Clauses/Answers.antt", import),
            ("small/src/lib.rt", "ghost use Rattle.small.specs.Clauses.Answers.{a};\n"),
        ];
        for (file, text) in files {
            let path = crates.join(file);
            fs::create_dir_all(path.parent().expect("it lies below the folder")).expect("a temporary folder is made");
            fs::write(path, text).expect("a temporary file is written");
        }
        let found = layers(&crates).expect("the files are there");
        assert_eq!((found.definitions, found.of_clauses, found.allowed), (2, 1, 2));
        assert!(found.misplaced.len() == 1 && found.misplaced[0].contains("small/specs/A.antt"));
        fs::remove_dir_all(crates).expect("the temporary folder is removed");
    }
}
