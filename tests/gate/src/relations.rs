//! Relations that are proved one with a definition: their file says so in its head, "Proved one with NAME, NAME.", and names none of these definitions
//! outside its comments, so that the relation is not made of what it is held against.

use std::collections::BTreeSet;
use std::fs;
use std::io;
use std::path::{Path, PathBuf};

const SAYS: &str = "Proved one with ";

/// What was looked at: the files that say so, the names in their heads, and what is wrong.
#[derive(Debug, Default)]
pub struct Relations {
    pub files: usize,
    pub names: usize,
    pub wrong: Vec<String>,
}

/// Looks through the files of `crates/*/specs`.
pub fn relations(crates: &Path) -> io::Result<Relations> {
    let mut texts = Vec::new();
    for folder in sorted(crates)? {
        for file in sorted(&folder.join("specs")).unwrap_or_default().into_iter().filter(|file| file.is_file()) {
            texts.push((fs::read_to_string(&file)?, file));
        }
    }
    let defined: BTreeSet<&str> = texts.iter().flat_map(|(text, _)| defined(text)).collect();
    let mut found = Relations::default();
    for (text, file) in &texts {
        let named = proved_one_with(text);
        found.files += usize::from(!named.is_empty());
        found.names += named.len();
        // a name that is no definition's would stand nowhere else, and the look for it would always be passed
        let unknown = named.iter().filter(|name| !defined.contains(name.as_str()));
        found.wrong.extend(
            unknown.map(|name| format!("{} is proved one with {name}, and nothing is called so", file.display())),
        );
        let used = uses(text, &named);
        found
            .wrong
            .extend(used.iter().map(|name| format!("{} uses {name}, which it is proved one with", file.display())));
    }
    Ok(found)
}

/// The definitions that a file's head says it is proved one with.
fn proved_one_with(text: &str) -> Vec<String> {
    let head: Vec<&str> = text.lines().map_while(|line| line.strip_prefix("-- ")).collect();
    let head = head.join(" ");
    let Some((_, behind)) = head.split_once(SAYS) else { return Vec::new() };
    let names = behind.split_once('.').map_or(behind, |(names, _)| names);
    names.split(", ").map(|name| name.trim().to_string()).collect()
}

/// The names that a file defines: those of its lines that state a type, at their beginning or, among definitions that speak of one another, behind `pub`.
fn defined(text: &str) -> impl Iterator<Item = &str> {
    const MARKS: [&str; 6] = ["pub", "abbrev", "unfoldable", "opaque", "data", "record"];
    text.lines().filter(|line| !line.starts_with(' ') || line.trim_start().starts_with("pub ")).filter_map(|line| {
        let mut words = line.split("-- ").next()?.split_once(" : ")?.0.split_whitespace();
        words.find(|word| !MARKS.contains(word))
    })
}

/// Those of some names that stand in a file outside its comments.
fn uses(text: &str, names: &[String]) -> Vec<String> {
    let code: Vec<&str> = text.lines().map(|line| line.split("-- ").next().unwrap_or("")).collect();
    let words: Vec<&str> =
        code.iter().flat_map(|line| line.split(|c: char| !c.is_alphanumeric() && c != '-' && c != '_')).collect();
    names.iter().filter(|name| words.contains(&name.as_str())).cloned().collect()
}

/// What stands in a folder, by name.
fn sorted(folder: &Path) -> io::Result<Vec<PathBuf>> {
    let mut paths = fs::read_dir(folder)?.map(|entry| Ok(entry?.path())).collect::<io::Result<Vec<_>>>()?;
    paths.sort();
    Ok(paths)
}

#[cfg(test)]
mod tests {
    use super::*;

    const FILE: &str = "-- Sums, as rules. Proved one with sum_of,\n-- half. Assumes nothing.\nuse A.{sum}\n-- sum_of\nx = sum -- half\n";

    #[test]
    fn a_head_names_what_its_relations_are_held_against() {
        assert_eq!(proved_one_with(FILE), ["sum_of", "half"]);
        assert!(proved_one_with("-- Sums. Assumes nothing.\n").is_empty());
    }

    #[test]
    fn a_definition_counts_outside_comments_alone() {
        let names = proved_one_with(FILE);
        assert!(uses(FILE, &names).is_empty());
        assert_eq!(uses(&format!("{FILE}y = half x\n"), &names), ["half"]);
        assert_eq!(uses(&format!("{FILE}use B.{{sum_of}}\n"), &names), ["sum_of"]);
    }

    #[test]
    fn definitions_are_known_by_the_lines_that_state_their_types() {
        let text = "-- half : no\nunfoldable pub sum_of : List ℕ → ℕ\n  pub in-mutual : ℕ\npub data Sum (s : List ℕ) : ℕ → Type 0 where\n  made : Sum s\nsum_of s = 0\n";
        assert_eq!(defined(text).collect::<Vec<_>>(), ["sum_of", "in-mutual", "Sum"]);
    }

    #[test]
    fn a_name_that_nothing_is_called_is_told() {
        let crates = std::env::temp_dir().join(format!("gate-relations-{}", std::process::id()));
        let specs = crates.join("small/specs");
        fs::create_dir_all(&specs).expect("a temporary folder is made");
        fs::write(specs.join("Rules.antt"), FILE).expect("a temporary file is written");
        fs::write(specs.join("Sums.antt"), "pub sum_of : ℕ\n").expect("a temporary file is written");
        let found = relations(&crates).expect("the files are there");
        assert_eq!((found.files, found.names), (1, 2));
        assert!(found.wrong.len() == 1 && found.wrong[0].contains("with half, and nothing is called so"));
        fs::remove_dir_all(crates).expect("the temporary folder is removed");
    }
}
