//! The edits that must be refused: files `crates/CRATE/must-fail/*.edit`, which `rt ci` tries. Each names in comments what it breaks: a function, by a line
//! `# function: PATH`, or the file of a law, by a line `# law: FILE`.

use crate::sources::Sources;
use std::collections::BTreeMap;
use std::fs;
use std::io;
use std::path::{Path, PathBuf};

/// An edit: what stands in a file once is replaced by something else, in one place or in several.
#[derive(Clone, Debug, PartialEq, Eq)]
pub struct Edit {
    /// The crate that it edits.
    pub crate_name: String,
    /// Its file's name in the crate's `must-fail`, without `.edit`.
    pub name: String,
    /// The wrong program, or the wrong definition, that the edit makes: its first line.
    pub wrong: String,
    /// The functions that it breaks, where it is one of code.
    pub functions: Vec<String>,
    /// The file of the law that it breaks, below the crate's `proofs` and without `.antt`, where it is one of a definition.
    pub law: Option<String>,
    pub replacements: Vec<Replacement>,
}

#[derive(Clone, Debug, PartialEq, Eq)]
pub struct Replacement {
    /// The file, from the crate's folder on.
    pub file: String,
    pub old: String,
    pub new: String,
}

impl Edit {
    /// Reads the text of an edit; what is wrong with it, where something is.
    pub fn parse(crate_name: &str, name: &str, text: &str) -> Result<Edit, String> {
        let mut lines = text.lines();
        let wrong = sentence(lines.next().unwrap_or(""))?;
        let (mut functions, mut law, mut file, mut old, mut replacements) = (Vec::new(), None, None, None, Vec::new());
        for line in lines {
            if let Some(path) = line.strip_prefix("# function: ") {
                functions.push(path.to_string());
            } else if let Some(path) = line.strip_prefix("# law: ") {
                if law.replace(path.to_string()).is_some() {
                    return Err("it names two laws".to_string());
                }
            } else if let Some(path) = line.strip_prefix("file: ") {
                file = Some(path.to_string());
            } else if let Some(text) = line.strip_prefix("old: ") {
                old = Some(text.to_string());
            } else if let Some(text) = line.strip_prefix("new:") {
                let file = file.clone().ok_or("a 'new:' line stands before any 'file:' line")?;
                let old = old.take().ok_or("a 'new:' line has no 'old:' line before it")?;
                let new = text.strip_prefix(' ').unwrap_or(text).to_string();
                replacements.push(Replacement { file, old, new });
            } else if !line.starts_with('#') && !line.is_empty() {
                return Err(format!("a line is neither a comment nor one of file, old and new: {line}"));
            }
        }
        if replacements.is_empty() {
            return Err("it replaces nothing".to_string());
        }
        Ok(Edit { crate_name: crate_name.to_string(), name: name.to_string(), wrong, functions, law, replacements })
    }

    /// Its file, from the repository's root on.
    pub fn path(&self) -> PathBuf {
        PathBuf::from(format!("crates/{}/must-fail/{}.edit", self.crate_name, self.name))
    }

    /// Whether it edits a definition or a statement, and no code.
    pub fn is_of_definitions(&self) -> bool {
        self.replacements.iter().all(|replacement| replacement.file.starts_with("specs/"))
    }

    /// How many functions and laws it names.
    pub fn named(&self) -> usize {
        self.functions.len() + usize::from(self.law.is_some())
    }

    /// What is wrong with what the edit names and replaces, held against its crate.
    pub fn faults(&self, folder: &Path, sources: &Sources) -> Vec<String> {
        let mut faults = Vec::new();
        let lost = self.functions.iter().filter(|path| sources.find(path).is_none());
        faults.extend(lost.map(|path| format!("it names {path}, and there is no such function")));
        if let Some(law) = self.law.as_ref().filter(|law| !folder.join(format!("proofs/{law}.antt")).is_file()) {
            faults.push(format!("it names the law {law}, and there is no file proofs/{law}.antt"));
        }
        match self.named() {
            0 if !self.is_of_definitions() => faults.push("it edits code, and names no function or law".to_string()),
            0 | 1 => {}
            _ if self.law.is_some() => faults.push("it names a law and more".to_string()),
            _ if self.lies_inside_a_function(sources) => {
                faults.push("it names several functions, and lies inside one".to_string())
            }
            _ => {}
        }
        faults.extend(self.misplaced(folder));
        faults
    }

    /// Whether one of its replacements lies inside a function's body.
    fn lies_inside_a_function(&self, sources: &Sources) -> bool {
        self.replacements.iter().any(|replacement| {
            let at = sources.files.get(&replacement.file).and_then(|text| place_of(text, &replacement.old).ok());
            let inside = |at: usize| {
                sources
                    .functions
                    .iter()
                    .any(|function| function.file == replacement.file && function.body.contains(&at))
            };
            at.is_some_and(inside)
        })
    }

    /// The texts that do not stand once in their files, as those before left them.
    fn misplaced(&self, folder: &Path) -> Option<String> {
        let mut files: BTreeMap<&str, String> = BTreeMap::new();
        for Replacement { file, old, new } in &self.replacements {
            if !files.contains_key(file.as_str()) {
                match fs::read_to_string(folder.join(file)) {
                    Ok(text) => files.insert(file, text),
                    Err(error) => return Some(format!("{file}: {error}")),
                };
            }
            let text = &files[file.as_str()];
            match place_of(text, old) {
                Ok(at) => {
                    let made = format!("{}{new}{}", &text[..at], &text[at + old.len()..]);
                    files.insert(file, made);
                }
                Err(why) => return Some(format!("an 'old:' text {why} {file}: {old}")),
            }
        }
        None
    }
}

/// What an edit's first line says, without the sign of a comment.
fn sentence(line: &str) -> Result<String, String> {
    let said = line.strip_prefix('#').unwrap_or("").trim();
    if said.is_empty() || said.starts_with("function: ") || said.starts_with("law: ") {
        return Err("its first line is no comment that says the wrong program".to_string());
    }
    Ok(said.to_string())
}

/// Where a text has another one, which must stand there once.
fn place_of(text: &str, old: &str) -> Result<usize, &'static str> {
    let at = text.find(old).filter(|_| !old.is_empty()).ok_or("is not in")?;
    let behind = at + text[at..].chars().next().map_or(0, char::len_utf8);
    match text[behind..].contains(old) {
        true => Err("is more than once in"),
        false => Ok(at),
    }
}

/// All edits of the crates below a root, in the order of their paths; what is wrong with one, where something is.
pub fn all(root: &Path) -> Result<Vec<Edit>, String> {
    let mut edits = Vec::new();
    for krate in names(&root.join("crates")).map_err(|error| error.to_string())? {
        let folder = root.join("crates").join(&krate).join("must-fail");
        for file in names(&folder).unwrap_or_default() {
            edits.push(read(&folder, &krate, &file)?);
        }
    }
    Ok(edits)
}

fn read(folder: &Path, crate_name: &str, file: &str) -> Result<Edit, String> {
    let said = |why: String| format!("crates/{crate_name}/must-fail/{file}: {why}");
    let name = file.strip_suffix(".edit").ok_or_else(|| said("it is no edit: `rt ci` reads it not".to_string()))?;
    let text = fs::read_to_string(folder.join(file)).map_err(|error| said(error.to_string()))?;
    Edit::parse(crate_name, name, &text).map_err(said)
}

/// What a folder has, in order.
fn names(folder: &Path) -> io::Result<Vec<String>> {
    let mut names = fs::read_dir(folder)?
        .map(|entry| entry.map(|entry| entry.file_name().to_string_lossy().into_owned()))
        .collect::<io::Result<Vec<String>>>()?;
    names.sort();
    Ok(names)
}

#[cfg(test)]
pub(crate) mod tests {
    use super::*;
    use crate::sources::tests::{sample, LIB};

    const CARRY: &str = "# nothing is added\n# function: carry\nfile: src/lib.rt\nold: a + b\nnew: a\n";

    pub(crate) fn edit(name: &str, text: &str) -> Edit {
        Edit::parse("small", name, text).expect("the sample is an edit")
    }

    #[test]
    fn an_edit_is_read() {
        let read = edit("nothing_added", CARRY);
        assert_eq!(
            (read.wrong.as_str(), read.functions.as_slice()),
            ("nothing is added", ["carry".to_string()].as_slice())
        );
        let only = Replacement { file: "src/lib.rt".to_string(), old: "a + b".to_string(), new: "a".to_string() };
        assert_eq!(read.replacements, [only]);
        assert!(!read.is_of_definitions());
        assert!(edit("x", "# x\nfile: specs/A.antt\nold: 1\nnew:\n").is_of_definitions());
        let of_law = edit("x", "# x\n# law: Laws\nfile: specs/A.antt\nold: 1\nnew: 2\n");
        assert_eq!((of_law.law.as_deref(), of_law.named()), (Some("Laws"), 1));
    }

    #[test]
    fn what_is_no_edit_is_told() {
        let why = |text| Edit::parse("small", "x", text).expect_err("it is no edit");
        assert!(why("file: src/lib.rt\nold: a\nnew: b\n").contains("first line"));
        assert!(why("# function: add\nfile: src/lib.rt\nold: a\nnew: b\n").contains("first line"));
        assert!(why("# x\nfile: src/lib.rt\n").contains("replaces nothing"));
        assert!(why("# x\nfile: src/lib.rt\nnew: b\n").contains("no 'old:'"));
        assert!(why("# x\nold: a\nnew: b\n").contains("before any 'file:'"));
        assert!(why("# x\nfile: src/lib.rt\nold: a\nnew: b\nnwe: c\n").contains("nwe"));
        assert!(why("# x\nfunction: add\nfile: src/lib.rt\nold: a\nnew: b\n").contains("function"));
        assert!(why("# x\n# law: A\n# law: B\nfile: specs/A.antt\nold: a\nnew: b\n").contains("two laws"));
    }

    /// A folder with the sample's crate.
    fn folder(name: &str) -> PathBuf {
        let folder = std::env::temp_dir().join(format!("gate-{name}-{}", std::process::id()));
        for (file, text) in [("src/lib.rt", LIB), ("specs/A.antt", "a = 1\n"), ("proofs/Laws.antt", "-- laws\n")] {
            let path = folder.join(file);
            fs::create_dir_all(path.parent().expect("it lies below the folder")).expect("a temporary folder is made");
            fs::write(path, text).expect("a temporary file is written");
        }
        folder
    }

    #[test]
    fn what_an_edit_names_must_be_there() {
        let (folder, sources) = (folder("names"), sample());
        let faults = |text: &str| edit("x", text).faults(&folder, &sources).join("; ");
        assert_eq!(faults(CARRY), "");
        assert!(faults(&CARRY.replace("carry", "gone")).contains("names gone"));
        assert!(faults(&CARRY.replace("# function: carry\n", "")).contains("names no function"));
        let law = "# x\n# law: Laws\nfile: specs/A.antt\nold: 1\nnew: 2\n";
        assert_eq!(faults(law), "");
        assert!(faults(&law.replace("Laws", "Law")).contains("no file proofs/Law.antt"));
        assert_eq!(faults(&law.replace("# law: Laws\n", "")), "");
        // several functions may be named where what they share is edited
        assert!(
            faults(&CARRY.replace("# function: carry", "# function: carry\n# function: add")).contains("lies inside")
        );
        let shared =
            "# x\n# function: carry\n# function: add\nfile: src/lib.rt\nold: pub struct Place\nnew: struct P\n";
        assert_eq!(faults(shared), "");
        fs::remove_dir_all(folder).expect("the temporary folder is removed");
    }

    #[test]
    fn what_an_edit_replaces_must_stand_once() {
        let (folder, sources) = (folder("places"), sample());
        let faults = |text: &str| edit("x", text).faults(&folder, &sources).join("; ");
        assert!(faults(&CARRY.replace("old: a + b", "old: a - b")).contains("is not in src/lib.rt"));
        assert!(faults(&CARRY.replace("old: a + b", "old: u32")).contains("more than once"));
        // the second text stands in what the first one made
        let twice = format!("{}old: a - b\nnew: a\n", CARRY.replace("new: a", "new: a - b"));
        assert_eq!(faults(&twice), "");
        fs::remove_dir_all(folder).expect("the temporary folder is removed");
    }

    #[test]
    fn a_text_must_stand_once() {
        assert_eq!(place_of("abc", "b"), Ok(1));
        assert_eq!(place_of("a→b", "→"), Ok(1));
        assert!(place_of("abc", "d").is_err() && place_of("abab", "ab").is_err() && place_of("abc", "").is_err());
    }
}
