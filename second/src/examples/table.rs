//! How a file with a table of examples is laid out.

use std::collections::BTreeSet;
use std::fmt::Write;

/// Cases that belong together, each an antt term, under a comment of one line.
pub struct Group {
    pub about: &'static str,
    pub cases: Vec<String>,
}

/// Inputs that belong together.
pub struct Inputs {
    pub about: &'static str,
    pub texts: Vec<Vec<u8>>,
}

/// Inputs that are written out whole.
pub fn inputs(about: &'static str, texts: &[&[u8]]) -> Inputs {
    Inputs { about, texts: texts.iter().map(|text| text.to_vec()).collect() }
}

/// Inputs that are put together.
pub fn made_inputs(about: &'static str, texts: Vec<Vec<u8>>) -> Inputs {
    Inputs { about, texts }
}

/// The groups of cases of groups of inputs.
pub fn groups(all: &[Inputs], case: impl Fn(&[u8]) -> String) -> Vec<Group> {
    let group =
        |inputs: &Inputs| Group { about: inputs.about, cases: inputs.texts.iter().map(|text| case(text)).collect() };
    all.iter().map(group).collect()
}

/// A file that is written.
pub struct File {
    /// Its path below the root.
    pub path: String,
    pub text: String,
    pub cases: usize,
}

/// One table: a list of cases and the statement that none of them is wrong.
pub struct Table {
    /// The crate that the file belongs to.
    pub holder: &'static str,
    /// The file's module.
    pub module: &'static str,
    /// What the cases are, in a sentence.
    pub about: &'static str,
    /// What the cases need besides what every table needs.
    pub uses: &'static [&'static str],
    /// The type of the cases.
    pub case: &'static str,
    /// The test of one case.
    pub right: &'static str,
    /// What the checker opens besides what every table opens.
    pub unfolding: &'static str,
    pub groups: Vec<Group>,
}

/// The tables that stand in the crate whose definitions they compute, since edits of these must be refused there. The others have a crate of
/// their own, so that an edit of code does not compute them anew.
const BESIDE: [(&str, &str); 10] = [
    ("refusals", "RefusalTable"),
    ("meaning", "LeafTable"),
    ("meaning", "JudgeTable"),
    ("meaning", "MadeTable"),
    ("cadl_objects", "CountTable"),
    ("cadl_objects", "FaultTable"),
    ("table_merge", "StepTable"),
    ("compile", "CompileTable"),
    ("demands", "ListTable"),
    ("gateway", "InterfaceTable"),
];

impl Table {
    pub fn file(&self) -> File {
        let path = if BESIDE.contains(&(self.holder, self.module)) {
            format!("crates/{}/proofs/{}.antt", self.holder, self.module)
        } else {
            format!("crates/examples/proofs/{}.antt", self.outside_name())
        };
        File { path, text: self.text(), cases: self.groups.iter().map(|group| group.cases.len()).sum() }
    }

    /// The module's name among the tables of all crates: it begins with the crate's.
    fn outside_name(&self) -> String {
        let holder = capitalized(self.holder);
        if self.module.starts_with(&holder) {
            return String::from(self.module);
        }
        holder + self.module
    }

    /// The file's content.
    fn text(&self) -> String {
        let body = self.body();
        let mut out = format!("-- {} The expectations are the second implementation's.\n", self.about);
        out.push_str("-- This file is written by `example_tables write` of second/. Assumes nothing.\n");
        for line in self.uses.iter().filter_map(|line| import(line, &body)) {
            let _ = writeln!(out, "use {line}");
        }
        out + &body
    }

    /// What stands behind the imports.
    fn body(&self) -> String {
        let mut out = format!("\npub cases : List {}\ncases =\n", self.case);
        let mut sign = "";
        for group in &self.groups {
            let _ = writeln!(out, "    -- {}", group.about);
            for case in &group.cases {
                let _ = writeln!(out, "    {sign}{case}");
                sign = "∷ ";
            }
        }
        let _ = write!(out, "    {sign}[]\n\npub none_wrong : wrong {} 0 cases ≡ []\n", self.right);
        let _ = write!(out, "unfolding wrong {} cases {}\nnone_wrong = refl\n", self.right, self.unfolding);
        out
    }
}

/// An import of `PATH.{NAME, ..}`, or of a whole file, with the names alone that a text uses; none where it uses none.
fn import(line: &str, text: &str) -> Option<String> {
    let words = words(text);
    let Some((path, names)) = line.strip_suffix('}').and_then(|line| line.split_once('{')) else {
        let file = line.rsplit('.').next()?;
        return words.iter().any(|word| word.starts_with(&format!("{file}."))).then(|| line.to_string());
    };
    let used = |name: &&str| words.contains(name.trim_matches('◌'));
    let names: Vec<&str> = names.split(", ").filter(used).collect();
    (!names.is_empty()).then(|| format!("{path}{{{}}}", names.join(", ")))
}

/// The words of a text outside its comments and quotes.
fn words(text: &str) -> BTreeSet<&str> {
    let code = text.lines().filter(|line| !line.trim_start().starts_with("--"));
    // each second part of a line is quoted
    let parts = code.flat_map(|line| line.split('"').step_by(2));
    parts.flat_map(|part| part.split(|c: char| c.is_whitespace() || "(),".contains(c))).collect()
}

/// The words of a name, each with its first letter as a capital, in one.
fn capitalized(name: &str) -> String {
    let word = |word: &str| {
        let (first, rest) = word.split_at(1);
        first.to_uppercase() + rest
    };
    name.split('_').map(word).collect()
}

#[cfg(test)]
mod tests {
    use super::*;

    const TEXT: &str =
        "\npub cases : List Case\ncases =\n    -- refuses\n    accepts (bytes \"any\") (Data.block [])\n    ∷ []\n";

    #[test]
    fn an_import_has_the_names_that_are_used() {
        let kept = |line| import(line, TEXT);
        assert_eq!(kept("A.{Case, accepts, refuses}"), Some("A.{Case, accepts}".to_string()));
        assert_eq!(kept("A.{any}"), None);
        assert_eq!(kept("List.{List, [], ◌∷◌, ◌++◌}"), Some("List.{List, [], ◌∷◌}".to_string()));
        assert_eq!(kept("A.specs.Data"), Some("A.specs.Data".to_string()));
        assert_eq!(kept("A.specs.Verdicts"), None);
    }
}
