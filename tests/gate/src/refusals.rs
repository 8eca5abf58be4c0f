//! Where the prover first refuses an edit, by what `rt ci` and `rt must-fail` say of it, and whether that is at the function or the law that it names.

use crate::edits::Edit;
use crate::sources::Sources;
use std::collections::BTreeMap;

/// The words before what the prover says first of an edit that it refuses.
const REFUSED: &str = "refused, as it must be";

/// What is said first of an edit that was refused.
#[derive(Debug, PartialEq, Eq)]
pub struct Refusal<'a> {
    pub crate_name: &'a str,
    pub edit: &'a str,
    /// The file of the crate and its line, where one is told.
    pub place: Option<(&'a str, usize)>,
}

/// How refusals and what their edits name fit together.
#[derive(Debug, Default, PartialEq, Eq)]
pub struct Fit {
    /// Those that are first told at what the edit names.
    pub there: usize,
    /// Those of edits that name no function or law.
    pub unnamed: usize,
    /// Those that are first told elsewhere: the edit, what it names, and the place.
    pub elsewhere: Vec<(String, String, String)>,
}

/// The edits that a run says were refused.
pub fn refusals(said: &str) -> Vec<Refusal<'_>> {
    said.lines().filter_map(refusal).collect()
}

/// A line `rt: must-fail CRATE/EDIT.edit: refused, as it must be: PATH:LINE:COLUMN: ..`.
fn refusal(line: &str) -> Option<Refusal<'_>> {
    let (path, said) = line.strip_prefix("rt: must-fail ")?.split_once(": ")?;
    let (crate_name, edit) = path.strip_suffix(".edit")?.split_once('/')?;
    let place = said.strip_prefix(REFUSED)?.split_whitespace().find_map(place);
    Some(Refusal { crate_name, edit, place })
}

/// A word `./proofs/F.antt:3:1:` as the file and the line.
fn place(word: &str) -> Option<(&str, usize)> {
    let mut parts = word.strip_prefix("./").unwrap_or(word).split(':');
    let (file, line) = (parts.next()?, parts.next()?.parse().ok()?);
    let is_of_crate = ["src/", "specs/", "proofs/"].iter().any(|folder| file.starts_with(folder));
    is_of_crate.then_some((file, line))
}

/// Holds refusals against what their edits name.
pub fn fit(refusals: &[Refusal], edits: &[Edit], crates: &BTreeMap<String, Sources>) -> Fit {
    let mut fit = Fit::default();
    for refusal in refusals {
        let known = edits.iter().find(|edit| edit.crate_name == refusal.crate_name && edit.name == refusal.edit);
        let (Some(edit), Some(sources)) = (known, crates.get(refusal.crate_name)) else { continue };
        if edit.named() == 0 {
            fit.unnamed += 1;
        } else if refusal.place.is_some_and(|(file, line)| is_named(edit, sources, file, line)) {
            fit.there += 1;
        } else {
            let named = edit.functions.iter().chain(&edit.law).cloned().collect::<Vec<_>>().join(", ");
            let place = refusal.place.map_or("no place".to_string(), |(file, line)| told(sources, file, line));
            fit.elsewhere.push((format!("{}/{}", edit.crate_name, edit.name), named, place));
        }
    }
    fit
}

/// Whether a place is in the law that an edit names, or in a function or its proof.
fn is_named(edit: &Edit, sources: &Sources, file: &str, line: usize) -> bool {
    if let Some(law) = &edit.law {
        return file == format!("proofs/{law}.antt");
    }
    edit.functions.iter().any(|path| match sources.at(file, line) {
        Some(function) => function.path == *path,
        None => proof_folders(sources, path).iter().any(|folder| file.starts_with(folder.as_str())),
    })
}

/// The folders in which a function's proof may stand: its own, and that of the functions that it is proved with.
fn proof_folders(sources: &Sources, path: &str) -> Vec<String> {
    let own = path.replace("::", "/");
    let cycle = sources.find(path).and_then(|at| sources.functions[at].cycle.as_ref());
    let module = own.rsplit_once('/').map_or(String::new(), |(module, _)| format!("{module}/"));
    let shared = cycle.map(|cycle| format!("proofs/{module}+{cycle}/"));
    std::iter::once(format!("proofs/{own}/")).chain(shared).collect()
}

/// A place for a reader: the function that has the line, where one has.
fn told(sources: &Sources, file: &str, line: usize) -> String {
    sources.at(file, line).map_or(format!("{file}:{line}"), |function| format!("{} ({file}:{line})", function.path))
}

#[cfg(test)]
mod tests {
    use super::*;
    use crate::edits::tests::edit;
    use crate::sources::tests::sample;

    const SAID: &str = "rt: small: begins with what a check kept
rt: must-fail small/nothing_added.edit: refused, as it must be: note: src/lib.rt:31:1: it is not proved that the result is the sum
rt: must-fail small/one_added.edit: refused, as it must be: ./proofs/+add_carry/Answers.antt:7:13: error: no proof of it
rt: must-fail small/law_broken.edit: refused, as it must be: ./proofs/Laws.antt:9:1: error: two sides differ
rt: must-fail small/other_law.edit: refused, as it must be (only by a limit of the prover): proofs/Other.antt:9:1: error: no
rt: must-fail small/of_all.edit: refused, as it must be
rt: must-fail small/no_text.edit: BAD EDIT: an 'old:' text is in src/lib.rt 0 times, and not once
rt: must-fail small/no_change.edit: NOT REFUSED: the crate is still proved with this edit
";

    fn edits() -> Vec<Edit> {
        let of = |name: &str, named: &str| edit(name, &format!("# x\n{named}file: specs/A.antt\nold: 1\nnew: 2\n"));
        vec![
            of("nothing_added", "# function: carry\n"),
            of("one_added", "# function: add\n"),
            of("law_broken", "# law: Laws\n"),
            of("other_law", "# law: Laws\n"),
            of("of_all", ""),
        ]
    }

    #[test]
    fn refusals_are_read_with_their_places() {
        let read = refusals(SAID);
        let places: Vec<_> = read.iter().map(|refusal| (refusal.edit, refusal.place)).collect();
        assert_eq!(
            places,
            [
                ("nothing_added", Some(("src/lib.rt", 31))),
                ("one_added", Some(("proofs/+add_carry/Answers.antt", 7))),
                ("law_broken", Some(("proofs/Laws.antt", 9))),
                ("other_law", Some(("proofs/Other.antt", 9))),
                ("of_all", None),
            ]
        );
    }

    #[test]
    fn a_refusal_elsewhere_is_told() {
        let crates = BTreeMap::from([("small".to_string(), sample())]);
        let fit = fit(&refusals(SAID), &edits(), &crates);
        assert_eq!((fit.there, fit.unnamed), (3, 1));
        let elsewhere = ("small/other_law", "Laws", "proofs/Other.antt:9");
        assert_eq!(fit.elsewhere.len(), 1);
        let (edit, named, place) = &fit.elsewhere[0];
        assert_eq!((edit.as_str(), named.as_str(), place.as_str()), elsewhere);
    }
}
