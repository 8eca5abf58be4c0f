//! The page of contracts: for each public function what it is, the definitions that its promise cites, and the wrong programs that it rules out.

use crate::edits::Edit;
use crate::sources::{Function, Sources};
use std::collections::{BTreeMap, BTreeSet};
use std::fmt::Write;

/// How many edits a public function must have, unless a reason is written.
const EDITS: usize = 2;

/// The heading in the text of reasons below which they stand.
const REASONS: &str = "## Functions with fewer than two edits";

const INTRODUCTION: &str = "# Contracts, with the wrong programs that they rule out

This page is written by `tests/contracts write`, from the sources and from the edits that must be refused. CI fails where it is stale, and where a public function
has fewer than two edits without a reason in `LAWS.md`.

A row names a public function. It says what the function is, in the words of the comment before it, and which definitions its promise cites: the contract, in the
source, is over these definitions, and where it cites none over numbers and lists alone. Behind it stand wrong programs, each with the edit that makes it, by
its name in `crates/NAME/must-fail/`, without `.edit`; \"of\" names the private function that is edited, where it is one that serves the public one.

`rt ci` sees of each edit that the prover refuses the crate that it makes. Each names the function or the file of the law that it breaks, but for those that change what several
share; `tests/edits` tells of which the refusal was first told elsewhere (D16).

What holds the definitions themselves, and what the contracts leave open, is in `LAWS.md`.
";

/// Reads the reasons why functions have fewer edits: lines \"- `FUNCTION`, `FUNCTION`: REASON\" below their heading.
pub fn reasons(text: &str) -> Result<BTreeMap<String, String>, String> {
    let section = text.split_once(REASONS).ok_or(format!("there is no heading '{REASONS}'"))?.1;
    let mut reasons = BTreeMap::new();
    for line in section.lines().take_while(|line| !line.starts_with("## ")).filter_map(|line| line.strip_prefix("- ")) {
        let (functions, reason) =
            line.split_once(": ").ok_or(format!("a reason is not written as `FUNCTION`: REASON: {line}"))?;
        for function in functions.split(", ") {
            reasons.insert(function.trim_matches('`').to_string(), reason.to_string());
        }
    }
    Ok(reasons)
}

/// The whole page; what is wrong with the edits or the reasons, where something is.
pub fn page(
    crates: &[(String, Sources)],
    edits: &[Edit],
    reasons: &BTreeMap<String, String>,
) -> Result<String, String> {
    let mut wrong = unknown_reasons(crates, reasons);
    let mut page = INTRODUCTION.to_string();
    let functions: usize =
        crates.iter().map(|(_, sources)| sources.functions.iter().filter(|function| function.public).count()).sum();
    let of_definitions = edits.iter().filter(|edit| edit.is_of_definitions()).count();
    let _ = writeln!(
        page,
        "\n{functions} public functions; {} edits, {} of code and {of_definitions} of definitions and statements.",
        edits.len(),
        edits.len() - of_definitions
    );
    for (name, sources) in crates {
        let own: Vec<&Edit> =
            edits.iter().filter(|edit| &edit.crate_name == name && !edit.is_of_definitions()).collect();
        match crate_table(name, sources, &own, reasons) {
            Ok(table) => page.push_str(&table),
            Err(mut more) => wrong.append(&mut more),
        }
    }
    page.push_str(&definitions_table(crates, edits));
    if wrong.is_empty() {
        Ok(page)
    } else {
        Err(wrong.join("\n"))
    }
}

/// Reasons for functions that are not there.
fn unknown_reasons(crates: &[(String, Sources)], reasons: &BTreeMap<String, String>) -> Vec<String> {
    let known: BTreeSet<String> = crates
        .iter()
        .flat_map(|(name, sources)| {
            sources.functions.iter().filter(|function| function.public).map(move |function| full(name, function))
        })
        .collect();
    let unknown = reasons.keys().filter(|function| !known.contains(*function));
    unknown.map(|function| format!("a reason names {function}, and there is no such public function")).collect()
}

fn full(crate_name: &str, function: &Function) -> String {
    format!("{crate_name}::{}", function.path)
}

/// The table of a crate's public functions; nothing for a crate that has none.
fn crate_table(
    name: &str,
    sources: &Sources,
    edits: &[&Edit],
    reasons: &BTreeMap<String, String>,
) -> Result<String, Vec<String>> {
    let (served, mut wrong) = edits_of_public(sources, edits);
    let mut table = String::new();
    for (index, function) in sources.functions.iter().enumerate().filter(|(_, function)| function.public) {
        let rows = served.get(&index).cloned().unwrap_or_default();
        let reason = reasons.get(&full(name, function));
        if rows.len() < EDITS && reason.is_none() {
            wrong.push(format!(
                "{} has {} of {EDITS} edits, and no reason is written",
                full(name, function),
                rows.len()
            ));
        }
        if rows.len() >= EDITS && reason.is_some() {
            wrong.push(format!(
                "{} has {} of {EDITS} edits, and a reason why it has fewer",
                full(name, function),
                rows.len()
            ));
        }
        table.push_str(&function_rows(function, &rows, reason));
    }
    if !wrong.is_empty() {
        return Err(wrong);
    }
    if table.is_empty() {
        return Ok(table);
    }
    Ok(format!("\n## `{name}`\n\n| function | what it is | its promise cites | wrong program | edit |\n|---|---|---|---|---|\n{table}"))
}

/// A wrong program, and the edit that makes it.
type Row = (String, String);

/// The edits of each public function: its own, and those of the private functions that serve it. With them, edits that are of no public function.
fn edits_of_public(sources: &Sources, edits: &[&Edit]) -> (BTreeMap<usize, Vec<Row>>, Vec<String>) {
    let mut rows: BTreeMap<usize, Vec<Row>> = BTreeMap::new();
    let mut wrong = Vec::new();
    for edit in edits {
        let mut public = BTreeSet::new();
        for path in &edit.functions {
            match sources.find(path) {
                Some(index) => public.extend(sources.served(index)),
                None => wrong.push(format!("{} names {path}, and there is no such function", edit.path().display())),
            }
        }
        if public.is_empty() {
            wrong.push(format!("{} is of no public function", edit.path().display()));
        }
        for function in public {
            let own = edit.functions.contains(&sources.functions[function].path);
            let of: Vec<String> = edit.functions.iter().map(|path| format!("`{path}`")).collect();
            let edit_cell =
                if own { format!("`{}`", edit.name) } else { format!("`{}`, of {}", edit.name, of.join(", ")) };
            rows.entry(function).or_default().push((edit.wrong.clone(), edit_cell));
        }
    }
    (rows, wrong)
}

fn function_rows(function: &Function, edits: &[Row], reason: Option<&String>) -> String {
    let cited: Vec<String> = function.cited.iter().map(|name| format!("`{name}`")).collect();
    let head = format!("| `{}` | {} | {} |", function.path, escaped(&function.comment), cited.join(", "));
    let mut cells: Vec<Row> = edits.iter().map(|(wrong, edit)| (escaped(wrong), edit.clone())).collect();
    cells.extend(reason.map(|reason| (format!("Why fewer: {}", escaped(reason)), String::new())));
    let heads = std::iter::once(head.as_str()).chain(std::iter::repeat("| | | |"));
    heads.zip(cells).map(|(head, (wrong, edit))| format!("{head} {wrong} | {edit} |\n")).collect()
}

/// A text as a cell of a table holds it.
fn escaped(text: &str) -> String {
    text.replace('|', "\\|")
}

/// The edits of definitions and of statements, by the file that they change.
fn definitions_table(crates: &[(String, Sources)], edits: &[Edit]) -> String {
    let mut table =
        "\n## Definitions and statements\n\nThese edits change what the contracts and the demands say. A law, a demand, a table of examples or the code's own proof no longer holds, and `rt ci` sees that the crate is refused.\n\n| crate | file | wrong definition | edit |\n|---|---|---|---|\n".to_string();
    for (name, _) in crates {
        for edit in edits.iter().filter(|edit| &edit.crate_name == name && edit.is_of_definitions()) {
            let files: BTreeSet<String> =
                edit.replacements.iter().map(|replacement| format!("`{}`", replacement.file)).collect();
            let files: Vec<String> = files.into_iter().collect();
            let _ = writeln!(table, "| `{name}` | {} | {} | `{}` |", files.join(", "), escaped(&edit.wrong), edit.name);
        }
    }
    table
}

#[cfg(test)]
mod tests {
    use super::*;
    use crate::edits::tests::edit;
    use crate::sources::tests::sample;

    fn carry(name: &str) -> Edit {
        edit(name, "# `|` is added\n# function: carry\nfile: src/lib.rt\nold: a + b\nnew: a\n")
    }

    fn made(edits: &[Edit], text: &str) -> Result<String, String> {
        page(&[("small".to_string(), sample())], edits, &reasons(text)?)
    }

    const WHY: &str = "## Functions with fewer than two edits\n\n- `small::Place::start`, `small::more::twice::twice`: none can be had.\n\n## More\n- x\n";

    #[test]
    fn edits_of_private_functions_stand_with_the_public_one() {
        let page = made(&[carry("one"), carry("two")], WHY).expect("all is there");
        assert!(page.contains("| `add` | Adds two numbers. | `answer_of`, `sum_of` | `\\|` is added | `one`, of `carry` |\n| | | | `\\|` is added | `two`, of `carry` |\n"));
        assert!(page.contains("| Why fewer: none can be had. |  |"));
    }

    #[test]
    fn a_function_with_fewer_edits_needs_a_reason() {
        let why = made(&[carry("one")], WHY).expect_err("add has one edit");
        assert_eq!(why, "small::add has 1 of 2 edits, and no reason is written");
    }

    #[test]
    fn a_reason_that_does_not_hold_is_told() {
        let spare = WHY.replace("`small::Place::start`", "`small::Place::start`, `small::add`, `small::gone`");
        let why = made(&[carry("one"), carry("two")], &spare).expect_err("two reasons do not hold");
        assert!(
            why.contains("small::gone, and there is no such")
                && why.contains("small::add has 2 of 2 edits, and a reason")
        );
    }

    #[test]
    fn an_edit_of_no_function_is_told() {
        let lost = edit("x", "# x\n# function: gone\nfile: src/lib.rt\nold: a + b\nnew: a\n");
        assert!(made(&[carry("one"), carry("two"), lost], WHY).expect_err("gone is gone").contains("no such function"));
    }
}
