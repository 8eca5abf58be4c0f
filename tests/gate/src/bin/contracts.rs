//! Writes docs/CONTRACTS.md from the sources and the edits that must be refused, or says where the page is not what it would write.
//!
//!     tests/contracts write|check
//!
//! Each public function must have two edits of the code, its own or of private functions that serve it, or a reason why not in docs/LAWS.md.
//! Each edit must name a function or a law that is there, and what it replaces must stand once in its file. No definition outside `specs/Clauses` may
//! speak of one inside it, no relation may use the definition that it is proved one with, and the functions that the table of jobs in the demands names
//! must promise its definitions. How much was looked at is told, so that a look at nothing is seen.

use gate::edits::{self, Edit};
use gate::jobs;
use gate::layers::layers;
use gate::page::{page, reasons};
use gate::relations::relations;
use gate::sources::Sources;
use std::collections::BTreeSet;
use std::fs;
use std::path::Path;
use std::process::ExitCode;

const PAGE: &str = "docs/CONTRACTS.md";
const REASONS: &str = "docs/LAWS.md";
/// The crates with the jobs and with the functions for C.
const FIRST: [&str; 2] = ["gateway", "gateway_c"];
const DEMANDS: &str = "crates/demands/specs/Demands.antt";

fn main() -> ExitCode {
    let words: Vec<String> = std::env::args().skip(1).collect();
    let done = match words.iter().map(String::as_str).collect::<Vec<_>>()[..] {
        ["write"] => made().and_then(|page| fs::write(PAGE, page).map_err(|error| format!("{PAGE}: {error}"))),
        ["check"] => made().and_then(|page| compare(&page)),
        _ => Err("usage: tests/contracts write|check".to_string()),
    };
    match done {
        Ok(()) => ExitCode::SUCCESS,
        Err(why) => {
            eprintln!("contracts: {why}");
            ExitCode::FAILURE
        }
    }
}

/// The page as it should stand.
fn made() -> Result<String, String> {
    let root = Path::new(".");
    let layers = layers(&root.join("crates")).map_err(|error| error.to_string())?;
    let relations = relations(&root.join("crates")).map_err(|error| error.to_string())?;
    let listed = fs::read_to_string("crates.txt").map_err(|error| format!("crates.txt: {error}"))?;
    let crates = names_of(&listed)
        .map(|name| Ok((name.to_string(), Sources::read(&root.join("crates").join(name))?)))
        .collect::<std::io::Result<Vec<_>>>()
        .map_err(|error| error.to_string())?;
    let sources = |name: &str| {
        let found = crates.iter().find(|(other, _)| other == name).map(|(_, sources)| sources);
        found.ok_or(format!("crates.txt does not list {name}"))
    };
    let demands = fs::read_to_string(DEMANDS).map_err(|error| format!("{DEMANDS}: {error}"))?;
    let jobs = jobs::jobs(&demands, sources("gateway")?, sources("gateway_c")?);
    let edits: Vec<Edit> = edits::all(root)?;
    let mut wrong = layers.misplaced;
    wrong.extend(relations.wrong);
    wrong.extend(jobs.wrong);
    for edit in &edits {
        let faults = edit.faults(&root.join("crates").join(&edit.crate_name), sources(&edit.crate_name)?);
        wrong.extend(faults.iter().map(|fault| format!("{}: {fault}", edit.path().display())));
    }
    if !wrong.is_empty() {
        return Err(wrong.join("\n"));
    }
    println!(
        "{} files of definitions speak of none of the {} files of what only carries contracts, of which {} lines elsewhere do",
        layers.definitions, layers.of_clauses, layers.allowed
    );
    println!(
        "{} files of relations name none of the {} definitions that they are proved one with",
        relations.files, relations.names
    );
    println!("{} jobs of {} functions promise what the demands speak of", jobs.jobs, jobs.functions);
    let of = |named: fn(&Edit) -> bool| edits.iter().filter(|edit| named(edit)).count();
    println!(
        "{} edits, of {} crates: {} name a function, {} a law, {} several functions, {} of definitions nothing",
        edits.len(),
        edits.iter().map(|edit| &edit.crate_name).collect::<BTreeSet<_>>().len(),
        of(|edit| edit.functions.len() == 1),
        of(|edit| edit.law.is_some()),
        of(|edit| edit.functions.len() > 1),
        of(|edit| edit.named() == 0)
    );
    let text = fs::read_to_string(REASONS).map_err(|error| format!("{REASONS}: {error}"))?;
    page(&crates, &edits, &reasons(&text)?)
}

/// The crates that crates.txt lists, those with the jobs and the C interface first.
fn names_of(listed: &str) -> impl Iterator<Item = &str> {
    let lines = listed.lines().filter(|line| !line.starts_with('#'));
    let names = lines.filter_map(|line| line.split_once(':')?.0.split_whitespace().next());
    let (mut first, rest): (Vec<&str>, Vec<&str>) = names.partition(|name| FIRST.contains(name));
    first.extend(rest);
    first.into_iter()
}

/// Says which line of the stored page is the first that is not as it should be.
fn compare(page: &str) -> Result<(), String> {
    let stored = fs::read_to_string(PAGE).map_err(|error| format!("{PAGE}: {error}"))?;
    if stored == page {
        println!("{PAGE} is what the sources and the edits say");
        return Ok(());
    }
    let same = stored.lines().zip(page.lines()).take_while(|(stored, made)| stored == made).count();
    let line = |text: &str| text.lines().nth(same).unwrap_or("the page's end").to_string();
    Err(format!(
        "{PAGE} is stale, from line {} on. It has\n{}\nand the sources and the edits say\n{}\n`tests/contracts write` writes it anew.",
        same + 1,
        line(&stored),
        line(page)
    ))
}
