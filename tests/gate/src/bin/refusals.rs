//! Reads what `rt ci` or `rt must-fail` said, and tells of which edits the refusal was first told elsewhere than at the function or the law that they name.
//! That is for information: the crate is refused all the same. Where a count is given, as many refusals must be told of.
//!
//!     refusals FILE [COUNT]

use gate::edits;
use gate::refusals::{fit, refusals};
use gate::sources::Sources;
use std::collections::BTreeMap;
use std::fs;
use std::path::Path;
use std::process::ExitCode;

fn main() -> ExitCode {
    let words: Vec<String> = std::env::args().skip(1).collect();
    let done = match &words[..] {
        [file] => tell(file, None),
        [file, count] => tell(file, Some(count)),
        _ => Err("usage: refusals FILE [COUNT]".to_string()),
    };
    match done {
        Ok(()) => ExitCode::SUCCESS,
        Err(why) => {
            eprintln!("refusals: {why}");
            ExitCode::FAILURE
        }
    }
}

fn tell(file: &str, count: Option<&String>) -> Result<(), String> {
    let said = fs::read_to_string(file).map_err(|error| format!("{file}: {error}"))?;
    let refused = refusals(&said);
    let edits = edits::all(Path::new("."))?;
    let mut crates = BTreeMap::new();
    for refusal in &refused {
        if !crates.contains_key(refusal.crate_name) {
            let folder = Path::new("crates").join(refusal.crate_name);
            let sources = Sources::read(&folder).map_err(|error| format!("{}: {error}", folder.display()))?;
            crates.insert(refusal.crate_name.to_string(), sources);
        }
    }
    let fit = fit(&refused, &edits, &crates);
    for (edit, named, place) in &fit.elsewhere {
        println!("{edit}: names {named}, and what is told first is at {place}");
    }
    println!(
        "{} edits refused: {} first at what they name, {} elsewhere, {} name nothing",
        refused.len(),
        fit.there,
        fit.elsewhere.len(),
        fit.unnamed
    );
    match count {
        Some(count) if *count != refused.len().to_string() => Err(format!("{count} refusals were to be told of")),
        _ => Ok(()),
    }
}
