//! The table of jobs at the head of the demands: each function of `gateway` that it names, and each function for C, promises the definition that the row
//! names, and the statements below speak of it.

use crate::sources::Sources;

/// A row: the job, its functions, its definition and its function for C.
#[derive(Debug, PartialEq, Eq)]
struct Job {
    functions: Vec<String>,
    definition: String,
    for_c: String,
}

/// What was looked at: the rows, the functions that promise their definitions, and what is wrong.
#[derive(Debug, Default)]
pub struct Jobs {
    pub jobs: usize,
    pub functions: usize,
    pub wrong: Vec<String>,
}

/// Holds the table of jobs in the demands against the sources of `gateway`, and of `gateway_c`, which hands them to C.
pub fn jobs(demands: &str, gateway: &Sources, gateway_c: &Sources) -> Jobs {
    let jobs = jobs_of(demands);
    if jobs.is_empty() {
        return Jobs { wrong: vec!["the demands have no table of jobs".to_string()], ..Jobs::default() };
    }
    let statements: String =
        demands.lines().filter(|line| !line.trim_start().starts_with("--")).collect::<Vec<_>>().join("\n");
    let mut found = Jobs { jobs: jobs.len(), ..Jobs::default() };
    for job in &jobs {
        let own = job.functions.iter().cloned().chain([format!("interface::{}", job.for_c)]);
        let named = own.map(|path| ("gateway", gateway, path));
        for (name, sources, path) in named.chain([("gateway_c", gateway_c, job.for_c.clone())]) {
            let promised = sources.find(&path).map(|at| &sources.functions[at]).filter(|function| function.public);
            match promised {
                None => {
                    found.wrong.push(format!("the table of jobs names {path}, and {name} has no such public function"))
                }
                Some(function) if !function.cited.iter().any(|cited| is_of(cited, &job.definition)) => {
                    found.wrong.push(format!("{name}::{path} does not promise {}", job.definition))
                }
                Some(_) => found.functions += 1,
            }
        }
        if !statements.contains(&format!("{} ", job.definition)) {
            found.wrong.push(format!("no demand speaks of {}", job.definition));
        }
    }
    let of_jobs = |path: &str| jobs.iter().any(|job| job.functions.iter().any(|function| function == path));
    let for_c = |path: &str| jobs.iter().any(|job| job.for_c == path);
    found.wrong.extend(left_out("gateway", gateway, of_jobs));
    found.wrong.extend(left_out("gateway_c", gateway_c, for_c));
    found
}

/// The public functions in a crate's `src/lib.rt` that the table does not name.
fn left_out<'a>(
    name: &'a str,
    sources: &'a Sources,
    is_named: impl Fn(&str) -> bool + 'a,
) -> impl Iterator<Item = String> + 'a {
    let public = sources.functions.iter().filter(|function| function.public && function.file == "src/lib.rt");
    let left_out = public.filter(move |function| !is_named(&function.path));
    left_out.map(move |function| format!("the table of jobs leaves out {name}::{}", function.path))
}

/// Whether a promise cites a definition, with the name of its file before it or without.
fn is_of(cited: &str, definition: &str) -> bool {
    cited == definition || cited.ends_with(&format!(".{definition}"))
}

/// The rows of the table in the head's comment.
fn jobs_of(demands: &str) -> Vec<Job> {
    let rows = demands.lines().filter_map(|line| line.strip_prefix("-- | ")?.strip_suffix(" |"));
    rows.skip(1)
        .filter_map(|row| {
            let [_, functions, definition, for_c] = row.split(" | ").collect::<Vec<_>>()[..] else { return None };
            Some(Job {
                functions: functions.split(", ").map(str::to_string).collect(),
                definition: definition.to_string(),
                for_c: for_c.to_string(),
            })
        })
        .collect()
}

#[cfg(test)]
mod tests {
    use super::*;

    const HEAD: &str = "-- The demands.\n-- | job | function | definition | for C |\n-- |---|---|---|---|\n-- | add | add | sum_of | dk_add |\n";

    #[test]
    fn rows_are_read_from_the_head() {
        let job =
            Job { functions: vec!["add".to_string()], definition: "sum_of".to_string(), for_c: "dk_add".to_string() };
        assert_eq!(jobs_of(HEAD), [job]);
    }

    const LIB: &str = "ghost use Rattle.small.specs.Sums.{sum_of};

pub fn add(a: u32) -> u32
    ensures { result ≡ sum_of a }
{
    a
}
";

    /// The sources of gateway and of gateway_c that keep what the head says.
    fn sources() -> (Sources, Sources) {
        let of = |files: &[(&str, &str)]| {
            Sources::of(files.iter().map(|(file, text)| (file.to_string(), text.to_string())).collect())
        };
        let for_c = LIB.replace("pub fn add", "pub extern \"C\" fn dk_add");
        (of(&[("src/lib.rt", LIB), ("src/interface.rt", &LIB.replace("add", "dk_add"))]), of(&[("src/lib.rt", &for_c)]))
    }

    #[test]
    fn functions_that_keep_the_table_are_counted() {
        let (gateway, gateway_c) = sources();
        let found = jobs(&format!("{HEAD}x : sum_of 1\n"), &gateway, &gateway_c);
        assert_eq!((found.jobs, found.functions), (1, 3));
        assert!(found.wrong.is_empty());
    }

    #[test]
    fn a_function_that_promises_something_else_is_told() {
        let (gateway, gateway_c) = sources();
        let head = HEAD.replace("sum_of", "sum").replace("| add | add |", "| add | add, sub |");
        let wrong = jobs(&format!("{head}x : sum 1\n"), &gateway, &gateway_c).wrong;
        let promised = ["gateway::add", "gateway::interface::dk_add", "gateway_c::dk_add"];
        assert!(promised.iter().all(|path| wrong.contains(&format!("{path} does not promise sum"))));
        assert!(wrong.iter().any(|said| said.contains("names sub")));
    }

    #[test]
    fn a_function_that_the_table_leaves_out_is_told() {
        let (gateway, gateway_c) = sources();
        let head = HEAD.replace("| add | add | sum_of | dk_add |", "| add | other | sum_of | dk_other |");
        let wrong = jobs(&head, &gateway, &gateway_c).wrong;
        assert!(["gateway::add", "gateway_c::dk_add"]
            .iter()
            .all(|path| wrong.contains(&format!("the table of jobs leaves out {path}"))));
    }

    #[test]
    fn a_table_that_is_not_there_is_told() {
        let found = jobs("-- nothing\n", &Sources::default(), &Sources::default());
        assert_eq!(found.wrong, ["the demands have no table of jobs"]);
    }

    #[test]
    fn a_function_that_is_not_there_is_told() {
        let wrong = jobs(HEAD, &Sources::default(), &Sources::default()).wrong;
        assert!(["names add, and gateway ", "names interface::dk_add, and gateway ", "names dk_add, and gateway_c "]
            .iter()
            .all(|named| wrong.iter().any(|said| said.contains(named))));
        assert!(wrong.iter().any(|said| said == "no demand speaks of sum_of"));
    }
}
