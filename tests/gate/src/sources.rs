//! The functions of a crate, read from its sources as the formatter lays them out.

use std::collections::{BTreeMap, BTreeSet};
use std::fs;
use std::io;
use std::ops::{Range, RangeInclusive};
use std::path::Path;

/// A function of a crate.
#[derive(Clone, Debug, PartialEq, Eq)]
pub struct Function {
    /// Its path in the crate, as `records::RecordNumber::start`.
    pub path: String,
    pub public: bool,
    /// The comment before it, in one line.
    pub comment: String,
    /// Its file, from the crate's folder on.
    pub file: String,
    /// The definitions of the crates' specs that its promise cites, in the promise's order.
    pub cited: Vec<String>,
    /// Where its body stands in the file, from the opening brace up to the closing one.
    pub body: Range<usize>,
    /// Its lines in the file, counted from 1: from its first attribute or line up to the closing brace.
    pub lines: RangeInclusive<usize>,
    /// The name of its line `#[cycle(NAME)]`, under which it is proved together with functions that it calls and that call it.
    pub cycle: Option<String>,
    /// The names in its body.
    names: BTreeSet<String>,
}

/// The functions of a crate.
#[derive(Debug, Default)]
pub struct Sources {
    pub functions: Vec<Function>,
    /// The text of each file, by its name from the crate's folder on.
    pub files: BTreeMap<String, String>,
}

impl Sources {
    /// Reads the files below a crate's `src`.
    pub fn read(folder: &Path) -> io::Result<Sources> {
        let mut files = BTreeMap::new();
        read_files(&folder.join("src"), "src", &mut files)?;
        Ok(Sources::of(files))
    }

    /// The functions of some files, each by its name from the crate's folder on.
    pub fn of(files: BTreeMap<String, String>) -> Sources {
        let functions = files.iter().flat_map(|(file, text)| functions_of(file, text)).collect();
        Sources { functions, files }
    }

    pub fn find(&self, path: &str) -> Option<usize> {
        self.functions.iter().position(|function| function.path == path)
    }

    /// The functions that have a line of a file, from their first line to the last.
    pub fn at(&self, file: &str, line: usize) -> Option<&Function> {
        self.functions.iter().find(|function| function.file == file && function.lines.contains(&line))
    }

    /// The public functions that a function serves: itself where it is public, else those that reach it through private functions of its file alone.
    pub fn served(&self, function: usize) -> BTreeSet<usize> {
        let (mut public, mut private, mut open) = (BTreeSet::new(), BTreeSet::new(), vec![function]);
        while let Some(at) = open.pop() {
            if self.functions[at].public {
                public.insert(at);
            } else if private.insert(at) {
                open.extend((0..self.functions.len()).filter(|&caller| self.calls(caller, at)));
            }
        }
        public
    }

    /// Whether a function of the same file calls a private one.
    fn calls(&self, caller: usize, callee: usize) -> bool {
        let (caller, callee) = (&self.functions[caller], &self.functions[callee]);
        caller.file == callee.file && caller.names.contains(bare(&callee.path))
    }
}

/// A path's last name.
fn bare(path: &str) -> &str {
    path.rsplit("::").next().unwrap_or(path)
}

fn read_files(folder: &Path, name: &str, files: &mut BTreeMap<String, String>) -> io::Result<()> {
    for entry in fs::read_dir(folder)? {
        let entry = entry?;
        let name = format!("{name}/{}", entry.file_name().to_string_lossy());
        if entry.file_type()?.is_dir() {
            read_files(&entry.path(), &name, files)?;
        } else if name.ends_with(".rt") {
            files.insert(name, fs::read_to_string(entry.path())?);
        }
    }
    Ok(())
}

/// The module of a file: `src/lib.rt` and `src/main.rt` are the crate itself.
fn module_of(file: &str) -> Vec<&str> {
    let name = file.trim_start_matches("src/").trim_end_matches(".rt");
    if name == "lib" || name == "main" {
        return Vec::new();
    }
    name.split('/').collect()
}

/// The functions of a file. The formatter puts a function's first line, its opening brace where it has clauses, and its closing brace at one depth.
fn functions_of(file: &str, text: &str) -> Vec<Function> {
    let lines = lines_of(text);
    let definitions = Definitions::used(text);
    let mut owner: Option<Owner> = None;
    // the ghost members of the block, which its functions promise to compute
    let mut ghosts = String::new();
    let mut functions = Vec::new();
    for (index, &(_, line)) in lines.iter().enumerate() {
        if let Some(opened) = owner_of(line) {
            owner = Some(opened);
            ghosts.clear();
        } else if line == "}" {
            owner = None;
        } else if let Some((_, member)) = line.strip_prefix("    ghost ").and_then(|it| it.split_once('=')) {
            ghosts.push_str(&format!("ensures {}\n", member.trim()));
        }
        let Some((depth, public, name)) = opening(line) else { continue };
        let Some(body) = body_of(&lines[index..], depth) else { continue };
        let inside = owner.as_ref().filter(|_| depth > 0);
        let mut path = module_of(file);
        path.extend(inside.map(|it| it.name.as_str()));
        path.push(name);
        functions.push(Function {
            path: path.join("::"),
            public: public || inside.is_some_and(|it| it.is_trait),
            comment: comment_before(&lines[..index]),
            file: file.to_string(),
            cited: cited_in(
                &match inside {
                    Some(it) if it.is_trait => ghosts.clone() + &text[lines[index].0..body.start],
                    _ => text[lines[index].0..body.start].to_string(),
                },
                &definitions,
            ),
            names: names_of(&text[body.clone()]),
            lines: index + 1 - attributes_before(&lines[..index]).count()
                ..=index + text[lines[index].0..body.end].lines().count(),
            body,
            cycle: cycle_before(&lines[..index]),
        });
    }
    functions
}

/// What an `impl` or a `trait` block is called in paths, and whether its functions are a trait's, which are public without a word.
struct Owner {
    name: String,
    is_trait: bool,
}

/// The block that a line opens: `impl TYPE`, `trait TRAIT`, or `impl TRAIT for TYPE`, whose name is the type's and then the trait's with its arguments.
fn owner_of(line: &str) -> Option<Owner> {
    let head = line.strip_suffix('{')?.trim_end();
    if let Some(rest) = head.strip_prefix("pub trait ").or_else(|| head.strip_prefix("trait ")) {
        let name = rest.chars().take_while(|&c| is_name(c)).collect();
        return Some(Owner { name, is_trait: true });
    }
    let rest = without_parameters(head.strip_prefix("impl")?);
    match rest.split_once(" for ") {
        Some((of, for_type)) => Some(Owner { name: camel(for_type) + &camel(of), is_trait: true }),
        None => Some(Owner { name: camel(rest.split('<').next().unwrap_or(rest)), is_trait: false }),
    }
}

/// What stands behind the parameters in pointed brackets with which a text begins, where it does.
fn without_parameters(text: &str) -> &str {
    let mut depth = 0;
    for (place, c) in text.char_indices() {
        match c {
            '<' => depth += 1,
            '>' => depth -= 1,
            _ if depth == 0 => return text[place..].trim_start(),
            _ => {}
        }
    }
    ""
}

/// The names of a type, each with a capital, in one word.
fn camel(text: &str) -> String {
    let words = text.split(|c: char| !is_name(c)).filter(|word| !word.is_empty());
    words.map(|word| word[..1].to_uppercase() + &word[1..]).collect()
}

/// The lines of a text, each with the place where it starts.
fn lines_of(text: &str) -> Vec<(usize, &str)> {
    let mut start = 0;
    text.split('\n')
        .map(|line| {
            let place = start;
            start += line.len() + 1;
            (place, line)
        })
        .collect()
}

/// A function's first line: its depth, whether it is public, and its name.
fn opening(line: &str) -> Option<(usize, bool, &str)> {
    let rest = line.trim_start();
    let depth = line.len() - rest.len();
    let (public, rest) = rest.strip_prefix("pub ").map_or((false, rest), |rest| (true, rest));
    let rest = rest.strip_prefix("extern \"C\" ").unwrap_or(rest).strip_prefix("fn ")?;
    let end = rest.find(|c: char| !is_name(c)).unwrap_or(rest.len());
    (end > 0).then_some((depth, public, &rest[..end]))
}

/// Where the body of the function stands whose first line is the first of some lines.
fn body_of(lines: &[(usize, &str)], depth: usize) -> Option<Range<usize>> {
    let at_depth = |line: &str| line.len() - line.trim_start().len() == depth;
    // a trait's function without a body ends in `;`
    let mut head = lines.iter().take_while(|(_, line)| !line.ends_with(';'));
    let (open, line) = *head.find(|(_, line)| at_depth(line) && line.ends_with('{'))?;
    let start = open + line.len() - 1;
    let (close, line) = *lines.iter().find(|(place, line)| *place > start && at_depth(line) && line.trim() == "}")?;
    Some(start..close + line.len())
}

/// The comment that ends before a function, behind which attributes may stand, in one line.
fn comment_before(lines: &[(usize, &str)]) -> String {
    let mut said: Vec<&str> = lines
        .iter()
        .rev()
        .map(|(_, line)| line.trim())
        .skip_while(|line| line.starts_with("#["))
        .map_while(|line| line.strip_prefix("//"))
        .map(str::trim)
        .collect();
    said.reverse();
    said.join(" ")
}

/// The attributes before a function, the nearest first.
fn attributes_before<'a>(lines: &'a [(usize, &'a str)]) -> impl Iterator<Item = &'a str> {
    lines.iter().rev().map(|(_, line)| line.trim()).take_while(|line| line.starts_with("#["))
}

/// The cycle that an attribute before a function names.
fn cycle_before(lines: &[(usize, &str)]) -> Option<String> {
    attributes_before(lines)
        .filter_map(|line| line.strip_prefix("#[cycle(")?.strip_suffix(")]"))
        .map(str::to_string)
        .next()
}

/// What a file takes from the specs of the crates.
struct Definitions<'a> {
    /// The names of its lines `ghost use Rattle.CRATE.specs..{A, B};`.
    names: BTreeSet<&'a str>,
    /// The names of whole files, of its lines `ghost use Rattle.CRATE.specs.. as A;`.
    files: BTreeSet<&'a str>,
}

impl<'a> Definitions<'a> {
    fn used(text: &'a str) -> Definitions<'a> {
        let uses = || text.lines().filter_map(of_specs);
        let names =
            uses().filter_map(|line| line.strip_suffix('}')?.split_once('{')).flat_map(|(_, names)| names.split(", "));
        let files = uses().filter_map(|line| Some(line.split_once(" as ")?.1));
        Definitions { names: names.collect(), files: files.collect() }
    }

    /// The definition that a word of a clause names, by itself or behind the name of its file.
    fn named<'w>(&self, word: &'w str) -> Option<&'w str> {
        match word.split_once('.') {
            Some((file, name)) => self.files.contains(file).then_some(name),
            None => self.names.contains(word).then_some(word),
        }
    }
}

/// What a line takes from the specs of a crate, whether this one's or another's; std's own words are no definitions of the crates.
fn of_specs(line: &str) -> Option<&str> {
    let path = line.strip_prefix("ghost use Rattle.")?.strip_suffix(';')?;
    let (name, rest) = path.split_once('.')?;
    (name != "std" && rest.starts_with("specs.")).then_some(path)
}

/// The definitions that the clauses `ensures` of a function's head name, each once, in their order.
fn cited_in(head: &str, definitions: &Definitions) -> Vec<String> {
    let mut cited: Vec<String> = Vec::new();
    let mut promises = false;
    for line in head.lines().map(str::trim) {
        promises = line.starts_with("ensures") || (promises && !line.starts_with("requires"));
        let said = behind_name(line);
        let words = said.split(|c: char| c.is_whitespace() || "(){},".contains(c)).filter(|_| promises);
        for name in words.filter_map(|word| definitions.named(word)) {
            if !cited.iter().any(|known| known == name) {
                cited.push(name.to_string());
            }
        }
    }
    cited
}

/// A clause's line without the name that the clause may have, which names no definition.
fn behind_name(line: &str) -> &str {
    let clause = line.strip_prefix("ensures ").or_else(|| line.strip_prefix("requires "));
    clause.and_then(|rest| Some(rest.split_once('{')?.1)).unwrap_or(line)
}

fn is_name(c: char) -> bool {
    c.is_ascii_alphanumeric() || c == '_'
}

/// The names in a piece of code, without its comments.
fn names_of(code: &str) -> BTreeSet<String> {
    code.lines()
        .map(|line| line.split("//").next().unwrap_or(line))
        .flat_map(|line| line.split(|c| !is_name(c)))
        .filter(|name| !name.is_empty())
        .map(str::to_string)
        .collect()
}

#[cfg(test)]
pub(crate) mod tests {
    use super::*;

    pub(crate) const LIB: &str = r#"// A crate.
ghost use Rattle.std.specs.Prelude.{◌≡◌, length};
ghost use Rattle.small.specs.Sums.{sum_of, Bound};
ghost use Rattle.low.specs.Clauses.Answers as answers;

pub struct Place(pub u32);

impl Place {
    // Where it lies.
    pub fn start(self) -> usize
        ensures { result ≡ sum_of self }
    {
        add(self.0, 1)
    }
}

// Adds two
// numbers.
#[unsafe(no_mangle)]
#[cycle(add_carry)]
pub extern "C" fn add(a: u32, b: u32) -> u32
    requires { Bound a }
    ensures Bound { answers.answer_of result
        ≡ sum_of (a ∷ b) }
    ensures place { result.place ≡ sum_of a + length b }
{
    // not a call: twice
    carry(a, b)
}

fn carry(a: u32, b: u32) -> u32 {
    if a == 0 {
        return b;
    }
    a + b
}
"#;

    const TWICE: &str =
        "fn step(n: u32) -> u32 {\n    crate::add(n, n)\n}\n\npub fn twice(n: u32) -> u32 {\n    step(n)\n}\n";

    pub(crate) fn sample() -> Sources {
        Sources::of(BTreeMap::from([
            ("src/lib.rt".to_string(), LIB.to_string()),
            ("src/more/twice.rt".to_string(), TWICE.to_string()),
        ]))
    }

    fn index(sources: &Sources, path: &str) -> usize {
        sources.find(path).expect("the sample has it")
    }

    #[test]
    fn functions_have_paths_comments_and_bodies() {
        let sources = sample();
        let paths: Vec<&str> = sources.functions.iter().map(|function| function.path.as_str()).collect();
        assert_eq!(paths, ["Place::start", "add", "carry", "more::twice::step", "more::twice::twice"]);
        let add = &sources.functions[index(&sources, "add")];
        assert!(add.public && add.comment == "Adds two numbers.");
        assert_eq!(&LIB[add.body.clone()], "{\n    // not a call: twice\n    carry(a, b)\n}");
        let carry = &sources.functions[index(&sources, "carry")];
        assert!(!carry.public && carry.comment.is_empty() && LIB[carry.body.clone()].ends_with("a + b\n}"));
        let first = LIB.lines().position(|line| line == "#[unsafe(no_mangle)]").expect("the sample has it") + 1;
        let at = |line| sources.at("src/lib.rt", line).map(|function| function.path.as_str());
        assert_eq!((at(first - 1), at(first), at(first + 2)), (None, Some("add"), Some("add")));
    }

    #[test]
    fn a_promise_cites_what_its_ensures_name() {
        let sources = sample();
        assert_eq!(sources.functions[index(&sources, "add")].cited, ["answer_of", "sum_of"]);
        assert!(sources.functions[index(&sources, "carry")].cited.is_empty());
    }

    #[test]
    fn a_line_is_of_the_function_that_has_it() {
        let sources = sample();
        let at = |line: &str| {
            let number = LIB.lines().position(|other| other.trim() == line).expect("the sample has the line") + 1;
            sources.at("src/lib.rt", number).map(|function| function.path.as_str())
        };
        assert_eq!(at("requires { Bound a }"), Some("add"));
        assert_eq!(at("a + b"), Some("carry"));
        assert_eq!(at("pub fn start(self) -> usize"), Some("Place::start"));
        assert_eq!(at("// Adds two"), None);
        assert_eq!(at("pub struct Place(pub u32);"), None);
    }

    #[test]
    fn a_cycle_is_read() {
        let sources = sample();
        let cycle = |path| sources.functions[index(&sources, path)].cycle.as_deref();
        assert_eq!((cycle("add"), cycle("carry")), (Some("add_carry"), None));
    }

    #[test]
    fn a_private_function_serves_the_public_ones_of_its_file() {
        let sources = sample();
        let at = |path| index(&sources, path);
        assert_eq!(sources.served(at("carry")), BTreeSet::from([at("add")]));
        assert_eq!(sources.served(at("more::twice::step")), BTreeSet::from([at("more::twice::twice")]));
        assert_eq!(sources.served(at("add")), BTreeSet::from([at("add")]));
    }
}
