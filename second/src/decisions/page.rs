//! The page's entries and the lines of their examples.

use std::collections::BTreeSet;
use std::fmt;

/// A line of the page, with its number from 1 on.
#[derive(Clone, Copy, Debug, PartialEq, Eq)]
pub struct Line<'a> {
    pub number: usize,
    pub text: &'a str,
}

/// An entry, such as R17.
#[derive(Clone, Debug, PartialEq, Eq)]
pub struct Entry<'a> {
    pub name: &'a str,
    pub title: Line<'a>,
    /// The line `- **Example:**`, if there is one.
    pub heading: Option<Line<'a>>,
    /// What stands behind `- **Example:**`, also on the lines below it.
    pub definitions: String,
    /// The lines of the examples, without the dash before them.
    pub examples: Vec<Line<'a>>,
}

/// What is wrong with a line of the page.
#[derive(Clone, Debug, PartialEq, Eq)]
pub struct Failure {
    pub entry: String,
    pub number: usize,
    pub text: String,
    pub what: String,
}

impl Failure {
    pub fn new(entry: &str, line: Line, what: impl Into<String>) -> Failure {
        Failure { entry: entry.into(), number: line.number, text: line.text.into(), what: what.into() }
    }
}

impl fmt::Display for Failure {
    fn fmt(&self, out: &mut fmt::Formatter) -> fmt::Result {
        let Failure { entry, number, text, what } = self;
        write!(out, "docs/DECISIONS.md:{number}: {entry}: {what}\n    {text}")
    }
}

const EXAMPLE: &str = "- **Example:**";

/// What else an entry's list may hold.
const OTHERS: [&str; 4] = ["- **Open:**", "- **Reading:**", "- **Why:**", "- **Differs:**"];

/// How the reader stands to the examples.
#[derive(Clone, Copy, Debug, PartialEq, Eq)]
enum Stand {
    /// Before the first entry, or behind the last.
    NoEntry,
    /// In an entry, not in its examples.
    InEntry,
    /// Behind `- **Example:**`, before the first example.
    InDefinitions,
    InExamples,
}

struct Reader<'a> {
    stand: Stand,
    entries: Vec<Entry<'a>>,
    failures: Vec<Failure>,
}

/// Every entry of the page, and what keeps an entry or an example from being read.
pub fn entries(page: &str) -> (Vec<Entry<'_>>, Vec<Failure>) {
    let mut reader = Reader { stand: Stand::NoEntry, entries: Vec::new(), failures: Vec::new() };
    for (index, text) in page.lines().enumerate() {
        reader.take(Line { number: index + 1, text });
    }
    let mut names = BTreeSet::new();
    for entry in &reader.entries {
        if !names.insert(entry.name) {
            reader.failures.push(Failure::new(entry.name, entry.title, "there is another entry of this number"));
        }
        if entry.examples.is_empty() {
            reader.failures.push(Failure::new(entry.name, entry.title, "the entry has no example"));
        }
    }
    (reader.entries, reader.failures)
}

impl<'a> Reader<'a> {
    fn take(&mut self, line: Line<'a>) {
        if line.text.starts_with('#') {
            self.title(line);
        } else if let Some(definitions) = line.text.strip_prefix(EXAMPLE) {
            self.heading(line, definitions);
        } else if self.is_in_examples() && line.text.starts_with("  ") {
            self.item(line);
        } else if self.stand != Stand::NoEntry {
            self.stand = Stand::InEntry;
            self.other(line);
        }
    }

    fn is_in_examples(&self) -> bool {
        matches!(self.stand, Stand::InDefinitions | Stand::InExamples)
    }

    fn fail(&mut self, line: Line, what: &str) {
        let entry = match self.entries.last() {
            Some(entry) if self.stand != Stand::NoEntry => entry.name,
            _ => "no entry",
        };
        self.failures.push(Failure::new(entry, line, what));
    }

    /// A title opens an entry, or ends the entries.
    fn title(&mut self, line: Line<'a>) {
        self.stand = Stand::NoEntry;
        if let Some(name) = entry_name(line.text) {
            self.stand = Stand::InEntry;
            self.entries.push(Entry {
                name,
                title: line,
                heading: None,
                definitions: String::new(),
                examples: Vec::new(),
            });
        } else if looks_like_entry(line.text) {
            self.fail(line, "an entry's title is `#### `, its number, a dot and words");
        }
    }

    fn heading(&mut self, line: Line<'a>, definitions: &str) {
        match self.entries.last_mut() {
            Some(entry) if self.stand != Stand::NoEntry && entry.heading.is_none() => {
                entry.heading = Some(line);
                entry.definitions = String::from(definitions);
                self.stand = Stand::InDefinitions;
            }
            Some(_) if self.stand != Stand::NoEntry => self.fail(line, "the entry has examples already"),
            _ => self.fail(line, "examples that belong to no entry"),
        }
    }

    /// An indented line among the examples.
    fn item(&mut self, line: Line<'a>) {
        let example = line.text.strip_prefix("  - ");
        match (self.entries.last_mut(), example) {
            (Some(entry), Some(text)) => {
                self.stand = Stand::InExamples;
                entry.examples.push(Line { number: line.number, text });
            }
            (Some(entry), None) if self.stand == Stand::InDefinitions => entry.definitions += line.text,
            _ => self.fail(line, "this is no example: it doesn't start with two blanks, a dash and a blank"),
        }
    }

    /// A line of an entry outside its examples; there no list but the known ones may stand.
    fn other(&mut self, line: Line<'a>) {
        let is_item = line.text.trim_start().starts_with(['-', '*']);
        if is_item && !OTHERS.iter().any(|known| line.text.starts_with(known)) {
            self.fail(line, "this is under no `- **Example:**`, and no other part of an entry");
        }
    }
}

/// The name in an entry's title: R, digits, and a small letter at most.
fn entry_name(title: &str) -> Option<&str> {
    let (name, words) = title.strip_prefix("#### ")?.split_once(". ")?;
    let digits = name.strip_prefix('R')?;
    let digits = digits.strip_suffix(|last: char| last.is_ascii_lowercase()).unwrap_or(digits);
    let is_name = !digits.is_empty() && digits.bytes().all(|digit| digit.is_ascii_digit());
    (is_name && !words.is_empty()).then_some(name)
}

/// Whether a title is of an entry's level, or begins with R and a digit.
fn looks_like_entry(title: &str) -> bool {
    let words = title.trim_start_matches('#').trim_start().to_ascii_uppercase();
    let is_numbered = words.starts_with('R') && words[1..].starts_with(|next: char| next.is_ascii_digit());
    title.starts_with("####") || is_numbered
}

/// A plain count of the examples, by nothing but the first bytes of lines.
pub fn plain_count(page: &str) -> usize {
    let mut count = 0;
    let mut is_inside = false;
    for line in page.lines() {
        is_inside = line.starts_with(EXAMPLE) || is_inside && line.starts_with("  ");
        count += usize::from(is_inside && line.starts_with("  - "));
    }
    count
}
