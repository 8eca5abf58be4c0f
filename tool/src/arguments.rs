//! The command line, read.

use std::ffi::{OsStr, OsString};
use std::os::unix::ffi::{OsStrExt, OsStringExt};

use crate::files::STANDARD;
use crate::shown;

/// The commands.
#[derive(Clone, Copy, Debug, PartialEq, Eq)]
pub enum Command {
    Compile,
    Check,
    Merge,
    Judge,
    Name,
    Show,
    Explain,
}

/// All commands, in the order in which the help lists them.
pub const COMMANDS: [Command; 7] =
    [Command::Compile, Command::Check, Command::Merge, Command::Judge, Command::Name, Command::Show, Command::Explain];

impl Command {
    /// The command as it is written.
    pub fn word(self) -> &'static str {
        match self {
            Command::Compile => "compile",
            Command::Check => "check",
            Command::Merge => "merge",
            Command::Judge => "judge",
            Command::Name => "name",
            Command::Show => "show",
            Command::Explain => "explain",
        }
    }
}

/// What the command line asks for.
#[derive(Debug, PartialEq, Eq)]
pub enum Asked {
    /// The help, overall or for a command.
    Help(Option<Command>),
    Version,
    /// A job, and whether its answer is to be JSON.
    Job(Job, bool),
}

/// A job with its files. A file is a name or `-`.
#[derive(Debug, PartialEq, Eq)]
pub enum Job {
    Compile { text: OsString, little: bool, table: OsString },
    Check { table: OsString },
    Merge { tables: Vec<OsString>, little: bool, table: OsString },
    Judge { table: OsString, root: Option<u32>, data: Vec<OsString> },
    Name { table: OsString, record: u32 },
    Show { table: OsString },
    Explain { number: u32 },
}

/// A command line that can't be followed: why, and for which command.
#[derive(Debug, PartialEq, Eq)]
pub struct Wrong {
    pub message: String,
    pub command: Option<Command>,
}

/// Reads the arguments behind the program's name.
pub fn read(given: &[OsString]) -> Result<Asked, Wrong> {
    let Some((first, rest)) = given.split_first() else {
        return Err(Wrong { message: "no command given".to_string(), command: None });
    };
    match first.to_str() {
        Some("--help" | "-h") => return Ok(Asked::Help(None)),
        Some("--version" | "-V") => return Ok(Asked::Version),
        _ => {}
    }
    let command = COMMANDS.into_iter().find(|command| first == command.word());
    let Some(command) = command else {
        let sort = if first.as_bytes().starts_with(b"-") { "option" } else { "command" };
        return Err(Wrong { message: format!("no {sort} {}", shown::file(first)), command: None });
    };
    if asks_help(rest) {
        return Ok(Asked::Help(Some(command)));
    }
    let wrong = |message| Wrong { message: format!("{}: {message}", command.word()), command: Some(command) };
    let line = Line::read(command, rest).map_err(wrong)?;
    let json = line.json;
    Ok(Asked::Job(line.job(command).map_err(wrong)?, json))
}

/// Whether help is asked for, before any `--`.
fn asks_help(rest: &[OsString]) -> bool {
    rest.iter().take_while(|argument| *argument != "--").any(|argument| argument == "--help" || argument == "-h")
}

/// What stands behind a command: its options and its operands.
#[derive(Default)]
struct Line {
    json: bool,
    little: Option<bool>,
    output: Option<OsString>,
    root: Option<u32>,
    operands: Vec<OsString>,
}

impl Line {
    /// Reads the arguments behind a command.
    fn read(command: Command, rest: &[OsString]) -> Result<Line, String> {
        let mut line = Line::default();
        let mut arguments = rest.iter();
        while let Some(argument) = arguments.next() {
            if argument == "--" {
                line.operands.extend(arguments.by_ref().cloned());
            } else if argument == STANDARD || !argument.as_bytes().starts_with(b"-") {
                line.operands.push(argument.clone());
            } else {
                line.option(command, argument, &mut arguments)?;
            }
        }
        Ok(line)
    }

    /// Reads an option, and its value from the arguments behind it where it has none joined by `=`.
    fn option<'a>(
        &mut self,
        command: Command,
        argument: &OsStr,
        behind: &mut impl Iterator<Item = &'a OsString>,
    ) -> Result<(), String> {
        let (name, joined) = parted(argument);
        let writes = matches!(command, Command::Compile | Command::Merge);
        match name {
            "--json" if joined.is_none() => once(name, !self.json, || self.json = true),
            "--order" if writes => {
                let little = order(&value(name, joined, behind)?)?;
                once(name, self.little.is_none(), || self.little = Some(little))
            }
            "-o" | "--output" if writes => {
                let output = value(name, joined, behind)?;
                once("-o", self.output.is_none(), || self.output = Some(output))
            }
            "--root" if command == Command::Judge => {
                let root = number(name, &value(name, joined, behind)?)?;
                once(name, self.root.is_none(), || self.root = Some(root))
            }
            _ => Err(format!("no option {}", shown::file(argument))),
        }
    }

    /// The job, if the operands are as many as the command takes.
    fn job(mut self, command: Command) -> Result<Job, String> {
        let job = match command {
            Command::Compile => Job::Compile {
                text: self.one("TEXT")?,
                little: self.little.unwrap_or(false),
                table: self.output.take().ok_or("no -o TABLE given")?,
            },
            Command::Check => Job::Check { table: self.one("TABLE")? },
            Command::Merge => Job::Merge {
                tables: self.many(2, "two or more tables wanted")?,
                little: self.little.unwrap_or(false),
                table: self.output.take().ok_or("no -o TABLE given")?,
            },
            Command::Judge => {
                let mut data = self.many(2, "a TABLE and one or more DATA wanted")?;
                Job::Judge { table: data.remove(0), root: self.root, data }
            }
            Command::Name => {
                let [table, record] = self.two()?;
                Job::Name { table, record: number("RECORD", &record)? }
            }
            Command::Show => Job::Show { table: self.one("TABLE")? },
            Command::Explain => Job::Explain { number: number("NUMBER", &self.one("NUMBER")?)? },
        };
        Ok(job)
    }

    /// The only operand.
    fn one(&mut self, meant: &str) -> Result<OsString, String> {
        match <[OsString; 1]>::try_from(std::mem::take(&mut self.operands)) {
            Ok([operand]) => Ok(operand),
            Err(operands) => Err(miscounted(&operands, &format!("one {meant} wanted"))),
        }
    }

    /// The table and the record.
    fn two(&mut self) -> Result<[OsString; 2], String> {
        <[OsString; 2]>::try_from(std::mem::take(&mut self.operands))
            .map_err(|operands| miscounted(&operands, "one TABLE and one RECORD wanted"))
    }

    /// So many operands or more, of which at most one is standard input.
    fn many(&mut self, least: usize, wanted: &str) -> Result<Vec<OsString>, String> {
        let operands = std::mem::take(&mut self.operands);
        if operands.len() < least {
            return Err(miscounted(&operands, wanted));
        }
        if operands.iter().filter(|operand| *operand == STANDARD).count() > 1 {
            return Err("standard input (-) can be read only once".to_string());
        }
        Ok(operands)
    }
}

/// Says how many operands there are.
fn miscounted(operands: &[OsString], wanted: &str) -> String {
    let found = match operands {
        [] => "none".to_string(),
        [only] => format!("only {}", shown::file(only)),
        [.., last] => format!("{} up to {}", operands.len(), shown::file(last)),
    };
    format!("{wanted}, {found} given")
}

/// An option's name, and the value joined to it by `=`.
fn parted(argument: &OsStr) -> (&str, Option<OsString>) {
    let bytes = argument.as_bytes();
    let end = bytes.iter().position(|byte| *byte == b'=').unwrap_or(bytes.len());
    let (name, joined) = bytes.split_at(end);
    let joined = joined.get(1..).map(|value| OsString::from_vec(value.to_vec()));
    (std::str::from_utf8(name).unwrap_or(""), joined)
}

/// An option's value: the one joined to it, else the next argument.
fn value<'a>(
    name: &str,
    joined: Option<OsString>,
    behind: &mut impl Iterator<Item = &'a OsString>,
) -> Result<OsString, String> {
    joined.or_else(|| behind.next().cloned()).ok_or_else(|| format!("{name} has no value"))
}

/// Sets an option that may be given once.
fn once(name: &str, first: bool, set: impl FnOnce()) -> Result<(), String> {
    if !first {
        return Err(format!("{name} given twice"));
    }
    set();
    Ok(())
}

/// Whether a byte order is little-endian.
fn order(value: &OsStr) -> Result<bool, String> {
    match value.to_str() {
        Some("big") => Ok(false),
        Some("little") => Ok(true),
        _ => Err(format!("--order is big or little, not {}", shown::file(value))),
    }
}

/// A number in digits, of 32 bits.
fn number(meant: &str, value: &OsStr) -> Result<u32, String> {
    let digits = value.to_str().filter(|text| text.bytes().all(|byte| byte.is_ascii_digit()));
    digits
        .and_then(|digits| digits.parse().ok())
        .ok_or_else(|| format!("{meant} is a number from 0 to {}, not {}", u32::MAX, shown::file(value)))
}

#[cfg(test)]
mod tests {
    use super::*;

    fn asked(line: &str) -> Result<Asked, Wrong> {
        let given: Vec<OsString> = line.split_whitespace().map(OsString::from).collect();
        read(&given)
    }

    fn job(line: &str) -> Job {
        match asked(line) {
            Ok(Asked::Job(job, false)) => job,
            other => panic!("{other:?} for {line}"),
        }
    }

    fn wrong(line: &str) -> String {
        match asked(line) {
            Err(wrong) => wrong.message,
            other => panic!("{other:?} for {line}"),
        }
    }

    #[test]
    fn each_command_is_read() {
        let compile = Job::Compile { text: "t".into(), little: false, table: "x".into() };
        assert_eq!(job("compile t -o x"), compile);
        assert_eq!(job("check t"), Job::Check { table: "t".into() });
        let merge = Job::Merge { tables: vec!["a".into(), "b".into(), "c".into()], little: true, table: "x".into() };
        assert_eq!(job("merge a b --order little c -o x"), merge);
        let judge = Job::Judge { table: "t".into(), root: Some(7), data: vec!["d".into(), "e".into()] };
        assert_eq!(job("judge t --root 7 d e"), judge);
        assert_eq!(job("name t 0"), Job::Name { table: "t".into(), record: 0 });
        assert_eq!(job("show t"), Job::Show { table: "t".into() });
        assert_eq!(job("explain 24"), Job::Explain { number: 24 });
    }

    #[test]
    fn options_stand_anywhere_and_may_be_joined() {
        let little = Job::Compile { text: "t".into(), little: true, table: "x".into() };
        assert_eq!(job("compile --order little -o x t"), little);
        assert_eq!(job("compile t --order=little --output=x"), little);
        assert_eq!(job("compile t --output x --order=little"), little);
        let joined = Job::Compile { text: "t".into(), little: false, table: "a=b".into() };
        assert_eq!(job("compile --output=a=b --order=big t"), joined);
        assert_eq!(asked("check --json t"), Ok(Asked::Job(Job::Check { table: "t".into() }, true)));
    }

    #[test]
    fn behind_two_dashes_all_are_operands() {
        assert_eq!(job("check -- --json"), Job::Check { table: "--json".into() });
        assert_eq!(job("check -- --help"), Job::Check { table: "--help".into() });
        assert_eq!(job("check -- --"), Job::Check { table: "--".into() });
    }

    #[test]
    fn help_and_version_come_first() {
        assert_eq!(asked("--help"), Ok(Asked::Help(None)));
        assert_eq!(asked("-h check"), Ok(Asked::Help(None)));
        assert_eq!(asked("--version"), Ok(Asked::Version));
        assert_eq!(asked("-V"), Ok(Asked::Version));
        assert_eq!(asked("judge --bogus --help"), Ok(Asked::Help(Some(Command::Judge))));
    }

    #[test]
    fn wrong_lines_are_told_apart() {
        assert_eq!(wrong(""), "no command given");
        assert_eq!(wrong("compil t"), "no command compil");
        assert_eq!(wrong("--json"), "no option --json");
        assert_eq!(wrong("compile t"), "compile: no -o TABLE given");
        assert_eq!(wrong("compile -o x"), "compile: one TEXT wanted, none given");
        assert_eq!(wrong("compile a b -o x"), "compile: one TEXT wanted, 2 up to b given");
        assert_eq!(wrong("compile t -o"), "compile: -o has no value");
        assert_eq!(wrong("compile t -o x -o y"), "compile: -o given twice");
        assert_eq!(wrong("compile t -o x --output y"), "compile: -o given twice");
        assert_eq!(wrong("compile t -o x --order big --order big"), "compile: --order given twice");
        assert_eq!(wrong("compile t -o x --order middle"), "compile: --order is big or little, not middle");
        assert_eq!(wrong("compile t -o x --root 1"), "compile: no option --root");
        assert_eq!(wrong("check t --json --json"), "check: --json given twice");
        assert_eq!(wrong("check t --json=yes"), "check: no option --json=yes");
        assert_eq!(wrong("check -x"), "check: no option -x");
        assert_eq!(wrong("merge a -o x"), "merge: two or more tables wanted, only a given");
        assert_eq!(wrong("judge t"), "judge: a TABLE and one or more DATA wanted, only t given");
        assert_eq!(wrong("name t"), "name: one TABLE and one RECORD wanted, only t given");
        assert_eq!(wrong("explain"), "explain: one NUMBER wanted, none given");
    }

    #[test]
    fn numbers_are_digits_of_32_bits() {
        assert_eq!(job("name t 4294967295"), Job::Name { table: "t".into(), record: 4_294_967_295 });
        assert_eq!(job("name t 007"), Job::Name { table: "t".into(), record: 7 });
        let outside = "judge: --root is a number from 0 to 4294967295, not ";
        for bad in ["99999999999", "4294967296", "-1", "+1", "1x", "x"] {
            assert_eq!(wrong(&format!("judge t d --root {bad}")), format!("{outside}{bad}"));
        }
        assert_eq!(wrong("judge t d --root="), format!("{outside}''"));
    }

    #[test]
    fn standard_input_is_read_once() {
        let twice = "standard input (-) can be read only once";
        assert_eq!(wrong("judge - -"), format!("judge: {twice}"));
        assert_eq!(wrong("judge t - d -"), format!("judge: {twice}"));
        assert_eq!(wrong("merge - -- -"), format!("merge: {twice}"));
        assert_eq!(job("compile - -o -"), Job::Compile { text: "-".into(), little: false, table: "-".into() });
    }
}
