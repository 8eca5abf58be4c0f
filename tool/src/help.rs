//! The help, overall and for each command.

use crate::arguments::Command;
use crate::numbers::NUMBERS;

/// The help for a command, or the overall help.
pub fn of(command: Option<Command>) -> String {
    let Some(command) = command else { return OVERALL.to_string() };
    let text = match command {
        Command::Compile => COMPILE,
        Command::Check => CHECK,
        Command::Merge => MERGE,
        Command::Judge => JUDGE,
        Command::Name => NAME,
        Command::Show => SHOW,
        Command::Explain => return format!("{EXPLAIN}{}{EVERY}", numbers()),
    };
    format!("{text}{EVERY}")
}

/// How the help for a command, or the overall help, is asked for.
pub fn invocation(command: Option<Command>) -> String {
    match command {
        Some(command) => format!("dubrakosh {} --help", command.word()),
        None => "dubrakosh --help".to_string(),
    }
}

/// The list of numbers, one a line.
fn numbers() -> String {
    NUMBERS.iter().map(|entry| format!("  {:>2}  {}\n", entry.number, entry.title)).collect()
}

const OVERALL: &str = "\
dubrakosh judges bedside forms against openEHR constraints.

Usage: dubrakosh COMMAND [OPTION]... ARGUMENT...

Commands:
  compile [--order big|little] TEXT -o TABLE
      compiles a constraint text (cADL) into a table
  check TABLE
      says whether a file is a table
  merge [--order big|little] FIRST SECOND... -o TABLE
      merges tables into one, and tells where each root went
  judge TABLE [--root N] DATA...
      judges data texts (dADL) by a table
  name TABLE RECORD
      prints the name that a record holds
  show TABLE
      prints a table's records for a person to read
  explain NUMBER
      explains a number of refusal or verdict

Options:
  --json         behind a command: answers in JSON, one object a line
  -h, --help     this help; behind a command, the command's own
  -V, --version  the version

A file named - is standard input, for one input at most, or standard output.
A file whose name begins with - can be given as ./-name or behind --.

Answers go to standard output, and to standard error if that holds a table;
what is wrong with the use or with a file goes to standard error.

Status: 0 fine; 1 refused or invalid; 2 wrong use, or a file that can't be
read or written.
";

const EVERY: &str = "
  --json              answer in JSON, one object a line
  -h, --help          this help

Status: 0 fine; 1 refused or invalid; 2 wrong use, or a file that can't be
read or written.
";

const COMPILE: &str = "\
Compiles a constraint text (cADL) into a table.

Usage: dubrakosh compile [--order big|little] TEXT -o TABLE

A text that is refused is shown with its line and a caret under the place.
TABLE is written whole or not at all: with a refusal an old one stays as it is.

  TEXT                the text's file, or - for standard input
  -o, --output TABLE  the table's file, or - for standard output
  --order big|little  the byte order of its numbers; big if not given";

const CHECK: &str = "\
Says whether a file is a table.

Usage: dubrakosh check TABLE

A file that is none is refused with 12, or with 13 and the lowest record that
breaks a rule.

  TABLE               the table's file, or - for standard input";

const MERGE: &str = "\
Merges tables into one, and tells where each root went.

Usage: dubrakosh merge [--order big|little] FIRST SECOND... -o TABLE

The first table keeps its numbers and gives the header's root. The records of
each further table move behind those before it; its root is told, for judge.
TABLE may be one of the inputs. It is written whole or not at all.

  FIRST SECOND...     the tables' files; one may be - for standard input
  -o, --output TABLE  the merged table's file, or - for standard output
  --order big|little  the byte order of all its numbers; big if not given";

const JUDGE: &str = "\
Judges data texts (dADL) by a table.

Usage: dubrakosh judge TABLE [--root N] DATA...

Each text is valid, invalid or refused. What isn't valid is shown with its line,
a caret under the place, the constraint's names that lead there, and what would
be admitted.

  TABLE               the table's file; this or one DATA may be - for standard
                      input
  DATA...             the data texts' files
  --root N            the record of the object to judge by, as merge told it;
                      the header's root if not given";

const NAME: &str = "\
Prints the name that a record holds: an object's type, an attribute's name or a
string item.

Usage: dubrakosh name TABLE RECORD

  TABLE               the table's file, or - for standard input
  RECORD              the record's number";

const SHOW: &str = "\
Prints a table's records for a person to read, one a line: the number, the byte
order, the kind, and what the record says.

Usage: dubrakosh show TABLE

  TABLE               the table's file, or - for standard input";

const EXPLAIN: &str = "\
Explains a number of refusal or verdict: what it means, where its place points,
and what to do.

Usage: dubrakosh explain NUMBER

";

#[cfg(test)]
mod tests {
    use super::*;
    use crate::arguments::COMMANDS;

    #[test]
    fn each_help_has_its_usage_and_fits_a_screen() {
        for command in COMMANDS {
            let text = of(Some(command));
            assert!(text.contains(&format!("Usage: dubrakosh {}", command.word())), "{text}");
            assert!(text.lines().all(|line| line.len() <= 80), "{text}");
            assert!(OVERALL.contains(&format!("\n  {} ", command.word())));
        }
        assert!(OVERALL.lines().all(|line| line.len() <= 80));
    }
}
