//! Wrong use, and files that can't be read or written: status 2, a plain message, and nothing left behind.

mod common;

use std::ffi::OsString;
use std::fs::{self, File, Permissions};
use std::io::Read;
use std::os::unix::ffi::OsStringExt;
use std::os::unix::fs::{symlink, PermissionsExt};
use std::process::Stdio;

use common::{hex, widest, Folder, SMALLEST, SMALLEST_TABLE};

/// A folder with the smallest text and its table.
fn folder(name: &str) -> Folder {
    let folder = Folder::new(name);
    folder.put("a.cadl", SMALLEST);
    folder.put("a.table", hex(SMALLEST_TABLE));
    folder.put("a.dadl", "<>");
    folder
}

#[test]
fn wrong_lines_say_why_and_where_the_help_is() {
    let folder = folder("wrong_lines");
    let wrong = |line: &str, why: &str, help: &str| {
        folder.run(line).troubles(&format!("dubrakosh: {why}\ndubrakosh: see dubrakosh {help}\n"));
    };
    wrong("", "no command given", "--help");
    wrong("frobnicate", "no command frobnicate", "--help");
    wrong("--json", "no option --json", "--help");
    wrong("compile", "compile: one TEXT wanted, none given", "compile --help");
    wrong("compile a.cadl", "compile: no -o TABLE given", "compile --help");
    wrong("compile a.cadl -o", "compile: -o has no value", "compile --help");
    wrong("compile a.cadl -o x -o y", "compile: -o given twice", "compile --help");
    wrong("compile --order huge a.cadl -o x", "compile: --order is big or little, not huge", "compile --help");
    wrong("check", "check: one TABLE wanted, none given", "check --help");
    wrong("check a.table a.table", "check: one TABLE wanted, 2 up to a.table given", "check --help");
    wrong("check --frobnicate a.table", "check: no option --frobnicate", "check --help");
    wrong("check --root 1 a.table", "check: no option --root", "check --help");
    wrong("merge a.table -o x", "merge: two or more tables wanted, only a.table given", "merge --help");
    wrong("merge - - -o x", "merge: standard input (-) can be read only once", "merge --help");
    wrong("judge a.table", "judge: a TABLE and one or more DATA wanted, only a.table given", "judge --help");
    wrong("judge - -", "judge: standard input (-) can be read only once", "judge --help");
    let range = "is a number from 0 to 4294967295, not";
    wrong("judge a.table a.dadl --root 99999999999", &format!("judge: --root {range} 99999999999"), "judge --help");
    wrong("judge a.table a.dadl --root -1", &format!("judge: --root {range} -1"), "judge --help");
    wrong("name a.table x", &format!("name: RECORD {range} x"), "name --help");
    wrong("name a.table", "name: one TABLE and one RECORD wanted, only a.table given", "name --help");
    wrong("explain nine", &format!("explain: NUMBER {range} nine"), "explain --help");
    assert_eq!(folder.files(), ["a.cadl", "a.dadl", "a.table"]);
}

#[test]
fn a_file_named_like_an_option_is_given_behind_two_dashes() {
    let folder = folder("two_dashes");
    folder.put("--json", hex(SMALLEST_TABLE));
    let passes = "passes: 2 records, 1 byte of names, 49 bytes, big-endian, root 1\n";
    folder.run("check -- --json").answers(0, &format!("--json: {passes}"));
    folder.run("check ./--json").answers(0, &format!("./--json: {passes}"));
    folder.run_on("check -- -", &hex(SMALLEST_TABLE)).answers(0, &format!("-: {passes}"));
}

#[test]
fn files_that_cannot_be_read() {
    let folder = folder("unreadable");
    fs::create_dir(folder.path("folder")).unwrap();
    let commands = [
        "compile FILE -o x", "check FILE", "merge FILE a.table -o x", "merge a.table FILE -o x", "judge FILE a.dadl",
        "judge a.table FILE", "name FILE 1", "show FILE",
    ];
    for command in commands {
        let run = |file: &str| folder.run(&command.replace("FILE", file));
        run("none").troubles("dubrakosh: none: no such file or directory\n");
        run("folder").troubles("dubrakosh: folder: is a directory\n");
        run("a.table/none").troubles("dubrakosh: a.table/none: not a directory\n");
    }
    let odd = OsString::from_vec(vec![b'n', 0xFF, b'\n']);
    folder.run_with([OsString::from("check"), odd]).troubles("dubrakosh: n\u{FFFD}\\x0A: no such file or directory\n");
    folder.run_with(["check", ""]).troubles("dubrakosh: '': no such file or directory\n");
    assert_eq!(folder.files(), ["a.cadl", "a.dadl", "a.table", "folder"]);
}

#[test]
fn files_that_cannot_be_written() {
    let folder = folder("unwritable");
    fs::create_dir(folder.path("folder")).unwrap();
    for command in ["compile a.cadl", "merge a.table a.table"] {
        let run = |file: &str| folder.run(&format!("{command} -o {file}"));
        run("folder").troubles("dubrakosh: folder: is a directory\n");
        run(".").troubles("dubrakosh: .: is a directory\n");
        run("none/x").troubles("dubrakosh: none/x: no such file or directory\n");
        run("a.cadl/x").troubles("dubrakosh: a.cadl/x: not a directory\n");
        run("/dev/full").troubles("dubrakosh: /dev/full: No space left on device (os error 28)\n");
        let long = "n".repeat(256);
        run(&long).troubles(&format!("dubrakosh: {long}: File name too long (os error 36)\n"));
    }
    symlink("nowhere", folder.path("link")).unwrap();
    folder.run("compile a.cadl -o link").troubles("dubrakosh: link: no such file or directory\n");
    assert_eq!(folder.files(), ["a.cadl", "a.dadl", "a.table", "folder", "link"]);
    assert!(fs::read_dir(folder.path("folder")).unwrap().next().is_none());
}

#[test]
fn files_without_permission() {
    let folder = folder("permission");
    fs::set_permissions(folder.path("a.cadl"), Permissions::from_mode(0o000)).unwrap();
    if File::open(folder.path("a.cadl")).is_ok() {
        return; // whoever runs the tests may read and write everything
    }
    folder.run("compile a.cadl -o x").troubles("dubrakosh: a.cadl: no permission\n");
    fs::set_permissions(folder.path("a.cadl"), Permissions::from_mode(0o444)).unwrap();
    folder.run("compile a.cadl -o a.cadl").troubles("dubrakosh: a.cadl: no permission\n");
    assert_eq!(folder.get("a.cadl"), SMALLEST.as_bytes());
    assert_eq!(folder.files(), ["a.cadl", "a.dadl", "a.table"]);
}

#[test]
fn an_output_keeps_its_permissions_and_a_link_its_target() {
    let folder = folder("links");
    folder.put("real", "old");
    fs::set_permissions(folder.path("real"), Permissions::from_mode(0o640)).unwrap();
    symlink("real", folder.path("link")).unwrap();
    assert_eq!(folder.run("compile a.cadl -o link").status, 0);
    assert_eq!(folder.get("real"), hex(SMALLEST_TABLE));
    assert!(fs::symlink_metadata(folder.path("link")).unwrap().is_symlink());
    assert_eq!(fs::metadata(folder.path("real")).unwrap().permissions().mode() & 0o777, 0o640);
    assert_eq!(folder.files(), ["a.cadl", "a.dadl", "a.table", "link", "real"]);
}

#[test]
fn a_device_is_written_and_not_replaced() {
    let folder = folder("device");
    assert_eq!(folder.run("compile a.cadl -o /dev/null").status, 0);
    assert!(!fs::metadata("/dev/null").unwrap().is_file());
    // standard output is a pipe here, and takes the answer behind the table
    let ran = folder.run("compile a.cadl -o /dev/stdout");
    assert_eq!((ran.status, &ran.bytes[..49]), (0, &hex(SMALLEST_TABLE)[..]));
}

#[test]
fn a_reader_that_goes_away_ends_the_printing_quietly() {
    let folder = folder("closed_output");
    folder.compile("wide", &widest(), "big");
    // what show prints of 2,048 records is more than a pipe holds
    let mut program = folder.program();
    program.args(["show", "wide.table"]).stdout(Stdio::piped()).stderr(Stdio::piped());
    let mut child = program.spawn().unwrap();
    let mut first = [0; 10];
    child.stdout.take().unwrap().read_exact(&mut first).unwrap();
    let ran = child.wait_with_output().unwrap();
    assert_eq!((ran.status.code(), ran.stderr.as_slice()), (Some(0), &b""[..]));
}

#[test]
fn a_full_standard_output_is_told() {
    let folder = folder("full_output");
    let full = || File::options().write(true).open("/dev/full").unwrap();
    for line in ["check a.table", "--help", "compile a.cadl -o -"] {
        let mut program = folder.program();
        let ran = program.args(line.split_whitespace()).stdout(full()).output().unwrap();
        let told = String::from_utf8(ran.stderr).unwrap();
        assert_eq!(
            (ran.status.code(), told.as_str()),
            (Some(2), "dubrakosh: -: No space left on device (os error 28)\n")
        );
    }
}
