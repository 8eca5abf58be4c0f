//! Files far larger than any job can use, and input without an end: the job's answer, at once.

mod common;

use std::fs::File;
use std::time::{Duration, Instant};

use common::{hex, Folder, SMALLEST, SMALLEST_TABLE};

/// More than any job can use.
const LARGE: u64 = 100_000_000;

/// What is far more time than it takes to read what counts.
const SOON: Duration = Duration::from_secs(5);

/// How a text of zeros is shown at place 16,384: 15 zeros before it and it.
fn zeros_shown() -> String {
    format!("...{}\n{}^\n", "\\x00".repeat(16), " ".repeat(63))
}

#[test]
fn the_longest_text_is_read_whole_and_one_byte_more_is_refused() {
    let folder = Folder::new("longest_text");
    folder.put("most.cadl", format!("{SMALLEST}{}", " ".repeat(16_371)));
    folder.put("over.cadl", format!("{SMALLEST}{}", " ".repeat(16_372)));
    let told = "most.cadl: compiled: 2 records, 1 byte of names, 49 bytes, big-endian\n";
    folder.run("compile most.cadl -o most.table").answers(0, told);
    let window = format!("...{}\n{}^\n", " ".repeat(61), " ".repeat(63));
    let told = format!("over.cadl:1:16385: refused 1: text over 16,384 bytes\n{window}");
    folder.run("compile over.cadl -o over.table").answers(1, &told);
    folder.put("most.dadl", format!("<>{}", "\n".repeat(16_382)));
    folder.put("over.dadl", format!("<>{}", "\n".repeat(16_383)));
    let told = "most.dadl: valid\nover.dadl:16383:1: refused 1: text over 16,384 bytes\n\n^\n";
    folder.run("judge most.table most.dadl over.dadl").answers(1, told);
}

#[test]
fn the_longest_table_is_read_whole_and_one_byte_more_is_none() {
    let folder = Folder::new("longest_table");
    // 2,047 objects with any members, and a pool of the most bytes
    let object = common::record(1, 0, [0, 1, 0, 0, 0]);
    let mut longest = common::table(&vec![object; 2_047], &[b'A'; 16_384]);
    assert_eq!(longest.len(), 65_536);
    folder.put("most", &longest);
    let told = "most: passes: 2,048 records, 16,384 bytes of names, 65,536 bytes, big-endian, root 1\n";
    folder.run("check most").answers(0, told);
    longest.push(b'A');
    folder.put("over", &longest);
    folder.run("check over").answers(1, "over: refused 12: not a table: over 65,536 bytes\n");
}

#[test]
fn what_is_read_of_a_long_text_is_answered_as_the_whole() {
    let table = hex(SMALLEST_TABLE);
    let mut out = vec![0; 65_536];
    for beginning in ["", SMALLEST, "<>", "?", "A matches {a matches {5, 5"] {
        for (length, filling) in [(16_385, b' '), (16_386, 0), (100_000, b'\n'), (1_000_000, b'x')] {
            let mut whole = beginning.as_bytes().to_vec();
            whole.resize(length, filling);
            let part = &whole[..16_385];
            for little in [false, true] {
                assert_eq!(binding::compile(&whole, little, &mut out), binding::compile(part, little, &mut out));
            }
            for root in [0, 1, 2] {
                assert_eq!(binding::judge(&table, root, &whole), binding::judge(&table, root, part));
            }
        }
    }
}

#[test]
fn what_is_read_of_a_long_table_is_answered_as_the_whole() {
    let smallest = hex(SMALLEST_TABLE);
    let mut out = vec![0; 65_536];
    let object = common::record(1, 0, [0, 1, 0, 0, 0]);
    let beginnings = [
        vec![],
        smallest.clone(),
        common::table(&vec![object.clone(); 2_047], &[b'A'; 16_384]),
        // as long as its header says, with too many names or too many records
        common::table(&vec![object.clone(); 2_047], &[b'A'; 16_385]),
        common::table(std::slice::from_ref(&object), &[b'A'; 99_952]),
        common::table(&vec![object; 5_000], b"A"),
    ];
    for beginning in beginnings {
        for length in [65_537, 65_538, 100_000, 1_000_000] {
            let mut whole = beginning.clone();
            whole.resize(length, b'A');
            let part = &whole[..65_537];
            assert_eq!(binding::check(&whole), binding::check(part));
            for record in [0, 1, 2_047, u32::MAX] {
                assert_eq!(binding::name(&whole, record), binding::name(part, record));
                assert_eq!(binding::judge(&whole, record, b"<>"), binding::judge(part, record, b"<>"));
            }
            let mut merge = |first: &[u8], second: &[u8]| binding::merge(first, second, false, &mut out);
            assert_eq!(merge(&whole, &smallest), merge(part, &smallest));
            assert_eq!(merge(&smallest, &whole), merge(&smallest, part));
        }
    }
}

#[test]
fn hundred_megabytes_are_answered_at_once() {
    let folder = Folder::new("hundred_megabytes");
    folder.put("a.table", hex(SMALLEST_TABLE));
    folder.put("a.dadl", "<>");
    folder.put_long("large.cadl", SMALLEST, LARGE);
    folder.put_long("large.dadl", "<>", LARGE);
    folder.put_long("large.table", hex(SMALLEST_TABLE), LARGE);
    let begun = Instant::now();
    let over = |file: &str| format!("{file}:1:16385: refused 1: text over 16,384 bytes\n{}", zeros_shown());
    folder.run("compile large.cadl -o x").answers(1, &over("large.cadl"));
    folder.run("judge a.table large.dadl").answers(1, &over("large.dadl"));
    let none = "large.table: refused 12: not a table: over 65,536 bytes\n";
    for command in [
        "check large.table", "show large.table", "name large.table 1", "judge large.table a.dadl",
        "merge large.table a.table -o x", "merge a.table large.table -o x",
    ] {
        folder.run(command).answers(1, none);
    }
    assert!(begun.elapsed() < SOON);
    assert!(!folder.files().contains(&"x".to_string()));
    // the folder's large files take no room on the disk, but need not stay
    for file in ["large.cadl", "large.dadl", "large.table"] {
        std::fs::remove_file(folder.path(file)).unwrap();
    }
}

#[test]
fn input_without_an_end_is_answered_at_once() {
    let folder = Folder::new("endless");
    folder.put("a.table", hex(SMALLEST_TABLE));
    folder.put("a.dadl", "<>");
    let begun = Instant::now();
    let over = |file: &str| format!("{file}:1:16385: refused 1: text over 16,384 bytes\n{}", zeros_shown());
    folder.run("compile /dev/zero -o x").answers(1, &over("/dev/zero"));
    folder.run("judge a.table /dev/zero").answers(1, &over("/dev/zero"));
    let none = "/dev/zero: refused 12: not a table: over 65,536 bytes\n";
    folder.run("check /dev/zero").answers(1, none);
    folder.run("merge a.table /dev/zero -o x").answers(1, none);
    for line in ["compile - -o x", "judge a.table -"] {
        let zeros = File::open("/dev/zero").unwrap();
        let ran = folder.program().args(line.split_whitespace()).stdin(zeros).output().unwrap();
        assert_eq!((ran.status.code(), String::from_utf8(ran.stdout).unwrap()), (Some(1), over("-")));
    }
    assert!(begun.elapsed() < SOON);
    assert_eq!(folder.files(), ["a.dadl", "a.table"]);
}
