//! Durations by the tool: where a pattern is one, which words are durations, what a pattern admits, tables with kind 9 and their merge.

mod common;

use common::Folder;

/// The constraint text `A matches {a matches {x}}`, x at place 22.
fn leaf(x: &str) -> String {
    format!("A matches {{a matches {{{x}}}}}")
}

/// The data text `<a = <x>>`, x at place 6 and its `<` at 5.
fn word(x: &str) -> String {
    format!("<a = <{x}>>")
}

/// What compiling a text answers.
fn compiled(folder: &Folder, text: &str) -> String {
    folder.put("t.cadl", text);
    folder.run("compile --json t.cadl -o t.table").out
}

fn accepted(folder: &Folder, text: &str) {
    let told = compiled(folder, text);
    assert!(told.contains("\"outcome\":\"compiled\""), "{text}: {told}");
}

fn refused(folder: &Folder, text: &str, number: u32, place: usize) {
    let told = compiled(folder, text);
    assert!(told.contains("\"outcome\":\"refused\""), "{text}: {told}");
    assert!(told.contains(&format!("\"number\":{number},")), "{text}: {told}");
    assert!(told.contains(&format!("\"place\":{place},")), "{text}: {told}");
}

/// What judging a data text by the table of a constraint text answers.
fn judged(folder: &Folder, text: &str, data: &str) -> String {
    accepted(folder, text);
    folder.put("t.dadl", data);
    folder.run("judge --json t.table t.dadl").out
}

fn valid(folder: &Folder, text: &str, data: &str) {
    let told = judged(folder, text, data);
    assert!(told.contains("\"outcome\":\"valid\""), "{text}, {data}: {told}");
}

fn invalid(folder: &Folder, text: &str, data: &str, reason: u32, record: u32, place: usize) {
    let told = judged(folder, text, data);
    let all = [format!("\"number\":{reason},"), format!("\"record\":{record},"), format!("\"place\":{place},")];
    assert!(told.contains("\"outcome\":\"invalid\""), "{text}, {data}: {told}");
    assert!(all.iter().all(|part| told.contains(part)), "{text}, {data}: {told}");
}

fn unreadable(folder: &Folder, data: &str, number: u32, place: usize) {
    let told = judged(folder, "A matches {*}", data);
    assert!(told.contains("\"outcome\":\"refused\""), "{data}: {told}");
    assert!(told.contains(&format!("\"number\":{number},")), "{data}: {told}");
    assert!(told.contains(&format!("\"place\":{place},")), "{data}: {told}");
}

#[test]
fn patterns_stand_before_a_brace_in_a_leafs_place() {
    let folder = Folder::new("durations_patterns");
    for x in
        ["Pd", "Pd --c\n", "PmTm", "Pm", "Pwd", "PTm", "PThm", "PymwdThms", "Pd matches {*}", "Pd[at1] matches {*}"]
    {
        accepted(&folder, &leaf(x));
    }
    let faults = [
        ("P", 23),
        ("PT", 24),
        ("PD", 24),
        ("P1d", 25),
        ("PdT", 25),
        ("Pdm", 25),
        ("Pdd", 25),
        ("PdX", 25),
        ("Pt", 24),
        ("-Pd", 22),
        ("|Pd|", 23),
        ("Pd, Pw", 24),
        ("Pd;", 24),
        ("Pd Pd", 25),
        ("Pd[at1]", 29),
        ("Pd]", 24),
        ("|P1d..P2d|", 23),
    ];
    for (x, place) in faults {
        refused(&folder, &leaf(x), 2, place);
    }
    refused(&folder, "Pd", 2, 2);
    refused(&folder, "Pd}", 2, 2);
    accepted(&folder, "Pd matches {*}");
    refused(&folder, "A matches {Pd}", 2, 11);
}

#[test]
fn records_of_patterns_lie_in_both_orders() {
    let folder = Folder::new("durations_records");
    for (x, order, record) in [("Pwd", "big", [0xC0, 0xAD, 9, 12]), ("PTm", "little", [0xAD, 0xC0, 9, 0x20])] {
        folder.compile("t", &leaf(x), order);
        let table = folder.get("t.table");
        assert_eq!(table.len(), 98);
        assert_eq!(table[72..76], record);
        assert_eq!(table[76..96], [0; 20]);
        assert_eq!(&table[96..], b"Aa");
    }
    folder.compile("t", &leaf("Pd matches {*}"), "big");
    assert_eq!(folder.get("t.table").len(), 100);
}

#[test]
fn a_pattern_is_no_level_and_is_counted_from_its_token() {
    let folder = Folder::new("durations_levels");
    let deep = "A matches {a matches {".repeat(16);
    let braces = "}".repeat(32);
    folder.compile("t", &format!("{deep}Pd{braces}"), "big");
    assert_eq!(folder.get("t.table").len(), 848);
    for end in ["Pd", "Pd x", "P}"] {
        refused(&folder, &format!("{deep}{end}"), 3, 352);
    }
    refused(&folder, &format!("{deep}Pd matches {{*}}{braces}"), 3, 352);
    let mut full = String::from("A matches {");
    for index in 0u8..120 {
        let name = [char::from(b'a' + index / 26), char::from(b'a' + index % 26)];
        full.extend(name);
        full.push_str(" matches {0,1,2,3,4,5,6,7,8,9,-1,-2,-3,-4,-5,-6}\n");
    }
    full.push_str("z matches {1,2,3,4");
    accepted(&folder, &format!("{full}}}}}"));
    refused(&folder, &format!("{full}}} y matches {{Pd}}}}"), 8, 6162);
    refused(&folder, &format!("{full}}} y matches {{Pd"), 8, 6162);
}

#[test]
fn duration_words_are_good() {
    let folder = Folder::new("durations_words");
    let good = [
        "P12w3d", "P12W3D", "-P5d", "P0d", "P0005d", "PT5M3S", "P1y2m3w4dT5h6m7s",
        "P9999y9999m9999w9999dT9999h9999m9999s",
    ];
    for x in good {
        valid(&folder, "A matches {*}", &word(x));
    }
    let bad =
        ["P", "PT", "-P", "P5", "P5dT", "Pd", "P00005d", "P1d2w", "P1w1w", "PT1s1h", "P1.5d", "+P5d", "Pt5m", "P5d_"];
    for x in bad {
        unreadable(&folder, &word(x), 5, 6);
    }
    unreadable(&folder, &word("p5d"), 2, 9);
    unreadable(&folder, &word("--P5d"), 2, 13);
    valid(&folder, "Pd matches {*}", "(Pd)<>");
    unreadable(&folder, "<Pd = <5>>", 2, 1);
}

#[test]
fn a_pattern_admits_the_slots_that_it_has() {
    let folder = Folder::new("durations_admitted");
    for x in ["P4w", "P12W3D", "-P3d"] {
        valid(&folder, &leaf("Pwd"), &word(x));
    }
    for x in ["PT5m", "P1w2dT3h"] {
        invalid(&folder, &leaf("Pwd"), &word(x), 24, 3, 5);
    }
    for x in ["5", "2004", "\"P4w\""] {
        invalid(&folder, &leaf("Pwd"), &word(x), 20, 3, 5);
    }
    valid(&folder, &leaf("PTm"), &word("PT5m"));
    invalid(&folder, &leaf("PTm"), &word("P5m"), 24, 3, 5);
    valid(&folder, &leaf("Pm"), &word("P5M"));
    invalid(&folder, &leaf("Pm"), &word("PT5m"), 24, 3, 5);
    for x in ["|0..9|", "\"P4w\"", "yyyy-??-??", "Thh:??:??"] {
        invalid(&folder, &leaf(x), &word("P4w"), 20, 3, 5);
    }
    invalid(&folder, &leaf("Pd"), "<a = <>>", 20, 3, 5);
}

#[test]
fn tables_of_kind_9_are_checked_and_merged() {
    let folder = Folder::new("durations_tables");
    folder.compile("t", &leaf("Pd"), "big");
    let table = folder.get("t.table");
    for (place, byte, passes) in
        [(75, 1, true), (75, 127, true), (75, 0, false), (75, 128, false), (75, 255, false), (95, 1, false)]
    {
        let mut changed = table.clone();
        changed[place] = byte;
        folder.put("c.table", changed);
        let told = folder.run("check --json c.table").out;
        let wanted =
            if passes { "\"outcome\":\"passes\"" } else { "\"number\":13,\"reason\":\"record 3 breaks a rule\"" };
        assert!(told.contains(wanted), "byte {place} = {byte}: {told}");
    }
    folder.run("name t.table 3").answers(1, "t.table: refused 14: record 3 holds no name\n");
    folder.compile("u", &leaf("PTm"), "little");
    let merged = "b.table: merged: 7 records, 4 bytes of names, 172 bytes, big-endian\nt.table: root 1\n\
        u.table: root 4 (records moved by 3, names by 2)\n";
    folder.run("merge --order big t.table u.table -o b.table").answers(0, merged);
    folder.put("m.dadl", word("PT5m"));
    folder.run("judge b.table --root 4 m.dadl").answers(0, "m.dadl: valid\n");
    folder.put("d.dadl", "<a=<P5d>>");
    let told = folder.run("judge --json b.table --root 4 d.dadl").out;
    let wanted = "\"number\":24,\"reason\":\"value not admitted\",\"record\":6,\"path\":\"A/a\",\"place\":3,";
    assert!(told.contains(wanted), "{told}");
}
