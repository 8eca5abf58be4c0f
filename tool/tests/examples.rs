//! The forms in `examples/`: what each is said to be.

mod common;

use std::path::Path;

use common::Folder;

/// A folder with the examples and both tables.
fn with_examples(name: &str) -> Folder {
    let folder = Folder::new(name);
    let examples = Path::new(env!("CARGO_MANIFEST_DIR")).join("../examples");
    for entry in std::fs::read_dir(examples).expect("examples") {
        let path = entry.expect("an entry").path();
        if path.extension().is_some() {
            let name = path.file_name().and_then(|name| name.to_str()).expect("a name");
            folder.put(name, std::fs::read(&path).expect("a file"));
        }
    }
    assert_eq!(folder.run("compile --order big adult.cadl -o adult.table").status, 0);
    assert_eq!(folder.run("compile --order little newborn.cadl -o newborn.table").status, 0);
    folder
}

/// What an invalid form is told, without its line.
fn first_line(told: &str) -> &str {
    told.lines().next().unwrap_or("")
}

#[test]
fn each_form_by_its_own_table() {
    let folder = with_examples("examples_own");
    folder.run("judge adult.table adult.dadl").answers(0, "adult.dadl: valid\n");
    folder.run("judge newborn.table newborn.dadl").answers(0, "newborn.dadl: valid\n");
    let told = "adult-wrong.dadl:11:20: OBSERVATION/blood_pressure/position: 24 value not admitted\n        \
                position = <\"walking\">\n                   ^\nadmitted: \"sitting\", \"lying\", \"standing\"\n";
    folder.run("judge adult.table adult-wrong.dadl").answers(1, told);
    let told = "adult-no-pulse.dadl:2:15: OBSERVATION/pulse: 22 member missing\n\
                (OBSERVATION) <\n              ^\nmissing: pulse\nwanted: a block of type ELEMENT\n";
    folder.run("judge adult.table adult-no-pulse.dadl").answers(1, told);
    let told = "newborn-wrong.dadl:6:12: OBSERVATION/pulse/rate: 24 value not admitted\n    \
                rate = <72>\n           ^\nadmitted: 100..160\n";
    folder.run("judge newborn.table newborn-wrong.dadl").answers(1, told);
    assert_eq!(folder.run("compile antenatal.cadl -o antenatal.table").status, 0);
    folder.run("judge antenatal.table antenatal.dadl").answers(0, "antenatal.dadl: valid\n");
    let told = "antenatal-wrong.dadl:4:15: OBSERVATION/gestation: 24 value not admitted\n  \
                gestation = <PT5m>\n              ^\nadmitted: a duration Pwd, slots may be left out\n";
    folder.run("judge antenatal.table antenatal-wrong.dadl").answers(1, told);
    let told = "broken.dadl:6:16: refused 2: cannot follow here\n        rate = 72\n               ^\n";
    folder.run("judge adult.table broken.dadl").answers(1, told);
    let told =
        "broken.cadl:7:13: refused 9: attribute named twice\n            rate matches {|40..140|}\n            ^\n";
    folder.run("compile broken.cadl -o broken.table").answers(1, told);
}

#[test]
fn a_newborn_is_judged_by_the_newborns_limits_after_each_merge() {
    let folder = with_examples("examples_merged");
    for order in ["big", "little"] {
        for (first, second) in [("adult", "newborn"), ("newborn", "adult")] {
            let ran = folder.run(&format!("merge --order {order} {first}.table {second}.table -o both.table"));
            assert_eq!(ran.status, 0);
            let root = |name: &str| {
                let begin = format!("{name}.table: root ");
                let line = ran.out.lines().find_map(|line| line.strip_prefix(&begin)).expect("a root");
                line.split(' ').next().expect("a number").to_string()
            };
            let judged = |name: &str, form: &str| folder.run(&format!("judge both.table --root {} {form}", root(name)));
            judged("newborn", "newborn.dadl").answers(0, "newborn.dadl: valid\n");
            judged("adult", "adult.dadl").answers(0, "adult.dadl: valid\n");
            let ran = judged("adult", "newborn.dadl");
            assert_eq!(ran.status, 1);
            assert_eq!(first_line(&ran.out), "newborn.dadl:6:12: OBSERVATION/pulse/rate: 24 value not admitted");
            assert!(ran.out.ends_with("\nadmitted: 40..130\n"), "{}", ran.out);
            let ran = judged("newborn", "adult.dadl");
            assert_eq!(ran.status, 1);
            assert_eq!(first_line(&ran.out), "adult.dadl:4:16: OBSERVATION/taken_at: 24 value not admitted");
        }
    }
}
