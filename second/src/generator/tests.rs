//! Tests of the generator: it repeats itself, meets every number, and the shrinker shrinks.

use super::law::{Bench, Jobs};
use super::leaves::leaf_case;
use super::shapes::shape_case;
use super::single::Single;
use super::*;
use crate::api::{CheckAnswer, CompileAnswer, MergeAnswer};

#[test]
fn the_same_number_gives_the_same_case() {
    let (one, two) = (Maker::new(5), Maker::new(5));
    for number in (0..300).rev() {
        assert_eq!(one.compile(number), two.compile(number));
        assert_eq!(one.check(number), two.check(number));
        assert_eq!(one.merge(number), two.merge(number));
        assert_eq!(one.judge(number), two.judge(number));
        assert_eq!(one.name(number), two.name(number));
        assert_eq!(one.list(number), two.list(number));
    }
    assert_ne!(one.list(0), one.list(1));
    assert_ne!(one.list(0), Maker::new(6).list(0));
}

#[test]
fn the_law_holds_and_every_number_is_met() {
    let maker = Maker::new(11);
    let mut bench = Bench::new(Jobs::library());
    for number in 0..20_000 {
        let outcome = bench.run(&maker.list(number));
        assert_eq!(outcome, Ok(()), "case {number}");
    }
    let (job, number, met) = bench.counts.rarest();
    assert!(met > 0, "{number} of {job} was not met");
    assert_eq!(bench.counts.impossible(), None);
}

#[test]
fn clean_shapes_compile_to_their_tables() {
    let mut bench = Bench::new(Jobs::library());
    for number in 0..5_000 {
        let case = shape_case(3, number);
        assert_eq!(case.guarded(&mut bench), Ok(()), "case {number}: {}", show::quoted(&case.parts().0));
    }
}

#[test]
fn leaves_are_judged_as_the_rules_say() {
    let mut bench = Bench::new(Jobs::library());
    for number in 0..20_000 {
        let case = leaf_case(3, number);
        assert_eq!(case.guarded(&mut bench), Ok(()), "case {number}: {case:?}");
    }
}

#[test]
fn handmade_tables_are_sound() {
    for number in 0..3_000 {
        let random = &mut Random::new(9, 0, number);
        let table = handmade::small_table(random).bytes();
        assert_eq!(rules::check(&table), CheckAnswer::Passed, "case {number}");
        let other = mixed(random, &table);
        assert_eq!(rules::check(&other), CheckAnswer::Passed, "case {number}");
    }
    for number in 0..20 {
        let table = handmade::large_table(&mut Random::new(9, 1, number)).bytes();
        assert_eq!(rules::check(&table), CheckAnswer::Passed, "case {number}");
    }
}

#[test]
fn broken_tables_are_refused_in_most_cases() {
    let refused = (0..2_000).filter(|&number| {
        let random = &mut Random::new(9, 2, number);
        let whole = handmade::small_table(random).bytes();
        rules::check(&broken::broken(random, &whole)) != CheckAnswer::Passed
    });
    let refused = refused.count();
    assert!(refused > 1_500, "{refused} of 2,000");
}

#[test]
fn single_kinds_meet_their_numbers() {
    let maker = Maker::new(4);
    let jobs = Jobs::library();
    let mut seen = [0u32; 32];
    for number in 0..4_000 {
        let lines = [
            lines::check_line(&maker.check(number), &jobs),
            lines::merge_line(&maker.merge(number), &jobs),
            lines::judge_line(&maker.judge(number), &jobs),
            lines::name_line(&maker.name(number), &jobs),
            lines::compile_line(&maker.compile(number), &jobs),
        ];
        for line in lines {
            let answer: Vec<&str> = line.split(" = ").nth(1).unwrap_or("").split(' ').collect();
            if answer[0] == "refused" || answer[0] == "verdict" {
                seen[answer[1].parse::<usize>().unwrap_or(0)] += 1;
            }
        }
    }
    for number in (1..=14).chain(20..=24) {
        assert!(seen[number] > 0, "{number} was not met");
    }
}

#[test]
fn single_cases_hold() {
    let maker = Maker::new(8);
    let mut bench = Bench::new(Jobs::library());
    for number in 0..4_000 {
        assert_eq!(maker.compile(number).guarded(&mut bench), Ok(()), "case {number}");
        assert_eq!(maker.check(number).guarded(&mut bench), Ok(()), "case {number}");
        assert_eq!(maker.merge(number).guarded(&mut bench), Ok(()), "case {number}");
        assert_eq!(maker.judge(number).guarded(&mut bench), Ok(()), "case {number}");
        assert_eq!(maker.name(number).guarded(&mut bench), Ok(()), "case {number}");
    }
}

#[test]
fn the_shrinker_finds_the_two_bytes_that_matter() {
    let text = b"some text with an x in it, and far behind it a y, and more".to_vec();
    let case = CompileCase { text, little: true, room: 4_000, fill: 77 };
    let small = shrink(&case, 100_000, |case| {
        let x = case.text.iter().position(|byte| *byte == b'x');
        let y = case.text.iter().rposition(|byte| *byte == b'y');
        x.is_some() && x < y && case.room >= 100
    });
    assert_eq!(small, CompileCase { text: b"xy".to_vec(), little: false, room: 100, fill: 0 });
}

/// Merging that forgets to leave the place of an empty string alone.
fn merge_that_slips(first: &[u8], second: &[u8], little: bool, out: &mut [u8]) -> MergeAnswer {
    let answer = crate::merge(first, second, little, out);
    if let MergeAnswer::Done { record_shift, pool_shift, .. } = answer {
        let count = Record::read(out).numbers[0];
        for number in record_shift + 1..count {
            let at = 24 * number as usize;
            let mut record = Record::read(&out[at..at + 24]);
            if record.kind == 5 && record.numbers[1] == 0 {
                record.numbers[0] = pool_shift;
                let mut bytes = Vec::new();
                record.write(&mut bytes);
                out[at..at + 24].copy_from_slice(&bytes);
            }
        }
    }
    answer
}

#[test]
fn a_slip_in_merging_is_found_and_made_small() {
    let mut jobs = Jobs::library();
    jobs.merge = merge_that_slips;
    let maker = Maker::new(7);
    let mut bench = Bench::new(jobs);
    let case = (0..5_000).map(|number| maker.list(number)).find(|case| bench.run(case).is_err());
    let case = case.expect("the slip is found");
    let small = shrink(&case, 200_000, |case| bench.run(case).is_err());
    assert!(bench.run(&small).is_err());
    assert_eq!(small.steps.len(), 1);
    assert!(small.data.is_empty() && small.asked.is_empty());
    assert!(small.text.len() <= 40, "{}", show::list_case(&small));
}

#[test]
fn a_compiler_that_refuses_all_is_found() {
    let mut jobs = Jobs::library();
    jobs.compile = |_, _, _| CompileAnswer::Refused { number: 2, place: 0 };
    let maker = Maker::new(2);
    let mut bench = Bench::new(jobs);
    assert!((0..20).any(|number| bench.run(&maker.list(number)).is_err()));
}

#[test]
fn kind_9_is_met_by_each_job_and_by_its_verdicts() {
    let maker = Maker::new(12);
    let jobs = Jobs::library();
    let mut counts = Counts::default();
    let mut verdicts = [0u32; 32];
    for number in 0..4_000 {
        let check = maker.check(number);
        counts.meet(Job::Check, &check.table);
        let case = maker.judge(number);
        if let crate::api::JudgeAnswer::Verdict { reason, record, .. } =
            (jobs.judge)(&case.table, case.root, &case.data)
        {
            if rules::kind(&case.table, record as usize) == 9 {
                verdicts[reason as usize] += 1;
            }
        }
    }
    assert!(verdicts[20] > 10 && verdicts[24] > 10, "{} and {}", verdicts[20], verdicts[24]);
    let shown = counts.to_string();
    let row = shown.lines().find(|line| line.trim_start().starts_with("kind 9")).unwrap_or_default();
    let met: Vec<&str> = row.split_whitespace().collect();
    assert_eq!(met.len(), 8, "{row}");
    assert!(met[3].parse::<u32>().is_ok_and(|count| count > 500), "{row}");
}

#[test]
fn kinds_are_counted_once_a_table_and_only_under_a_mark() {
    let attribute =
        |name: &[u8], flag| Attribute { name: name.to_vec(), existence: 2, value: Value::DurationPattern(flag) };
    let attributes = vec![attribute(b"a", 1), attribute(b"b", 127)];
    let object = Object { type_name: b"A".to_vec(), code: None, attributes };
    let mut table = table_of(&object);
    let row = |counts: &Counts, kind: usize| {
        let shown = counts.to_string();
        let line = shown.lines().find(|line| line.contains(&format!("kind {kind}"))).unwrap_or_default();
        line.split_whitespace().skip(2).map(String::from).collect::<Vec<_>>()
    };
    let mut counts = Counts::default();
    counts.meet(Job::Merge, &table.bytes());
    table.records[3].set_order(true);
    table.records[5].mark = [0, 0];
    counts.meet(Job::Merge, &table.bytes());
    counts.meet(Job::Merge, b"");
    counts.meet(Job::Merge, &[0xFF; 100]);
    let mut sum = Counts::default();
    sum.add_all(&counts);
    sum.add_all(&counts);
    assert_eq!(row(&counts, 9), ["0", "0", "2", "0", "0", "-"]);
    assert_eq!(row(&sum, 9), ["0", "0", "4", "0", "0", "-"]);
    assert_eq!(row(&sum, 8), ["0", "0", "0", "0", "0", "-"]);
    assert_eq!(row(&sum, 2), ["0", "0", "4", "0", "0", "-"]);
}
