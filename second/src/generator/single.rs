//! Single cases of each kind held against the rules.

use super::cases::{CheckCase, CompileCase, JudgeCase, ListCase, MergeCase, NameCase, Room};
use super::counts::Job;
use super::law::{checked, count_judge, count_meaning, ensure, meet, merged_rightly, name_asked, Bench, Outcome};
use super::random::Random;
use super::rules;
use super::spelling::{spell, Spelling};
use super::tables::{mixed, Table};
use super::tokens::Style;
use super::unrolled::unrolled;
use crate::api::{CheckAnswer, JudgeAnswer, MeaningAnswer};
use std::panic::{catch_unwind, AssertUnwindSafe};

/// A case that can be run on its own.
pub trait Single {
    fn run(&self, bench: &mut Bench) -> Outcome;

    /// Runs the case; a panic is a failure too.
    fn guarded(&self, bench: &mut Bench) -> Outcome {
        catch_unwind(AssertUnwindSafe(|| self.run(bench))).unwrap_or_else(|_| Err(String::from("a job panicked")))
    }
}

impl Single for CompileCase {
    /// A list without merges.
    fn run(&self, bench: &mut Bench) -> Outcome {
        bench.run(&ListCase {
            text: self.text.clone(),
            little: self.little,
            room: Room::Fixed(self.room),
            fill: self.fill,
            steps: Vec::new(),
            data: vec![b"<>".to_vec()],
            asked: Vec::new(),
        })
    }
}

impl Single for CheckCase {
    fn run(&self, bench: &mut Bench) -> Outcome {
        checked(bench, &self.table, rules::check(&self.table))
    }
}

impl Single for MergeCase {
    fn run(&self, bench: &mut Bench) -> Outcome {
        let first = (&self.first[..], rules::check(&self.first));
        let second = (&self.second[..], rules::check(&self.second));
        merged_rightly(bench, first, second, self.little, self.room, self.fill).map(drop)
    }
}

impl Single for NameCase {
    fn run(&self, bench: &mut Bench) -> Outcome {
        name_asked(bench, &self.table, rules::check(&self.table), self.record)
    }
}

impl Single for JudgeCase {
    /// The refusals before the data by the rules, the rest by the meaning of the text that says the
    /// same as the table, where there is one; the same answer in mixed order.
    fn run(&self, bench: &mut Bench) -> Outcome {
        let verdict = rules::check(&self.table);
        let answer = (bench.jobs.judge)(&self.table, self.root, &self.data);
        count_judge(bench, answer);
        meet(bench, Job::Judge, &self.table, verdict);
        if let Some(expected) = rules::judge_before_data(&self.table, verdict, self.root) {
            return ensure(answer == expected, || format!("judge: {answer:?}, the rules say {expected:?}"));
        }
        ensure(rules::can_be_meant(&self.table, &self.data, answer), || format!("judge: {answer:?} cannot be meant"))?;
        if let Some(expected) = meant(self, bench)? {
            ensure(answer == expected, || format!("judge: {answer:?}, written out as a text {expected:?}"))?;
        }
        let other = mixed(&mut Random::new(self.data.len() as u64, 0, self.root.into()), &self.table);
        let again = (bench.jobs.judge)(&other, self.root, &self.data);
        ensure(rules::check(&other) == CheckAnswer::Passed && again == answer, || {
            format!("judge in mixed order: {again:?}, before {answer:?}")
        })
    }
}

/// The meaning's answer for the text that says what the table says at the root, with the table's record.
fn meant(case: &JudgeCase, bench: &mut Bench) -> Result<Option<JudgeAnswer>, String> {
    let Some(written) = unrolled(&Table::read(&case.table), case.root as usize) else {
        return Ok(None);
    };
    let random = &mut Random::new(case.root.into(), 0, 0);
    let text = spell(random, &written.shape, Spelling { faults: 0, plain: false }).text(random, Style::Tight, false);
    if text.len() > 16_384 {
        return Ok(None);
    }
    let meaning = (bench.jobs.meaning)(&text, &case.data);
    count_meaning(bench, meaning);
    match meaning {
        MeaningAnswer::ConstraintRefused { .. } => Err(format!("{meaning:?} for {}", text.escape_ascii())),
        MeaningAnswer::Answer(JudgeAnswer::Verdict { reason, record, place }) => {
            let record = written.numbers.get((record as usize).wrapping_sub(1)).copied().unwrap_or(u32::MAX);
            Ok(Some(JudgeAnswer::Verdict { reason, record, place }))
        }
        MeaningAnswer::Answer(answer) => Ok(Some(answer)),
    }
}
