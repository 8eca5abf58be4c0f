//! The law of the merges: a text's table, merged with any tables in any order, still judges data
//! texts as the two texts say, at record 1 + sum. The other jobs are held against the rules on the way.

use super::cases::{ListCase, Other, Step, LONGEST_TABLE};
use super::counts::{Counts, Job};
use super::random::Random;
use super::rules;
use super::tables::{mixed, Table};
use crate::api::{CheckAnswer, CompileAnswer, JudgeAnswer, MeaningAnswer, MergeAnswer, NameAnswer};
use std::panic::{catch_unwind, AssertUnwindSafe};

/// The jobs that are put to the test.
#[derive(Clone, Copy)]
pub struct Jobs {
    pub compile: fn(&[u8], bool, &mut [u8]) -> CompileAnswer,
    pub check: fn(&[u8]) -> CheckAnswer,
    pub merge: fn(&[u8], &[u8], bool, &mut [u8]) -> MergeAnswer,
    pub judge: fn(&[u8], u32, &[u8]) -> JudgeAnswer,
    pub name: fn(&[u8], u32) -> NameAnswer,
    pub meaning: fn(&[u8], &[u8]) -> MeaningAnswer,
}

impl Jobs {
    /// The jobs of this library.
    pub fn library() -> Jobs {
        Jobs {
            compile: crate::compile,
            check: crate::check,
            merge: crate::merge,
            judge: crate::judge,
            name: crate::name,
            meaning: crate::meaning,
        }
    }
}

/// What a run works with: the jobs, the counts, and an output buffer with what it held before.
pub struct Bench {
    pub jobs: Jobs,
    pub counts: Counts,
    before: Vec<u8>,
    out: Vec<u8>,
}

/// More output room than any merge could need.
const MOST_ROOM: usize = 2 * LONGEST_TABLE + 1_024;

/// What is wrong with a case.
pub type Outcome = Result<(), String>;

impl Bench {
    pub fn new(jobs: Jobs) -> Bench {
        let before = super::cases::filling(0, MOST_ROOM + 256);
        Bench { jobs, counts: Counts::default(), before, out: Vec::new() }
    }

    /// Fills the output buffer as the case says, `room` bytes long.
    fn fill(&mut self, fill: u8, room: usize) {
        let start = start_of(fill);
        self.out.clear();
        self.out.extend_from_slice(&self.before[start..start + room.min(MOST_ROOM)]);
    }

    /// Whether the output buffer still holds from `from` on what it held before.
    fn kept(&self, fill: u8, from: usize) -> bool {
        let start = start_of(fill);
        from <= self.out.len() && self.out[from..] == self.before[start + from..start + self.out.len()]
    }

    /// Runs a case; a panic is a failure too.
    pub fn run(&mut self, case: &ListCase) -> Outcome {
        catch_unwind(AssertUnwindSafe(|| run(case, self))).unwrap_or_else(|_| Err(String::from("a job panicked")))
    }
}

/// Where in the row for fill 0 the row for another fill begins.
fn start_of(fill: u8) -> usize {
    usize::from(fill.wrapping_mul(INVERSE))
}

/// The number that undoes 151 modulo 256.
const INVERSE: u8 = inverse_of(151);

const fn inverse_of(number: u8) -> u8 {
    let mut candidate = 1u8;
    while number.wrapping_mul(candidate) != 1 {
        candidate += 2;
    }
    candidate
}

pub(super) fn ensure(holds: bool, what: impl FnOnce() -> String) -> Outcome {
    if holds {
        Ok(())
    } else {
        Err(what())
    }
}

fn run(case: &ListCase, bench: &mut Bench) -> Outcome {
    let Some(mut carried) = compiled(case, bench)? else {
        return Ok(());
    };
    let mut sum = 0;
    for (index, step) in case.steps.iter().enumerate() {
        merge_step(case, step, bench, &mut carried, &mut sum).map_err(|what| format!("step {}: {what}", index + 1))?;
    }
    judged(case, bench, &carried, sum)?;
    named(bench, &carried)?;
    asked(case, bench, &carried, CheckAnswer::Passed)
}

/// Compiles the text: its table, or nothing when it is refused.
fn compiled(case: &ListCase, bench: &mut Bench) -> Result<Option<Vec<u8>>, String> {
    bench.fill(case.fill, LONGEST_TABLE);
    let answer = (bench.jobs.compile)(&case.text, case.little, &mut bench.out);
    match answer {
        CompileAnswer::Refused { number, place } => {
            bench.counts.add(Job::Compile, number);
            refused_text(case, bench, number, place)?;
            Ok(None)
        }
        CompileAnswer::Done { length } => {
            bench.counts.add(Job::Compile, 0);
            let length = length as usize;
            ensure(bench.kept(case.fill, length), || format!("compile: {length} bytes done, bytes past them changed"))?;
            let table = bench.out[..length].to_vec();
            bench.counts.meet(Job::Compile, &table);
            sound_start(case, bench, &table)?;
            other_room(case, bench, &table)?;
            Ok(Some(table))
        }
    }
}

/// A refused text: nothing written, no 10 or 11, the place in the text, and the meaning refuses it alike.
fn refused_text(case: &ListCase, bench: &mut Bench, number: u32, place: u64) -> Outcome {
    ensure(bench.kept(case.fill, 0), || format!("compile refused with {number} and changed the output"))?;
    let length = case.text.len() as u64;
    let sensible = match number {
        1 => length > 16_384 && place == 16_384,
        2..=9 => length <= 16_384 && place <= length,
        _ => false,
    };
    ensure(sensible, || format!("compile refused with {number} at {place}"))?;
    bench.fill(case.fill, 0);
    let empty = (bench.jobs.compile)(&case.text, case.little, &mut bench.out);
    ensure(empty == CompileAnswer::Refused { number, place }, || format!("compile without room: {empty:?}"))?;
    for data in case.data.iter().take(1) {
        let answer = (bench.jobs.meaning)(&case.text, data);
        count_meaning(bench, answer);
        ensure(answer == MeaningAnswer::ConstraintRefused { number, place }, || {
            format!("compile refused with {number} at {place}, the meaning says {answer:?}")
        })?;
    }
    Ok(())
}

/// The first table: it passes the check, has root 1 and one byte order, and says the same in the other.
fn sound_start(case: &ListCase, bench: &mut Bench, table: &[u8]) -> Outcome {
    checked(bench, table, CheckAnswer::Passed)?;
    let mut parts = Table::read(table);
    ensure(parts.records[0].numbers[2] == 1, || String::from("compile: the root is not 1"))?;
    ensure(parts.records.iter().all(|r| r.is_little() == case.little), || {
        String::from("compile: a record in the other byte order")
    })?;
    for record in &mut parts.records {
        record.set_order(!case.little);
    }
    bench.fill(case.fill, table.len());
    let answer = (bench.jobs.compile)(&case.text, !case.little, &mut bench.out);
    ensure(answer == CompileAnswer::Done { length: table.len() as u64 } && bench.out == parts.bytes(), || {
        format!("compile in the other order: {answer:?}, not the same content")
    })
}

/// Compiles once more with the room that the case asks for.
fn other_room(case: &ListCase, bench: &mut Bench, table: &[u8]) -> Outcome {
    let room = case.room.bytes(table.len());
    bench.fill(case.fill, room);
    let answer = (bench.jobs.compile)(&case.text, case.little, &mut bench.out);
    if room < table.len() {
        bench.counts.add(Job::Compile, 11);
        let expected = CompileAnswer::Refused { number: 11, place: case.text.len() as u64 };
        ensure(answer == expected, || format!("compile with room {room}: {answer:?}"))?;
        return ensure(bench.kept(case.fill, 0), || String::from("compile refused with 11 and changed the output"));
    }
    bench.counts.add(Job::Compile, 0);
    ensure(answer == CompileAnswer::Done { length: table.len() as u64 }, || {
        format!("compile with room {room}: {answer:?}")
    })?;
    ensure(bench.out[..table.len()] == *table && bench.kept(case.fill, table.len()), || {
        format!("compile with room {room}: other bytes written")
    })
}

/// Checking answers what the rules say.
pub(super) fn checked(bench: &mut Bench, table: &[u8], expected: CheckAnswer) -> Outcome {
    let answer = (bench.jobs.check)(table);
    bench.counts.add(Job::Check, if let CheckAnswer::Refused { number, .. } = answer { number } else { 0 });
    meet(bench, Job::Check, table, answer);
    ensure(answer == expected && rules::check(table) == expected, || {
        format!("check: {answer:?}, the rules say {:?}, expected {expected:?}", rules::check(table))
    })
}

/// One merge of the list: refused exactly when the rules say so, else byte for byte what they say.
fn merge_step(case: &ListCase, step: &Step, bench: &mut Bench, carried: &mut Vec<u8>, sum: &mut u32) -> Outcome {
    let own = carried.clone();
    let other: &[u8] = match &step.other {
        Other::Bytes(bytes) => bytes,
        Other::Carried => &own,
    };
    let verdict = rules::check(other);
    if step.other != Other::Carried {
        checked(bench, other, verdict)?;
        asked(case, bench, other, verdict)?;
    }
    let (mut first, mut second) = ((&own[..], CheckAnswer::Passed), (other, verdict));
    if !step.carried_first {
        std::mem::swap(&mut first, &mut second);
    }
    let fair = verdict == CheckAnswer::Passed;
    let needed = if fair { rules::merged_length(first.0, second.0) } else { first.0.len() + second.0.len() };
    let room = step.room.bytes(needed);
    let Some((written, shift)) = merged_rightly(bench, first, second, step.little, room, step.fill)? else {
        return Ok(());
    };
    checked(bench, &written, CheckAnswer::Passed)?;
    if !step.carried_first {
        *sum += shift;
    }
    *carried = written;
    Ok(())
}

/// Merges two tables, each with what the rules say of its check, and holds answer and output against
/// the rules. The table written and the record shift, or nothing when merging was rightly refused.
pub(super) fn merged_rightly(
    bench: &mut Bench,
    first: (&[u8], CheckAnswer),
    second: (&[u8], CheckAnswer),
    little: bool,
    room: usize,
    fill: u8,
) -> Result<Option<(Vec<u8>, u32)>, String> {
    let room = room.min(MOST_ROOM);
    let expected = rules::merge(first, second, room);
    bench.fill(fill, room);
    let answer = (bench.jobs.merge)(first.0, second.0, little, &mut bench.out);
    bench.counts.add(Job::Merge, if let MergeAnswer::Refused { number, .. } = answer { number } else { 0 });
    meet(bench, Job::Merge, first.0, first.1);
    meet(bench, Job::Merge, second.0, second.1);
    ensure(answer == expected, || format!("merge: {answer:?}, the rules say {expected:?}"))?;
    let MergeAnswer::Done { length, record_shift, .. } = answer else {
        ensure(bench.kept(fill, 0), || format!("merge: {answer:?} and the output changed"))?;
        return Ok(None);
    };
    let length = length as usize;
    let wanted = rules::merged(first.0, second.0, little);
    ensure(bench.out[..length] == wanted[..], || String::from("merge: other bytes written than the rules say"))?;
    ensure(bench.kept(fill, length), || String::from("merge: bytes past the table's end changed"))?;
    Ok(Some((wanted, record_shift)))
}

/// The law itself: judging the carried table at record 1 + sum answers what the two texts mean.
fn judged(case: &ListCase, bench: &mut Bench, carried: &[u8], sum: u32) -> Outcome {
    for (index, data) in case.data.iter().enumerate() {
        let meaning = (bench.jobs.meaning)(&case.text, data);
        count_meaning(bench, meaning);
        let MeaningAnswer::Answer(meant) = meaning else {
            return Err(format!("the text compiled, yet the meaning says {meaning:?}"));
        };
        let expected = match meant {
            JudgeAnswer::Verdict { reason, record, place } => {
                JudgeAnswer::Verdict { reason, record: record + sum, place }
            }
            other => other,
        };
        let answer = (bench.jobs.judge)(carried, 1 + sum, data);
        count_judge(bench, answer);
        meet(bench, Job::Judge, carried, CheckAnswer::Passed);
        ensure(answer == expected, || format!("data {index}: judge at {}: {answer:?}, meant {expected:?}", 1 + sum))?;
        ensure(rules::can_be_meant(carried, data, answer), || format!("data {index}: {answer:?} cannot be meant"))?;
        if index == 0 {
            let other = mixed(&mut Random::new(sum.into(), 0, case.fill.into()), carried);
            let again = (bench.jobs.judge)(&other, 1 + sum, data);
            ensure(again == answer, || format!("data {index}: in mixed order {again:?}, before {answer:?}"))?;
        }
    }
    Ok(())
}

/// Names of all records; of a large table, of some.
fn named(bench: &mut Bench, table: &[u8]) -> Outcome {
    let (count, _) = rules::sizes(table);
    for number in (0..count).step_by(1 + count / 32) {
        name_asked(bench, table, CheckAnswer::Passed, number as u32)?;
    }
    Ok(())
}

pub(super) fn name_asked(bench: &mut Bench, table: &[u8], verdict: CheckAnswer, number: u32) -> Outcome {
    let answer = (bench.jobs.name)(table, number);
    bench.counts.add(Job::Name, if let NameAnswer::Refused { number, .. } = answer { number } else { 0 });
    meet(bench, Job::Name, table, verdict);
    let expected = rules::name(table, verdict, number);
    ensure(answer == expected, || format!("name of {number}: {answer:?}, the rules say {expected:?}"))
}

/// Roots and records asked for by the case, of a table whose check answers `verdict`.
fn asked(case: &ListCase, bench: &mut Bench, table: &[u8], verdict: CheckAnswer) -> Outcome {
    for &number in &case.asked {
        name_asked(bench, table, verdict, number)?;
        let data: &[u8] = case.data.first().map_or(b"<>", |data| data);
        let answer = (bench.jobs.judge)(table, number, data);
        count_judge(bench, answer);
        meet(bench, Job::Judge, table, verdict);
        match rules::judge_before_data(table, verdict, number) {
            Some(expected) => {
                ensure(answer == expected, || format!("judge at {number}: {answer:?}, the rules say {expected:?}"))?;
            }
            None => {
                ensure(rules::can_be_meant(table, data, answer), || {
                    format!("judge at {number}: {answer:?} cannot be meant")
                })?;
                let meaning = (bench.jobs.meaning)(b"A matches {*}", data);
                let bad = matches!(meaning, MeaningAnswer::Answer(JudgeAnswer::Refused { .. }));
                let same = if bad { meaning == MeaningAnswer::Answer(answer) } else { !is_refusal(answer) };
                ensure(same, || format!("judge at {number}: {answer:?}, the data text alone: {meaning:?}"))?;
            }
        }
    }
    Ok(())
}

fn is_refusal(answer: JudgeAnswer) -> bool {
    matches!(answer, JudgeAnswer::Refused { .. })
}

/// Counts the kinds of a table that a job was given, if it passed the check.
pub(super) fn meet(bench: &mut Bench, job: Job, table: &[u8], verdict: CheckAnswer) {
    if verdict == CheckAnswer::Passed {
        bench.counts.meet(job, table);
    }
}

pub(super) fn count_judge(bench: &mut Bench, answer: JudgeAnswer) {
    bench.counts.add(Job::Judge, number_of(answer));
}

pub(super) fn count_meaning(bench: &mut Bench, answer: MeaningAnswer) {
    bench.counts.add(
        Job::Meaning,
        match answer {
            MeaningAnswer::ConstraintRefused { number, .. } => number,
            MeaningAnswer::Answer(answer) => number_of(answer),
        },
    );
}

fn number_of(answer: JudgeAnswer) -> u32 {
    match answer {
        JudgeAnswer::Valid => 0,
        JudgeAnswer::Refused { number, .. } => number,
        JudgeAnswer::Verdict { reason, .. } => reason,
    }
}
