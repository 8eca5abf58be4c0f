//! One example run by the jobs, in each byte order that it can be run in.

use super::answers::Answer;
use super::inputs::{Given, Input, Source};
use super::tables;
use super::Example;
use crate::api::{CheckAnswer, CompileAnswer, JudgeAnswer, MergeAnswer, NameAnswer};
use crate::generator::law::Jobs;
use crate::generator::{filling, LONGEST_TABLE};
use std::panic::{catch_unwind, AssertUnwindSafe};

/// What a job said, and the table that it wrote, turned big-endian; empty if it wrote none.
#[derive(Clone, Debug, PartialEq, Eq)]
struct Told {
    answer: Answer,
    table: Vec<u8>,
}

/// Output enough for any table, and some bytes behind it that must stay.
const ENOUGH: usize = LONGEST_TABLE + 64;

/// Both byte orders, as `little` and as words.
const ORDERS: [(bool, &str); 2] = [(false, "big-endian"), (true, "little-endian")];

/// Runs each input of an example, and says which answers differ from the page's.
pub fn run(example: &Example, jobs: &Jobs) -> Result<(), String> {
    let several = example.inputs.len() > 1;
    let mut wrong = Vec::new();
    for (index, input) in example.inputs.iter().enumerate() {
        if let Err(what) = guarded(input, &example.answer, jobs) {
            wrong.push(if several { format!("input {}: {what}", index + 1) } else { what });
        }
    }
    if wrong.is_empty() {
        return Ok(());
    }
    Err(wrong.join("; "))
}

/// Runs an input; a panic is a failure too, and its own message is on standard error.
fn guarded(input: &Input, expected: &Answer, jobs: &Jobs) -> Result<(), String> {
    catch_unwind(AssertUnwindSafe(|| agree(expected, &told(input, jobs)?)))
        .unwrap_or_else(|_| Err(format!("the page says {expected}, a job panicked")))
}

/// Compares what the page says with what a job said.
fn agree(expected: &Answer, told: &Told) -> Result<(), String> {
    match (expected, &told.answer) {
        (Answer::Accepted(facts), Answer::Accepted(_)) => facts.iter().try_for_each(|fact| fact.holds(&told.table)),
        (expected, answer) if expected == answer => Ok(()),
        (expected, answer) => Err(format!("the page says {expected}, the answer is {answer}")),
    }
}

fn told(input: &Input, jobs: &Jobs) -> Result<Told, String> {
    match input {
        Input::Compile { text, room } => compiled(jobs, text, room.unwrap_or(ENOUGH)),
        Input::Data(data) => data_alone(jobs, data),
        Input::Check(table) => over(jobs, table, |table| checked((jobs.check)(table))),
        Input::Judge { table, root, data } => over(jobs, table, |table| judged((jobs.judge)(table, *root, data))),
        Input::Merge { first, second, room } => merged(jobs, first, second, room.unwrap_or(ENOUGH)),
        Input::Name { table, record } => over(jobs, table, |table| named((jobs.name)(table, *record))),
    }
}

/// Reads a data text for itself, by judging it by B at its root. B passes the check and its record 1 is an object, so a refusal can only
/// be the data text's own. Its object has no attributes, so what else comes is valid or 21 for a type, and either says that the text is good.
fn data_alone(jobs: &Jobs, data: &[u8]) -> Result<Told, String> {
    let b = Given { source: Source::Bytes(tables::B.to_vec()), change: None };
    over(jobs, &b, |table| match judged((jobs.judge)(table, 1, data)) {
        Answer::Valid | Answer::Verdict { .. } => Answer::Good,
        refused => refused,
    })
}

/// Asks something of a table in both byte orders.
fn over(jobs: &Jobs, table: &Given, ask: impl Fn(&[u8]) -> Answer) -> Result<Told, String> {
    let tables = in_both_orders(jobs, table)?;
    let answers = tables.iter().map(|(order, table)| {
        let told = Told { answer: ask(table), table: Vec::new() };
        (format!("the table {order}"), told)
    });
    all_alike(answers.collect())
}

/// A given table in both byte orders, each with the words for it.
fn in_both_orders(jobs: &Jobs, given: &Given) -> Result<[(&'static str, Vec<u8>); 2], String> {
    let mut table = match &given.source {
        Source::Bytes(bytes) => bytes.clone(),
        Source::TableOf(text) => match compiled(jobs, text, ENOUGH)? {
            Told { answer: Answer::Accepted(_), table } => table,
            refused => return Err(format!("the constraint text is refused, {}", refused.answer)),
        },
    };
    let records = tables::count(&table);
    if let Some((place, byte)) = given.change {
        *table.get_mut(place).ok_or(format!("the table has no byte {place}"))? = byte;
    }
    let turned = tables::turned(&table, records);
    Ok([(ORDERS[0].1, table), (ORDERS[1].1, turned)])
}

/// Compiles into both byte orders.
fn compiled(jobs: &Jobs, text: &[u8], room: usize) -> Result<Told, String> {
    let mut all = Vec::new();
    for (little, order) in ORDERS {
        let told = written(room, little, |out| match (jobs.compile)(text, little, out) {
            CompileAnswer::Done { length } => (Answer::Accepted(Vec::new()), Some(length)),
            CompileAnswer::Refused { number, place } => (Answer::Refused { number, place }, None),
        });
        all.push((format!("compiled {order}"), told?));
    }
    all_alike(all)
}

/// Merges each table in both byte orders into both byte orders.
fn merged(jobs: &Jobs, first: &Given, second: &Given, room: usize) -> Result<Told, String> {
    let seconds = in_both_orders(jobs, second)?;
    let mut all = Vec::new();
    for (first_order, first) in in_both_orders(jobs, first)? {
        for (second_order, second) in &seconds {
            for (little, order) in ORDERS {
                let way = format!("a {first_order} and a {second_order} table merged {order}");
                all.push((way, written(room, little, |out| merge(jobs, &first, second, little, out))?));
            }
        }
    }
    let mut told = all_alike(all)?;
    if let Answer::Merged { root, .. } = &mut told.answer {
        *root = tables::root(&told.table).ok_or("the table written has no header")?;
    }
    Ok(told)
}

/// Merges once. The answer doesn't tell the root; it is read from the table.
fn merge(jobs: &Jobs, first: &[u8], second: &[u8], little: bool, out: &mut [u8]) -> (Answer, Option<u64>) {
    match (jobs.merge)(first, second, little, out) {
        MergeAnswer::Done { length, record_shift, pool_shift } => {
            (Answer::Merged { length, record_shift, pool_shift, root: 0 }, Some(length))
        }
        MergeAnswer::Refused { number, place, table } => (Answer::MergeRefused { number, place, table }, None),
    }
}

/// Lends an output to a job. Behind the length that the job says, or anywhere if it says none, the output must stay as it was.
fn written(room: usize, little: bool, job: impl Fn(&mut [u8]) -> (Answer, Option<u64>)) -> Result<Told, String> {
    let before = filling(0, room);
    let mut out = before.clone();
    let (answer, length) = job(&mut out);
    let length = length.map_or(Some(0), |length| usize::try_from(length).ok()).filter(|length| *length <= room);
    let length = length.ok_or(format!("{answer}: more than the {room} bytes of the output"))?;
    if out[length..] != before[length..] {
        return Err(format!("{answer}: the output was changed behind its first {length} bytes"));
    }
    out.truncate(length);
    let table = if little { tables::turned(&out, tables::count(&out)) } else { out };
    Ok(Told { answer, table })
}

/// The one answer of several ways to run an input; they must not differ.
fn all_alike(all: Vec<(String, Told)>) -> Result<Told, String> {
    let [(first_way, first), others @ ..] = &all[..] else {
        return Err(String::from("nothing was run"));
    };
    for (way, told) in others {
        if told.answer != first.answer {
            return Err(format!("{first_way}: {}; {way}: {}", first.answer, told.answer));
        }
        if told.table != first.table {
            return Err(format!("{first_way} and {way}: the tables differ in more than the byte order"));
        }
    }
    Ok(first.clone())
}

fn checked(answer: CheckAnswer) -> Answer {
    match answer {
        CheckAnswer::Passed => Answer::Passed,
        CheckAnswer::Refused { number, place } => Answer::Refused { number, place },
    }
}

fn judged(answer: JudgeAnswer) -> Answer {
    match answer {
        JudgeAnswer::Valid => Answer::Valid,
        JudgeAnswer::Refused { number, place } => Answer::Refused { number, place },
        JudgeAnswer::Verdict { reason, record, place } => Answer::Verdict { number: reason, record, place },
    }
}

fn named(answer: NameAnswer) -> Answer {
    match answer {
        NameAnswer::Name { start, length } => Answer::Named { start, length },
        NameAnswer::Refused { number, place } => Answer::Refused { number, place },
    }
}
